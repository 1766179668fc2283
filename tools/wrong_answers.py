"""The wrong answers that the prover has to refuse, and what it said of each: what tools/refusals and tools/repository_names.py share.

A file crates/NAME/must-fail/FILE.edit has one or more wrong answers. Each begins with two lines of its own,

    wrong: NAME
    refused at: PLACE DECLARATION

and has one or more replacements, as the kit's guide has them (`file:`, `old:`, `new:`, of one line each); the lines before these say why it
is wrong. A second line of `old:` or `new:` would be passed over, and the edit change something else than it says, or nothing. The
check of a crate costs the same with one wrong answer as with ten, and a function's proof speaks of the functions it calls only by their
contracts. So a file has as many wrong answers as are refused each at a declaration of its own. PLACE is a file of proofs/ without
its ending, and for a function's proof the folder alone; a goal that the prover has to show itself counts as if it stood there."""
import re

WRONG = 'wrong: '
REFUSED_AT = 'refused at: '
REPLACEMENT = ('file: ', 'old: ', 'new:')
# A refusal that only follows from another.
FOLLOWS = re.compile(r'was (?:not admitted|rejected)')
# A refusal that shows nothing about the promise: a proof that no longer fits the code. What stands in back ticks is told as a dot.
MISFIT = re.compile(
    r'has no (?:field|·)|is not in scope|is no name|not found|unknown|cannot be found|too many arguments|too few arguments|expected a function|'
    r'takes? (?:only )?\d+ arguments?|no such|does not name|parse|syntax|is not declared|unexpected|ends before|can be named from here|'
    r'operand is missing|expected the end|cannot continue|write (?:both|a space)|is written right after')
QUOTED = re.compile(r'`[^`]*`')
# A lemma, or a goal of a function whose proof has an answer of its own.
ERROR = re.compile(r'^(?:\./)?proofs/(\S+?)(?:/(?:Answers|Invariants|Proof))?\.antt:\d+:\d+: error: `([^`]+)`: ')
# A goal that the prover has to show itself: the note on it, the line on its function, and then what it is.
UNPROVED = re.compile(r'^note: (src/\S+: it is not proved that .* \(`([^`]+)`\).*)$')
UNANSWERED = re.compile(r'^fn \S+: no proof: expected answers in (?:\./)?proofs/(\S+)/Answers\.antt; `search` did not prove (.*?)(?:; it calls .*)?$')
# A function that is not proved, behind the notes on its goals, where others of them have answers; and a folder of functions that call one another.
FUNCTION = re.compile(r'^fn \w+::(\S+?): (?:not proved|no proof)')
CYCLE = re.compile(r'\bproofs/(\S*?)\+(\S+?)/(?:Answers|Invariants)\.antt')
GOAL = re.compile(r'^note: (`([^`]+)` of (?:\./)?proofs/(\S+)/Answers\.antt must prove: .*)$')


class Wrong:
    """One wrong answer: the crate, the file's name, its own name and line there, where it is refused, why, its replacements as lines, and
    the lines among these that are none."""

    def __init__(self, crate, file, name, line):
        self.crate, self.file, self.name, self.line = crate, file, name, line
        self.place, self.why, self.lines, self.astray = '', [], [], []

    def title(self):
        return f'{self.crate}/{self.name}'

    def path(self):
        return f'crates/{self.crate}/must-fail/{self.file}.edit'


def of_text(crate, file, text):
    """The wrong answers of an edit's text. Replacements before the first name are a fault."""
    found = []
    for number, line in enumerate(text.splitlines(), 1):
        if line.startswith(WRONG):
            found.append(Wrong(crate, file, line[len(WRONG):], number))
        elif not found:
            if line.strip():
                raise ValueError(f'{crate}/{file}: it has lines before the first "{WRONG.strip()}"')
        elif line.startswith(REFUSED_AT):
            found[-1].place = line[len(REFUSED_AT):]
        elif line.startswith(REPLACEMENT):
            found[-1].lines.append(line)
        elif line.strip():
            (found[-1].astray if found[-1].lines else found[-1].why).append(line)
    return found


def of_repository(root):
    """All wrong answers of a repository, by crate and file."""
    return [wrong for path in sorted(root.glob('crates/*/must-fail/*.edit')) for wrong in of_text(path.parts[-3], path.stem, path.read_text())]


def faults_of(wrongs):
    """What is wrong with the wrong answers themselves: a name or a place that stands twice, and whatever is left out."""
    titles = [wrong.title() for wrong in wrongs]
    places = [(wrong.crate, wrong.file, wrong.place) for wrong in wrongs]
    for wrong in wrongs:
        if titles.count(wrong.title()) > 1:
            yield f'{wrong.title()}: the name stands twice'
        if places.count((wrong.crate, wrong.file, wrong.place)) > 1:
            yield f'{wrong.title()}: another wrong answer of {wrong.file}.edit is refused at {wrong.place}'
        if len(wrong.place.split()) != 2:
            yield f'{wrong.title()}: "{REFUSED_AT.strip()}" has to name a place and a declaration'
        if not wrong.why or not any(line.startswith('new:') for line in wrong.lines):
            yield f'{wrong.title()}: it has no reason, or nothing is replaced'
        if any(old.removeprefix('old: ') == new.removeprefix('new: ') for old, new in zip(wrong.lines, wrong.lines[1:]) if old.startswith('old: ')):
            yield f'{wrong.title()}: a replacement changes nothing'
        if wrong.astray:
            yield f'{wrong.title()}: a replacement has more than one line: {wrong.astray[0].strip()}'


def folder_of(function, log):
    """The folder of a function's proof, by its path in the code; of one that calls another and is called by it, the folder of both."""
    *above, name = function.split('::')
    folder = ''.join(f'{part}/' for part in above)
    together = (members for at, members in CYCLE.findall(log) if at == folder and f'_{name}_' in f'_{members}_')
    return folder + next((f'+{members}' for members in together), name)


def refusals(log):
    """Each place at which a log has a refusal that stands at a fact, with the refusal's first line."""
    lines, found, pending = log.split('\n'), {}, {}
    for i, line in enumerate(lines):
        error, unproved, unanswered, goal = ERROR.match(line), UNPROVED.match(line), UNANSWERED.match(line), GOAL.match(line)
        if error:
            whole = ' '.join([line[error.end():]] + [more for more in lines[i + 1:i + 3] if more.startswith('  ')])
            whole = QUOTED.sub('·', whole)
            if not FOLLOWS.search(whole) and not MISFIT.search(whole):
                found.setdefault(f'{error[1]} {error[2]}', line)
        if unproved:
            pending[unproved[2]] = unproved[1]
        if unanswered:
            for name in QUOTED.findall(unanswered[2]):
                found.setdefault(f'{unanswered[1]} {name[1:-1]}', pending.get(name[1:-1], line))
        if goal and f'{goal[3]} {goal[2]}' in found:
            found[f'{goal[3]} {goal[2]}'] = goal[1]
        function = FUNCTION.match(line)
        if function and pending:
            folder = folder_of(function[1], log)
            for name, words in pending.items():
                found.setdefault(f'{folder} {name}', words)
        if line.startswith('fn '):
            pending = {}
    return found
