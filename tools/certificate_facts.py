"""What the certificate tells: read from the record that .ci/run keeps of its steps, from the repository and from the machine.

A record is a folder. `steps` has a line for each step: how many checks passed, failed and were skipped, the command, the title, with tabs
between them; N.output is what the Nth step wrote; `skipped` has the lines on what could not be tried; `begun` is the tree at the start."""
import datetime
import hashlib
import json
import os
import pathlib
import platform
import re
import shutil
import subprocess
from dataclasses import dataclass, field

from public_functions import without_comments
from wrong_answers import of_repository

FILES = ['crates/drive/out/drive', 'crates/listing/out/listing', 'crates/maststep/out/libmaststep.a', 'include/maststep.h']
LIBRARY = 'maststep'
PROCESSORS = {'x86_64': 'x86-64', 'aarch64': 'Arm, 64 bits'}
VERDICT = re.compile(r'^logic=proved functions=(\d+) (.*)$')
AXIOMS = re.compile(r'^axioms \w+: (?!none reached )(.*?)(?: \(.*\))?$')
# What rt says next is of this crate, or of its tests: in rt ci behind a headline, else each function and type is named with its crate.
HEADLINE = re.compile(r'^== (\w+)(: .*)?$')
MEMBER = re.compile(r'^(?:fn|enum|struct) (\w+)::')
KEPT = re.compile(r'^rt: (\w+) is kept: an earlier run on this machine proved the same files over the same libraries$', re.M)
WHOLE_SUM = re.compile(r'^logic .* sum=([0-9a-f]{64})$', re.M)
EDIT_REFUSED = re.compile(r'^rt: must-fail \S+: refused, as it must be', re.M)
# Words of a verdict that say what was proved; all others say what was trusted.
NO_TRUST = {'axioms', 'target', 'cpu', 'sum'}


# The step of the gate that proves.
PROOF = 'tools/proved'


@dataclass
class Step:
    passed: int
    failed: int
    skipped: int
    command: str
    title: str
    output: str = ''


@dataclass
class Verdict:
    """What rt says of a crate that is proved: how many functions, which C functions are assumed to do what the kit states, what is trusted."""
    functions: int
    assumed: list
    trusted: list


@dataclass
class Facts:
    steps: list
    begun: dict
    ended: dict
    skipped: list = field(default_factory=list)
    machine: list = field(default_factory=list)
    crates: int = 0
    functions: int = 0
    definitions: int = 0
    wrong_answers: int = 0
    sums: dict = field(default_factory=dict)

    def step(self, command):
        """The step of a command; one that counts nothing where it did not run."""
        return next((step for step in self.steps if step.command == command), Step(0, 0, 0, command, ''))

    def passed(self):
        return sum(step.passed for step in self.steps)

    def failed(self):
        return sum(step.failed for step in self.steps)


def verdicts(output):
    """The verdict on each crate that rt has proved, by the crate's name. What it says of a crate's tests does not count."""
    found, crate, assumed, of_tests = {}, None, [], False
    for line in output.splitlines():
        headline, member, axioms, verdict = HEADLINE.match(line), MEMBER.match(line), AXIOMS.match(line), VERDICT.match(line)
        if headline:
            crate, assumed, of_tests = headline[1], [], headline[2] is not None
        elif member and member[1] != crate:
            crate, assumed, of_tests = member[1], [], False
        elif axioms:
            assumed += axioms[1].split(', ')
        elif verdict:
            words = [word for word in verdict[2].split() if word.split('=')[0] not in NO_TRUST]
            if crate and not of_tests:
                found[crate] = Verdict(int(verdict[1]), assumed, words)
            crate, assumed, of_tests = None, [], False
    return found


def proved(facts):
    """The verdict on each crate that rt has proved in this run."""
    return verdicts(facts.step(PROOF).output)


def kept(facts):
    """The crates that rt has taken as an earlier run on this machine proved them."""
    return sorted(set(KEPT.findall(facts.step(PROOF).output)))


def built(facts):
    """The verdict on each program and on the C library, where the gate has built it; None where there is none."""
    again, library = verdicts(facts.step('tools/built-twice').output), verdicts(facts.step('c_test').output)
    first = proved(facts)
    return {'drive': first.get('drive') or again.get('drive'), 'listing': first.get('listing') or again.get('listing'), 'libmaststep.a': library.get(LIBRARY)}


def whole_sums(facts):
    """The sum of the logic in full, as rt prints it with each crate: one, where all were proved in the same."""
    return sorted({found for command in (PROOF, 'c_test', 'tools/built-twice') for found in WHOLE_SUM.findall(facts.step(command).output)})


def kit(facts):
    """What tools/kit printed: the pinned kit, the one of this machine, and the notes."""
    lines = facts.step('tools/kit').output.splitlines()
    def behind(word):
        return [line[len(word):] for line in lines if line.startswith(word)]
    return (behind('pinned: ') or ['not known'])[0], (behind('here: ') or ['not known'])[0], behind('note: ')


def edits_refused(facts):
    return len(EDIT_REFUSED.findall(facts.step(PROOF).output))


def output_of(*command):
    """What a command prints on standard output; None where it fails or is not there."""
    try:
        return subprocess.run(command, stdout=subprocess.PIPE, stderr=subprocess.DEVNULL, text=True, check=True).stdout
    except (OSError, subprocess.CalledProcessError):
        return None


def sum_of(path):
    return hashlib.sha256(path.read_bytes()).hexdigest() if path.is_file() else None


def tree(root):
    """The commit, the files that are not as the commit has them, each with its sum, and the time."""
    now = datetime.datetime.now(datetime.timezone.utc).strftime('%Y-%m-%d %H:%M UTC')
    commit = output_of('git', '-C', str(root), 'rev-parse', '--verify', 'HEAD')
    listed = output_of('git', '-C', str(root), 'status', '--porcelain', '--untracked-files=all', '--no-renames', '-z')
    if commit is None or listed is None:
        return {'commit': None, 'changes': [], 'time': now}
    names = [entry[3:] for entry in listed.split('\0') if entry]
    return {'commit': commit.strip(), 'changes': [[name, sum_of(root / name)] for name in names], 'time': now}


def first_line(*command):
    """The first line that a command prints."""
    return ((output_of(*command) or '').splitlines() or ['not there'])[0]


def version_of(root, language):
    """The first line of what the compiler of a language, as tools/compiler names it, says of itself."""
    command = (output_of(str(root / 'tools/compiler'), language) or '').strip()
    return first_line(command, '--version') if command else 'not there'


def machine(root):
    """What this run was made with beside the kit: pairs of a label and words. No name of the machine and no path."""
    rt = shutil.which('rt')
    home = pathlib.Path(os.environ.get('RATTLE_HOME') or (pathlib.Path(rt).resolve().parent.parent if rt else '/'))
    processor = platform.machine()
    return [
        ('Processor', PROCESSORS.get(processor, processor)),
        ('System', f'{platform.system()} {platform.release()}'),
        ("The kit's compiler", first_line(str(home / 'toolchain/bin/clang'), '--version')),
        ('C, for a test', version_of(root, 'c')),
        ('C++, for a test', version_of(root, 'c++')),
        ('Rust, for tests', first_line('rustc', '--version')),
        ('Python, for checks', platform.python_version()),
    ]


def crates_of(root):
    """How many crates crates.txt has."""
    return sum(':' in line.split('#')[0] for line in (root / 'crates.txt').read_text().splitlines())


def functions_of(root):
    """How many functions the code has."""
    return sum(len(re.findall(r'\bfn\s+\w+', without_comments(path.read_text()))) for path in root.glob('crates/*/src/*.rt'))


def lines_of_definitions(root):
    return sum(path.read_text().count('\n') for path in root.glob('crates/*/specs/*.antt'))


def steps_of(record):
    """The steps of a record, each with what it wrote."""
    steps = []
    for number, line in enumerate((record / 'steps').read_text().splitlines(), 1):
        passed, failed, skipped, command, title = line.split('\t')
        output = (record / f'{number}.output').read_text(errors='replace')
        steps.append(Step(int(passed), int(failed), int(skipped), command, title, output))
    return steps


def of_record(root, record):
    """All facts of a run that is at its end."""
    return Facts(
        steps=steps_of(record),
        begun=json.loads((record / 'begun').read_text()),
        ended=tree(root),
        skipped=[line for line in (record / 'skipped').read_text().splitlines() if line],
        machine=machine(root),
        crates=crates_of(root),
        functions=functions_of(root),
        definitions=lines_of_definitions(root),
        wrong_answers=len(of_repository(root)),
        sums={name: sum_of(root / name) for name in FILES},
    )
