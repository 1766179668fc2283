"""Changes names in the text of docs/trace.toml, so that all else in it stays as it was written."""
import re

from trace_document import LISTS

LIST = re.compile(r'^(\w+) = \[([^\]]*)\]\n', re.M)
LAST_PART = re.compile(r'[^./:]+$')


def in_layout(text):
    """The text with each list in one layout: a name once; one name behind the bracket, several on a line each; no list without a name."""
    def one(found):
        names = list(dict.fromkeys(re.findall(r'"([^"]+)"', found[2])))
        if len(names) < 2:
            return f'{found[1]} = ["{names[0]}"]\n' if names else ''
        return f'{found[1]} = [\n' + ''.join(f'    "{name}",\n' for name in names) + ']\n'
    return LIST.sub(one, text)


def renamed(text, old, new):
    """The text with another name for a name, in lists and in words; without a new one the name is taken out of the lists."""
    if not new:
        return in_layout(LIST.sub(lambda found: found[0].replace(f'"{old}"', ''), text))
    return in_layout(text.replace(f'"{old}"', f'"{new}"').replace(f'`{old}`', f'`{new}`'))


def cited(text, number, kind, name):
    """The text with a name at the end of one of the lists of a sentence, which is made where it is not there."""
    sentence = re.search(rf'^number = "{re.escape(number)}"\n(?:(?!\[\[|\n).*\n)*', text, re.M)
    found = next((one for one in LIST.finditer(sentence[0]) if one[1] == kind), None)
    behind = '|'.join([*LISTS, 'note'][list(LISTS).index(kind):])
    after = found or re.search(rf'^(?=(?:{behind}) = )|\Z', sentence[0], re.M)
    names = found[2] if found else ''
    put = sentence[0][:after.start()] + f'{kind} = [{names} "{name}"]\n' + sentence[0][after.end():]
    return in_layout(text[:sentence.start()] + put + text[sentence.end():])


def moved_to(name, names):
    """Of names, the only one that ends with the same part as a name that is gone; nothing if there is none, or more."""
    last = LAST_PART.search(name)[0]
    found = [other for other in names if LAST_PART.search(other)[0] == last]
    return found[0] if len(found) == 1 else None


TEXT = 'a = [ "x/A.b", "y/A.b",\n "z" ]\nnote = "as `x/A.b` has it"\n'
ROWS = 'number = "1.1"\ncalls = ["x::b"]\nnote = "n"\n\n[[a]]\nnumber = "1.10"\ncalls = ["y::b"]\n[[b]]\nnumber = "1.2"\n\n[[c]]\n'
# What is done to the text, and what it is then.
SAMPLES = [
    (in_layout(TEXT), 'a = [\n    "x/A.b",\n    "y/A.b",\n    "z",\n]\nnote = "as `x/A.b` has it"\n'),
    (renamed(TEXT, 'x/A.b', 'y/A.b'), 'a = [\n    "y/A.b",\n    "z",\n]\nnote = "as `y/A.b` has it"\n'),
    (renamed(renamed(TEXT, 'x/A.b', ''), 'z', ''), 'a = ["y/A.b"]\nnote = "as `x/A.b` has it"\n'),
    (renamed('a = ["z"]\nb = ["y"]\n', 'z', ''), 'b = ["y"]\n'),
    (cited(ROWS, '1.1', 'calls', 'z::b'), ROWS.replace('["x::b"]', '[\n    "x::b",\n    "z::b",\n]')),
    (cited(ROWS, '1.1', 'calls', 'x::b'), ROWS),
    (cited(ROWS, '1.1', 'definitions', 'x/A.b'), ROWS.replace('calls', 'definitions = ["x/A.b"]\ncalls', 1)),
    (cited(ROWS, '1.1', 'tests', 'x/a'), ROWS.replace('note', 'tests = ["x/a"]\nnote')),
    (cited(ROWS, '1.10', 'tests', 'x/a'), ROWS.replace('[[b', 'tests = ["x/a"]\n[[b')),
    (cited(ROWS, '1.2', 'tests', 'x/a'), ROWS.replace('\n[[c', 'tests = ["x/a"]\n\n[[c')),
    (moved_to('x/A.b', ['y/C.b', 'y/C.bb', 'x/b.c']), 'y/C.b'),
    (moved_to('x::S::b', ['y::b', 'y::S::b']), None),
]


def tells_its_samples():
    return all(done == wanted for done, wanted in SAMPLES)
