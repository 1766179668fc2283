"""How the tests call the tools of the bench: as a person does, by the command, or in this process by the same functions, which is quicker."""
import argparse
import importlib.machinery
import importlib.util
import os
import pathlib
import re
import subprocess
import sys
import tempfile
from typing import NamedTuple

ROOT = pathlib.Path(__file__).resolve().parents[2]
TOOLS = ROOT / 'tools'
SAMPLES = sorted((ROOT / 'samples').glob('*.capture'))
# A call takes a fraction of a second; what takes longer than this hangs.
SECONDS = 120
# The tools run by the Python that runs the tests. What is on the PATH may start slower, and is no part of this.
ENVIRONMENT = {**os.environ, 'PATH': f'{os.path.dirname(sys.executable)}:{os.environ["PATH"]}', 'PYTHONDONTWRITEBYTECODE': '1'}
_scratch = tempfile.TemporaryDirectory(prefix='bench')
SCRATCH = pathlib.Path(_scratch.name)


class Ran(NamedTuple):
    """What came of a command: the exit status, and both outputs as text."""
    status: int
    out: str
    err: str


def ran(tool, *arguments, given=b'', **more):
    """Runs a tool by its name below tools/, or by a path."""
    if 'stdin' not in more:
        more['input'] = given
    more.setdefault('env', ENVIRONMENT)
    more.setdefault('stdout', subprocess.PIPE)
    done = subprocess.run([TOOLS / tool, *map(str, arguments)], stderr=subprocess.PIPE, timeout=SECONDS, **more)
    return Ran(done.returncode, (done.stdout or b'').decode(), done.stderr.decode())


def loaded(tool):
    """A tool without an ending in its name as a module, to call its functions in this process."""
    sys.dont_write_bytecode = True
    if str(TOOLS) not in sys.path:
        sys.path.append(str(TOOLS))
    name = 'tool_' + tool.replace('-', '_')
    loader = importlib.machinery.SourceFileLoader(name, str(TOOLS / tool))
    module = importlib.util.module_from_spec(importlib.util.spec_from_loader(name, loader))
    sys.modules[name] = module
    loader.exec_module(module)
    return module


LIST = loaded('list')


def file_of(content, name='capture'):
    """A file with this content, which the next call of this name writes over."""
    path = SCRATCH / name
    path.write_bytes(content.encode() if isinstance(content, str) else content)
    return path


def result(content, **chosen):
    """What tools/list makes of a capture, given as bytes, text or a path, by the same function as the command, in this process."""
    path = content if isinstance(content, pathlib.Path) else file_of(content)
    if 'rate' in chosen:
        chosen['rate'] = sys.modules['capture_listing'].rate(chosen['rate'])
    options = {'mode': None, 'wire': None, 'rate': None, 'format': None, 'plain': False, 'whole': False, **chosen}
    return LIST.result(str(path), argparse.Namespace(**options))


def plain(content, **chosen):
    """01's text of a capture that must be listed."""
    found = result(content, plain=True, **chosen)
    assert found.status == 0, found.notes
    return found.text


UNITS = {'ns': 1, 'µs': 10 ** 3, 'ms': 10 ** 6, 's': 10 ** 9}


def nanoseconds(words):
    """A time as the tools tell it, to the ns: '17 ns', '1.268000 ms'."""
    number, _, unit = words.partition(' ')
    whole, _, part = number.partition('.')
    # As many digits behind the point as the unit has places down to the ns, so that nothing is rounded.
    assert 10 ** len(part) == UNITS[unit], words
    return int(whole + part)


class Told(NamedTuple):
    """A line of a listing: 01's text, when the attempt began in ns, the words, and how many edges were dropped behind it."""
    text: str
    began: int
    words: str
    dropped: int


LINE = re.compile(r'(?P<text>\d+ (?:good [0-9a-f]{12}|gap|cut|check)) *\| at (?P<began>[^|]+) \| (?P<words>[^|]+?)'
                  r'(?: \| (?P<dropped>\d+) edges? dropped after it)?')


def told(text):
    """The lines of the attempts of a listing, taken apart."""
    lines = text.split('\n')
    assert lines[-1] == '' and re.fullmatch(r'mode [HL]SM edges \d+', lines[0]) and re.fullmatch(r'pages \d+ bad \d+', lines[-2]), text
    found = [LINE.fullmatch(line) for line in lines[1:-2]]
    assert all(found), [line for line, match in zip(lines[1:-2], found) if not match]
    return [Told(match['text'], nanoseconds(match['began']), match['words'], int(match['dropped'] or 0)) for match in found]


def without_words(text):
    """01's text in a listing that is told to a person."""
    return ''.join(line.partition(' | ')[0].rstrip() + '\n' for line in text.split('\n')[:-1])


def assert_one_complaint(found):
    """A call that failed: the exit status is 1, nothing but a refusal is listed, and one line says why."""
    assert found.status == 1, found
    assert re.fullmatch(r'(refused \d+\n)?', found.out), found.out
    assert re.fullmatch(r'tools/[a-z-]+: [^\n]+\n', found.err), found.err


def assert_one_note(found):
    """The same of a result in this process."""
    assert found.status == 1, found
    assert re.fullmatch(r'(refused \d+\n)?', found.text), found.text
    assert len(found.notes) == 1 and '\n' not in found.notes[0] and found.notes[0], found.notes
