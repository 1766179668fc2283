"""What memory the program `drive` takes: its lists stand on its stack, so a limit on a program's data changes no answer, and 3.3 megabytes of stack
are enough for the longest calls that take lists, and for the longest answers. `tools/build drive` builds the program."""
import pathlib
import platform
import resource
import struct
import subprocess

import pytest

ROOT = pathlib.Path(__file__).resolve().parents[2]
PROGRAM = ROOT / 'crates/drive/out/drive'
SECONDS = 60
# The cells of the input at most. Two of a call are its operation and the number of its arguments.
MOST_CELLS = 65536
# Less than half of what the longest input has; the loader alone takes some 120 kilobytes.
LITTLE_DATA = 250_000
# For the program as `tools/build drive` makes it; as Rattle's own compiler makes it, it needs more than 4.6 megabytes.
STACK = 3_300_000


def row(operation, arguments):
    """As many calls of this kind as the input may have."""
    call = struct.pack(f'<{2 + len(arguments)}Q', operation, len(arguments), *arguments)
    return call * (8 * MOST_CELLS // len(call))


LONGEST = {
    'no call': b'',
    'a write into the longest list': row(3, [1, 0x123456789ABC, 1000, 5] + [0] * (MOST_CELLS - 6)),
    'a read of the longest capture': row(4, [1, 0] + [reading * 3900 for reading in range(MOST_CELLS - 4)]),
    'the longest run': row(6, [1, 100, 0] * ((MOST_CELLS - 2) // 3)),
    'the most edges': row(7, [1] + [reading * 3900 for reading in range(MOST_CELLS - 3)]),
    'runs of 64 message pages': row(8, [0x2001] * 64),
    'runs of 100 pages': row(8, [0x2001] * 100),
    'a state and the longest burst': row(9, [0] * (MOST_CELLS - 2)),
    'parities': row(10, [5] * 44 + [406]),
    'the shortest calls': row(99, []),
}


def answered(calls, limit=None, size=0):
    """What the program answers to these calls, with a limit on one kind of its memory; it ends well."""

    def limited():
        if limit is not None:
            resource.setrlimit(limit, (size, size))

    return subprocess.run([PROGRAM], input=calls, stdout=subprocess.PIPE, preexec_fn=limited, timeout=SECONDS, check=True).stdout


@pytest.mark.skipif(platform.machine() != 'x86_64', reason='in the emulator a limit would bind the emulator, and not the program')
@pytest.mark.parametrize('limit, size', [(resource.RLIMIT_DATA, LITTLE_DATA), (resource.RLIMIT_STACK, STACK)], ids=['data', 'stack'])
@pytest.mark.parametrize('calls', LONGEST.values(), ids=LONGEST.keys())
def test_answers_do_not_need_more_memory(calls, limit, size):
    assert answered(calls, limit, size) == answered(calls)
