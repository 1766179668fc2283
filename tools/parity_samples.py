"""The samples of tools/parity, each with what it has to print, and the documents that tell what it prints."""
import functools
import operator
import os
import pathlib
import shutil
import struct
import subprocess
import tempfile

from tool_samples import ROOT, run_of, sample_faults, told_faults

TOOL = ROOT / 'tools/parity'
# Data with its parity, as libfec finds it too (init_rs_int(9, 0x211, 0, 1, 44, 61)): 0, 1, .. 405; 511 everywhere; a one at the end, whose parity is the
# generator without its leading one.
COUNTED, FULL, LAST = list(range(406)), [511] * 406, [0] * 405 + [1]
COUNTED_PARITY = '''15a 158 1c8 0d0 196 16c 0bf 053 128 0d6 17e
03f 17a 122 1e8 085 0f2 091 1e4 102 197 041
0ea 027 196 173 112 094 017 0db 190 090 167
196 1cc 1cd 151 179 145 091 0a7 10d 1a5 0b5'''
FULL_PARITY = '''0e0 07d 05b 13f 1f2 069 176 1a7 10a 1ea 1d8
02a 1ff 029 1aa 0c8 028 068 0c5 02e 1db 0c5
12f 049 0d1 030 135 176 0eb 1d2 1ec 190 111
0cc 120 023 15e 018 13b 1eb 06f 1bc 173 1c9'''
LAST_PARITY = '''0d0 128 044 1c6 152 1b9 07b 1e6 148 157 0e2
02a 0c4 1f0 022 1c3 1e0 16a 10c 108 080 137
09f 1e3 18a 0ef 0b2 03f 1e4 01a 187 0c2 138
1a5 069 180 094 164 15e 15b 0ed 14f 059 163'''
NO_PARITY = '\n'.join([' '.join(['000'] * 11)] * 4)
FRAME = COUNTED + [int(word, 16) for word in COUNTED_PARITY.split()]
IS_FRAME = 'a frame: its last 44 symbols are the parity of the data, and it is zero at all 44 powers of alpha\n'
MAY_BE = ('The cause may be a symbol that was changed or lost, symbols or bits in another order, or a line that\n'
          'was not descrambled: a recorded line must be, before its parity is compared.\n')
WANTED = '406 are wanted, the data of a frame, or 450, its data and its parity'


def text(symbols):
    return ' '.join(map(str, symbols))


def binary(symbols):
    return struct.pack(f'<{len(symbols)}H', *symbols)


def told_parity(rows):
    """What is printed of data whose parity is these rows."""
    return ''.join(f'{line}\n' for line in ['# the parity, first sent first', *(' '.join(f'0x{word}' for word in row.split()) for row in rows.split('\n'))])


def changed(*places):
    """The frame with the lowest bit of the symbols at these places turned."""
    return [symbol ^ (number in places) for number, symbol in enumerate(FRAME, 1)]


def told_changed(places, told_places):
    """What is printed of that. A change at a place is alpha^i at alpha^i, as often as there are symbols behind the place; the powers come by doubling alone."""
    powers = [1]
    while len(powers) < 511:
        powers.append(2 * powers[-1] ^ (0x211 if powers[-1] >= 256 else 0))
    values = [functools.reduce(operator.xor, (powers[power * (450 - place) % 511] for place in places)) for power in range(44)]
    words = [f'{power:2}:0x{value:03x}' for power, value in enumerate(values) if value]
    rows = '\n'.join(' '.join(words[start:start + 11]) for start in range(0, len(words), 11))
    return (f'no frame: not zero at {len(words)} of the 44 powers of alpha, each here with the value there:\n{rows}\n'
            f'symbols that are not the parity of the data: {told_places}\n{MAY_BE}')


# A text with everything that one may have: the mark that some editors put first, comments in any letters, all ends of lines, commas, tabs, zeros ahead.
EVERYTHING = '\ufeff# \u00e9 9 9\r\n0,0x1\t0X002, 00003 # 9\r4\n,\n\n0x000000005,'.encode() + b'# \xe9\n' + text(COUNTED[6:]).encode()
# Arguments, standard input, exit status, and what is printed; at exit status 2, words of what is said on standard error.
RIGHT = [
    ('', text(COUNTED), 0, told_parity(COUNTED_PARITY)),
    ('-', binary(COUNTED), 0, told_parity(COUNTED_PARITY)),
    ('', EVERYTHING, 0, told_parity(COUNTED_PARITY)),
    ('', text(COUNTED) + '#' * (1000000 - len(text(COUNTED))), 0, told_parity(COUNTED_PARITY)),
    ('', text(FULL), 0, told_parity(FULL_PARITY)),
    ('', binary(FULL), 0, told_parity(FULL_PARITY)),
    ('', ' '.join(map(hex, FULL)), 0, told_parity(FULL_PARITY)),
    ('', binary(LAST), 0, told_parity(LAST_PARITY)),
    # A text may be as long as a binary file.
    ('', '0\n' * 406, 0, told_parity(NO_PARITY)),
    ('', '0\n' * 450, 0, IS_FRAME),
    ('', binary([0] * 450), 0, IS_FRAME),
    ('', binary(FRAME), 0, IS_FRAME),
    ('', text(FRAME), 0, IS_FRAME),
    ('', text(COUNTED) + '\n' + told_parity(COUNTED_PARITY), 0, IS_FRAME),
    ('', text(changed(1)), 1, told_changed([1], '44 of 44, at places 407-450')),
    ('', binary(changed(406)), 1, told_changed([406], '44 of 44, at places 407-450')),
    ('', binary(changed(407)), 1, told_changed([407], '1 of 44, at place 407')),
    ('', text(changed(450)), 1, told_changed([450], '1 of 44, at place 450')),
    # Two changes that cancel one another at alpha^0.
    ('', text(changed(448, 450)), 1, told_changed([448, 450], '2 of 44, at places 448 450')),
]
WRONG = [
    ('', '', 2, 'standard input: it is empty; 406 or 450 symbols are wanted'),
    ('', '# nothing\n', 2, f'it has 0 symbols; {WANTED}'),
    *(('', text(FRAME[:number]), 2, f'it has {number} symbols; {WANTED}') for number in (405, 407, 449)),
    ('', text(FRAME + [0]), 2, f'it has 451 symbols; {WANTED}'),
    ('', binary(FRAME[:405]), 2, f'it is binary, since it has a byte of value 0 or 1, and has 405 symbols; {WANTED}'),
    ('', binary(FRAME)[:-1], 2, 'its bytes are an odd number, 899; a symbol is two bytes, low byte first'),
    ('', binary([0, 1, 512]), 2, 'at place 3 (bytes 5 and 6, low byte first) stands 0x0200; a symbol is 0 to 511 (0x1ff)'),
    ('', binary([0, 65535]), 2, 'at place 2 (bytes 3 and 4, low byte first) stands 0xffff; a symbol is'),
    ('', '0 1\n2 512\n', 2, "on line 2, at place 4, stands '512'; a symbol is 0 to 511 (0x1ff)"),
    ('', '0 # 1\r2\r\n0x200', 2, "on line 3, at place 3, stands '0x200'; a symbol is"),
    ('', '1' + '0' * 5000, 2, "on line 1, at place 1, stands '10000000000000000000'..; a symbol is"),
    ('', '0\n\n15a', 2, "on line 3, at place 2, stands '15a', which is no number; one is decimal, or hexadecimal with 0x ahead of it, as 346 or 0x15a"),
    *(('', word, 2, f'on line 1, at place 1, stands {ascii(word)}, which is no number') for word in ('-1', '1;2', '1.0', '0x', 'x1', '0xg', '1_0', '+1', '\u0663')),
    ('', b'\xfe\xdc' * 100, 2, "stands '" + r'\ufffd' * 20 + "'.., which is no number"),
    ('', text(COUNTED).encode('utf-16'), 2, 'it is text with two bytes for each letter (UTF-16); save it as ASCII or UTF-8'),
    ('', '#' * 1000001, 2, 'it has more than 1000000 bytes'),
    ('/dev/zero', '', 2, 'it has more than 1000000 bytes'),
    ('nowhere.txt', '', 2, "'nowhere.txt': there is no such file"),
    ('.', '', 2, "'.': it is a folder, and no file"),
    ('round', '', 2, "'round': it cannot be read: Too many levels of symbolic links"),
    ('frame.txt frame.txt', '', 2, 'it takes one file'),
    ('--of', '', 2, "'--of' is no option here"),
    ('--check frame.txt', '', 2, 'it takes one file'),
]
# What a shell is told, with tools/parity as $0; its exit status, and words of what is said on standard error, or nothing.
IN_SHELL = [
    ('"$0" frame.txt >/dev/full', 2, 'tools/parity: standard output could not be written: No space left on device\n'),
    ('"$0" --help >/dev/full', 2, 'standard output could not be written'),
    ('"$0" frame.txt >&-', 2, 'tools/parity: standard output could not be written: it is closed\n'),
    ('"$0" <&-', 2, 'tools/parity: standard input: it is closed\n'),
    ('"$0" nowhere.txt 2>/dev/full', 2, ''),
    ('"$0" nowhere.txt 2>&-', 2, ''),
    ('"$0" frame.txt | true', 0, ''),
    ('"$0" --help >help.txt && grep -q "low byte first" help.txt', 0, ''),
]
# A program that finds the parity zero, whatever the data, and one that refuses.
ZEROS = '''#!/usr/bin/env python3
import struct, sys
operation, = struct.unpack_from('<Q', sys.stdin.buffer.read())
cells = {9: 45, 10: 44}[operation]
sys.stdout.buffer.write(struct.pack('<2Q', cells + 1, 0x84 << 56) + bytes(8 * cells))
'''
REFUSES = '''#!/usr/bin/env python3
import struct, sys
sys.stdout.buffer.write(struct.pack('<2Q', 1, 20 << 56))
'''
AGREES_ALWAYS = (ROOT / 'tools/frames.py').read_text() + '\n\ndef values_at_powers(symbols):\n    return [0] * PARITY\n'
DISAGREES = 'tools/parity: the proved program and the values at the powers do not agree: '
# A file of tools/ with what stands in for it, standard input, exit status, and words of what is said.
STAND_INS = [
    ('build', '#!/bin/sh\nexit 1\n', FRAME, 2, 'tools/parity: the proved program gave no answer: drive could not be built\n'),
    ('drive', '#!/bin/sh\nexit 1\n', FRAME, 2, 'gave no answer: drive could not be run'),
    ('drive', 'no program', FRAME, 2, 'gave no answer: drive could not be run'),
    ('drive', '#!/bin/sh\n', FRAME, 2, 'gave no answer: drive does not answer operation 9'),
    ('drive', '#!/bin/sh\nhead -c 9 /dev/zero\n', FRAME, 2, 'gave no answer: drive does not answer operation 9'),
    ('drive', '#!/bin/sh\nhead -c 8 /dev/zero\n', FRAME, 2, 'gave no answer: drive answers operation 9 with no number'),
    ('drive', REFUSES, FRAME, 2, 'gave no answer: drive answers operation 9 with no number'),
    ('drive', ZEROS, COUNTED, 3, f'{DISAGREES}with the parity of the program the data is not zero at all powers'),
    ('drive', ZEROS, FRAME, 3, f'{DISAGREES}with the parity'),
    ('drive', ZEROS, COUNTED + [0] * 44, 3, f'{DISAGREES}with the parity'),
    ('frames.py', AGREES_ALWAYS, [1] * 450, 3, f'{DISAGREES}just one of them tells that it is a frame'),
]


def shell_faults(command, status, words, folder):
    """What is wrong with what a shell command says. What is written at the very end, where it fails once more, shows only with buffers."""
    variables = {name: value for name, value in os.environ.items() if name != 'PYTHONUNBUFFERED'}
    run = subprocess.run(['sh', '-c', command, TOOL], stdin=subprocess.DEVNULL, capture_output=True, text=True, cwd=folder, env=variables)
    is_said = words in run.stderr and 'Traceback' not in run.stderr if words else not run.stderr
    if is_said and run.returncode == status and not run.stdout:
        return []
    return [f'{command} does not say {words!r} with exit status {status}, but {run.stdout + run.stderr!r} with {run.returncode}']


def stand_in_faults(name, content, symbols, status, words, folder):
    """What is wrong with what tools/parity does where something stands in for a file beside it, in a folder of copies."""
    tools = pathlib.Path(folder) / 'tools'
    shutil.rmtree(tools, ignore_errors=True)
    tools.mkdir()
    for path in [TOOL, *(ROOT / 'tools').glob('*.py')]:
        shutil.copy(path, tools)
    for file, script in {'build': '#!/bin/sh\n', 'drive': ZEROS, name: content}.items():
        (tools / file).write_text(script)
        (tools / file).chmod(0o755)
    return [f'with {content!r} as tools/{name}: {fault}' for fault in sample_faults(tools / 'parity', '', text(symbols), status, words)]


def document_faults():
    """For each document that tells what is printed, what is wrong with it."""
    printed = run_of(TOOL, '', text(COUNTED)).stdout
    for document in 'README.md', 'samples/README.md':
        yield told_faults(document, 'seq 0 405 | tools/parity', printed)
    for name, status in ('samples/frame.txt', 0), ('samples/frame-changed.txt', 1):
        run = run_of(TOOL, name, '')
        faults = [] if run.returncode == status else [f'tools/parity {name} ends with exit status {run.returncode}']
        yield faults + told_faults('samples/README.md', f'tools/parity {name}', run.stdout)


def checks():
    """For each sample, and each document that tells what is printed, what is wrong with it, or nothing."""
    with tempfile.TemporaryDirectory() as folder:
        shutil.copy(ROOT / 'samples/frame.txt', folder)
        (pathlib.Path(folder) / 'round').symlink_to('round')
        for sample in RIGHT + WRONG:
            yield sample_faults(TOOL, *sample, folder)
        for sample in IN_SHELL:
            yield shell_faults(*sample, folder)
        for sample in STAND_INS:
            yield stand_in_faults(*sample, folder)
    yield from document_faults()
