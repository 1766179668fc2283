"""Asks the proved program drive: the one client in Python, for tools/write-page, tools/messages, tools/parity, samples/make and tests/peers.

drive takes cells, numbers of 64 bits with the low byte first: for each call the operation, the number of its arguments, and these. It answers
each call with the number of its answer cells and these. The first call proves and builds the program where it is not there, which takes
some minutes."""
import functools
import pathlib
import struct
import subprocess

TOOLS = pathlib.Path(__file__).resolve().parent
CHECK, JUDGE, WRITE, READ, RESOLVE, RUN, EDGES, MESSAGES, PARITY_TAKE, PARITY_FINISH = range(1, 11)
# The kinds of answers that are no refusals: a refusal's kind is its number in 01's table, or the one that a request gave it, and nothing is 0.
PAGE, ORDER, SETTLED, VALUE, NUMBER, QUIET, UNFIT = range(0x80, 0x87)
HSM, LSM = 0, 1
# No page has more readings.
MOST_READINGS = 150
# More input than this ends the program.
MOST_CELLS = 65_536
# The state of a frame's parity: a register of 44 symbols and the count of symbols taken. All zero is a new frame.
NEW_FRAME = [0] * 45


class NoAnswer(SystemExit):
    """The program could not be built or run, or does not answer as it should. Who does not catch this ends with its words and exit status 1."""


@functools.cache
def built():
    """The program, proved and built first if it is not there."""
    if subprocess.run([TOOLS / 'build', 'drive']).returncode != 0:
        raise NoAnswer('drive could not be built')
    return TOOLS / 'drive'


def packed(numbers, letter='Q'):
    """Numbers as bytes, the low byte first: eight each, or four with the letter I."""
    return struct.pack(f'<{len(numbers)}{letter}', *numbers)


def output_of(cells):
    """What the program writes when it is given cells."""
    try:
        return subprocess.run([built()], input=packed(cells), stdout=subprocess.PIPE, check=True).stdout
    except (OSError, subprocess.SubprocessError) as fault:
        raise NoAnswer(f'drive could not be run: {fault}') from fault


def run_of(calls):
    """The answer cells of each call of one run. A call is its operation and then its arguments."""
    out = output_of([cell for operation, *arguments in calls for cell in (operation, len(arguments), *arguments)])
    cells, answers, place = struct.unpack_from(f'<{len(out) // 8}Q', out), [], 0
    while place < len(cells):
        first, place = place + 1, place + 1 + cells[place]
        answers.append(list(cells[first:place]))
    if len(out) % 8 or place != len(cells) or len(answers) != len(calls):
        raise NoAnswer(f"drive does not answer operation {calls[-1][0]}; 'tools/build drive' builds it anew")
    return answers


def asked_all(calls):
    """The answer cells of each call, in as many runs of the program as its input's end makes necessary."""
    answers, waiting, cells = [], [], 0
    for call in calls:
        # A call is sent with its number of arguments.
        if waiting and cells + len(call) + 1 > MOST_CELLS:
            answers, waiting, cells = answers + run_of(waiting), [], 0
        waiting.append(call)
        cells += len(call) + 1
    return answers + (run_of(waiting) if waiting else [])


def asked(operation, *arguments):
    """The answer cells of one call: none where it is one that drive answers with none."""
    return run_of([(operation, *arguments)])[0]


def kind(answer):
    return answer >> 56


def value(answer):
    return answer % 2 ** 56


def written(mode, word, first):
    """The answer of the write call, and the readings that it leaves in a list with room for every page."""
    answer, *entries = asked(WRITE, mode, word, first, 0, *[0] * MOST_READINGS)
    return answer, entries[:value(answer)]


def numbered(operation, *arguments):
    """The cells behind an answer that has to be a number."""
    cells = asked(operation, *arguments)
    if not cells or kind(cells[0]) != NUMBER:
        raise NoAnswer(f'drive answers operation {operation} with no number, but with the cells {cells[:1]}')
    return cells[1:]


def parity_of(data):
    """The 44 parity symbols of a frame's 406 data symbols, first sent first."""
    return numbered(PARITY_FINISH, *numbered(PARITY_TAKE, *NEW_FRAME, *data))
