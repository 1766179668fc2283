"""Frames of 1000BASE-T1 and the parity symbols that the proved program drive gives them: what vectors, libfec and
generator share."""
import functools
import pathlib
import re
import sys

HERE = pathlib.Path(__file__).resolve().parent
sys.path.insert(0, str(HERE.parents[1] / 'tools'))
from drive_client import NEW_FRAME, NUMBER, PARITY_FINISH, PARITY_TAKE, asked_all
from frames import DATA, PARITY, SYMBOLS

# One symbol, one symbol several times, or all from a first to a last.
NOTED = re.compile(r'([0-9A-F]{3})(?:\*(\d+)|\.\.([0-9A-F]{3}))?')


def noted(words):
    """The symbols that words such as 1FF*406 or 000..195 stand for."""
    symbols = []
    for word in words.split():
        first, times, last = NOTED.fullmatch(word).groups()
        symbols += range(int(first, 16), int(last, 16) + 1) if last else [int(first, 16)] * int(times or 1)
    return symbols


@functools.cache
def vectors():
    """The parts of parity_vectors.txt: each heading with the symbols below it."""
    parts, heading = {}, ''
    for line in (HERE / 'parity_vectors.txt').read_text().splitlines():
        if line.startswith(' '):
            parts[heading] += noted(line)
        elif line and not line.startswith('#'):
            heading = line
            parts[heading] = []
    return parts


def vector_frames():
    """The frames of parity_vectors.txt: the heading of each with its data and its parity symbols."""
    headings = [heading for heading in vectors() if heading.startswith('data ')]
    return {heading: (noted(heading.removeprefix('data ')), vectors()[heading]) for heading in headings}


def generator_row():
    """The generator's coefficients in parity_vectors.txt, highest power first."""
    return vectors()['generator']


def random_symbols(source, number=DATA):
    return [source.randrange(SYMBOLS) for _ in range(number)]


def cut(symbols, places):
    """A frame as bursts, cut at these places; where a place stands twice, or is an end, a burst is empty."""
    ends = [0, *sorted(places), len(symbols)]
    return [symbols[first:last] for first, last in zip(ends, ends[1:])]


def answer_of(number):
    """The answer that tells a number."""
    return NUMBER << 56 | number


def parities(frames):
    """The parity symbols that drive gives for each frame, which is a row of bursts: none where an answer is not the one
    that is due. The state after a burst has to be known before the next, so each run of drive takes one burst of every
    frame that has one left."""
    states, is_due = [NEW_FRAME] * len(frames), [True] * len(frames)
    for turn in range(max(map(len, frames))):
        unfinished = [place for place, bursts in enumerate(frames) if turn < len(bursts)]
        answers = asked_all([(PARITY_TAKE, *states[place], *frames[place][turn]) for place in unfinished])
        for place, (answer, *state) in zip(unfinished, answers):
            count = states[place][-1] + len(frames[place][turn])
            is_due[place] &= (answer, state[-1]) == (answer_of(count), count)
            states[place] = state
    finished = asked_all([(PARITY_FINISH, *state) for state in states])
    return [symbols if due and answer == answer_of(PARITY) else [] for due, (answer, *symbols) in zip(is_due, finished)]


def registers(symbols):
    """The register after each of these symbols alone in a new frame: the generator's lower coefficients times the symbol."""
    answers = asked_all([(PARITY_TAKE, *NEW_FRAME, symbol) for symbol in symbols])
    return [state[:PARITY] if answer == answer_of(1) else [] for answer, *state in answers]


def difference(name, peer, theirs, ours):
    """A check: what the peer and drive have for one thing, if it is not the same, in words; else no fault."""
    return [] if theirs == ours else [f'{name}: FAILED, {peer} has {in_words(theirs)}, drive has {in_words(ours)}']


def in_words(symbols):
    return ' '.join(f'{symbol:03X}' for symbol in symbols) or 'nothing'
