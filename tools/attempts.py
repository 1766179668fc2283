"""The attempts of a capture as the proved program listing tells them, each with the edges that belong to it: what tools/list and tools/show stand on.

By 01 an attempt opens at the first edge and at every edge that follows a quiet gap, wherever the reader is then. So the edges of a capture fall
into stretches between quiet gaps, with one attempt each, and a long capture may be handed to the program in pieces that end at quiet gaps: the
end of a piece counts as quiet. A stretch that is longer than a piece has one attempt too, which is over within the piece, since no page has more
than 150 edges; the rest of the stretch is dropped by every reader, and need not be handed over."""
import array
import functools
import itertools
import os
import pathlib
import subprocess
import sys
from typing import NamedTuple

from captures import NoCapture
from line_modes import CLOCK, MOST_READINGS, edges_of

TOOLS = pathlib.Path(__file__).resolve().parent
REFUSED = b'refused '


class Attempt(NamedTuple):
    """An attempt: its number in the whole capture, how it ended (good, gap, cut or check), the word of a good page, and its stretch of edges,
    from the one that opened it up to the one that opens the next."""
    number: int
    ending: str
    word: int | None
    first: int
    behind: int


class Listing(NamedTuple):
    """A capture listed in a mode: the times of its edges, its attempts, and how many were good."""
    mode: object
    times: list
    attempts: list
    good: int

    def text(self):
        """01's text, the numbers going through over all pieces."""
        lines = [attempt_text(attempt) for attempt in self.attempts]
        return '\n'.join([self.first_line(), *lines, self.last_line(), ''])

    def first_line(self):
        return f'mode {self.mode.name} edges {len(self.times)}'

    def last_line(self):
        return f'pages {self.good} bad {len(self.attempts) - self.good}'


class Refused(Exception):
    """The program has refused a capture: the number and its line."""

    def __init__(self, line):
        super().__init__(line)
        self.line, self.number = line, int(line[len(REFUSED):])


def attempt_text(attempt):
    """An attempt's line as 01 has it."""
    return f'{attempt.number} good {attempt.word:012x}' if attempt.ending == 'good' else f'{attempt.number} {attempt.ending}'


@functools.cache
def command():
    """The words that run the program, which is proved and built first if it is not there, and the environment for it."""
    if subprocess.run([TOOLS / 'build', 'listing']).returncode != 0:
        raise NoCapture('the program listing could not be built')
    run = subprocess.run([TOOLS / 'run', '--command', TOOLS.parent / 'crates/listing/out/listing'], stdout=subprocess.PIPE)
    if run.returncode != 0:
        raise NoCapture('the program listing cannot be run here')
    # The emulator takes options from such variables, and one that is set by chance would change the run.
    return run.stdout.split(b'\0')[:-1], {name: value for name, value in os.environ.items() if not name.startswith('QEMU_')}


@functools.cache
def files_of(_process):
    """Three files in memory, for what the program is given, what it prints and what it complains of. Each process has its own."""
    return tuple(os.memfd_create(name) for name in ('given', 'printed', 'complained'))


def emptied(file):
    os.ftruncate(file, 0)
    os.lseek(file, 0, os.SEEK_SET)


def content_from_start(file):
    os.lseek(file, 0, os.SEEK_SET)
    return os.read(file, 1 << 20)


def printed_for(content):
    """What the proved program prints for a capture in our own bytes."""
    words, environment = command()
    files = files_of(os.getpid())
    for file in files:
        emptied(file)
    os.write(files[0], content)
    os.lseek(files[0], 0, os.SEEK_SET)
    actions = [(os.POSIX_SPAWN_DUP2, file, number) for number, file in enumerate(files)]
    _, status = os.waitpid(os.posix_spawn(words[0], words, environment, file_actions=actions), 0)
    printed, complained = map(content_from_start, files[1:])
    if status or complained or not printed.endswith(b'\n'):
        said = ' '.join(complained.decode(errors='replace').split())[:100]
        raise NoCapture(f'the program listing failed (status {status}; it said: {said or "nothing"})')
    if printed.startswith(REFUSED):
        raise Refused(printed.decode().strip())
    return printed.decode()


def quiet_from(mode, times, place):
    """The first edge from a place on that follows a quiet gap, or how many edges there are."""
    return next((edge for edge in range(place, len(times)) if times[edge] - times[edge - 1] >= mode.quiet), len(times))


def piece_end(mode, times, begin):
    """Where a piece ends: at the last quiet gap of what the program takes at once. Within a stretch that is longer than that it ends anywhere."""
    most = begin + MOST_READINGS
    if len(times) <= most:
        return len(times)
    return next((edge for edge in range(most, begin, -1) if times[edge] - times[edge - 1] >= mode.quiet), most)


def on_clock(edges):
    """Edges as they are handed to the program: a gap that the clock could not tell from a shorter one is shortened, and stays quiet."""
    if edges[-1] - edges[0] < CLOCK:
        return edges
    gaps = (min(after - before, CLOCK - 1) for before, after in zip(edges, edges[1:]))
    return list(itertools.accumulate(gaps, initial=edges[0]))


def as_bytes(mode, times):
    """A capture in our own bytes."""
    readings = array.array('I', times if not times or 0 <= times[0] and times[-1] < CLOCK else [time % CLOCK for time in times])
    if sys.byteorder == 'big':
        readings.byteswap()
    return bytes([mode.number]) + readings.tobytes()


def endings(text):
    """How each attempt of a listing ended, and its word."""
    for line in text.split('\n')[1:-2]:
        _, ending, *word = line.split(' ')
        yield ending, int(word[0], 16) if word else None


def attempts_in(mode, times, begin, end):
    """The attempts of a piece without their numbers: of each how it ended, its word, and its stretch of edges."""
    for ending, word in endings(printed_for(as_bytes(mode, on_clock(times[begin:end])))):
        # The program has taken all edges of a good page, so that no quiet gap is among them.
        behind = quiet_from(mode, times, begin + (edges_of(mode, word) if ending == 'good' else 1))
        yield ending, word, begin, behind
        begin = behind


def listed(mode, times):
    """A capture listed by the program, in as many pieces as it takes."""
    attempts, begin = [], 0
    while begin < len(times):
        end = piece_end(mode, times, begin)
        piece = list(attempts_in(mode, times, begin, end))
        if not piece or not piece[-1][2] < end <= piece[-1][3]:
            raise NoCapture(f'the program listing tells {len(piece)} attempts in edges {begin + 1}-{end}, and there are not so many quiet gaps, or more')
        attempts += [Attempt(number, *found) for number, found in enumerate(piece, len(attempts) + 1)]
        begin = piece[-1][3]
    return Listing(mode, times, attempts, sum(attempt.ending == 'good' for attempt in attempts))
