"""A second opinion: reads a capture edge by edge, as 01, "The page", "The line" and "The bench listing", says it, and writes pages. It is written
from 01 alone and shares nothing with the tools. It goes by places that must, may and never have a transition, so that it takes no step of theirs."""
from typing import NamedTuple

CLOCK = 2 ** 32
LAST = 157
DATA = range(28, 155, 2)
WORD_BITS = 48
# The bit at each place for data: D0 comes first, and of the check bits S15.
BIT_AT = dict(zip(DATA, [*(f'D{bit}' for bit in range(48)), *(f'S{bit}' for bit in range(15, -1, -1))]))


class Mode(NamedTuple):
    """The numbers of a mode in ns, and the places among 1-26 with a transition of the delimiter."""
    number: int
    name: str
    spacing: int
    tolerance: int
    quiet: int
    delimiter: frozenset

    def must(self):
        """The places that have a transition in every page: delimiter, clock, and the end."""
        return self.delimiter | set(range(27, 154, 2)) | {155, 157}

    def window(self, count):
        return count * self.spacing - self.tolerance, count * self.spacing + self.tolerance


HSM = Mode(0, 'HSM', 30, 9, 130, frozenset({1, 2, 3, 5, 7, 8, 12, 13, 14, 15, 19, 21, 24, 25, 26}))
LSM = Mode(1, 'LSM', 800, 240, 3441, frozenset({1, 2, 3, 4, 5, 6, 7, 8, 9, 11, 13, 15, 16, 18, 19, 20, 22, 23, 24, 26}))
MODES = (HSM, LSM)


def check_of(word):
    """The check bits as a number with S15 the highest: the remainder of the word, D0 the highest power, times x^16."""
    rest = int(f'{word:048b}'[::-1], 2) << 16
    for place in range(63, 15, -1):
        if rest >> place & 1:
            rest ^= 0x18005 << place - 16
    return rest


def places_of(mode, word, check=None):
    """The places of a page that have a transition; the check bits may be others than the word's own."""
    check = check_of(word) if check is None else check
    bits = f'{word:048b}'[::-1] + f'{check:016b}'
    return sorted(mode.must() | {place for place, bit in zip(DATA, bits) if bit == '1'})


def page(mode, word, first=0, check=None):
    """The times of a page's transitions at nominal spacing."""
    return [first + (place - 1) * mode.spacing for place in places_of(mode, word, check)]


def unrolled(readings):
    """Times without the clock's roll-over: what lies between two readings is taken modulo 2^32."""
    times = list(readings[:1])
    for before, after in zip(readings, readings[1:]):
        times.append(times[-1] + (after - before) % CLOCK)
    return times


def steps_from(mode, place):
    """How many places further the next transition may stand: up to the next that must have one, and not onto one that never has."""
    must = mode.must()
    if place == LAST:
        return ()
    until = min(other for other in must if other > place)
    return tuple(other - place for other in range(place + 1, until + 1) if other in must or other in DATA)


STEPS = {mode: {place: steps_from(mode, place) for place in [*sorted(mode.must()), *DATA]} for mode in MODES}


class Attempt(NamedTuple):
    """An attempt: its number and ending; the edge that opened it, how many edges it took, the edge that opens the next; the last place that was
    reached; the gap behind its last fitting edge; the steps that would have fitted; and the word and check bits of a whole page."""
    number: int
    ending: str
    first: int
    edges: int
    behind: int
    place: int
    gap: int | None
    steps: tuple
    word: int | None
    check: int | None

    def line(self):
        return f'{self.number} good {self.word:012x}' if self.ending == 'good' else f'{self.number} {self.ending}'


def fitting_step(mode, gap, steps):
    """The step among those that may come which a gap counts as, or nothing."""
    return next((step for step in steps if mode.window(step)[0] <= gap <= mode.window(step)[1]), None)


def positions_in(mode, gap):
    """How many positions a gap counts as, wherever it stands, or nothing where it is unfit or quiet."""
    return fitting_step(mode, gap, range(1, 5)) if gap < mode.quiet else None


def bits_at(places):
    """The word and the check bits of a whole page by the places of its transitions."""
    bits = ''.join('1' if place in places else '0' for place in DATA)
    return int(bits[:WORD_BITS][::-1], 2), int(bits[WORD_BITS:], 2)


def attempt_from(mode, times, first):
    """The attempt that opens at an edge, without its number and without knowing where the next opens."""
    places, edge = [1], first
    while True:
        edge += 1
        steps, gap = STEPS[mode][places[-1]], times[edge] - times[edge - 1] if edge < len(times) else None
        if places[-1] == LAST:
            word, check = bits_at(set(places))
            return Attempt(0, 'good' if check == check_of(word) else 'check', first, edge - first, 0, LAST, gap, steps, word, check)
        if gap is None or gap >= mode.quiet:
            return Attempt(0, 'cut', first, edge - first, 0, places[-1], gap, steps, None, None)
        step = fitting_step(mode, gap, steps)
        if step is None:
            return Attempt(0, 'gap', first, edge - first + 1, 0, places[-1], gap, steps, None, None)
        places.append(places[-1] + step)


def read(mode, times):
    """All attempts of a capture, whose times do not roll over."""
    attempts, edge = [], 0
    while edge < len(times):
        found = attempt_from(mode, times, edge)
        edge += found.edges
        while edge < len(times) and times[edge] - times[edge - 1] < mode.quiet:
            edge += 1
        attempts.append(found._replace(number=len(attempts) + 1, behind=edge))
    return attempts


def text(mode, times, attempts=None):
    """The listing of 01."""
    attempts = read(mode, times) if attempts is None else attempts
    good = sum(attempt.ending == 'good' for attempt in attempts)
    lines = [f'mode {mode.name} edges {len(times)}', *(attempt.line() for attempt in attempts), f'pages {good} bad {len(attempts) - good}']
    return '\n'.join(lines) + '\n'


def refusal(content):
    """The number by which the bench program refuses bytes, or nothing."""
    if not content or content[0] > 1:
        return 14
    if len(content) > 32_001:
        return 12
    return 15 if (len(content) - 1) % 4 else None


def readings_in(content):
    return [int.from_bytes(content[place:place + 4], 'little') for place in range(1, len(content) - 3, 4)]
