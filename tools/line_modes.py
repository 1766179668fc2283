"""The two line modes and the pattern of a page, as 01, "The line", has them: what tools/list and tools/show explain an attempt by, and what
samples/make makes captures with. Whether an attempt is good, and its word, is always said by the proved program; what stands here only tells
where in the page an attempt ended, and tests hold it to the program."""
import functools
from typing import NamedTuple

POSITIONS = 157
FIRST_CLOCK, LAST_CLOCK = 27, 153
# Behind the last data bit: a transition, none, and the page's last transition.
END = 155
WORD_BITS, CHECK_BITS = 48, 16
# What one call of the program listing takes.
MOST_READINGS = 8000
CLOCK = 2 ** 32
POLYNOMIAL = 0x8005


class Mode(NamedTuple):
    """A mode's numbers in ns, and the delimiter's transitions among positions 1 to 26."""
    number: int
    name: str
    spacing: int
    tolerance: int
    quiet: int
    delimiter: tuple

    def window(self, positions):
        """The shortest and the longest gap that counts as a number of positions."""
        return positions * self.spacing - self.tolerance, positions * self.spacing + self.tolerance

    def positions(self, gap):
        """How many positions a gap counts as, or nothing where it is unfit or quiet."""
        return next((count for count in range(1, 5) if self.window(count)[0] <= gap <= self.window(count)[1]), None)


HSM = Mode(0, 'HSM', 30, 9, 130, (1, 2, 3, 5, 7, 8, 12, 13, 14, 15, 19, 21, 24, 25, 26))
LSM = Mode(1, 'LSM', 800, 240, 3441, (*range(1, 10), 11, 13, 15, 16, 18, 19, 20, 22, 23, 24, 26))
MODES = (HSM, LSM)
BY_NAME = {mode.name: mode for mode in MODES}


def other(mode):
    return MODES[1 - mode.number]


class Walk(NamedTuple):
    """How far the transitions of an attempt follow the pattern of a page."""
    # The position of each transition that fits.
    at: list
    # How many positions further the next transition may stand; none at the end of a page.
    wanted: tuple
    # The gap that does not fit, or nothing.
    missed: int | None

    def bits(self):
        """The data bits that are known, D0 first and the check bits behind D47: a one has a transition between two clocks, the last one perhaps
        no clock behind it."""
        ones = set(self.at)
        return [int(place in ones) for place in range(FIRST_CLOCK + 1, self.at[-1] + 1, 2) if place < END]


def wanted_after(mode, position):
    """How many positions behind a transition the next one may stand."""
    if position < mode.delimiter[-1]:
        return (next(place for place in mode.delimiter if place > position) - position,)
    if position == END:
        return (2,)
    if position == POSITIONS:
        return ()
    return (1, 2) if position % 2 and position <= LAST_CLOCK else (1,)


def walked(mode, times):
    """Follows the pattern from the transition that opened an attempt on, to the end of the page, the first gap that does not fit, or the end."""
    at = [1]
    for before, after in zip(times, times[1:]):
        wanted = wanted_after(mode, at[-1])
        if not wanted:
            break
        step = mode.positions(after - before)
        if step not in wanted:
            return Walk(at, wanted, after - before)
        at.append(at[-1] + step)
    return Walk(at, wanted_after(mode, at[-1]), None)


def number_of(bits):
    """Bits as a number, the lowest first."""
    return sum(bit << place for place, bit in enumerate(bits))


def check_bits(word):
    """The check bits of a word as a number, S15 the highest bit. Only for telling what a page that failed its check should have had."""
    remainder = 0
    for place in range(WORD_BITS):
        carry = (word >> place & 1) ^ remainder >> 15
        remainder = (remainder << 1 & 0xffff) ^ (POLYNOMIAL if carry else 0)
    return remainder


def read_bits(bits):
    """The word and the check bits of a whole page's 64 bits."""
    return number_of(bits[:WORD_BITS]), number_of(reversed(bits[WORD_BITS:]))


@functools.lru_cache(4096)
def edges_of(mode, word):
    """How many transitions the page of a word has."""
    clocks = (LAST_CLOCK - FIRST_CLOCK) // 2 + 1
    return len(mode.delimiter) + clocks + word.bit_count() + check_bits(word).bit_count() + 2
