"""How finely a capture was sampled, and whether that is fine enough for a mode.

Of a gap between two samples the time comes out as a whole number of sample periods, the one below or the one above. A gap of a page must come
out within its window, which is the tolerance to either side; so samples that stand no further apart than the tolerance are always fine
enough for a head whose own clock is right. Some that are a little further apart are so too, since both neighbours of each gap happen to
lie in its window."""
import operator
from fractions import Fraction

from line_modes import MODES

# The lowest rates that analysers commonly offer and that are enough.
COMMON = {'HSM': '125 MS/s is common', 'LSM': '5, 6 and 8 MS/s are common'}
# So many gaps at least must stand on a grid before it is one, and only those are looked at that are so many times as long as the shortest.
FEWEST, SHORT = 16, 12
# A gap between two times that are rounded to the ns is off by up to 1 ns, and a little more from a period that is fitted.
ROUNDED = Fraction(5, 4)
# A head's clock is never quite right, so that a gap which is a whole number of samples may come out one shorter or longer.
DRIFT = Fraction(1, 10_000)


def is_coarse(mode, period):
    """Whether gaps of a page can leave their windows by sampling alone."""
    def fits(gap, count):
        low, high = mode.window(count)
        below = gap // period * period
        return low <= below and -(-gap // period) * period <= high
    return period > mode.tolerance and not all(fits(count * mode.spacing * (1 + drift), count) for count in range(1, 5) for drift in (-DRIFT, DRIFT))


def rate_words(period):
    """A period in ns as a rate."""
    rate = 1e9 / float(period)
    scale, unit = next((scale, unit) for scale, unit in ((1e9, 'GS/s'), (1e6, 'MS/s'), (1e3, 'kS/s'), (0, 'S/s')) if rate >= scale)
    return f'{rate / (scale or 1):.4g} {unit}'


def needed(mode):
    """The rate that is always enough, in MS/s, rounded up to one digit behind the point."""
    return -(-10_000 // mode.tolerance) / 10


def coarse_words(mode, period):
    off = f'{float(period):.0f}' if period >= 100 else f'{float(period):.3g}'
    return (f'too coarse for {mode.name}: a gap comes out up to {off} ns too short or too long, and a page allows {mode.tolerance} ns; '
            f'it takes {needed(mode):g} MS/s or more ({COMMON[mode.name]})')


def fitted(gaps, count):
    """The period of which the shortest gap is a number of samples, if each gap is then a whole number of them but for rounding; else nothing."""
    period = Fraction(gaps[0], count)
    # The shortest gaps give a rough period, by which longer ones can be counted, which give a better one.
    for longest in 2, 4, SHORT:
        near = [gap for gap in gaps if gap <= longest * gaps[0]]
        numbers = [round(gap / period) for gap in near]
        period = Fraction(sum(map(operator.mul, numbers, near)), sum(number * number for number in numbers))
    return period if all(abs(gap - number * period) <= ROUNDED for gap, number in zip(near, numbers)) else None


def guessed(mode, times):
    """The period of the samples behind time stamps that do not tell it, or nothing where they stand on no grid as coarse as the tolerance.
    Stamps on the spacing of a mode are those of a page without any jitter, as a program writes it."""
    gaps = [gap for gap in map(operator.sub, times[1:], times) if gap > 0]
    if len(gaps) < FEWEST:
        return None
    # Among long gaps any two are nearly multiples of something, and the short ones show a grid best.
    most = SHORT * min(gaps)
    shortest = sorted({gap for gap in gaps if gap <= most})
    for count in range(1, 9):
        period = fitted(shortest, count)
        if period and period > mode.tolerance:
            return None if any(abs(period - each.spacing) < 1 for each in MODES) else period
    return None
