"""What a person is told of an attempt beyond 01's line: when it began, what its page says, where and how it failed, what was dropped behind it."""
from typing import NamedTuple

from captures import NoCapture, amount
from line_modes import END, FIRST_CLOCK, POSITIONS, WORD_BITS, CHECK_BITS, check_bits, edges_of, read_bits, walked
from page_fields import Kinds, words_of


def time_words(nanoseconds):
    """A time in the unit that suits it, to the ns. Ahead of an analyser's trigger it is negative."""
    if nanoseconds < 0:
        return f'-{time_words(-nanoseconds)}'
    if nanoseconds < 1000:
        return f'{nanoseconds} ns'
    for unit, scale, digits in ('µs', 10 ** 3, 3), ('ms', 10 ** 6, 6), ('s', 10 ** 9, 9):
        if nanoseconds < 1000 * scale or unit == 's':
            return f'{nanoseconds // scale}.{nanoseconds % scale:0{digits}d} {unit}'


def place_words(position):
    """What stands at a position of a page."""
    if position < FIRST_CLOCK:
        return 'in the delimiter'
    if position >= END:
        return 'at the end of the page'
    bit = (position - FIRST_CLOCK) // 2
    return f'at D{bit}' if bit < WORD_BITS else f'at check bit S{WORD_BITS + CHECK_BITS - 1 - bit}'


def nearest_window(mode, wanted, gap):
    """The window of those wanted that a gap misses by least: its number of positions, its ends, and by how much it is missed."""
    windows = [(count, *mode.window(count)) for count in wanted]
    return min(((max(low - gap, gap - high), count, low, high) for count, low, high in windows))


def gap_words(mode, walk):
    """The edge, the gap, and the nearest window."""
    missed, count, low, high = nearest_window(mode, walk.wanted, walk.missed)
    step = mode.positions(walk.missed)
    found = amount(step, 'position') if step else 'no whole number of positions'
    way = 'long' if walk.missed > high else 'short'
    return (f'edge {len(walk.at) + 1}, {place_words(walk.at[-1] + 1)}: it came {walk.missed} ns after the one before, which is {found}; the nearest window '
            f'that fits a page there is {low}-{high} ns ({amount(count, "position")}), so it is {missed} ns too {way}')


def cut_words(listing, attempt, walk, end):
    """How far the attempt came, and how long the line was quiet then."""
    last = listing.times[attempt.behind - 1]
    if attempt.behind < len(listing.times):
        quiet = f'then the line was quiet for {time_words(listing.times[attempt.behind] - last)}'
    elif end is not None and end > last:
        quiet = f'then no edge came for {time_words(end - last)}, up to the end of the capture'
    else:
        quiet = 'where the capture ends'
    edges = attempt.behind - attempt.first
    return f'came to position {walk.at[-1]} of {POSITIONS}, {place_words(walk.at[-1])}, with {amount(edges, "edge")}, {quiet}'


def single_change(word, check):
    """The one transition whose loss or gain explains wrong check bits, in words; nothing where no single one does."""
    apart = check ^ check_bits(word)
    for bit in range(WORD_BITS):
        if check_bits(1 << bit) == apart:
            return f'one transition {"added" if word >> bit & 1 else "lost"} at D{bit} would explain it'
    for bit in range(CHECK_BITS):
        if 1 << bit == apart:
            return f'one transition {"added" if check >> bit & 1 else "lost"} at check bit S{bit} would explain it'
    return 'no single transition explains it'


def check_words(walk):
    """What was read, and the check bits that it should have."""
    word, check = read_bits(walk.bits())
    return f'read {word:012x} with check bits {check:04x}, and that word has {check_bits(word):04x}; {single_change(word, check)}'


class Told(NamedTuple):
    """What is told of an attempt: when it began, the words, and how many edges were dropped behind it."""
    began: int
    words: str
    dropped: int
    is_next: bool


def ended_as(walk, attempt):
    """Whether the walk ends as the program says."""
    if attempt.ending == 'cut':
        return walk.missed is None and len(walk.at) == attempt.behind - attempt.first and walk.at[-1] < POSITIONS
    return (walk.missed is not None) == (attempt.ending == 'gap') and (attempt.ending == 'gap' or walk.at[-1] == POSITIONS)


def walk_of(listing, attempt):
    """How far an attempt follows the pattern. It must end as the program says, or nothing may be told by it."""
    walk = walked(listing.mode, listing.times[attempt.first:attempt.behind])
    if not ended_as(walk, attempt):
        raise NoCapture(f'attempt {attempt.number} is {attempt.ending} by the proved program, and its explanation ends otherwise: please report this capture')
    return walk


def told_bad(listing, attempt, end):
    """The words of an attempt that is not good, and how many edges it took."""
    walk = walk_of(listing, attempt)
    if attempt.ending == 'cut':
        return cut_words(listing, attempt, walk, end), attempt.behind - attempt.first
    if attempt.ending == 'gap':
        return gap_words(listing.mode, walk), len(walk.at) + 1
    return check_words(walk), len(walk.at)


def told(listing, origin, end):
    """What is told of each attempt; times count from the origin."""
    kinds = Kinds()
    for attempt in listing.attempts:
        began = listing.times[attempt.first]
        is_next = attempt.ending == 'good' and kinds.is_next(attempt.word, began)
        if attempt.ending == 'good':
            words, edges = words_of(attempt.word, is_next), edges_of(listing.mode, attempt.word)
        else:
            words, edges = told_bad(listing, attempt, end)
        yield Told(began - origin, words, attempt.behind - attempt.first - edges, is_next)
