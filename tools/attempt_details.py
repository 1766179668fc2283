"""An attempt with all that is needed to draw it: how far it follows the pattern of a page, when each position came, and what follows it."""
from typing import NamedTuple

from attempts import Attempt
from line_modes import CHECK_BITS, POSITIONS, WORD_BITS, Mode, Walk, check_bits, read_bits
from picture_style import LOOKS, Look
from telling import Told, walk_of

# The rows in which a page is drawn, by their first and last positions; neighbours share a clock.
ROWS = ((1, 59), (59, 123), (123, POSITIONS))


class Detail(NamedTuple):
    """An attempt to draw."""
    attempt: Attempt
    told: Told
    mode: Mode
    edges: list
    walk: Walk
    # The time of each position that has a transition.
    when: dict
    # Whether its fields are those of a Next Page: known of a good page, else as of the last good one before it.
    is_next: bool
    # When the next attempt opens or the capture ends, and whether it ends there; nothing where the end is not known.
    behind: int | None
    is_last: bool

    @property
    def look(self) -> Look:
        return LOOKS[self.attempt.ending]

    @property
    def stopped(self):
        """The last transition that fits."""
        return self.when[self.walk.at[-1]]

    def rows(self):
        """The first and the last position of each row that the attempt has come to."""
        reached = self.walk.at[-1]
        return [(first, min(last, reached)) for first, last in ROWS if first == 1 or reached > first]

    def worst(self):
        """By how many ns the worst of the gaps that fit is off: a head near the tolerance is still read, and may not be tomorrow."""
        at, when = self.walk.at, self.when
        return max(abs(when[after] - when[before] - (after - before) * self.mode.spacing) for before, after in zip(at, at[1:]))

    def dropped(self):
        return self.edges[len(self.edges) - self.told.dropped:]


def kinds(subject):
    """Of each attempt whether its fields are a Next Page's."""
    is_next = False
    for attempt, told in zip(subject.listing.attempts, subject.told):
        is_next = told.is_next if attempt.ending == 'good' else is_next
        yield is_next


def details_of(subject, numbers):
    """The attempts with these numbers."""
    listing, known = subject.listing, list(kinds(subject))
    details = []
    for number in numbers:
        attempt = listing.attempts[number - 1]
        edges = listing.times[attempt.first:attempt.behind]
        walk, is_last = walk_of(listing, attempt), attempt.behind == len(listing.times)
        end = subject.listed.capture.end if is_last else listing.times[attempt.behind]
        details.append(Detail(attempt, subject.told[number - 1], listing.mode, edges, walk, dict(zip(walk.at, edges)), known[number - 1],
                              end if end is None or end > edges[-1] else None, is_last))
    return details


def due_bits(bits):
    """The check bits that belong to the word of a whole page's bits, in the order in which they are sent."""
    due = check_bits(read_bits(bits)[0])
    return [due >> CHECK_BITS - 1 - place & 1 for place in range(CHECK_BITS)]


def explained_by(bits):
    """The place of the one bit that explains wrong check bits if it is turned, or nothing."""
    for place in range(WORD_BITS + CHECK_BITS):
        turned = [bit ^ (number == place) for number, bit in enumerate(bits)]
        if due_bits(turned) == turned[WORD_BITS:]:
            return place
    return None
