"""The time along an overview of tools/show. Heads are tried with minutes between them, and to one scale the pages would vanish; so a long silence is
cut down to a short one, and all else is to scale."""
import bisect
from typing import NamedTuple

from line_modes import POSITIONS

# A silence of more pages' time than the first is drawn as if it were the second. Break, the longest pause in a negotiation, is to scale in both
# modes.
LONGEST, SHORT = 100, 12
# Yet a silence that is cut down must be seen: it has at least this part of a row.
PART_OF_ROW = 40


class Silence(NamedTuple):
    """A silence that is cut down: when it begins and ends, and how much time was cut away before it."""
    begin: int
    end: int
    removed: int


class Track:
    """Places along the overview, in ns without what was cut away, for times, and times for places."""

    def __init__(self, listing, rows):
        times, self.begin = listing.times, listing.times[0]
        gaps = [(times[attempt.first - 1], times[attempt.first]) for attempt in listing.attempts[1:]]
        page = (POSITIONS - 1) * listing.mode.spacing
        busy = times[-1] - self.begin - sum(end - begin for begin, end in gaps if end - begin > LONGEST * page)
        self.kept = max(SHORT * page, busy // rows // PART_OF_ROW)
        self.longest = max(LONGEST * page, self.kept)
        self.silences, removed = [], 0
        for begin, end in gaps:
            if end - begin > self.longest:
                self.silences.append(Silence(begin, end, removed))
                removed += end - begin - self.kept
        self.length = times[-1] - self.begin - removed
        self.begins = [silence.begin for silence in self.silences]
        self.places = [self.place_of_silence(silence) for silence in self.silences]

    def place_of_silence(self, silence):
        return silence.begin - self.begin - silence.removed

    def place(self, time):
        """The place of a time that is not inside a silence."""
        number = bisect.bisect_left(self.begins, time) - 1
        if number < 0:
            return time - self.begin
        silence = self.silences[number]
        return self.places[number] + self.kept + time - silence.end

    def time(self, place):
        """The time at a place; inside a silence that is cut down, in proportion."""
        number = bisect.bisect_left(self.places, place) - 1
        if number < 0:
            return self.begin + place
        silence, inside = self.silences[number], place - self.places[number]
        if inside < self.kept:
            return silence.begin + inside * (silence.end - silence.begin) // self.kept
        return silence.end + inside - self.kept

    def silences_between(self, start, end):
        """The places where silences that reach into a stretch begin and end, and how long each is."""
        first = bisect.bisect_right(self.places, start - self.kept)
        behind = bisect.bisect_left(self.places, end)
        for number in range(first, behind):
            silence = self.silences[number]
            yield self.places[number], self.places[number] + self.kept, silence.end - silence.begin
