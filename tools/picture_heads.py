"""What a page and an overview of tools/show have in common: the capture that is drawn, and the title over it."""
from collections import Counter
from typing import NamedTuple

from capture_listing import Listed
from captures import shown
from picture_style import FAINT, INK, LEFT, RIGHT, Part, printable, shortened, wrapped
from telling import told

NAME_SIZE, FACTS_SIZE, MORE_SIZE = 13, 9.5, 8.5


class Subject(NamedTuple):
    """A capture that is drawn: its name, its listing, what is told of each attempt, and how many attempts ended in each way."""
    name: str
    listed: Listed
    told: list
    counts: Counter

    @property
    def listing(self):
        return self.listed.listing

    @property
    def mode(self):
        return self.listing.mode


def subject_of(name, listed):
    attempts = listed.listing.attempts
    return Subject(name, listed, list(told(listed.listing, listed.origin, listed.capture.end)), Counter(attempt.ending for attempt in attempts))


def plural(count, word):
    return f'{count} {word}{"s" * (count != 1)}'


def facts(subject):
    """The mode, the wire, the edges and the counts."""
    listing, wire = subject.listing, subject.listed.wire.name
    bad = [f'{subject.counts[ending]} {ending}' for ending in ('gap', 'cut', 'check') if subject.counts[ending]]
    counted = f'{plural(len(listing.attempts), "attempt")}: {listing.good} good, {len(listing.attempts) - listing.good} bad'
    named = [f'wire {printable(shown(wire))}'] if wire else []
    return ' \N{MIDDLE DOT} '.join([f'mode {subject.mode.name}', *named, plural(len(listing.times), 'edge'), counted + (f' ({", ".join(bad)})' if bad else '')])


def title_part(subject, more):
    """The name of the capture, what it is on a second line, and more in small letters."""
    name = shortened(printable(subject.name), RIGHT - LEFT, NAME_SIZE, 'bold')
    lines = [(line, FACTS_SIZE, INK) for line in wrapped(shortened(facts(subject), 2 * (RIGHT - LEFT), FACTS_SIZE), RIGHT - LEFT, FACTS_SIZE)]
    lines += [(line, MORE_SIZE, FAINT) for text in more for line in wrapped(text, RIGHT - LEFT, MORE_SIZE)]

    def draw(canvas, top):
        canvas.text(LEFT, top - 0.16, name, NAME_SIZE, weight='bold')
        for number, (line, size, colour) in enumerate(lines):
            canvas.text(LEFT, top - 0.38 - 0.175 * number, line, size, colour)
    return Part(0.34 + 0.175 * len(lines), draw)
