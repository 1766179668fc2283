"""Captures as analysers and this project write them: our own bytes, VCD, sigrok's session files and CSV. What each has is told as wires with
the times of their edges; which it is, is known by its content. For tools/list and tools/show."""
import array
import codecs
import itertools
import operator
import re
import sys
from fractions import Fraction
from typing import NamedTuple

from line_modes import CLOCK, MODES

# More than this is no capture for a bench tool, and a device that never ends must not fill the memory.
MOST_BYTES = 2 ** 30
# A clock that leaps by more ns than this from edge to edge is none of a capture of pages.
LEAP = 1_000_000_000
BYTES, VCD, SESSION, CSV = 'our bytes', 'VCD', 'sigrok session', 'CSV'
FORMS = {'bytes': BYTES, 'vcd': VCD, 'sr': SESSION, 'csv': CSV}
# sigrok-cli writes such a line into a VCD or CSV that it converts from another file in one step.
META = re.compile(r'META samplerate: (\d{1,15})\s*')
KNOWN = "known are this project's bytes, VCD, sigrok sessions (.sr) and CSV"


class NoCapture(Exception):
    """Why there is no capture to list: one line for a person."""


class Wire(NamedTuple):
    """A wire: its name, the times of its edges in ns, how often its value was neither 0 nor 1, other names of it, and why it cannot be listed."""
    name: str
    edges: list
    unknown: int = 0
    aliases: tuple = ()
    fault: str | None = None

    def is_called(self, name):
        return name in (self.name, *self.aliases)

    def is_called_in_short(self, name):
        """Whether this is its name without the scopes that it stands in."""
        return name in [full.rpartition('.')[2] for full in (self.name, *self.aliases)]


class Level:
    """What a wire is over time. An edge is a change between 0 and 1, also where something else stood between; the first value is none."""

    def __init__(self):
        self.value, self.edges, self.unknown = None, [], 0

    def take(self, value, time):
        """The wire is 0 or 1 from a time on, or nothing that is known."""
        if value is None:
            self.unknown += 1
            return
        if self.value not in (None, value):
            self.edges.append(time)
        self.value = value

    def wire(self, name, aliases=(), fault=None):
        return Wire(name, self.edges, self.unknown, aliases, fault)


class Capture(NamedTuple):
    """What a file has. The mode is that of our own bytes; the period between two samples, in ns, and the end are known where the file says them."""
    form: str
    wires: list
    mode: int | None = None
    period: Fraction | None = None
    end: int | None = None
    # Our own bytes as they are, which the proved program judges.
    content: bytes | None = None
    # What a person should know of how the file was taken.
    remark: str | None = None


def problem(fault):
    """What the system says is wrong, in small letters as in the middle of a sentence."""
    return (fault.strerror or str(fault)).lower()


def read_all(stream, name):
    """All bytes of a stream. A read that fails in the middle is never taken for the end."""
    parts, size = [], 0
    while True:
        try:
            part = stream.read(1 << 20)
        except IsADirectoryError:
            raise NoCapture(f'{name} is a folder; a capture is a file') from None
        except OSError as fault:
            raise NoCapture(f'{name} could not be read beyond {size} bytes ({problem(fault)}): the capture is cut, and nothing of it is listed') from None
        if part is None:
            raise NoCapture(f'{name} could not be read beyond {size} bytes (nothing there yet): the capture is cut, and nothing of it is listed')
        if not part:
            return b''.join(parts)
        parts.append(part)
        size += len(part)
        if size > MOST_BYTES:
            raise NoCapture(f'{name} has more than {MOST_BYTES >> 20} MiB, which is no capture of pages')


def content_of(name):
    """The bytes of a file, or of standard input for '-'."""
    if name == '-':
        if sys.stdin is None:
            raise NoCapture('standard input is closed')
        return read_all(sys.stdin.buffer.raw, 'standard input')
    try:
        with open(name, 'rb', buffering=0) as file:
            return read_all(file, name)
    except FileNotFoundError:
        raise NoCapture(f'{name}: no such file') from None
    except IsADirectoryError:
        raise NoCapture(f'{name} is a folder; a capture is a file') from None
    except OSError as fault:
        raise NoCapture(f'{name} could not be opened: {problem(fault)}') from None
    except ValueError as fault:
        raise NoCapture(f'{ascii(name)} is no name of a file: {fault}') from None


def decoded(content):
    """The text of bytes: UTF-16 where they begin with its mark, else UTF-8, or Latin-1 where they are none."""
    if content[:2] in (codecs.BOM_UTF16_LE, codecs.BOM_UTF16_BE):
        return content.decode('utf-16')
    try:
        return content.decode('utf-8-sig')
    except UnicodeDecodeError:
        return content.decode('latin-1')


def head_of(content):
    """The first letters of a file, or a letter that no text has. One of several bytes may stand across the end of the part that is looked at."""
    part = content[:4096]
    is_wide = part[:2] in (codecs.BOM_UTF16_LE, codecs.BOM_UTF16_BE)
    try:
        if not is_wide:
            return codecs.getincrementaldecoder('utf-8-sig')().decode(part, len(content) <= len(part))
    except UnicodeDecodeError:
        pass
    text = part.decode('utf-16', 'ignore') if is_wide else part.decode('latin-1')
    # Of a capture's text most letters are English ones; of raw samples hardly any byte is.
    return text if sum(letter < '\x80' for letter in text) * 4 > len(text) * 3 else '\0'


def form_of(content):
    """What a file is, by its content; nothing where it is none that is known."""
    if content[:2] == b'PK':
        return SESSION
    if content[:1] in (b'', b'\0', b'\1'):
        return BYTES
    head = head_of(content).lstrip()
    if any(letter < ' ' and letter not in '\t\n\r' for letter in head):
        return None
    return VCD if META.sub('', head, 1)[:1] == '$' else CSV


def unrolled(readings):
    """The clock's readings as times that do not roll over; each is the reading modulo 2^32."""
    # Mostly nothing rolls over, and a list in order is sorted at a glance.
    if readings == sorted(readings):
        return readings
    gaps = ((after - before) % CLOCK for before, after in zip(readings, readings[1:]))
    return list(itertools.accumulate(gaps, initial=readings[0]))


def readings_of(content):
    """The readings of our own bytes, a mode byte and four bytes each; a rest of one to three bytes is left out, as the program refuses it."""
    readings = array.array('I', content[1:len(content) - (len(content) - 1) % 4])
    if sys.byteorder == 'big':
        readings.byteswap()
    return readings.tolist()


def of_bytes(content):
    if not content:
        return Capture(BYTES, [Wire('', [])], content=content)
    return Capture(BYTES, [Wire('', unrolled(readings_of(content)))], mode=content[0] if content[0] < len(MODES) else None, content=content)


def looks_like_samples(content, times):
    """Whether the readings of our own bytes can hardly be a clock's: one that stands still or leaps by over a second at most edges. Sample
    bytes taken for readings do so."""
    count = len(times) - 1
    # Most captures are cleared by a look at some bytes, of which samples have few values, and at the two ends.
    has_many_values = len(set(content[1::len(content) // 512 | 1])) > 16
    if count < 16 or has_many_values and 0 < times[-1] - times[0] < count * LEAP // 4:
        return False
    return sum(1 for gap in map(operator.sub, times[1:], times) if not gap or gap > LEAP) * 2 > count


def text_of(content, name):
    """The text of a file that must have whole lines: where the last one has no end, somebody may have cut it."""
    try:
        text = decoded(content)
    except UnicodeDecodeError as fault:
        raise NoCapture(f'{name}: byte {fault.start} is no text; the file is damaged or cut') from None
    if '\n' not in text:
        # Old line ends.
        text = text.replace('\r', '\n')
    if not text.endswith('\n'):
        raise NoCapture(f'{name} ends inside its last line, so it may be cut, and nothing of it is listed; if it is whole, end that line')
    return text


def chosen(capture, wanted, name):
    """The wire to list: the one that is asked for, or the only one that has edges, or the only one."""
    wires = capture.wires
    if not wires:
        raise NoCapture(f'{name} has no wire with values 0 and 1')
    if wanted is not None:
        if capture.form == BYTES:
            raise NoCapture(f'{name} is in our own bytes, which have one wire without a name; leave --wire out')
        found = [wire for wire in wires if wire.is_called(wanted)] or [wire for wire in wires if wire.is_called_in_short(wanted)]
        if len(found) != 1:
            raise NoCapture(f'{name} has {amount(len(found), "wire")} {ascii(wanted)}; {named(found or wires)}')
    else:
        # One that cannot be listed may be the very wire that is meant.
        found = [wire for wire in wires if wire.edges or wire.fault] or wires[:1]
        if len(found) > 1:
            which = 'wires that are damaged or have edges' if any(wire.fault for wire in found) else 'wires with edges'
            raise NoCapture(f'{name} has {len(found)} {which}; say which, as --wire {shown(found[0].name)}; {named(wires)}')
    if found[0].fault:
        raise NoCapture(found[0].fault)
    return found[0]


def amount(count, thing):
    """A number of things in words."""
    return f'{count or "no"} {thing}{"s" * (count > 1)}'


def shown(name):
    return name if name and name.isprintable() and ' ' not in name else repr(name)


def named(wires):
    """The wires of a capture with their numbers of edges, the first ones where there are many."""
    names = [f'{shown(wire.name)} ({"damaged" if wire.fault else amount(len(wire.edges), "edge")})' for wire in wires[:8]]
    return 'it has ' + (', '.join(names) + (', ..' if len(wires) > 8 else '') if names else 'none')


def nanoseconds(count, numerator, denominator):
    """A whole number of ns for a count of units that are numerator/denominator ns each: the nearest."""
    return (2 * count * numerator + denominator) // (2 * denominator)


def capture_of(content, name, form=None, rate=None):
    """What a file has, known by its content or taken as the form that is named; rate is that of samples that do not tell their own, in hertz."""
    import csv_captures
    import sigrok_sessions
    import vcd_captures
    form = form or form_of(content)
    if form == SESSION:
        return sigrok_sessions.capture(content, name)
    if form == VCD:
        return vcd_captures.capture(text_of(content, name), name)
    if form == CSV:
        return csv_captures.capture(text_of(content, name), name, rate)
    return of_bytes(content)
