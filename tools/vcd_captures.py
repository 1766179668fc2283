"""Value change dumps (VCD), as IEEE 1364 has them: captures that analysers and simulators write, and files that PulseView and GTKWave read."""
import itertools
import re
from fractions import Fraction

from captures import META, VCD, Capture, Level, NoCapture, nanoseconds

UNITS = {'s': Fraction(10 ** 9), 'ms': Fraction(10 ** 6), 'us': Fraction(1000), 'ns': Fraction(1), 'ps': Fraction(1, 1000), 'fs': Fraction(1, 10 ** 6)}
# sigrok tells the rate of the samples in a comment.
RATE = re.compile(r'Acquisition with \d+/\d+ channels at (\d{1,15}(?:\.\d{1,15})?) ([kMG]?)Hz')
# A simulator that has reached the limit which it was given says so in a comment, and writes no more.
LIMIT = re.compile(r'dump (?:file )?limit .{0,40}exceeded', re.IGNORECASE)
# Behind a name may stand its bit, or the numbers of its first and last bit.
NAME = re.compile(r'(.*?)\s*(?:(\[-?\d+\])|\[(-?\d{1,9}):(-?\d{1,9})\])?')
# More lines than this are no capture's, and would fill the memory.
MOST_LINES = 65_536
PREFIXES = {'': 1, 'k': 1000, 'M': 10 ** 6, 'G': 10 ** 9}
# The values that are known; simulators write weak ones too. All others, x and z among them, are not.
KNOWN_VALUES = {'0': 0, '1': 1, 'l': 0, 'L': 0, 'h': 1, 'H': 1}
VALUES = re.compile('[01xXzZlLhHuUwW-]+')
# What stands between these and $end are values, and a text behind those of TEXTS.
TEXTS = ('$comment', '$date', '$version')
DUMPS = ('$dumpvars', '$dumpall', '$dumpon', '$dumpoff')


class Lines:
    """The variables by their codes: the level of each bit, and its names."""

    def __init__(self):
        self.levels, self.names, self.count, self.begin = {}, {}, 0, None

    def declare(self, code, names):
        """A variable with a name for each bit, the highest first. A second one with the same code is the same line by another name."""
        self.levels.setdefault(code, [Level() for _ in names])
        self.names.setdefault(code, []).append(names)
        self.count += len(names)

    def change(self, code, values, time):
        """A variable has these values, the highest bit first."""
        if self.begin is None:
            self.begin = time
        for level, value in zip(self.levels[code], extended(values, len(self.levels[code]))):
            # Of a line that has no value at the beginning none is known until its first.
            if level.value is None and not level.unknown and time > self.begin:
                level.take(None, time)
            level.take(KNOWN_VALUES.get(value), time)

    def wires(self):
        for code, levels in self.levels.items():
            # A name with fewer bits than the line has none for the others.
            for level, (name, *aliases) in zip(levels, itertools.zip_longest(*self.names[code])):
                yield level.wire(name, tuple(alias for alias in aliases if alias))


def head_of(text, name):
    """The words of the head and those of the body."""
    head, _, rest = text.partition('$enddefinitions')
    between, mark, body = rest.partition('$end')
    if not mark or between.strip():
        raise NoCapture(f'{name} ends, or goes astray, in the head of the VCD: it is cut or damaged')
    return head.split(), body.split()


def sections(words, name):
    """The sections of a head: the keyword, and the words up to its $end."""
    place = 0
    while place < len(words):
        keyword = words[place]
        try:
            end = words.index('$end', place)
        except ValueError:
            end = 0
        if not keyword.startswith('$') or not end:
            raise NoCapture(f'{name}: {ascii(keyword[:20])} in the head of the VCD belongs to nothing; the file is damaged')
        yield keyword, words[place + 1:end]
        place = end + 1


def unit_of(words, name):
    scale = re.fullmatch(r'(1|10|100)(s|ms|us|ns|ps|fs)', ''.join(words))
    if not scale:
        raise NoCapture(f'{name} has the timescale {ascii(" ".join(words)[:20])}, which is none of VCD, as 1 ns')
    return int(scale[1]) * UNITS[scale[2]]


def bit_names(name, width):
    """The names of a variable's bits, the highest first: by the numbers that stand behind its name, or else down to 0."""
    stem, bit, first, last = NAME.fullmatch(name).groups()
    if width == 1 and not first:
        return [stem + (bit or '')]
    if first and abs(int(first) - int(last)) + 1 == width:
        step = 1 if int(first) <= int(last) else -1
        return [f'{stem}[{number}]' for number in range(int(first), int(last) + step, step)]
    return [f'{stem}[{number}]' for number in range(width - 1, -1, -1)]


def declared(words, scopes, lines, name):
    """A $var: type, number of bits, code, and the name, which may be missing. Real numbers and strings are no lines."""
    if len(words) < 3 or not re.fullmatch(r'[1-9]\d{0,3}', words[1]):
        raise NoCapture(f'{name} declares a variable that is none of VCD: {ascii(" ".join(words)[:40])}')
    kind, width, code, *reference = words
    # A name with odd letters begins with a backslash, which is no part of it.
    reference = ' '.join(reference).removeprefix('\\') or code
    if kind not in ('real', 'realtime', 'string'):
        lines.declare(code, bit_names('.'.join([*scopes, reference]), int(width)))
    if lines.count > MOST_LINES:
        raise NoCapture(f'{name} declares more than {MOST_LINES} lines, which is no capture of pages')
    return code


def read_head(words, name):
    """The timescale, the lines, the codes that are no lines, and the period between samples if the head tells it."""
    unit, lines, scopes, others, period = None, Lines(), [], set(), None
    for keyword, inside in sections(words, name):
        if keyword == '$timescale':
            unit = unit_of(inside, name)
        elif keyword == '$scope':
            scopes.append(inside[-1] if inside else '')
        elif keyword == '$upscope' and scopes:
            scopes.pop()
        elif keyword == '$var':
            others.add(declared(inside, scopes, lines, name))
        elif keyword == '$comment' and (rate := RATE.search(' '.join(inside))) and Fraction(rate[1]):
            period = Fraction(10 ** 9) / (Fraction(rate[1]) * PREFIXES[rate[2]])
    if unit is None:
        raise NoCapture(f'{name} has no timescale, so that its times have no unit; a VCD says it, as $timescale 1 ns $end')
    return unit, lines, others - set(lines.levels), period


def extended(digits, width):
    """The values of a vector with all its bits: zeros go in front, but a value that is not known is repeated."""
    first = '0' if digits[0] in KNOWN_VALUES else digits[0]
    return digits.rjust(width, first)[-width:]


def read_text(waiting, name):
    """Passes over a text up to its end."""
    text = list(itertools.takewhile(lambda word: word != '$end', waiting))
    if LIMIT.search(' '.join(text[:20])):
        raise NoCapture(f'{name} says itself that its limit was exceeded: it is cut, and nothing of it is listed')


def read_body(words, lines, others, unit, name):
    """Goes through the changes of values. Gives the last time, or nothing where there is none."""
    if sum(word in TEXTS or word in DUMPS for word in words) > words.count('$end'):
        raise NoCapture(f'{name} ends inside a comment or a dump: it is cut, and nothing of it is listed')
    time, last, waiting = None, None, iter(words)
    for word in waiting:
        if word in TEXTS:
            read_text(waiting, name)
        elif word[0] == '#':
            last, time = time_of(word, last, name), None
        elif word[0] == '$' and word not in DUMPS and word != '$end':
            raise NoCapture(f'{name}: {ascii(word[:20])} is no word of VCD; the file is damaged')
        elif word[0] != '$':
            if time is None:
                time = nanoseconds(last or 0, unit.numerator, unit.denominator)
            change(word, waiting, lines, others, time, name)
    return None if last is None else nanoseconds(last, unit.numerator, unit.denominator)


def time_of(word, last, name):
    if not re.fullmatch(r'#\d{1,30}', word):
        raise NoCapture(f'{name}: {ascii(word[:20])} is no time; the file is damaged or cut')
    if last is not None and int(word[1:]) < last:
        raise NoCapture(f'{name}: the time goes back to {word}; the file is damaged')
    return int(word[1:])


def change(word, waiting, lines, others, time, name):
    """One change: a value and a code in one word, or a vector or number and its code behind it."""
    values, code = word[0], word[1:]
    if values in 'bBrRsS':
        values, code = word[1:] or ' ', next(waiting, '')
    if code in lines.levels and VALUES.fullmatch(values):
        lines.change(code, values, time)
    elif code not in others or not code:
        raise NoCapture(f'{name}: {ascii(word[:20])} is no change of a value of any wire; the file is damaged or cut')


def capture(text, name):
    """The wires of a VCD."""
    head, body = head_of(META.sub('', text, 1) if META.match(text) else text, name)
    unit, lines, others, period = read_head(head, name)
    end = read_body(body, lines, others, unit, name)
    if end is None:
        raise NoCapture(f'{name} has a head but no times: it is cut, or nothing was recorded')
    return Capture(VCD, list(lines.wires()), period=period, end=end)


def written(times, quiet, label='line'):
    """A VCD with one wire, in ns. It begins and ends with a quiet line: each edge stands so much later than it was, and the end behind the last."""
    head = f'$version Maststep $end\n$timescale 1 ns $end\n$scope module maststep $end\n$var wire 1 ! {label} $end\n$upscope $end\n$enddefinitions $end\n'
    changes = ''.join(f'#{time + quiet}\n{number % 2}!\n' for number, time in enumerate(times, 1))
    return f'{head}#0\n0!\n{changes}#{times[-1] + 2 * quiet}\n'
