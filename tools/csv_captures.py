"""Captures as comma-separated values (CSV): sigrok's, a row for each sample or for each change, and Saleae's, a row for each change with its time."""
import csv
import itertools
import math
import re
from datetime import datetime
from fractions import Fraction
from typing import NamedTuple

from captures import CSV, KNOWN, META, Capture, Level, NoCapture, amount, nanoseconds
from vcd_captures import PREFIXES

UNITS = {'seconds': Fraction(10 ** 9), 'milliseconds': Fraction(10 ** 6), 'microseconds': Fraction(1000), 'nanoseconds': Fraction(1),
         'picoseconds': Fraction(1, 1000), 'femtoseconds': Fraction(1, 10 ** 6)}
UNITS |= {'s': UNITS['seconds'], 'ms': UNITS['milliseconds'], 'us': UNITS['microseconds'], 'µs': UNITS['microseconds'], 'μs': UNITS['microseconds'],
          'ns': UNITS['nanoseconds'], 'ps': UNITS['picoseconds'], 'fs': UNITS['femtoseconds']}
SAMPLE_RATE = re.compile(r'[Ss]ample ?rate: (\d{1,15}(?:\.\d{1,15})?) ([kMG]?)Hz')
CHANNELS = re.compile(r'Channels \(\d+/\d+\): (.*)')
GIVEN_RATE = re.compile(r'(\d{1,15}(?:\.\d{1,15})?) ?([kMG]?)(?:[Hh]z|S/s)?')
TIME = re.compile(r'time ?(?:[\[(](\w+)[\])])?', re.IGNORECASE)
# A name that ends with a unit of time, as delta [s].
TIMED = re.compile(r'.*[\[(](\w+)[\])]')
SIGROK = re.compile('sigrok')
# Numbers with a mark for thousands, as 3,741.
THOUSANDS = re.compile(r'[1-9]\d{0,2}[.,]\d{3}')
COUNT = re.compile(r'samples?(?: number)?|index', re.IGNORECASE)
NUMBER = re.compile(r'[-+]?(?:\d{1,30}(?:\.\d{0,60})?|\.\d{1,60})(?:[eE][-+]?\d{1,3})?')
DATE = re.compile(r'(\d{4}-\d\d-\d\d[T ]\d\d:\d\d:\d\d)(?:[.,](\d{1,18}))?(Z|[-+]\d\d:\d\d)?')
# Where two fit alike the first of these is taken: a comma may stand in names, or be a decimal one.
SEPARATORS = ('\t', ';', ',')
# How many rows show what the columns of a file are.
LOOKED_AT = 2000
# Other letters that look like blanks are damage.
BLANKS = ' \t'
VALUES = {'0': 0, '1': 1, 'x': None, 'X': None, 'z': None, 'Z': None}


class Table(NamedTuple):
    """What the lines of a file are: the comments, the names of the columns if they stand there, and the rows, each with the number of its line."""
    comments: list
    names: list
    rows: list
    separator: str

    def first_cells(self, place=0):
        """The first cells, or those at another place, of the rows that show what the columns are."""
        return [found[place] for _, line in self.rows[:LOOKED_AT] if len(found := cells(line, self.separator)) > place]


def rate_of(text):
    """A rate that somebody has typed, in hertz, as 24M, 24 MHz or 24000000; nothing where it is none."""
    rate = GIVEN_RATE.fullmatch(text)
    return Fraction(rate[1]) * PREFIXES[rate[2]] if rate and Fraction(rate[1]) else None


def cells(line, separator):
    """The cells of a line. Between quotation marks a separator is a letter."""
    found = line.split(separator)
    if '"' in line:
        try:
            found = next(csv.reader([line], delimiter=separator, skipinitialspace=True, strict=True))
        except csv.Error:
            # The marks go astray, and so does the number of columns, which is what is said then.
            pass
    return [cell.strip(BLANKS) for cell in found]


def separator_of(lines):
    """The mark that parts the first two lines into as many columns, the more the better."""
    widths = {mark: {len(cells(line, mark)) for line in lines[:2]} for mark in SEPARATORS}
    fitting = {mark: max(found) for mark, found in widths.items() if len(found) == 1 and found != {1}}
    return max(fitting, key=fitting.get) if fitting else next((mark for mark in SEPARATORS if mark in lines[0]), ',')


def is_comment(line):
    # Some spreadsheets tell the separator ahead of all.
    return line[:1] in (';', '#') or bool(META.match(line)) or line.lower().startswith('sep=')


def is_timed(name):
    """Whether a column is called as one of times."""
    unit = TIMED.fullmatch(name)
    return bool(TIME.fullmatch(name)) or bool(unit) and unit[1].lower() in UNITS


def lines_of(text, name):
    """The comments ahead of a file's rows, and its other lines with their numbers. An empty line or a comment amid the rows may be a damaged row."""
    lines = [(number, line.rstrip('\r')) for number, line in enumerate(text.rstrip().split('\n'), 1)]
    ahead = list(itertools.takewhile(lambda numbered: not numbered[1].strip() or is_comment(numbered[1]), lines))
    rows = lines[len(ahead):]
    for number, line in rows:
        if not line.strip() or line[0] in ';#':
            raise NoCapture(f'{name}, line {number} is {"a comment" if line.strip() else "empty"} amid the rows, where a row may be lost; if none is, take it out')
    if not rows:
        raise NoCapture(f'{name} has no rows: it is cut, or no capture')
    return [line for _, line in ahead], rows


def table_of(text, name):
    """The lines of a file, told apart. Its first line that is no comment names the columns, unless all in it are numbers."""
    comments, rows = lines_of(text, name)
    separator = separator_of([line for _, line in rows[:2]])
    if not any(cell in VALUES for _, line in rows[:LOOKED_AT] for cell in cells(line, separator)) and not is_timed(cells(rows[0][1], separator)[0]):
        raise NoCapture(f'{name} is text, but neither a VCD nor a CSV with values 0 and 1; {KNOWN}')
    first = cells(rows[0][1], separator)
    if len(rows) > 1 and len(cells(rows[1][1], separator)) != len(first):
        raise NoCapture(f'{name}, line {rows[1][0]} has {len(cells(rows[1][1], separator))} columns where the first line has {len(first)}; the file is damaged')
    # Channels may have numbers for names; sigrok tells them in a comment.
    is_named = first == channels(comments) or not all(cell in VALUES or is_reading(cell) for cell in first)
    return Table(comments, first if is_named else [], rows[is_named:], separator)


def channels(comments):
    """The names of the channels that sigrok tells in a comment."""
    listed = told(CHANNELS, comments)
    return [name.strip() for name in listed[1].split(',')] if listed else []


def told(pattern, comments):
    return next((found for comment in comments if (found := pattern.search(comment))), None)


def told_rate(comments):
    """The rate that the comments say, in hertz, or nothing."""
    said, converted = told(SAMPLE_RATE, comments), told(META, comments)
    return (Fraction(said[1]) * PREFIXES[said[2]] if said else Fraction(converted[1]) if converted else None) or None


def pointed(cell):
    """A cell with a point for the decimal comma that many countries write; where columns are parted by commas it can have none but in quotes."""
    return cell.replace(',', '.')


def is_reading(cell):
    return bool(NUMBER.fullmatch(pointed(cell)) or DATE.fullmatch(cell))


def reading(cell, where):
    """The number in a cell: as it stands, or of a date the seconds."""
    number, date = pointed(cell), DATE.fullmatch(cell)
    if NUMBER.fullmatch(number) and math.isfinite(float(number)):
        return Fraction(number)
    try:
        moment = datetime.fromisoformat(date[1] + (date[3] or 'Z').replace('Z', '+00:00'))
        return int(moment.timestamp()) + Fraction(f'0.{date[2] or 0}')
    except (TypeError, ValueError, OverflowError):
        raise NoCapture(f'{where}: {ascii(cell[:30])} is no time; the file is damaged or no capture') from None


class Clock(NamedTuple):
    """How the time of a row is found: its first cell, or where that tells none the number of the row, counts so many ns from an origin on."""
    has_cell: bool
    scale: Fraction
    origin: Fraction = Fraction(0)

    def time(self, cell, index, where):
        count = reading(cell.strip(BLANKS), where) - self.origin if self.has_cell else index
        return nanoseconds(count.numerator, self.scale.numerator, count.denominator * self.scale.denominator)


def is_wire(found):
    """Whether cells are those of a wire. Times rise, so that at most two of them are 0 and 1."""
    return sum(cell in VALUES for cell in found) > 2 or all(cell in VALUES for cell in found)


def has_times(table):
    """Whether the first column is one of times: by its name, or where columns have none, by what stands in it."""
    found = table.first_cells()
    if not table.names:
        return not is_wire(found)
    named = TIME.fullmatch(table.names[0])
    if named and named[1]:
        return True
    # A channel may be called so, too, where the name has no unit.
    return (bool(named) or table.names[0].lower() in UNITS) and table.names != channels(table.comments) and not (len(found) > 2 and is_wire(found))


def refuse_times_elsewhere(table, name):
    """Says it where times stand in a column that is not taken for times: its rows must not be counted as samples."""
    for place, title in enumerate(table.names):
        if is_timed(title) and not is_wire(table.first_cells(place)):
            raise NoCapture(f'{name} has times in column {place + 1}, {ascii(title)}; only a first column that is called as Time [s] is taken for times')


def refuse_names_in_comment(table, name):
    """Says it where the names of columns stand behind a mark of comments: the first one may be another than it looks."""
    if not table.names and any(is_timed(cell.strip('#; \t"')) for comment in table.comments[-1:] for cell in comment.split(table.separator)):
        raise NoCapture(f'{name} names its columns in a comment; take the mark ahead of the names away, and have the times in the first column')


def clock_of(table, period, name):
    """How the rows tell their times: by the names of the columns, the comments, and the period between samples where it is known."""
    first, found = table.names[0] if table.names else '', table.first_cells()
    refuse_names_in_comment(table, name)
    if has_times(table):
        return time_clock(table, period, name)
    refuse_times_elsewhere(table, name)
    is_sigrok = bool(told(SIGROK, table.comments)) and table.names != channels(table.comments)
    is_count = bool(COUNT.fullmatch(first)) and (not is_wire(found) or is_sigrok)
    if is_count and len(found) > 1 and set(found) == {'0'}:
        raise NoCapture(f'{name} has 0 for the number of every sample, as sigrok-cli writes it where it converts in one step; '
                        'have it make a session first, as sigrok-cli -I vcd -i FILE -o FILE.sr')
    if not is_count and not is_wire(found) and not is_voltage(found):
        raise NoCapture(f'{name} has a first column {ascii(first)} that is no wire; if it has times, name it with their unit, as Time [s]')
    if not period:
        raise NoCapture(f'{name} has samples and does not say their rate; give it, as --rate 24M')
    return Clock(is_count, period)


def is_voltage(found):
    """Whether cells are numbers that rise and fall, as those of no clock."""
    if not all(NUMBER.fullmatch(pointed(cell)) for cell in found):
        return False
    numbers = [float(pointed(cell)) for cell in found]
    return numbers != sorted(numbers)


def time_clock(table, period, name):
    """The clock of a column of times."""
    dates = [cell for cell in table.first_cells()[:1] if DATE.fullmatch(cell)]
    if dates:
        return Clock(True, UNITS['seconds'], reading(dates[0], name))
    unit = unit_of(table, period, name)
    # sigrok rounds the time of each sample down to a multiple of whole units; what counts is the number of the sample.
    is_rounded = told_rate(table.comments) and told(SIGROK, table.comments) and period >= unit
    return Clock(True, period / (period // unit) if is_rounded else unit)


def refuse_thousands(table, name):
    """Says it where times seem to have marks for thousands, which would be read as decimal ones: three digits behind each mark, and none in small numbers."""
    marked = [cell for cell in table.first_cells() if '.' in cell or ',' in cell]
    if len(marked) > 3 and len(marked) < len(table.first_cells()) and all(THOUSANDS.fullmatch(cell) for cell in marked):
        raise NoCapture(f'{name} has times as {ascii(marked[0])}, with marks for thousands, it seems, or rounded to three digits; export them without, and with all digits')


def unit_of(table, period, name):
    """The unit of a column of times in ns: the one that its name says, or else the likeliest."""
    refuse_thousands(table, name)
    first = table.names[0] if table.names else ''
    bracket = TIME.fullmatch(first)
    word = bracket[1] if bracket else first
    if word:
        if word.lower() not in UNITS:
            raise NoCapture(f'{name} has times in {ascii(word)}, which is no unit that is known; name the first column with one, as Time [s]')
        return UNITS[word.lower()]
    if any(mark in cell for cell in table.first_cells() for mark in '.,eE'):
        return UNITS['seconds']
    if not told_rate(table.comments) and (first or not period):
        raise NoCapture(f'{name} does not say the unit of its times; name the first column with it, as Time [s]')
    # sigrok takes the largest one in which a sample takes a whole one.
    return next((UNITS[unit] for unit in ('seconds', 'milliseconds', 'microseconds', 'nanoseconds') if period >= UNITS[unit]), UNITS['picoseconds'])


def wire_names(table, count, has_cell):
    """The names of the data columns: their own, or sigrok's list of channels where it calls each column logic."""
    names, listed = table.names[has_cell:], channels(table.comments)
    if not names or set(names) == {'logic'}:
        names = listed if len(listed) == count else [f'column {place + 1 + has_cell}' for place in range(count)]
    return names


class Column:
    """A data column: its level, and in how many rows it had values and in how many it had not. The first of these is told, with its line."""

    def __init__(self):
        self.level, self.values, self.others, self.first_other, self.is_value = Level(), 0, 0, '', True

    def take(self, cell, time, number):
        self.is_value = cell in VALUES
        if self.is_value:
            self.level.take(VALUES[cell], time)
        else:
            self.first_other = self.first_other or f'{ascii(cell[:20])} in line {number}'

    def stood(self, rows):
        """The last cell has stood in so many rows."""
        self.values, self.others = self.values + rows * self.is_value, self.others + rows * (not self.is_value)

    def wire(self, name, of):
        """The wire of a column; nothing where most cells have other values, as those of a voltage."""
        if self.others >= max(self.values, 1):
            return None
        fault = f'{of}: column {ascii(name)} has {self.first_other}, which is neither 0 nor 1; the file is damaged' if self.others else None
        return self.level.wire(name, fault=fault)


def parted(line, separator, has_cell):
    """The first cell of a line, where it tells the time, and the rest; nothing for a rest that is not there."""
    if not has_cell:
        return '', line
    if '"' in line:
        first, *others = cells(line, separator)
        return first, separator.join(others) if others else None
    first, mark, rest = line.partition(separator)
    return first, rest if mark else None


def read_rows(table, clock, name):
    """Goes through the rows. Gives the data columns and the time of the last row, or nothing where there is none."""
    separator, width = table.separator, len(table.names or cells(table.rows[0][1], table.separator))
    columns = [Column() for _ in range(width - clock.has_cell)]
    time, before, since, index = None, None, 0, -1
    for index, (number, line) in enumerate(table.rows):
        first, rest = parted(line, separator, clock.has_cell)
        now = clock.time(first, index, f'{name}, line {number}')
        if time is not None and now < time:
            raise NoCapture(f'{name}, line {number}: the time goes back; the file is damaged')
        time = now
        # Of many rows that are alike the first one counts.
        if rest != before or not index:
            take_row(columns, rest, separator, f'{name}, line {number}', (time, number, index - since))
            before, since = rest, index
    for column in columns:
        column.stood(index + 1 - since)
    return columns, time


def take_row(columns, rest, separator, where, place):
    """Takes the cells of a row that differs from those before it; place is its time, its line, and how many rows the ones before it stood."""
    row, (time, number, rows) = cells(rest, separator) if rest is not None else [], place
    if len(row) != len(columns):
        raise NoCapture(f'{where} has {amount(len(row), "value")} where the first line has columns for {len(columns)}; the file is damaged or cut')
    for column, cell in zip(columns, row):
        column.stood(rows)
        column.take(cell, time, number)


def capture(text, name, rate):
    """The wires of a CSV. A column with hardly any value 0, 1, x or z is none: a voltage, say, or a mark."""
    table = table_of(text, name)
    rate = told_rate(table.comments) or rate
    period = Fraction(10 ** 9) / rate if rate else None
    clock = clock_of(table, period, name)
    columns, end = read_rows(table, clock, name)
    if end is None:
        raise NoCapture(f'{name} names columns and has no rows: it is cut, or nothing was recorded')
    names = wire_names(table, len(columns), clock.has_cell)
    wires = [wire for column, title in zip(columns, names) if (wire := column.wire(title, name))]
    if not wires:
        raise NoCapture(f'{name} has no column with values 0 and 1 alone: it is no capture, or one of voltages')
    return Capture(CSV, wires, period=period, end=end, remark=remark_on(table, clock))


def remark_on(table, clock):
    """What is said of times whose unit nothing tells."""
    has_unit = table.names and not re.fullmatch('time', table.names[0], re.IGNORECASE)
    return None if not clock.has_cell or clock.origin or has_unit or clock.scale != UNITS['seconds'] else 'nothing says the unit of its times; they are taken as seconds'
