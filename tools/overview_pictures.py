"""An overview of tools/show: all attempts of a capture along the time, in rows of equal time. Each ending has a lane of its own, a colour and a
hatch, so that no one has to tell colours apart. Where there are too many attempts for a band each, bars say how many there are, and a single
bad attempt among a thousand good ones is still a mark."""
from typing import NamedTuple

from matplotlib.patches import PathPatch, Polygon
from matplotlib.path import Path

from overview_time import Track
from picture_heads import Subject, title_part
from picture_style import FAINT, INK, LEFT, LOOKS, PALE, PAPER, QUIET_HATCH, RIGHT, Part, brief_time, drawn, nice_step, width_of, wrapped
from ranges import in_ranges
from telling import time_words

# A row has so many attempts, and an overview at most so many rows; then rows get fuller, and beyond the last number attempts are counted by columns.
IN_ROW, MOST_ROWS, MOST_BANDS = 30, 12, 1800
# Words stand to the left of the rows.
BEGIN = LEFT + 1.45
NUMBERS, LANE, ONLY_LANE, TIMES, BETWEEN = 0.14, 0.15, 0.24, 0.16, 0.14
COLUMNS, LEAST_WIDTH, LEAST_BAD = 96, 0.025, 0.05
# The bars of columns have so many heights, and the least is still seen: that of bad attempts, which may be few, from afar.
STEPS, LEAST_STEP, LEAST_BAD_STEP = 8, 3, 6
NUMBER_SIZE, TIME_SIZE, LABEL_SIZE, LEGEND_SIZE = 7, 6.5, 7.5, 8
MOST_NAMED = 60
GROUND = '#f3f3f3'


class Sheet(NamedTuple):
    """What all rows share: the capture, the time along, how much of it a row has, the endings that have lanes, and whether attempts are counted."""
    subject: Subject
    track: Track
    length: float
    endings: list
    is_counted: bool

    @property
    def lane(self):
        return LANE if len(self.endings) > 1 else ONLY_LANE

    def hatch(self, ending):
        """The hatch of an ending; narrow bands would only be torn by it."""
        is_roomy = len(self.subject.told) <= IN_ROW * MOST_ROWS
        return LOOKS[ending].hatch if is_roomy else ''


class Row(NamedTuple):
    """A row: where it begins along the time, the height of its top, and its attempts."""
    sheet: Sheet
    start: float
    top: float
    attempts: list

    def x(self, place):
        """Where a place stands, no further than the row goes."""
        share = min(max((place - self.start) / self.sheet.length, 0), 1)
        return BEGIN + share * (RIGHT - BEGIN)

    def lane_bottom(self, ending):
        return self.top - NUMBERS - self.sheet.lane * (self.sheet.endings.index(ending) + 1)

    @property
    def bottom(self):
        return self.top - NUMBERS - self.sheet.lane * len(self.sheet.endings)

    def span(self, attempt):
        """From where to where an attempt is drawn: up to its last edge that counts."""
        times, told = self.sheet.subject.listing.times, self.sheet.subject.told[attempt.number - 1]
        left = self.x(self.sheet.track.place(times[attempt.first]))
        right = self.x(self.sheet.track.place(times[attempt.behind - 1 - told.dropped]))
        least = LEAST_WIDTH if attempt.ending == 'good' else LEAST_BAD
        return min(left, RIGHT - least), min(RIGHT, max(right, left + least))

    def dropped_span(self, attempt):
        """From where to where edges were dropped behind an attempt, or nothing."""
        end = self.x(self.sheet.track.place(self.sheet.subject.listing.times[attempt.behind - 1]))
        begin = self.span(attempt)[1]
        return (begin, end) if self.sheet.subject.told[attempt.number - 1].dropped and end > begin else None

    def beginning(self):
        """The attempts that begin in this row."""
        times, track = self.sheet.subject.listing.times, self.sheet.track
        return [attempt for attempt in self.attempts if track.place(times[attempt.first]) >= self.start]


def boxes(spans, bottom, top):
    """Many boxes of one height as one outline, which takes a tenth of the bytes."""
    corners = [corner for left, right in spans for corner in ((left, bottom), (left, top), (right, top), (right, bottom), (left, bottom))]
    return Path(corners, [Path.MOVETO, Path.LINETO, Path.LINETO, Path.LINETO, Path.CLOSEPOLY] * len(spans))


def draw_bands(canvas, row):
    """Each attempt as a band in the lane of its ending, and what was dropped behind it as a thin one."""
    for ending in row.sheet.endings:
        colour, hatch, bottom, lane = LOOKS[ending].colour, row.sheet.hatch(ending), row.lane_bottom(ending), row.sheet.lane
        mine = [attempt for attempt in row.attempts if attempt.ending == ending]
        dropped = [span for span in map(row.dropped_span, mine) if span]
        if dropped:
            canvas.axes.add_patch(PathPatch(boxes(dropped, bottom + lane * 0.4, bottom + lane * 0.6), facecolor=PALE, linewidth=0))
        if mine:
            canvas.axes.add_patch(PathPatch(boxes(list(map(row.span, mine)), bottom + 0.015, bottom + lane - 0.015), facecolor=colour,
                                            edgecolor=PAPER if hatch else colour, hatch=hatch or None, linewidth=0))


def columns(row, ending):
    """How many attempts of an ending begin in each column of a row."""
    counts, times, track = [0] * COLUMNS, row.sheet.subject.listing.times, row.sheet.track
    for attempt in row.attempts:
        if attempt.ending == ending:
            counts[min(int((track.place(times[attempt.first]) - row.start) / row.sheet.length * COLUMNS), COLUMNS - 1)] += 1
    return counts


def bar_points(counts, most, least, bottom, height):
    """The outline of the bars, column by column; the end brings it back to the bottom."""
    points, before = [(BEGIN, bottom)], 0
    for number, count in enumerate([*counts, 0]):
        step = 0 if not count else max(least, -(-STEPS * count // most))
        if step != before:
            x = BEGIN + (RIGHT - BEGIN) * number / COLUMNS
            points += [(x, bottom + height * before / STEPS), (x, bottom + height * step / STEPS)]
        before = step
    return points


def draw_columns(canvas, row, most):
    """How many attempts there are along the row, lane by lane."""
    for ending in row.sheet.endings:
        counts = columns(row, ending)
        if any(counts):
            look, least = LOOKS[ending], LEAST_STEP if ending == 'good' else LEAST_BAD_STEP
            points = bar_points(counts, most, least, row.lane_bottom(ending) + 0.01, row.sheet.lane - 0.02)
            canvas.axes.add_patch(Polygon(points, closed=True, facecolor=look.colour, edgecolor='none', linewidth=0))


class Label(NamedTuple):
    """Words at a place, centred."""
    x: float
    words: str
    size: float
    colour: str
    weight: str = 'normal'


def placed(labels):
    """Those labels that do not run into one another; the first ones have their place before the others."""
    taken = []
    for label in labels:
        # Most of many thousand labels stand where one is already, and need not be measured.
        if any(left < label.x < right for left, right in taken):
            continue
        half = width_of(label.words, label.size, label.weight) / 2 + 0.025
        left, right = label.x - half, label.x + half
        if left >= BEGIN - 0.15 and right <= RIGHT + 0.15 and all(right <= begin or left >= end for begin, end in taken):
            taken.append((left, right))
            yield label


def draw_labels(canvas, labels, y):
    for label in placed(labels):
        canvas.text(label.x, y, label.words, label.size, label.colour, 'center', label.weight)


def draw_numbers(canvas, row):
    """The attempts' numbers as far as there is room, those of bad ones first; where attempts are counted, only those."""
    beginning = row.beginning()
    labels = [Label(sum(row.span(attempt)) / 2, str(attempt.number), NUMBER_SIZE, LOOKS[attempt.ending].colour, 'bold')
              for attempt in beginning if attempt.ending != 'good']
    if not row.sheet.is_counted:
        labels += [Label(sum(row.span(attempt)) / 2, str(attempt.number), NUMBER_SIZE, INK) for attempt in beginning if attempt.ending == 'good']
    draw_labels(canvas, labels, row.top - NUMBERS + 0.035)


def draw_words(canvas, row):
    """To the left of a row when it begins, which attempts it has, and the names of its lanes, each on a ground of its own."""
    time = row.sheet.track.time(int(row.start)) - row.sheet.subject.listed.origin
    canvas.text(LEFT, row.top - NUMBERS - 0.1, time_words(time), LABEL_SIZE, weight='bold')
    beginning = row.beginning()
    if beginning:
        canvas.text(LEFT, row.top - NUMBERS - 0.23, in_ranges(range(beginning[0].number, beginning[-1].number + 1)), LABEL_SIZE, FAINT)
    for ending in row.sheet.endings:
        bottom, lane = row.lane_bottom(ending), row.sheet.lane
        canvas.box(BEGIN, RIGHT, bottom + 0.015, bottom + lane - 0.015, GROUND)
        canvas.text(BEGIN - 0.08, bottom + lane / 2, ending, LABEL_SIZE, LOOKS[ending].colour, 'right', 'bold', 'center_baseline')


def draw_silences(canvas, row):
    """The silences that are cut down: from where to where each is drawn, and its length as a label for the lane of the times."""
    found = []
    for begin, end, length in row.sheet.track.silences_between(row.start, row.start + row.sheet.length):
        left, right = row.x(begin), row.x(end)
        canvas.box(left, right, row.bottom, row.top - NUMBERS, PAPER, FAINT, QUIET_HATCH, 0)
        found.append((left, right, Label((left + right) / 2, f'{brief_time(length)} quiet', TIME_SIZE, INK)))
    return found


def draw_times(canvas, row):
    """The times under a row, counted from its beginning. Behind the first silence that is cut down they are no times, and the marks only a scale."""
    silences = draw_silences(canvas, row)
    first = min([left for left, _, _ in silences], default=RIGHT)
    step = nice_step(row.sheet.length / (RIGHT - BEGIN) * 0.9)
    ticks = [(row.x(row.start + place), place) for place in range(0, int(row.sheet.length) + 1, step)]
    canvas.line([BEGIN, RIGHT], [row.bottom] * 2, PALE, 0.6)
    canvas.verticals([x for x, _ in ticks if not any(left < x < right for left, right, _ in silences)], row.bottom - 0.03, row.bottom, FAINT, 0.6)
    labels = [label for _, _, label in silences] + [Label(x, f'+{brief_time(place)}', TIME_SIZE, FAINT) for x, place in ticks[1:] if x <= first]
    draw_labels(canvas, labels, row.bottom - 0.12)


def row_part(sheet, start, attempts, most):
    def draw(canvas, top):
        row = Row(sheet, start, top, attempts)
        draw_words(canvas, row)
        draw_times(canvas, row)
        if sheet.is_counted:
            draw_columns(canvas, row, most)
        else:
            draw_bands(canvas, row)
        draw_numbers(canvas, row)
    return Part(NUMBERS + sheet.lane * len(sheet.endings) + TIMES + BETWEEN, draw)


def attempts_by_row(sheet, count):
    """The attempts of each row: those that begin in it, and where they are not counted, those that reach into it."""
    times, rows = sheet.subject.listing.times, [[] for _ in range(count)]
    for attempt in sheet.subject.listing.attempts:
        begin, end = (min(int(sheet.track.place(times[edge]) / sheet.length), count - 1) for edge in (attempt.first, attempt.behind - 1))
        for number in range(begin, begin + 1 if sheet.is_counted else end + 1):
            rows[number].append(attempt)
    return rows


def most_in_column(sheet, rows):
    """The most attempts of one ending in a column."""
    return max(max(columns(Row(sheet, sheet.length * number, 0, attempts), ending)) for number, attempts in enumerate(rows) for ending in sheet.endings)


def bad_lines(listing):
    """The numbers of the bad attempts, the first ones where there are many."""
    bad = [attempt.number for attempt in listing.attempts if attempt.ending != 'good']
    more = f' and {len(bad) - MOST_NAMED} more' if len(bad) > MOST_NAMED else ''
    return wrapped(f'bad (--attempt N draws one): {in_ranges(bad[:MOST_NAMED])}{more}', RIGHT - LEFT, LEGEND_SIZE) if bad else []


def scale_words(sheet, most):
    """How an overview is to be read."""
    length, track = brief_time(int(sheet.length)), sheet.track
    if track.silences:
        yield f'a row is {length} long without what silences are cut down by, and its times count from its beginning'
        yield f'a silence of more than {brief_time(track.longest)} is cut down to {brief_time(track.kept)} and hatched'
    else:
        yield f'a row is {length} long, and its times count from its beginning'
    if sheet.is_counted:
        yield f'the height of a bar is the number of attempts that begin there, {most} at the most'
    elif any(told.dropped for told in sheet.subject.told):
        yield 'a thin grey band is of edges that were dropped'


def legend_part(sheet, drawn_in, most):
    """What the lanes are, how many attempts each has, and which attempts to look at."""
    lines = bad_lines(sheet.subject.listing)
    lines += wrapped('; '.join([*scale_words(sheet, most), drawn_in]), RIGHT - LEFT, LEGEND_SIZE)

    def draw(canvas, top):
        canvas.line([LEFT, RIGHT], [top] * 2, PALE, 0.6)
        x, y = LEFT, top - 0.17
        for ending, look in LOOKS.items():
            words = f'{ending}: {look.words} ({sheet.subject.counts[ending]})'
            hatch = sheet.hatch(ending)
            canvas.box(x, x + 0.25, y - 0.06, y + 0.07, look.colour, PAPER if hatch else look.colour, hatch, 0.3)
            canvas.text(x + 0.31, y, words, LEGEND_SIZE, level='center_baseline')
            x += 0.52 + width_of(words, LEGEND_SIZE)
        for number, line in enumerate(lines):
            canvas.text(LEFT, top - 0.4 - 0.165 * number, line, LEGEND_SIZE, INK)
    return Part(0.3 + 0.165 * len(lines), draw)


def overview(subject, numbers, page_name):
    """The figure of all attempts; those with these numbers are drawn in detail in the picture that is named."""
    listing = subject.listing
    count = min(-(-len(listing.attempts) // IN_ROW), MOST_ROWS)
    track = Track(listing, count)
    sheet = Sheet(subject, track, max(track.length, 1) / count, [ending for ending in LOOKS if subject.counts[ending]],
                  len(listing.attempts) > MOST_BANDS)
    rows = attempts_by_row(sheet, count)
    most = most_in_column(sheet, rows) if sheet.is_counted else 1
    detail = f'in detail in {page_name}: {in_ranges(numbers)}'
    parts = [row_part(sheet, sheet.length * number, attempts, most) for number, attempts in enumerate(rows)]
    return drawn([title_part(subject, ['overview of all attempts']), Part(0.1, lambda canvas, top: None), *parts, legend_part(sheet, detail, most)])
