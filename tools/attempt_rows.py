"""The rows of an attempt in a page of tools/show: a stretch of the line over time, under it the kinds of its transitions, the bits and the fields, and
what went wrong where it did."""
from typing import NamedTuple

from attempt_details import Detail, due_bits, explained_by
from line_modes import CHECK_BITS, END, FIRST_CLOCK, LAST_CLOCK, POSITIONS, WORD_BITS, number_of, read_bits
from page_fields import BASE_FIELDS, MESSAGE_PAGE, NEXT_FIELDS, message_name, rate_words
from picture_heads import plural
from picture_style import ALARM, FAINT, FIT, FIT_EDGE, INK, LEFT, PALE, PAPER, QUIET_HATCH, RIGHT, Part, brief_time, nice_step, width_of
from telling import nearest_window, place_words

# The line stands so far from the left, and goes on so far behind a row's last transition.
LEAD, ON = 0.16, 0.1
# The lanes of a row, as distances from the top of the line: the line itself, the marks, the bits, the fields with their bits, the times.
WAVE, MARKS, BITS, FIELDS_TOP, FIELDS, RANGES, FIELDS_BOTTOM, TICKS, TIMES = 0.25, 0.32, 0.49, 0.53, 0.65, 0.76, 0.79, 0.82, 0.93
# What is told above the line, and the lane of check bits that were due, take more.
ABOVE, DUE, BELOW = 0.29, 0.17, 0.09
BIT_SIZE, FIELD_SIZE, SMALL, TELL_SIZE = 8, 7.5, 6.5, 9
# More transitions than this in a row are no page's, and are drawn as a block.
MOST_DROPPED = 400
LONG_NAMES = {'S': 'selector S', 'E': 'echoed nonce E', 'T': 'nonce T'}
WRONG = '#ffd0d0'
# The line where nobody reads it.
DROPPED = '#9a9a9a'


class Row(NamedTuple):
    """A row: its attempt, its first and last positions, how wide a position is, the height of the line's top, and the room for check bits due."""
    detail: Detail
    first: int
    last: int
    unit: float
    top: float
    due: float

    @property
    def begin(self):
        return self.detail.when[self.first]

    @property
    def is_final(self):
        return self.last == self.detail.walk.at[-1]

    def x(self, time):
        return LEFT + LEAD + (time - self.begin) / self.detail.mode.spacing * self.unit

    def y(self, lane):
        """The height of a lane. Those below the bits give way to the check bits that were due."""
        return self.top - lane - (self.due if lane > BITS else 0)

    def places(self):
        """The places among the 64 bits that stand in this row and are known, each with the two times that it stands between."""
        when, found = self.detail.when, {}
        for place in range(len(self.detail.walk.bits())):
            clock = FIRST_CLOCK + 2 * place
            if self.first <= clock < self.last:
                # Behind the last transition of an attempt the next clock may be missing.
                found[place] = when[clock], when[clock + 2] if clock + 2 in when else when[clock + 1] + self.detail.mode.spacing
        return found


def wave(times, level, x, y_low, y_high):
    """The points of a line that changes its level at these times."""
    xs, ys = [], []
    for time in times:
        xs += [x(time)] * 2
        ys += [y_high if level else y_low, y_low if level else y_high]
        level = not level
    return xs, ys


def draw_line(canvas, row):
    """The band and the line up to the last transition that fits, going on a little at both sides."""
    detail = row.detail
    positions = [position for position in detail.walk.at if row.first <= position <= row.last]
    number, times = detail.walk.at.index(positions[0]), [detail.when[position] for position in positions]
    bottom, top = row.y(WAVE), row.y(0)
    canvas.box(row.x(times[0]), row.x(times[-1]), bottom, top, detail.look.tint)
    low, high = bottom + 0.04, top - 0.04
    xs, ys = wave(times, number % 2, row.x, low, high)
    on = 0 if row.is_final else ON
    canvas.line([xs[0] - ON, *xs, xs[-1] + on], [ys[0], *ys, ys[-1]], INK, 0.9)


def draw_marks(canvas, row):
    """What each transition is."""
    at = [position for position in row.detail.walk.at if row.first <= position <= row.last]
    kinds = (('|', INK, [position for position in at if position < FIRST_CLOCK]),
             ('^', PAPER, [position for position in at if FIRST_CLOCK <= position <= LAST_CLOCK and position % 2]),
             ('o', INK, [position for position in at if FIRST_CLOCK < position < END and position % 2 == 0]),
             ('s', INK, [position for position in at if position >= END]))
    for shape, fill, positions in kinds:
        if positions:
            canvas.marks([row.x(row.detail.when[position]) for position in positions], row.y(MARKS), shape, 4.2 if shape == '|' else 3.4, fill)


def draw_bits(canvas, row):
    """The bits between their clocks, ones in bold."""
    bits = row.detail.walk.bits()
    for place, (before, after) in row.places().items():
        colour, weight = (INK, 'bold') if bits[place] else (FAINT, 'normal')
        canvas.text((row.x(before) + row.x(after)) / 2, row.y(BITS), str(bits[place]), BIT_SIZE, colour, 'center', weight)


def draw_due(canvas, row):
    """Under check bits that are wrong those that were due, the ones that differ on a ground of their own."""
    bits, y = row.detail.walk.bits(), row.y(BITS) - DUE
    for due, read, (before, after) in zip(due_bits(bits), bits[WORD_BITS:], row.places().values()):
        left, right = row.x(before), row.x(after)
        if due != read:
            canvas.box(left, right, y - 0.03, row.y(BITS) + 0.12, WRONG, ALARM)
        canvas.text((left + right) / 2, y, str(due), BIT_SIZE, FAINT if due == read else ALARM, 'center')
    left = row.x(row.detail.when[END]) + 0.06
    canvas.text(left, row.y(BITS), 'read', BIT_SIZE)
    canvas.text(left, y, 'due', BIT_SIZE, ALARM, weight='bold')


def value_words(name, value, count):
    """A field's value as it is read best: lists of bits in hexadecimal, numbers in decimal."""
    if name == 'code':
        return message_name(value)
    digits = {11: 3, CHECK_BITS: 4, 32: 8}.get(count)
    return f'{value:0{digits}x} hex' if digits else str(value)


def field_texts(name, value, count, word):
    """What may stand in a field, the longest first. Of a single bit the value stands above it."""
    if name.startswith('abilities'):
        return f'{name}: {rate_words(word)}', f'{name} = {value:x} hex', name
    words = value_words(name, value, count)
    return (f'{LONG_NAMES.get(name, name)} = {words}', f'{name} = {words}', name) if count > 1 else (name,)


def fitted(texts, width):
    """The longest text that fits at the usual size, or the last one as small as it takes."""
    for text in texts:
        if width_of(text, FIELD_SIZE) <= width:
            return text, FIELD_SIZE
    return texts[-1], max(5.0, FIELD_SIZE * width / width_of(texts[-1], FIELD_SIZE))


def fields_of(detail):
    """The fields of an attempt's bits: name, first place, how many; those of the word, and the check bits behind them."""
    fields = NEXT_FIELDS if detail.is_next else BASE_FIELDS
    if detail.is_next and not number_of(detail.walk.bits()) & MESSAGE_PAGE:
        # An unformatted page has bits of its message where a message page has its code.
        fields = (('D0-10', *NEXT_FIELDS[0][1:]), *NEXT_FIELDS[1:])
    return [*fields, ('check bits', WORD_BITS, CHECK_BITS)]


def range_words(lowest, count):
    if lowest >= WORD_BITS:
        return 'S15-S0, S15 first'
    return f'D{lowest}' if count == 1 else f'D{lowest}-D{lowest + count - 1}'


def draw_field(canvas, row, span, texts, small):
    left, right = span
    canvas.box(left, right, row.y(FIELDS_BOTTOM), row.y(FIELDS_TOP), PAPER, FAINT)
    text, size = fitted(texts, right - left - 0.03)
    canvas.text((left + right) / 2, row.y(FIELDS), text, size, align='center')
    if width_of(small, SMALL) <= right - left:
        canvas.text((left + right) / 2, row.y(RANGES), small, SMALL, FAINT, 'center')


def draw_fields(canvas, row):
    """The fields under their bits. Of one that is not whole only the name is told."""
    detail, places = row.detail, row.places()
    bits = detail.walk.bits()
    word = number_of(bits[:WORD_BITS])
    for name, lowest, count in fields_of(detail):
        mine = [place for place in range(lowest, lowest + count) if place in places]
        if not mine:
            continue
        span = row.x(places[mine[0]][0]), row.x(places[mine[-1]][1])
        value = number_of(bits[lowest:lowest + count]) if lowest < WORD_BITS else read_bits(bits)[1] if len(bits) == WORD_BITS + CHECK_BITS else 0
        texts = field_texts(name, value, count, word) if len(mine) == count else (f'{name}, not whole', f'{name} ..')
        draw_field(canvas, row, span, texts, range_words(lowest, count))
    if row.first == 1 and len(detail.walk.at) > 1:
        last = min(FIRST_CLOCK, row.last) if FIRST_CLOCK in detail.when else row.last
        draw_field(canvas, row, (row.x(row.begin), row.x(detail.when[last])), ('delimiter', ''), '')
    if row.last == POSITIONS:
        draw_field(canvas, row, (row.x(detail.when[END]), row.x(detail.when[POSITIONS])), ('end',), '')


def draw_times(canvas, row, right):
    """The times under the row, up to a place."""
    spacing = row.detail.mode.spacing
    step = nice_step(spacing / row.unit * 0.85)
    origin, y = row.detail.edges[0], row.y(TICKS)
    first = -(-(row.begin - origin) // step)
    behind = int((right - row.x(origin)) / row.unit * spacing // step) + 1
    ticks = [origin + number * step for number in range(first, behind)]
    canvas.line([row.x(row.begin), right], [y, y], PALE, 0.6)
    canvas.verticals([row.x(time) for time in ticks], y - 0.03, y, FAINT, 0.6)
    for time in ticks:
        canvas.text(row.x(time), row.y(TIMES), brief_time(time - origin) if time > origin else '0', SMALL, FAINT, 'center')


def draw_windows(canvas, row):
    """Where the next transition could have come."""
    stopped = row.detail.stopped
    for count in row.detail.walk.wanted:
        low, high = row.detail.mode.window(count)
        canvas.box(row.x(stopped + low), row.x(stopped + high), row.y(WAVE), row.y(0), FIT, FIT_EDGE)


def tell(canvas, row, x, words, colour=ALARM, is_marked=True):
    """Words above the line, near a place but within the sheet, and a mark that points at the place."""
    half = width_of(words, TELL_SIZE, 'bold') / 2
    canvas.text(min(max(x, LEFT + half), RIGHT - half), row.y(0) + 0.11, words, TELL_SIZE, colour, 'center', 'bold')
    if is_marked:
        canvas.marks([x], row.y(0) + 0.045, 'v', 5, colour, colour)


def draw_dropped(canvas, row, since, level):
    """What was dropped behind an attempt, in grey from its last edge on, as far as there is room."""
    times = row.detail.dropped()
    inside = [time for time in times if row.x(time) <= RIGHT]
    bottom, top = row.y(WAVE) + 0.04, row.y(0) - 0.04
    start, end = row.x(since), RIGHT if len(inside) < len(times) else min(RIGHT, row.x(times[-1]) + ON)
    if len(inside) > MOST_DROPPED:
        canvas.box(start, end, bottom, top, PALE)
    else:
        xs, ys = wave(inside, level, row.x, bottom, top)
        flat = top if level else bottom
        canvas.line([start, *xs, end], [flat, *ys, ys[-1] if ys else flat], DROPPED, 0.8)
    words = f'{plural(len(times), "edge")} dropped' + (f', the last {len(times) - len(inside)} not drawn' if len(inside) < len(times) else '')
    # Behind a data transition its one stands a little further on.
    left = start + (0.24 if row.last % 2 == 0 and row.last > FIRST_CLOCK else 0.12)
    # Where there is no room it stands in the attempt's head alone.
    if left + width_of(words, FIELD_SIZE) <= RIGHT:
        canvas.text(left, row.y(BITS), words, FIELD_SIZE, FAINT)


def draw_end_of_page(canvas, row):
    """Behind a whole page: the line stays, or edges are dropped."""
    detail = row.detail
    level = len(detail.walk.at) % 2
    if detail.told.dropped:
        draw_dropped(canvas, row, detail.stopped, level)
    else:
        y = row.y(0) - 0.04 if level else row.y(WAVE) + 0.04
        canvas.line([row.x(detail.stopped), row.x(detail.stopped) + ON], [y, y], INK, 0.9)


def draw_gap(canvas, row):
    """The gap that fits no page: the windows, the transition that missed them, and what was found."""
    detail = row.detail
    found, level = detail.edges[len(detail.walk.at)], len(detail.walk.at) % 2
    canvas.box(row.x(detail.stopped), row.x(found), row.y(WAVE), row.y(0), WRONG)
    draw_windows(canvas, row)
    bottom, top = row.y(WAVE) + 0.04, row.y(0) - 0.04
    xs, ys = wave([found], level, row.x, bottom, top)
    canvas.line([row.x(detail.stopped), *xs], [ys[0], *ys], ALARM, 2)
    canvas.marks([xs[0]], row.y(MARKS), 'X', 6, ALARM, ALARM)
    _, count, low, high = nearest_window(detail.mode, detail.walk.wanted, detail.walk.missed)
    tell(canvas, row, (row.x(detail.stopped) + xs[0]) / 2, f'gap of {detail.walk.missed} ns, where {low}-{high} ns fits ({plural(count, "position")})')
    if detail.told.dropped:
        draw_dropped(canvas, row, found, not level)


def quiet_words(detail):
    if detail.behind is None:
        return 'the capture ends'
    return f'quiet for {brief_time(detail.behind - detail.stopped)}' + (', up to the end of the capture' if detail.is_last else '')


def draw_cut(canvas, row):
    """The quiet line behind the last transition, up to the next attempt where that is near. Behind the end of a capture nothing is known."""
    detail = row.detail
    is_known = detail.behind is not None
    left, right = row.x(detail.stopped), min(RIGHT, row.x(detail.behind)) if is_known else RIGHT
    if is_known:
        canvas.box(left, right, row.y(WAVE), row.y(0), PAPER, PALE, QUIET_HATCH, 0.4)
    draw_windows(canvas, row)
    y = row.y(0) - 0.04 if len(detail.walk.at) % 2 else row.y(WAVE) + 0.04
    canvas.line([left, right], [y, y], detail.look.colour, 2 if is_known else 1, dashed=not is_known)
    if is_known and not detail.is_last and RIGHT - right > 1:
        canvas.line([right, right], [row.y(WAVE), row.y(0)], INK, 0.9)
        canvas.text(right, row.y(BITS), f'attempt {detail.attempt.number + 1} opens', FIELD_SIZE, FAINT)
    reached = f'position {detail.walk.at[-1]} of {POSITIONS}'
    tell(canvas, row, left, f'it came to {reached}, {place_words(detail.walk.at[-1])}: then {quiet_words(detail)}', detail.look.colour)


def draw_check(canvas, row):
    """What was read and what was due, over the check bits."""
    word, check = read_bits(row.detail.walk.bits())
    due = number_of(reversed(due_bits(row.detail.walk.bits())))
    place, centre = explained_by(row.detail.walk.bits()), (row.x(row.begin) + row.x(row.detail.when[END])) / 2
    words = f'check bits {check:04x} were read; to the word {word:012x} belong {due:04x}'
    if place is not None and place >= WORD_BITS:
        change, name = change_at(row, place)
        words += f': one transition {change} at {name} would explain it'
    tell(canvas, row, centre, words, is_marked=False)
    draw_end_of_page(canvas, row)


def change_at(row, place):
    """What must have become of a bit's transition, and the bit's name."""
    name = f'D{place}' if place < WORD_BITS else f'S{WORD_BITS + CHECK_BITS - 1 - place}'
    return 'added' if row.detail.walk.bits()[place] else 'lost', name


def draw_explanation(canvas, row, place):
    """The one bit that would explain wrong check bits. Of a check bit the words stand with those."""
    before, after = row.places()[place]
    canvas.box(row.x(before), row.x(after), row.y(WAVE), row.y(0), 'none', ALARM, width=1.6)
    if place < WORD_BITS:
        change, name = change_at(row, place)
        tell(canvas, row, (row.x(before) + row.x(after)) / 2, f'one transition {change} here, at {name}, would explain it')


ENDS = {'good': draw_end_of_page, 'gap': draw_gap, 'cut': draw_cut, 'check': draw_check}


def draw_row(canvas, row, place):
    right = RIGHT if row.is_final and row.detail.attempt.ending in ('gap', 'cut') else row.x(row.detail.when[row.last])
    # The ground of wrong check bits lies under them.
    for draw in (draw_line, draw_marks, *([draw_due] if row.due else []), draw_bits, draw_fields):
        draw(canvas, row)
    draw_times(canvas, row, right)
    if row.is_final:
        ENDS[row.detail.attempt.ending](canvas, row)
    if place in row.places():
        draw_explanation(canvas, row, place)


def row_part(detail, first, last, unit):
    """A row of an attempt, with room above it where something is told there."""
    is_check, is_final = detail.attempt.ending == 'check', last == detail.walk.at[-1]
    place = explained_by(detail.walk.bits()) if is_check else None
    is_told = is_final and detail.attempt.ending != 'good' or place is not None and first <= FIRST_CLOCK + 2 * place < last
    above, due = ABOVE * is_told, DUE * (is_check and is_final)

    def draw(canvas, top):
        draw_row(canvas, Row(detail, first, last, unit, top - above, due), place)
    return Part(above + TIMES + due + BELOW, draw)
