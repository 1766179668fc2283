"""A page of tools/show: single attempts in detail. Each has its head, what tools/list tells of it, and the line in up to three rows, to one scale: the
delimiter and D0-D15, D16-D47, and the check bits with the end of the page. Where it failed is marked on the line; a gap or a quiet line is drawn
once more, enlarged, with the windows in which a transition may come."""
from attempt_details import details_of
from attempt_lens import lens_part
from attempt_rows import DROPPED, LEAD, ON, row_part
from line_modes import FIRST_CLOCK
from picture_heads import plural, title_part
from picture_style import FAINT, FIT, FIT_EDGE, INK, LEFT, PALE, PAPER, QUIET_HATCH, RIGHT, Part, brief_time, drawn, width_of, wrapped
from ranges import in_ranges
from telling import time_words

# The longest row of a page has so many positions, and there must be room behind it for a gap that fits no page: up to the quiet limit.
LONGEST, BEHIND = 64, 6
HEAD_SIZE, WORDS_SIZE, LEGEND_SIZE = 10, 8.5, 7.5
LINE = 0.165


def head_words(detail):
    """The words for the two sides of an attempt's head."""
    attempt, edges = detail.attempt, len(detail.edges)
    left = f'attempt {attempt.number}   {attempt.ending.upper()}' + (f'   {attempt.word:012x}' if attempt.ending == 'good' else '')
    right = f'at {time_words(detail.told.began)}, {plural(edges, "edge")} over {brief_time(detail.edges[-1] - detail.edges[0])}'
    which = 'other gaps' if attempt.ending == 'gap' else 'gaps'
    return left, right + (f', {which} up to {detail.worst()} ns off ({detail.mode.tolerance} allowed)' if len(detail.walk.at) > 1 else '')


def told_lines(detail):
    """What is told of an attempt, in lines, and how its fields are meant where nothing says so."""
    words = detail.told.words + (f'; {plural(detail.told.dropped, "edge")} dropped after it' if detail.told.dropped else '')
    if detail.attempt.ending != 'good' and detail.walk.at[-1] > FIRST_CLOCK + 1:
        words += f' (fields as of a {"Next" if detail.is_next else "base"} page)'
    return wrapped(words, RIGHT - LEFT, WORDS_SIZE)


def head_part(detail):
    left, right = head_words(detail)
    lines = told_lines(detail)

    def draw(canvas, top):
        canvas.box(LEFT, RIGHT, top - 0.25, top, detail.look.colour)
        canvas.text(LEFT + 0.1, top - 0.175, left, HEAD_SIZE, PAPER, weight='bold')
        canvas.text(RIGHT - 0.1, top - 0.175, right, HEAD_SIZE - 1, PAPER, 'right')
        for number, line in enumerate(lines):
            canvas.text(LEFT, top - 0.41 - LINE * number, line, WORDS_SIZE)
    return Part(0.36 + LINE * len(lines) + 0.04, draw)


def unit_for(details):
    """How wide a position is drawn: every row of every attempt fits, and all have one scale."""
    spans = [(detail.when[last] - detail.when[first]) / detail.mode.spacing + BEHIND * (last == detail.walk.at[-1])
             for detail in details for first, last in detail.rows()]
    return (RIGHT - LEFT - LEAD - ON) / max([LONGEST + BEHIND, *spans])


def attempt_parts(detail, unit):
    yield head_part(detail)
    yield from (row_part(detail, first, last, unit) for first, last in detail.rows())
    if detail.attempt.ending in ('gap', 'cut'):
        yield lens_part(detail)
    yield Part(0.16, lambda canvas, top: None)


def legend_part():
    """What the marks mean."""
    marks = [('|', INK, 'delimiter'), ('^', PAPER, 'clock'), ('o', INK, 'data: a one'), ('s', INK, 'end of the page')]

    def draw(canvas, top):
        canvas.line([LEFT, RIGHT], [top, top], PALE, 0.6)
        x, y = LEFT + 0.06, top - 0.16
        for shape, fill, words in marks:
            canvas.marks([x], y, shape, 4.5, fill)
            canvas.text(x + 0.1, y, words, LEGEND_SIZE, level='center_baseline')
            x += 0.32 + width_of(words, LEGEND_SIZE)
        for fill, edge, hatch, words in ((FIT, FIT_EDGE, None, 'where a transition fits a page'), (PAPER, PALE, QUIET_HATCH, 'quiet')):
            canvas.box(x, x + 0.2, y - 0.05, y + 0.05, fill, edge, hatch)
            canvas.text(x + 0.27, y, words, LEGEND_SIZE, level='center_baseline')
            x += 0.5 + width_of(words, LEGEND_SIZE)
        canvas.line([x, x + 0.07, x + 0.07, x + 0.14, x + 0.14, x + 0.2], [y - 0.05] * 2 + [y + 0.05] * 2 + [y - 0.05] * 2, DROPPED, 0.8)
        canvas.text(x + 0.27, y, 'dropped until the line is quiet', LEGEND_SIZE, level='center_baseline')
        canvas.text(RIGHT, y, 'times count from the beginning of the attempt', LEGEND_SIZE, FAINT, 'right', level='center_baseline')
    return Part(0.26, draw)


def empty_part(subject):
    """What is drawn where there is no attempt at all."""
    def draw(canvas, top):
        canvas.line([LEFT, RIGHT], [top - 0.3, top - 0.3], INK, 1)
        canvas.text((LEFT + RIGHT) / 2, top - 0.22, f'the line has no edges: no attempt to read a page as {subject.mode.name}', 10, align='center')
    return Part(0.5, draw)


def page(subject, numbers, overview):
    """The figure of the attempts with these numbers; overview is the name of the picture that has all, where these are not all."""
    details = details_of(subject, numbers)
    more = [f'drawn here: attempt{"s" * (len(numbers) != 1)} {in_ranges(numbers)} of {len(subject.told)}; all are in {overview}'] if overview else []
    unit = unit_for(details)
    parts = [part for detail in details for part in attempt_parts(detail, unit)] or [empty_part(subject)]
    return drawn([title_part(subject, more), Part(0.08, lambda canvas, top: None), *parts, legend_part()])
