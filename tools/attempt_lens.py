"""A gap enlarged, for a page of tools/show: from the last transition that fits, where the next one may come, and what came instead."""
from attempt_rows import quiet_words
from picture_heads import plural
from picture_style import ALARM, FAINT, FIT, FIT_EDGE, INK, LEFT, PALE, PAPER, QUIET_HATCH, RIGHT, Part, width_of
from telling import nearest_window

# The transition that the gap begins with stands here, and the axis goes this much beyond the quiet limit.
ZERO, BEYOND = LEFT + 1.3, 1.14
# Heights below the top of the part: what was found, the line, the windows' words.
FOUND, HIGH, LOW, FIRST, SECOND = 0.17, 0.28, 0.56, 0.72, 0.86
SIZE, FOUND_SIZE = 8, 9


def x_for(mode):
    width = (RIGHT - ZERO) / (mode.quiet * BEYOND)
    return lambda nanoseconds: ZERO + nanoseconds * width


def draw_windows(canvas, top, detail, x):
    """The windows: those that fit a page here filled, the others dashed; and where the line counts as quiet."""
    for count in range(1, 5):
        (low, high), fits = detail.mode.window(count), count in detail.walk.wanted
        colour, centre = FIT_EDGE if fits else FAINT, (x(low) + x(high)) / 2
        canvas.box(x(low), x(high), top - LOW, top - HIGH, FIT if fits else 'none', colour, dashed=not fits, width=1.2 if fits else 0.6)
        canvas.text(centre, top - FIRST, f'{low}-{high} ns', SIZE, colour, 'center', 'bold' if fits else 'normal')
        canvas.text(centre, top - SECOND, f'{plural(count, "position")}{": fits" if fits else ""}', SIZE - 1, colour, 'center')
    quiet = x(detail.mode.quiet)
    canvas.box(quiet, RIGHT, top - LOW, top - HIGH, PAPER, PALE, QUIET_HATCH, 0.4)
    canvas.text((quiet + RIGHT) / 2, top - FIRST, 'quiet from', SIZE - 1, FAINT, 'center')
    canvas.text((quiet + RIGHT) / 2, top - SECOND, f'{detail.mode.quiet} ns', SIZE - 1, FAINT, 'center')


def draw_gap(canvas, levels, detail, x):
    """The line up to the transition that missed the windows: where that stands, and the words."""
    missed, _, _, longest = nearest_window(detail.mode, detail.walk.wanted, detail.walk.missed)
    end, (before, after) = x(detail.walk.missed), levels
    canvas.line([ZERO, end, end, min(end + 0.3, RIGHT)], [after, after, before, before], ALARM, 2)
    return end, f'{detail.walk.missed} ns: {missed} ns too {"long" if detail.walk.missed > longest else "short"}'


def draw_cut(canvas, levels, detail, x):
    """The line that stays as it is; behind the end of a capture nothing is known."""
    is_known = detail.behind is not None
    end = min(RIGHT, x(detail.behind - detail.stopped)) if is_known else RIGHT
    canvas.line([ZERO, end], [levels[1]] * 2, detail.look.colour, 2 if is_known else 1, dashed=not is_known)
    return end, f'no transition: {quiet_words(detail)}'


def draw_found(canvas, top, detail, x):
    """The line from the last transition that fits on, and over it what came."""
    levels, y = (top - LOW + 0.05, top - HIGH - 0.05), top - FOUND - 0.06
    if len(detail.walk.at) % 2 == 0:
        levels = levels[::-1]
    is_gap = detail.attempt.ending == 'gap'
    colour = ALARM if is_gap else detail.look.colour
    canvas.line([ZERO - 0.3, ZERO, ZERO], [levels[0], *levels], INK, 1.2)
    end, words = (draw_gap if is_gap else draw_cut)(canvas, levels, detail, x)
    canvas.line([ZERO, end], [y, y], colour, 1.1)
    canvas.marks([ZERO], y, '<', 4, colour, colour)
    canvas.marks([end], y, '>', 4, colour, colour)
    left = min(end, RIGHT - width_of(words, FOUND_SIZE, 'bold')) if is_gap else ZERO
    canvas.text(left, top - FOUND + 0.02, words, FOUND_SIZE, colour, weight='bold')


def lens_part(detail):
    x = x_for(detail.mode)

    def draw(canvas, top):
        canvas.text(LEFT, top - 0.38, 'enlarged:', SIZE, FAINT)
        canvas.text(LEFT, top - 0.52, f'behind edge {len(detail.walk.at)},', SIZE, FAINT)
        canvas.text(LEFT, top - 0.66, f'position {detail.walk.at[-1]}', SIZE, FAINT)
        draw_windows(canvas, top, detail, x)
        draw_found(canvas, top, detail, x)
    return Part(SECOND + 0.1, draw)
