"""How pictures of captures look, and how they are written: what the pages and overviews of tools/show share. A picture is made of parts, one under
the other, each with its height; all lengths are inches. The same capture gives the same picture on every machine: matplotlib's own defaults and
its own font are used, whatever the machine has besides, and nothing that changes from run to run is written."""
import functools
import io
import logging
import os
from typing import Callable, NamedTuple

# What it would say of its folders and of the fonts of the machine does not matter here, and no screen is drawn on.
logging.getLogger('matplotlib').setLevel(logging.ERROR)
for variable in ('MPLBACKEND', 'MATPLOTLIBRC'):
    os.environ.pop(variable, None)
import matplotlib
from matplotlib import font_manager
from matplotlib.backends.backend_agg import FigureCanvasAgg
from matplotlib.backends.backend_svg import FigureCanvasSVG
from matplotlib.figure import Figure
from matplotlib.font_manager import FontProperties
from matplotlib.image import imread
from matplotlib.patches import Rectangle
from matplotlib.textpath import text_to_path

# A4 across: so wide is every picture, and so much of it stays free at each side.
WIDTH, MARGIN = 11.69, 0.36
LEFT, RIGHT = MARGIN, WIDTH - MARGIN
POINTS = 72
PNG_DPI = 120
INK, FAINT, PALE, PAPER = '#1a1a1a', '#5a5a5a', '#c8c8c8', '#ffffff'
FIT, FIT_EDGE = '#cfe8cf', '#2e7d32'
ALARM = '#c00000'
# A quiet line. (Dots would take a quarter of a megabyte in each SVG.)
QUIET_HATCH = '\\\\\\\\'
FONT = 'DejaVu Sans'
SETTINGS = {'font.family': [FONT], 'font.size': 8, 'text.parse_math': False, 'path.simplify': False, 'svg.fonttype': 'path', 'svg.hashsalt': 'maststep',
            'hatch.linewidth': 0.6, 'lines.solid_capstyle': 'butt', 'savefig.facecolor': PAPER}
TIME_UNITS = (('h', 3600 * 10 ** 9), ('min', 60 * 10 ** 9), ('s', 10 ** 9), ('ms', 10 ** 6), ('µs', 1000), ('ns', 1))


class Look(NamedTuple):
    """How an ending is drawn. Colour never tells it alone: its word stands beside it, and a hatch."""
    colour: str
    tint: str
    hatch: str
    words: str


LOOKS = {'good': Look('#22795b', '#e3f1ec', '', 'a page that was read'),
         'gap': Look('#b93c06', '#fbe6dc', '////', 'a gap that fits no page'),
         'cut': Look('#3456a3', '#e2e8f5', '||||', 'the line fell quiet inside a page'),
         'check': Look('#86307f', '#f3e3f2', 'xxxx', 'wrong check bits')}


class Part(NamedTuple):
    """A part of a picture: how high it is, and how it is drawn, given the canvas and the height of its top."""
    height: float
    draw: Callable


def prepare():
    """Takes matplotlib's own defaults instead of what the person or the folder has set, and only the font that it brings."""
    matplotlib.rcdefaults()
    matplotlib.rcParams.update(SETTINGS)
    own = os.path.join(matplotlib.get_data_path(), 'fonts', '')
    font_manager.fontManager.ttflist = [entry for entry in font_manager.fontManager.ttflist if entry.fname.startswith(own)]


@functools.lru_cache(4096)
def width_of(words, size, weight='normal'):
    """How wide words are."""
    return text_to_path.get_text_width_height_descent(words, FontProperties(FONT, size=size, weight=weight), False)[0] / POINTS


def printable(text):
    """A name of a file or a wire as the font can show it: what it cannot show stands as its number."""
    font = font_manager.get_font(font_manager.findfont(FONT))
    return ''.join(letter if letter.isprintable() and font.get_char_index(ord(letter)) else f'\\u{{{ord(letter):x}}}' for letter in text)


def shortened(text, width, size, weight='normal'):
    """A text that may be too wide, without its middle."""
    kept = len(text)
    short = text
    while width_of(short, size, weight) > width and kept > 2:
        kept -= 1 + kept // 20
        short = f'{text[:kept // 2]} .. {text[len(text) - kept // 2:]}'
    return short


def wrapped(text, width, size):
    """The lines of a text that is too wide for one."""
    lines, line = [], ''
    for word in text.split(' '):
        longer = f'{line} {word}' if line else word
        if line and width_of(longer, size) > width:
            lines.append(line)
            longer = word
        line = longer
    return [*lines, line]


def brief_time(nanoseconds):
    """A time as short as can be, to four digits: for axes and marks, where the list beside has every ns."""
    unit, scale = next(((unit, scale) for unit, scale in TIME_UNITS if nanoseconds >= scale), ('ns', 1))
    if unit in ('h', 'min'):
        smaller, part = ('min', scale // 60) if unit == 'h' else ('s', scale // 60)
        rest = nanoseconds % scale // part
        return f'{nanoseconds // scale} {unit}' + (f' {rest} {smaller}' if rest else '')
    return f'{float(f"{nanoseconds / scale:.4g}"):g} {unit}'


def nice_step(least):
    """The smallest of 1, 2, 5, 10, 20 .. ns that is no smaller than this."""
    scale = 1
    while True:
        for step in (scale, 2 * scale, 5 * scale):
            if step >= least:
                return step
        scale *= 10


class Canvas:
    """What is drawn on: one sheet with inches from its lower left corner."""

    def __init__(self, height):
        self.figure = Figure(figsize=(WIDTH, height), facecolor=PAPER)
        self.axes = self.figure.add_axes([0, 0, 1, 1])
        self.axes.set_xlim(0, WIDTH)
        self.axes.set_ylim(0, height)
        self.axes.set_axis_off()

    def text(self, x, y, words, size=8, colour=INK, align='left', weight='normal', level='baseline'):
        self.axes.text(x, y, words, fontsize=size, color=colour, ha=align, va=level, weight=weight)

    def box(self, left, right, bottom, top, fill, edge='none', hatch=None, width=0.6, dashed=False):
        """A filled box. The hatch is drawn in the colour of the edge."""
        self.axes.add_patch(Rectangle((left, bottom), right - left, top - bottom, facecolor=fill, edgecolor=edge, hatch=hatch or None, linewidth=width,
                                      linestyle='--' if dashed else '-'))

    def line(self, xs, ys, colour=INK, width=0.8, dashed=False):
        self.axes.plot(xs, ys, color=colour, linewidth=width, linestyle='--' if dashed else '-')

    def verticals(self, xs, bottom, top, colour=INK, width=0.8):
        """Many upright lines of one height, as one path."""
        nothing = float('nan')
        self.line([x for place in xs for x in (place, place, nothing)], [bottom, top, nothing] * len(xs), colour, width)

    def marks(self, xs, y, shape, size=3.0, fill=INK, edge=INK):
        self.axes.plot(xs, [y] * len(xs), linestyle='none', marker=shape, markersize=size, markerfacecolor=fill, markeredgecolor=edge,
                       markeredgewidth=0.6)


def drawn(parts):
    """A picture of parts, the first at the top."""
    height = sum(part.height for part in parts) + 2 * MARGIN
    canvas, top = Canvas(height), height - MARGIN
    for part in parts:
        part.draw(canvas, top)
        top -= part.height
    return canvas.figure


def picture(figure, ending):
    """The bytes of a picture as SVG or PNG."""
    content = io.BytesIO()
    if ending == 'svg':
        FigureCanvasSVG(figure).print_svg(content, metadata={'Date': None, 'Creator': None})
    else:
        figure.set_dpi(PNG_DPI)
        FigureCanvasAgg(figure).print_png(content, metadata={'Software': None})
    return content.getvalue()


def pixels(path):
    """The pixels of a PNG, each part of a colour 0 to 255."""
    return imread(path).astype(float) * 255
