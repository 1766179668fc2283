"""The pictures in docs/pictures, one of each kind: made from the samples by tools/show, and compared with what it makes now."""
import pathlib
import re
import subprocess
import tempfile

from captures import NoCapture
from counting import counted
from picture_style import pixels

ROOT = pathlib.Path(__file__).resolve().parent.parent
FOLDER = ROOT / 'docs/pictures'
# Each call of tools/show: the sample, the picture, and what is said besides. A call may make an overview too.
CALLS = (('tired-hsm', 'tired-hsm.svg'),
         ('gap-hsm', 'gap-hsm.svg'),
         ('gap-hsm', 'gap-hsm.png'),
         ('cut-lsm', 'cut-lsm.svg'),
         ('check-hsm', 'check-hsm.svg'),
         ('model-lsm', 'model-lsm.svg', '--attempt', '6'))
# Processors round differently, so that numbers of an SVG, points of 1/72 inch, and the values of pixels, 0 to 255, may differ a little.
POINT, PIXEL = 0.01, 2
NUMBER = re.compile(r'-?\d+(?:\.\d+)?(?:e-?\d+)?')
# The names that matplotlib gives to shapes are made from their numbers, as these are before they are rounded.
SHAPE = re.compile(r'\b[hmp][0-9a-f]{10}\b')


def make_in(folder):
    """Has tools/show make all pictures in a folder."""
    for sample, picture, *options in CALLS:
        call = [ROOT / 'tools/show', ROOT / f'samples/{sample}.capture', '-o', folder / picture, *options]
        run = subprocess.run(call, capture_output=True, text=True)
        if run.returncode != 0:
            raise NoCapture(f'{picture} could not be made: {run.stderr.strip()}')


def make():
    FOLDER.mkdir(parents=True, exist_ok=True)
    make_in(FOLDER)
    return 0


def renamed(text):
    """An SVG with its shapes named by the order in which they come."""
    names = {}
    return SHAPE.sub(lambda found: names.setdefault(found[0], f'shape-{len(names)}'), text)


def is_near(mine, other):
    return mine == other or abs(float(mine) - float(other)) <= POINT


def svg_difference(mine, other):
    """Where two SVGs differ by more than rounding, in words, or nothing."""
    mine, other = renamed(mine), renamed(other)
    if NUMBER.split(mine) != NUMBER.split(other):
        return 'other shapes or words'
    far = [(here, there) for here, there in zip(NUMBER.findall(mine), NUMBER.findall(other)) if not is_near(here, there)]
    return f'{len(far)} other numbers, the first {far[0][0]} for {far[0][1]}' if far else None


def png_difference(mine, other):
    """By how much two PNGs differ, in words, or nothing."""
    mine, other = pixels(mine), pixels(other)
    if mine.shape != other.shape:
        return f'{mine.shape[1]} x {mine.shape[0]} pixels for {other.shape[1]} x {other.shape[0]}'
    apart = ((mine - other) ** 2).mean() ** 0.5
    return f'its pixels are {apart:.1f} apart, of 255, in the mean square' if apart > PIXEL else None


def faults(name, made):
    """What is wrong with a picture, or nothing."""
    mine, other = made / name, FOLDER / name
    if not mine.exists():
        return [f'docs/pictures/{name} is not made by tools/show --make-samples']
    if not other.exists():
        return [f'docs/pictures/{name} is missing: tools/show --make-samples makes it']
    difference = svg_difference(mine.read_text(), other.read_text()) if name.endswith('.svg') else png_difference(mine, other)
    return [f'docs/pictures/{name} is not what tools/show makes now: {difference}; tools/show --make-samples makes it anew'] if difference else []


def check():
    with tempfile.TemporaryDirectory() as folder:
        made = pathlib.Path(folder)
        make_in(made)
        names = sorted({path.name for place in (made, FOLDER) if place.exists() for path in place.iterdir()})
        return counted([faults(name, made) for name in names])
