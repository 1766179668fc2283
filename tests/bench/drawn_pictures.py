"""What stands in a picture that tools/show has drawn as SVG: its words, and the boxes of its lanes."""
import re
from typing import NamedTuple
from xml.etree import ElementTree

PATH = '{http://www.w3.org/2000/svg}path'


class Box(NamedTuple):
    """A box by its sides, in points from the left and from the top of the sheet."""
    left: float
    right: float
    top: float
    bottom: float


def texts(path):
    """The words in an SVG, which must be well-formed: matplotlib keeps them as comments beside the outlines of the letters."""
    ElementTree.parse(path)
    return re.findall(r'<!-- (.*?) -->', path.read_text())


def text_starts(path):
    """Where each text begins: the words, from the left, from the top."""
    found = re.findall(r'<!-- (.*?) -->\s*<g [^>]*translate\(([\d.]+) ([\d.]+)\)', path.read_text())
    return [(words, float(left), float(top)) for words, left, top in found]


def boxes(path):
    """All boxes in an SVG. Several may be one outline, each of them closed; letters and marks, which have names, are left out."""
    for outline in ElementTree.parse(path).iter(PATH):
        for part in [] if outline.get('id') else outline.get('d').split('z')[:-1]:
            points = re.findall(r'([\d.]+) ([\d.]+)', part)
            across, down = ([float(number) for number in numbers] for numbers in zip(*points))
            if len(points) == 4 and len(set(across)) == len(set(down)) == 2:
                yield Box(min(across), max(across), min(down), max(down))


def bands_by_lane(path, name):
    """Of each lane with this name, from the top on: its ground, which goes from its name to the right side, and the bands on it, as high as it is."""
    found = list(boxes(path))
    for _, left, top in [start for start in text_starts(path) if start[0] == name]:
        # The sheet is a box too, but begins left of all names.
        ground = max((box for box in found if box.left > left and box.top < top < box.bottom), key=lambda box: box.right - box.left)
        yield ground, sorted(box for box in found if (box.top, box.bottom) == (ground.top, ground.bottom) and box != ground)
