"""The legend of a picture: what its colours, lines and marks say, and how deep the cuts are."""

from pictures import path as paths
from pictures.plan import holds
from pictures.svg import BROWN, GREY, RED, TAN, length, mark, tag, text

LETTER, SWATCH, GAP, ROW = 6.6, 30, 22, 22


def legend(path, shades, shapes, frame, top):
    """The entries in rows, and where the last row ends."""
    left, right = frame.left, frame.left + frame.width
    drawn, x, y = [], left, top
    for sample, words in entries(path, shades, shapes, frame):
        wide = (SWATCH + 8 if sample else 0) + LETTER * len(words)
        if x > left and x + wide > right:
            x, y = left, y + ROW
        if sample:
            drawn.append(sample(x, y))
            x += SWATCH + 8
        drawn.append(text(x, y + 4, words))
        x += LETTER * len(words) + GAP
    return drawn, y + ROW / 2


def entries(path, shades, shapes, frame):
    yield from depths(path, shades)
    yield None, cutters(path)
    kinds = {piece.kind for piece in path.pieces if piece.start and not piece.is_upright}
    if paths.RAPID in kinds:
        yield line(GREY, 1.3, "5 4"), "rapid moves"
    if paths.LOW in kinds:
        yield line(RED, 2, "5 4"), "rapid, down or below the cuts"
    found = paths.marks_of(path.pieces)
    if found.drops:
        yield centred("drop"), "rapid, straight down"
    if found.plunges:
        yield centred("plunge"), "straight down"
    if found.holes:
        yield centred("hole"), "holes"
    if path.surfaces:
        yield line("#8c8c8c", 0.9), "drive and check surfaces"
    named = {kind for kind, _ in shapes}
    if "boss" in named:
        yield block(TAN, BROWN), "bosses"
    if "bore" in named:
        yield line(BROWN, 3), "bores"
    if "edge" in named:
        yield line("#222222", 3), "edges"
    if path.origin and holds(frame, path.origin):
        yield centred("from"), "FROM"
    yield centred("start"), "start"
    yield centred("end"), "end"


def depths(path, shades):
    """The heights of the cuts: each, or of many the highest and the deepest."""
    colour = shades.stroke if path.knows_cutter and paths.cutters_of(path.pieces) else shades.line
    if shades.has_shades:
        for z in shades.levels:
            yield block(colour(z), shades.line(z)), f"z {length(z, path.scale)}"
    elif shades.levels:
        for z in (shades.levels[0], shades.levels[-1]):
            yield block(colour(z), shades.line(z)), f"z {length(z, path.scale)}"
        yield None, f"{len(shades.levels)} heights"


def cutters(path):
    if not path.knows_cutter:
        return "a tape does not tell its cutter: this is the path of its centre"
    sizes = [length(cutter, path.scale) for cutter in paths.cutters_of(path.pieces)]
    if not sizes:
        return "no cutter's diameter is given"
    return f"cutter {', '.join(sizes)}"


def line(colour, width, dashes=None):
    return lambda x, y: tag("path", d=f"M{x} {y}h{SWATCH}", stroke=colour, stroke_width=width, stroke_dasharray=dashes)


def block(fill, edge):
    return lambda x, y: tag("rect", x=x + 4, y=y - 7, width=SWATCH - 8, height=14, fill=fill, stroke=edge)


def centred(kind):
    return lambda x, y: mark(kind, x + SWATCH / 2, y)
