"""The colours of heights: the deeper a cut, the darker it is."""

from dataclasses import dataclass

from pictures import path as paths

# from the highest cut to the deepest: of strokes as wide as the cutter, and of lines
STROKE_ENDS = ((205, 228, 243), (92, 152, 205))
LINE_ENDS = ((52, 124, 186), (8, 45, 105))
MOST_SHADES = 8


@dataclass
class Heights:
    """The heights of cuts, the greatest first. So many as can be told apart have a shade each, by their rank."""

    levels: list

    @property
    def has_shades(self):
        return len(self.levels) <= MOST_SHADES

    def share(self, z):
        """0 for the highest, 1 for the deepest."""
        if len(self.levels) < 2:
            return 0.5
        if not self.has_shades:
            return min(1, max(0, (self.levels[0] - z) / (self.levels[0] - self.levels[-1])))
        for rank, (upper, lower) in enumerate(zip(self.levels, self.levels[1:])):
            if z >= lower:
                return min(1, max(0, rank + (upper - z) / (upper - lower)) / (len(self.levels) - 1))
        return 1

    def stroke(self, z):
        return mixed(*STROKE_ENDS, self.share(z))

    def line(self, z):
        return mixed(*LINE_ENDS, self.share(z))


def mixed(first, last, share):
    return "#" + "".join(f"{round(a + (b - a) * share):02x}" for a, b in zip(first, last))


def heights_of(pieces):
    """The heights of a path: where cuts are level or straight down, and where none is, all ends of cuts."""
    levels = paths.heights_of(pieces)
    if not levels:
        ends = [piece.end[2] for piece in pieces if piece.kind == paths.CUT]
        levels = sorted({*ends[:1], *(pick(ends) for pick in (min, max) if ends)}, reverse=True)
    return Heights(levels)


def layers(pieces, heights):
    """The cuts as lists of pieces of one height and one cutter each, the highest first, so that the deepest lie on top.

    A cut aslant is divided into parts of one shade.
    """
    found = {}
    many = len(pieces) > 20000
    for piece in pieces:
        if piece.kind != paths.CUT or piece.start is None:
            continue
        if piece.is_upright or piece.is_level or many:
            found.setdefault((min(piece.start[2], piece.end[2]), piece.cutter), []).append((piece.start, piece.end))
            continue
        for z, start, end in parts_of(piece, heights):
            found.setdefault((z, piece.cutter), []).append((start, end))
    return sorted(found.items(), key=lambda layer: (-layer[0][0], -(layer[0][1] or 0)))


def parts_of(piece, heights):
    """The parts of a cut aslant, each with its middle height."""
    (x, y, z), (u, v, w) = piece.start, piece.end
    count = max(1, round(12 * abs(heights.share(z) - heights.share(w))))
    for n in range(count):
        one, two = n / count, (n + 1) / count
        middle = z + (w - z) * (one + two) / 2
        yield middle, *((x + (u - x) * at, y + (v - y) * at, middle) for at in (one, two))
