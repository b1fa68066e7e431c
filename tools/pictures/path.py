"""The path of a CL file or of a tape, as pictures draw it: straight pieces, what is red in it, its marks and heights."""

import math
from dataclasses import dataclass, field, replace

import acts
import clfile

CUT, RAPID, LOW = "cut", "rapid", "low"


@dataclass(frozen=True, slots=True)
class Piece:
    """A straight piece of the path, to its end. The cutter's diameter is None where nothing tells it.

    No piece leads from a place that the control doesn't know: where the start is None only the end is known.
    """

    start: tuple | None
    end: tuple
    kind: str
    cutter: int | None = None
    record: int = 0

    @property
    def is_level(self):
        return self.start is not None and self.start[2] == self.end[2]

    @property
    def is_upright(self):
        return self.start is not None and self.start[:2] == self.end[:2]


@dataclass
class Path:
    """The pieces, the place of FROM, and the drive and check surfaces, each once."""

    is_inch: bool
    pieces: list
    origin: tuple | None = None
    surfaces: list = field(default_factory=list)
    knows_cutter: bool = False

    @property
    def scale(self):
        """How many grid units an inch or a millimetre has."""
        return 100000 if self.is_inch else 10000

    @property
    def unit(self):
        return "inches" if self.is_inch else "millimetres"

    @property
    def start(self):
        """Where the first move leads: a control does not know where it comes from."""
        return next((piece.end for piece in self.pieces), None)


@dataclass
class Marks:
    """Places that have a mark: cuts straight down, rapid moves straight down, and holes."""

    plunges: list = field(default_factory=list)
    drops: list = field(default_factory=list)
    holes: list = field(default_factory=list)


def path_of_cl(records):
    """The path of a CL file's records, with its cutters and surfaces."""
    pieces, surfaces, origin = [], {}, None
    for motion in clfile.motions(records):
        if motion.reach == clfile.FROM:
            origin = motion.points[0]
            continue
        kind = RAPID if motion.is_rapid else CUT
        for start, end in zip([motion.start, *motion.points], motion.points):
            pieces.append(Piece(start, end, kind, motion.settings.cutter, motion.record))
        for surface in (motion.drive, motion.check):
            if surface:
                surfaces[surface] = True
    return Path(clfile.is_inch(records), with_low(pieces), origin, list(surfaces), True)


def path_of_tape(lines):
    """The path of a tape's acts. Arcs have a point for each five degrees."""
    is_inch = next((line == "UNITS INCH" for line in lines if line.startswith("UNITS")), True)
    pieces, place = [], None
    for move in acts.moves_of(lines):
        for end in points_of_arc(place, move) if move.centre else [move.place]:
            pieces.append(Piece(place, end, RAPID if move.is_rapid else CUT, None, move.act))
            place = end
    return Path(is_inch, with_low(pieces))


def points_of_arc(start, move):
    """Points on the way round a centre, and the end. The ends need not be equally far from the centre."""
    cx, cy = move.centre
    before = math.atan2(start[1] - cy, start[0] - cx)
    way = math.atan2(move.place[1] - cy, move.place[0] - cx) - before
    # ends in one direction are no turn
    if move.turn == "CCW" and way < -1e-12:
        way += 2 * math.pi
    if move.turn == "CW" and way > 1e-12:
        way -= 2 * math.pi
    near, far = math.hypot(start[0] - cx, start[1] - cy), math.hypot(move.place[0] - cx, move.place[1] - cy)
    count = int(abs(way) / math.pi * 36 + 0.5) + 1
    for n in range(1, count):
        radius, angle = near + (far - near) * n / count, before + way * n / count
        yield (cx + radius * math.cos(angle), cy + radius * math.sin(angle), move.place[2])
    yield move.place


def with_low(pieces):
    """The pieces, where rapid moves are low that go down, or level below the end of the last cut or of the next one.

    The first move is not judged: a tape does not tell where it comes from.
    """
    ahead, heights = None, []
    for piece in reversed(pieces):
        heights.append(ahead)
        if piece.kind == CUT:
            ahead = piece.end[2]
    heights.reverse()
    behind, judged = None, []
    for number, (piece, ahead) in enumerate(zip(pieces, heights)):
        if piece.kind == CUT:
            behind = piece.end[2]
        elif number and is_low(piece, behind, ahead):
            piece = replace(piece, kind=LOW)
        judged.append(piece)
    return judged


def is_low(piece, behind, ahead):
    before, height = piece.start[2], piece.end[2]
    return height < before or (height == before and any(cut is not None and height < cut for cut in (behind, ahead)))


def marks_of(pieces):
    """The marks of moves straight down. Three moves that are a hole are one mark."""
    marks, over, was = Marks(), None, None
    for piece in pieces:
        if not piece.is_upright:
            over, was = None, piece
            continue
        if piece.end[2] < piece.start[2]:
            (marks.drops if piece.kind == LOW else marks.plunges).append(piece)
        elif piece.kind == RAPID and over == piece.end[2]:
            marks.holes.append(marks.plunges.pop())
        goes_down = piece.end[2] < piece.start[2] and piece.kind == CUT
        over = piece.start[2] if goes_down and was is not None and was.kind != CUT else None
        was = piece
    return marks


def heights_of(pieces):
    """The heights at which level cuts and cuts straight down end, the greatest first."""
    return sorted({piece.end[2] for piece in pieces if piece.kind == CUT and is_depth(piece)}, reverse=True)


def is_depth(piece):
    if piece.start is None:
        return False
    if piece.is_upright:
        return piece.end[2] < piece.start[2]
    return piece.is_level


def cutters_of(pieces):
    """The diameters of the strokes, in the order of their use, in grid units."""
    return list(dict.fromkeys(piece.cutter for piece in pieces if piece.kind == CUT and piece.cutter))


def distance(point, one, two):
    """How far a point is from a piece from one place to another, in x and y."""
    (x, y), (u, v) = one[:2], two[:2]
    long = (u - x) ** 2 + (v - y) ** 2
    share = min(1, max(0, ((point[0] - x) * (u - x) + (point[1] - y) * (v - y)) / long)) if long else 0
    return math.dist(point, (x + share * (u - x), y + share * (v - y)))
