"""What a CL file says of its part, for pages: its heads, its extents, its tools and their times, and its contours by statement."""

import math
from dataclasses import dataclass, field
from itertools import groupby

import clfile
import measure
from statements import statements_of

TURNS = {0: "off", 1: "CW", 2: "CCW"}


@dataclass(frozen=True)
class Unit:
    """The unit of lengths: its name, and how many decimals a grid unit has."""

    name: str
    places: int

    def shown(self, length):
        """A length in grid units as a decimal number, without zeros at its end."""
        digits = str(abs(length)).rjust(self.places + 1, "0")
        number = f"{digits[: -self.places]}.{digits[-self.places :]}".rstrip("0").rstrip(".")
        return "-" + number if length < 0 else number

    def point(self, point):
        return "(" + ", ".join(map(self.shown, point)) + ")"

    def range(self, low, high):
        return self.shown(low) if low == high else f"{self.shown(low)} to {self.shown(high)}"

    @property
    def of_grid(self):
        """A grid unit in words."""
        return f"{self.shown(1)} {self.name}"


INCH, MILLIMETRE = Unit("inch", 5), Unit("mm", 4)


@dataclass(frozen=True)
class Row:
    """The contour of a statement that was executed: its legs, and how far they are off their tracks."""

    line: int
    step: int
    statement: str
    drive: str
    check: str
    legs: int
    segments: int
    found: measure.Deviations
    allowed: measure.Deviations

    @property
    def share(self):
        """The greater share of what is allowed."""
        return max(self.found.inwards / self.allowed.inwards, self.found.outwards / self.allowed.outwards)


@dataclass
class Work:
    """What is cut with one tool, one cutter and one pair of tolerances."""

    settings: clfile.Settings
    feeds: set = field(default_factory=set)
    spindles: list = field(default_factory=list)
    contours: int = 0
    cuts: int = 0
    minutes: float = 0.0

    def add(self, motion, unit):
        """A cut more. The feed is in tenths of the unit per minute."""
        self.contours += motion.is_contour
        self.cuts += not motion.is_contour
        self.feeds.add(motion.settings.feed)
        if motion.settings.spindle not in self.spindles:
            self.spindles.append(motion.settings.spindle)
        self.minutes += length_of(motion) / 10 ** (unit.places - 1) / motion.settings.feed


@dataclass(frozen=True)
class Lowest:
    """The lowest height, and the line of the motion that comes to it first."""

    height: int
    line: int


@dataclass(frozen=True)
class Facts:
    """All that a page tells of the part."""

    title: str
    unit: Unit
    start: tuple | None
    start_line: int
    extents: tuple
    cut_extents: tuple
    lowest: Lowest | None
    rapid_moves: int
    rapid_length: float
    works: list
    rows: list

    @property
    def minutes(self):
        return sum(work.minutes for work in self.works)

    @property
    def segments(self):
        return sum(row.segments for row in self.rows)

    @property
    def worst(self):
        worst = measure.Deviations()
        for row in self.rows:
            worst |= row.found
        return worst


def facts_of(part, content):
    """What the CL file says, with the statements of the part's text."""
    records = clfile.read(content)
    unit = INCH if clfile.is_inch(records) else MILLIMETRE
    motions = list(clfile.motions(records))
    moves = [motion for motion in motions if motion.makes_a_move]
    cuts = [motion for motion in moves if not motion.is_rapid]
    rapids = [motion for motion in moves if motion.is_rapid]
    froms = [motion for motion in motions if not motion.makes_a_move]
    return Facts(
        title=clfile.title_of(records).strip(),
        unit=unit,
        start=froms[0].points[0] if froms else None,
        start_line=froms[0].line if froms else 0,
        extents=extents_of([(motion, 0) for motion in motions]),
        cut_extents=extents_of([(motion, motion.settings.half) for motion in cuts]),
        lowest=lowest_of(motions),
        rapid_moves=len(rapids),
        rapid_length=sum(map(length_of, rapids)),
        works=works_of(cuts, unit),
        rows=rows_of(motions, {statement.line: str(statement) for statement in statements_of(part)}, unit),
    )


def points_with_start(motion):
    return ([motion.start] if motion.start else []) + list(motion.points)


def length_of(motion):
    """How long the way of a motion is, in grid units; from nowhere it is none."""
    points = points_with_start(motion)
    return sum(map(math.dist, points, points[1:]))


def extents_of(motions):
    """The least and the greatest x, y and z of motions, each with its own margin in x and y; nothing where there are none."""
    if not motions:
        return ()
    boxes = [[(min(axis), max(axis)) for axis in zip(*points_with_start(motion))] for motion, _ in motions]
    margins = [(margin, margin, 0) for _, margin in motions]
    return tuple(
        (min(box[axis][0] - margin[axis] for box, margin in zip(boxes, margins)), max(box[axis][1] + margin[axis] for box, margin in zip(boxes, margins)))
        for axis in range(3)
    )


def lowest_of(motions):
    if not motions:
        return None
    height, _, line = min((point[2], number, motion.line) for number, motion in enumerate(motions) for point in motion.points)
    return Lowest(height, line)


def works_of(cuts, unit):
    """The cuts by tool, cutter and tolerances, in the order in which these come first."""
    works = {}
    for motion in cuts:
        settings = motion.settings
        key = (settings.tool, settings.cutter, settings.intol, settings.outtol)
        works.setdefault(key, Work(settings)).add(motion, unit)
    return list(works.values())


def rows_of(motions, statements, unit):
    contours = [motion for motion in motions if motion.is_contour]
    return [row_of(list(legs), statements, unit) for _, legs in groupby(contours, lambda motion: motion.step)]


def row_of(legs, statements, unit):
    found = measure.Deviations()
    for leg in legs:
        found |= measure.deviations(leg)
    first = legs[0]
    return Row(
        first.line,
        first.step,
        statements.get(first.line, ""),
        f"{clfile.SIDES[first.side]} {'of ' if first.side != 3 else ''}{surface_shown(first.drive, unit)}",
        f"{clfile.STOPS[first.stop]} {surface_shown(first.check, unit)}",
        len(legs),
        sum(len(leg.points) for leg in legs),
        found,
        measure.allowed(first),
    )


def surface_shown(surface, unit):
    """A line by two of its points, a circle by its centre and its radius."""
    if surface.is_circle:
        return f"circle {unit.point((surface.x, surface.y))} radius {unit.shown(surface.radius)}"
    return f"line {unit.point((surface.x, surface.y))} to {unit.point((surface.x + surface.dx, surface.y + surface.dy))}"


def spindle_shown(spindle):
    if spindle is None or spindle == (0, 0):
        return "off"
    return f"{spindle[0]} {TURNS[spindle[1]]}"


def tolerance_shown(tolerance, unit):
    """A tolerance, with what it counts as where that is more."""
    counted = measure.counted(tolerance)
    return unit.shown(tolerance) if counted == tolerance else f"{unit.shown(tolerance)} (counts as {unit.shown(counted)})"


def time_shown(minutes):
    seconds = math.ceil(60 * minutes)
    return f"{seconds // 60} min {seconds % 60} s" if seconds >= 60 else f"{seconds} s"
