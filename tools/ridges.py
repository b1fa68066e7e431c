"""Where material is left between the passes of a pocket or of a step, by the motions of a CL file.

Two passes are neighbours where the tool goes from the one to the other without leaving their height, so that what
stands between them is no wall; where they run beside each other, along parallel lines or round one centre; and where
not both have their drive surface on the side of the other. What is wider than the cutter is taken for a part of the
work. A spot between neighbours is told where no cut of the part comes, at their height or lower: it is exactly, by
integers, at least half the diameter off the path of every cut. Spots are looked at half way between two passes that
are further apart than their cutters are wide, and in the inner corners of the outer one.
"""

import math
from dataclasses import dataclass
from fractions import Fraction

import clfile
from measure import height, path_of, place_of, track_of
from walls import NEAR, cross, dot, is_on_arc, way

# a spot is so many grid units beyond the edge of what is cut
BEYOND = 4
# where it is looked between two passes, as shares of the way on which they run beside each other
SHARES = [Fraction(n, 12) for n in (6, 4, 8, 2, 10, 1, 11)]


@dataclass(frozen=True)
class Ridge:
    """Two passes, how far their tracks are apart, and a spot between them to which no cut comes."""

    one: clfile.Motion
    other: clfile.Motion
    apart: float
    spot: tuple


@dataclass(frozen=True)
class Pass:
    """A leg beside its surface: at which distance its track is, and on which side the pass leaves nothing standing.

    Distances are to the left of the lines of one direction, or from a centre; the free side is 1 where they grow.
    """

    leg: clfile.Motion
    track: float
    free: int

    @property
    def surface(self):
        """Where its drive surface is."""
        return self.track - self.free * self.leg.settings.half


def ridges(motions):
    """All ridges, a pair of passes once."""
    bed = Bed(motions)
    every = {height_: groups_of(legs) for height_, legs in legs_by_height(motions).items()}
    for stretch in stretches(motions):
        for key, passes in groups_of(stretch).items():
            level = passes[0].leg.points[0][2]
            for inner, outer in neighbours(passes, every[level][key]):
                spot = next((spot for spot in spots_between(inner, outer, stretch) if bed.is_left(spot, level)), None)
                if spot:
                    yield Ridge(inner.leg, outer.leg, outer.track - inner.track, spot)


def legs_by_height(motions):
    legs = {}
    for motion in motions:
        if motion.is_contour and place_of(motion):
            legs.setdefault(motion.points[0][2], []).append(motion)
    return legs


def neighbours(passes, every):
    """The pairs of passes that run beside each other, with no surface of another pass of the part between them."""
    for n, inner in enumerate(passes):
        for outer in passes[n + 1 :]:
            apart = outer.track - inner.track
            if apart >= 2 * (inner.leg.settings.half + outer.leg.settings.half):
                break
            if apart > NEAR and shared(inner, outer) and not any(stands_between(other, inner, outer) for other in every):
                yield inner, outer


def stands_between(other, inner, outer):
    """Whether the surface of another pass is a wall between two passes."""
    if not inner.track < other.surface < outer.track or any(abs(other.surface - one.surface) <= NEAR for one in (inner, outer)):
        return False
    return bool(shared(other, inner) or shared(other, outer))


def shared(one, other):
    """Where two passes run beside each other: points at their tracks' ends, or from where to where along their lines.

    Nothing where they do so for less than half of the shorter one.
    """
    if one.leg.drive.is_circle:
        centre = (one.leg.drive.x, one.leg.drive.y)
        directions = [way(centre, point) for leg in (one.leg, other.leg) for point in path_of(leg)]
        return [direction for direction in directions if is_on_arc(one.leg, direction) and is_on_arc(other.leg, direction)]
    (_, *direction), _ = direction_of(one.leg.drive)
    runs = [sorted(dot(direction, point) for point in (path_of(leg)[0], path_of(leg)[-1])) for leg in (one.leg, other.leg)]
    low, high = max(run[0] for run in runs), min(run[1] for run in runs)
    return (low, high) if 2 * (high - low) > min(run[1] - run[0] for run in runs) else ()


def stretches(motions):
    """The legs that are cut one behind the other without another height between them."""
    stretch = []
    for motion in motions:
        if not motion.is_contour and (motion.start is None or motion.start[2] != motion.points[-1][2]):
            yield stretch
            stretch = []
        elif motion.is_contour and place_of(motion):
            stretch.append(motion)
    yield stretch


def groups_of(legs):
    """The passes among legs by the direction of their lines or by their centre, ordered by their tracks."""
    groups = {}
    for leg in legs:
        key, sign = direction_of(leg.drive)
        if leg.drive.is_circle:
            found = Pass(leg, track_of(leg), -place_of(leg))
        else:
            base = -height(leg.drive, (0, 0)) / math.hypot(leg.drive.dx, leg.drive.dy)
            found = Pass(leg, sign * (base + track_of(leg)), sign * place_of(leg))
        groups.setdefault(key, []).append(found)
    return {key: sorted(passes, key=lambda found: found.track) for key, passes in groups.items()}


def direction_of(surface):
    """What parallel lines or circles about one centre have in common; of a line also whether it runs against it."""
    if surface.is_circle:
        return ("circle", surface.x, surface.y), 1
    common = math.gcd(surface.dx, surface.dy)
    direction = (surface.dx // common, surface.dy // common)
    sign = 1 if direction > (0, 0) else -1
    return ("line", sign * direction[0], sign * direction[1]), sign


def spots_between(inner, outer, stretch):
    """Where material may be left between two passes."""
    if inner.free < 0 and outer.free > 0:
        return
    apart = outer.track - inner.track
    if apart > inner.leg.settings.half + outer.leg.settings.half:
        yield from middles(inner, outer)
    for here, there in ((inner, outer), (outer, inner)):
        # the pass whose free side is that of the other, which has its surface on that side
        if here.free == there.free == (1 if there is outer else -1):
            yield from corners(here, stretch)


def middles(inner, outer):
    """Points half way between two passes, where they run beside each other."""
    half = (inner.track + inner.leg.settings.half + outer.track - outer.leg.settings.half) / 2
    surface = inner.leg.drive
    if surface.is_circle:
        for direction in shared(inner, outer):
            share = half / math.hypot(*direction)
            yield round(surface.x + share * direction[0]), round(surface.y + share * direction[1])
        return
    (_, *direction), _ = direction_of(surface)
    low, high = shared(inner, outer)
    square = dot(direction, direction)
    for share in SHARES:
        onwards, aside = float(low + share * (high - low)) / square, half / math.sqrt(square)
        yield round(onwards * direction[0] - aside * direction[1]), round(onwards * direction[1] + aside * direction[0])


def corners(a_pass, stretch):
    """The inner corners of what a pass and the ones before and behind it cut, on their free sides, and a little further."""
    number = next(n for n, leg in enumerate(stretch) if leg is a_pass.leg)
    for before, behind in zip(stretch[max(number - 1, 0) : number + 1], stretch[max(number, 1) : number + 2]):
        corner = path_of(before)[-1]
        if before is behind or behind.start is None or path_of(behind)[0] != corner:
            continue
        one, two = (free_side(leg, corner) for leg in (before, behind))
        # they turn to their free sides
        if cross(forward(before, corner), forward(behind, corner)) * cross(forward(before, corner), one) <= 0:
            continue
        share = (before.settings.half + BEYOND) / (1 + dot(one, two))
        yield round(corner[0] + share * (one[0] + two[0])), round(corner[1] + share * (one[1] + two[1]))


def free_side(leg, point):
    """The direction, of length 1, in which the free side of a leg lies at a point of its path."""
    surface = leg.drive
    direction = way((surface.x, surface.y), point) if surface.is_circle else (-surface.dy, surface.dx)
    sign = (-1 if surface.is_circle else 1) * place_of(leg) / math.hypot(*direction)
    return sign * direction[0], sign * direction[1]


def forward(leg, point):
    """The direction in which a leg runs at a point of its path."""
    if leg.drive.is_circle:
        x, y = way((leg.drive.x, leg.drive.y), point)
        return -leg.sense * y, leg.sense * x
    return leg.sense * leg.drive.dx, leg.sense * leg.drive.dy


class Bed:
    """All cuts of a part, each with its box."""

    def __init__(self, motions):
        cuts = [motion for motion in motions if motion.makes_a_move and not motion.is_rapid]
        self.cuts = [(motion, boxes(motion)) for motion in cuts]

    def is_left(self, spot, level):
        """Whether no cut comes to a spot at a height or lower."""
        for motion, ((left, right), (low, high)) in self.cuts:
            half = motion.settings.half
            if left - half < spot[0] < right + half and low - half < spot[1] < high + half:
                if any(is_near(spot, piece, half) for piece in pieces_below(motion, level)):
                    return False
        return True


def boxes(motion):
    return [(min(axis), max(axis)) for axis in zip(*path_of(motion))]


def pieces_below(motion, level):
    """The segments of a motion, seen from above, as far as they are at a height or lower."""
    points = ([motion.start] if motion.start else []) + list(motion.points)
    if len(points) == 1:
        points *= 2
    for start, end in zip(points, points[1:]):
        if min(start[2], end[2]) > level:
            continue
        if max(start[2], end[2]) > level:
            part = Fraction(level - start[2], end[2] - start[2])
            middle = tuple(a + part * (b - a) for a, b in zip(start, end))
            start, end = (start, middle) if start[2] < end[2] else (middle, end)
        yield start[:2], end[:2]


def is_near(spot, segment, half):
    """Whether a spot is nearer to a segment than half a diameter, exactly."""
    start, going = way(spot, segment[0]), way(*segment)
    whole = dot(going, going)
    along = -dot(start, going)
    if 0 < along < whole:
        return cross(start, going) ** 2 < half * half * whole
    nearest = start if along <= 0 else way(spot, segment[1])
    return dot(nearest, nearest) < half * half
