"""How far the legs of contours are off their tracks, in integers, as certify counts it (docs/CERTIFICATE.md, 'The numbers').

The track of a leg is its drive surface, moved by half the cutter's diameter to the cutter's side. What certify tells as
IN and OUT are the greatest distances of points past their tracks, towards the drive surface and away from it, over all
segments of all legs, in whole grid units, rounded up, and never below 0.
"""

from dataclasses import dataclass
from math import isqrt

LEFT, RIGHT = 1, 2
# a tolerance counts as at least one grid step
GRID_STEP = 8


@dataclass(frozen=True, slots=True)
class Deviations:
    """How far points lie past a track, inwards and outwards, in grid units rounded up."""

    inwards: int = 0
    outwards: int = 0

    def __or__(self, other):
        """Those of both paths."""
        return Deviations(max(self.inwards, other.inwards), max(self.outwards, other.outwards))


def counted(tolerance):
    return max(tolerance, GRID_STEP)


def place_of(motion):
    """Where the cutter goes: 1 left of a line or inside of a circle, -1 right of it or outside, 0 on the surface."""
    return {LEFT: motion.sense, RIGHT: -motion.sense}.get(motion.side, 0)


def track_of(motion):
    """The distance at which the track runs: to the left of the line, or from the circle's centre."""
    offset = place_of(motion) * motion.settings.half
    return motion.drive.radius - offset if motion.drive.is_circle else offset


def allowed(motion):
    """What the tolerances of a leg allow. On the surface itself the greater of both counts on both sides."""
    inner, outer = counted(motion.settings.intol), counted(motion.settings.outtol)
    return Deviations(inner, outer) if place_of(motion) else Deviations(max(inner, outer), max(inner, outer))


def path_of(motion):
    """The points of a motion seen from above, from where it starts."""
    return [point[:2] for point in ([motion.start] if motion.start else []) + list(motion.points)]


def deviations(motion):
    """How far a leg is off its track at most, over all points of its segments."""
    past = past_round if motion.drive.is_circle else past_along
    over, under = (max(0, distance) for distance in past(motion.drive, track_of(motion), path_of(motion)))
    # on the surface itself outside is the left of a line and what lies around a circle
    outside_is_over = place_of(motion) <= 0 if motion.drive.is_circle else place_of(motion) >= 0
    return Deviations(under, over) if outside_is_over else Deviations(over, under)


def past_along(line, track, path):
    """How far points lie past a track along a line, to its left and to its right. The ends of segments tell it."""
    heights = [height(line, point) for point in path]
    square = line.dx * line.dx + line.dy * line.dy
    return root_count_up(max(heights), square) - track, track + root_count_up(-min(heights), square)


def past_round(circle, track, path):
    """The same round a circle, away from its centre and towards it, where the foot of the centre may be nearer than the ends."""
    centre = (circle.x, circle.y)
    squares = [squared_distance(point, centre) for point in path]
    nearest = min(isqrt(min(squares)), *(foot_distance(centre, p, q) for p, q in zip(path, path[1:])))
    return root_up(max(squares)) - track, track - nearest


def height(line, point):
    """How far a point lies to the left of a line, times the length of its direction."""
    return line.dx * (point[1] - line.y) - line.dy * (point[0] - line.x)


def squared_distance(p, q):
    return (p[0] - q[0]) ** 2 + (p[1] - q[1]) ** 2


def foot_distance(centre, p, q):
    """How far a centre is from its foot on a segment, in whole units, rounded down; where it has none there, from an end."""
    along = (q[0] - p[0]) * (centre[0] - p[0]) + (q[1] - p[1]) * (centre[1] - p[1])
    whole = squared_distance(p, q)
    if not 0 < along < whole:
        return isqrt(squared_distance(p, centre))
    area = (q[0] - p[0]) * (centre[1] - p[1]) - (q[1] - p[1]) * (centre[0] - p[0])
    return isqrt(area * area // whole)


def root_up(square):
    """The root of a number, rounded up."""
    root = isqrt(square)
    return root + (root * root < square)


def root_count_up(height_, square):
    """The least number of times that a root is at least a height."""
    count = isqrt(height_ * height_ // square)
    if height_ <= 0:
        return -count
    return count + (count * count * square < height_ * height_)
