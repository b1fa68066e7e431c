"""Where motions cut into the surfaces of other contours: by integers and fractions, over the motions of a CL file.

A wall is a drive surface that a contour leaves with its cutter beside it, as far as the contours of one height touch it.
A motion comes into it where its cutter's centre is nearer to it than half the diameter less INTOL (the reach of
docs/OUTLINE.md), with its foot on the wall, at the wall's height. That is told exactly. A contour may touch its surface
past a corner, in the air, and where passes go from the middle of a pocket to its walls the earlier ones leave none: so
a wall that a pass along a parallel surface takes away is none, and a cut that takes an end of the wall with it is not
told, unless the wall goes on there. Which ends go with it is told by points of the wall, an eighth of the reach apart.
"""

import math
from dataclasses import dataclass, field
from fractions import Fraction

import clfile
from measure import counted, height, path_of, place_of, squared_distance

# the ends of legs are near their tracks by so many grid units
NEAR = 16
TANTO = 4
# at most so many points of a leg are looked at
POINTS = 4000


@dataclass
class Wall:
    """A drive surface at one height, with the legs that run along it on one side."""

    surface: clfile.Surface
    place: int
    height: int
    legs: list = field(default_factory=list)

    @property
    def line(self):
        return self.legs[0].line

    @property
    def half(self):
        return max(leg.settings.half for leg in self.legs)


@dataclass(frozen=True)
class Cut:
    """A wall and the motions that cut into it side by side, with a place of the wall that they take."""

    wall: Wall
    motions: list
    spot: tuple


def reach_of(motion):
    """How near to a wall the centre may come."""
    return motion.settings.half - counted(motion.settings.intol)


def walls_of(motions):
    walls = {}
    for motion in motions:
        if motion.is_contour and place_of(motion):
            key = (motion.drive, place_of(motion), motion.points[0][2])
            walls.setdefault(key, Wall(*key)).legs.append(motion)
    return list(walls.values())


def pieces_at(motion, level):
    """The segments of a motion, seen from above, that are at a height; of one that only passes it the point there."""
    if motion.is_contour:
        path = path_of(motion) if motion.points[0][2] == level else []
        return list(zip(path, path[1:]))
    end = motion.points[-1]
    start = motion.start or end
    if start[2] == end[2]:
        return [(start[:2], end[:2])] if end[2] == level else []
    part = Fraction(level - start[2], end[2] - start[2])
    if not 0 <= part <= 1:
        return []
    point = tuple(a + part * (b - a) for a, b in zip(start[:2], end[:2]))
    return [(point, point)]


# ---- exactly: whether a segment comes nearer to a wall than a reach, with its foot on a leg of it


def dot(u, v):
    return u[0] * v[0] + u[1] * v[1]


def cross(u, v):
    return u[0] * v[1] - u[1] * v[0]


def way(p, q):
    return (q[0] - p[0], q[1] - p[1])


def comes_into(leg, segment, reach):
    return (into_circle if leg.drive.is_circle else into_line)(leg, segment, reach)


def along(line, point):
    """How far a point lies along a line from its base, times the length of its direction."""
    return line.dx * (point[0] - line.x) + line.dy * (point[1] - line.y)


def run_along(leg):
    """From where to where a leg touches its line."""
    ends = [along(leg.drive, point) for point in path_of(leg)]
    return min(ends), max(ends)


def into_line(leg, segment, reach):
    line, (low, high) = leg.drive, run_along(leg)
    here, there = (along(line, point) for point in segment)
    first, last = Fraction(0), Fraction(1)
    if here == there:
        if not low <= here <= high:
            return False
    else:
        first, last = sorted(Fraction(end - here, there - here) for end in (low, high))
        first, last = max(first, Fraction(0)), min(last, Fraction(1))
        if first > last:
            return False
    heights = [height(line, point) for point in segment]
    near = [heights[0] + part * (heights[1] - heights[0]) for part in (first, last)]
    nearest = 0 if min(near) <= 0 <= max(near) else min(map(abs, near))
    return nearest * nearest < reach * reach * (line.dx * line.dx + line.dy * line.dy)


def is_on_arc(leg, direction):
    """Whether a direction from the centre is one of those through which a leg turns."""
    centre = (leg.drive.x, leg.drive.y)
    first, last = (way(centre, point) for point in (path_of(leg)[0], path_of(leg)[-1]))
    return not comes_before(first, leg.sense, last, direction)


def comes_before(first, sense, one, other):
    """Whether, turning in a sense from the first direction, one comes before another."""
    (x, y), (v, w) = ((dot(first, direction), sense * cross(first, direction)) for direction in (one, other))
    halves = [0 if b > 0 or (b == 0 and a > 0) else 1 for a, b in ((x, y), (v, w))]
    return halves[0] < halves[1] if halves[0] != halves[1] else cross((x, y), (v, w)) > 0


def into_circle(leg, segment, reach):
    circle = leg.drive
    centre = (circle.x, circle.y)
    start, going = way(centre, segment[0]), way(*segment)
    rays = [way(centre, point) for point in (path_of(leg)[0], path_of(leg)[-1])]
    whole = dot(going, going)
    foot = Fraction(-dot(start, going), whole) if whole else Fraction(0)
    # through the centre a segment comes to the other side
    meets = [foot, *(Fraction(-cross(ray, start), cross(ray, going)) for ray in rays if cross(ray, going))]
    parts = sorted({Fraction(0), Fraction(1), *(part for part in meets if 0 < part < 1)})
    for first, last in zip(parts, parts[1:]):
        if not is_on_arc(leg, at(start, going, (first + last) / 2)):
            continue
        squares = [dot(point, point) for point in (at(start, going, part) for part in (first, last, min(max(foot, first), last)))]
        inner = max(circle.radius - reach, 0)
        if min(squares) < (circle.radius + reach) ** 2 and (max(squares) > inner * inner or inner == 0):
            return True
    return False


def at(start, going, part):
    return (start[0] + part * going[0], start[1] + part * going[1])


# ---- by points of a wall: which of its ends go with a cut


def points_of(leg, step):
    """Points of the surface at which a leg touches it, from its start to its end."""
    path = path_of(leg)
    surface = leg.drive
    if surface.is_circle:
        first, last = (math.atan2(p[1] - surface.y, p[0] - surface.x) for p in (path[0], path[-1]))
        turn = leg.sense * ((leg.sense * (last - first)) % (2 * math.pi))
        many = min(POINTS, max(2, math.ceil(abs(turn) * surface.radius / step)))
        angles = (first + turn * n / many for n in range(many + 1))
        return [(surface.x + surface.radius * math.cos(angle), surface.y + surface.radius * math.sin(angle)) for angle in angles]
    square = surface.dx**2 + surface.dy**2
    ends = [along(surface, point) / square for point in (path[0], path[-1])]
    many = min(POINTS, max(2, math.ceil(abs(ends[1] - ends[0]) * math.sqrt(square) / step)))
    shares = (ends[0] + (ends[1] - ends[0]) * n / many for n in range(many + 1))
    return [(surface.x + surface.dx * share, surface.y + surface.dy * share) for share in shares]


def distance(point, segment):
    """How far a point is from a segment."""
    start, end = segment
    whole = squared_distance(start, end)
    part = min(1, max(0, dot(way(start, point), way(start, end)) / whole)) if whole else 0
    return math.dist(point, at(start, way(start, end), float(part)))


def goes_on(wall, leg, at_end, motions):
    """Whether the wall goes on behind an end of a leg: tangentially to the next surface, or along another leg of it."""
    number = motions.index(leg) + (1 if at_end else -1)
    other = motions[number] if 0 <= number < len(motions) else None
    if other is not None and other.is_contour and place_of(other):
        before, behind = (leg, other) if at_end else (other, leg)
        if before.stop == TANTO and before.check == behind.drive:
            return True
    end = path_of(leg)[-1 if at_end else 0]
    return any(touches_at(another, end) for another in wall.legs if another is not leg)


def touches_at(leg, point):
    """Whether a leg touches its surface where a point near its track does."""
    if not leg.drive.is_circle:
        low, high = run_along(leg)
        slack = NEAR * math.hypot(leg.drive.dx, leg.drive.dy)
        return low - slack <= along(leg.drive, point) <= high + slack
    centre = (leg.drive.x, leg.drive.y)
    direction = way(centre, point)
    ends = [way(centre, end) for end in (path_of(leg)[0], path_of(leg)[-1])]
    is_at_end = any(dot(end, direction) > 0 and abs(cross(end, direction)) <= NEAR * math.hypot(*end) for end in ends)
    return is_at_end or is_on_arc(leg, direction)


# ---- what is told


def is_taken_away(wall, others):
    """Whether a pass along a parallel surface on the same side takes the wall away."""
    leg = wall.legs[0]
    middle = points_of(leg, math.inf)[1]
    for other in others:
        if other is wall or other.height != wall.height or other.surface.is_circle != wall.surface.is_circle:
            continue
        if 0 < depth_behind(wall, other) < 2 * other.half and any(touches_at(pass_, middle) for pass_ in other.legs):
            return True
    return False


def depth_behind(wall, other):
    """How far another wall lies behind this one, in its material; nothing where they are not parallel, or the sides differ."""
    one, two = wall.surface, other.surface
    if one.is_circle:
        is_alike = (one.x, one.y) == (two.x, two.y) and wall.place == other.place
        return wall.place * (two.radius - one.radius) if is_alike else 0
    directions = ((one.dx, one.dy), (two.dx, two.dy))
    if cross(*directions) or wall.place != (other.place if dot(*directions) > 0 else -other.place):
        return 0
    return -wall.place * height(one, (two.x, two.y)) / math.hypot(one.dx, one.dy)


@dataclass(frozen=True)
class Place:
    """A motion with its reach, its box seen from above, and its heights."""

    motion: clfile.Motion
    reach: int
    box: list
    low: int
    high: int


def places_of(motions):
    for motion in motions:
        heights = [point[2] for point in (motion.points[0], motion.start or motion.points[0])]
        if reach_of(motion) > 0:
            yield Place(motion, reach_of(motion), box_of(path_of(motion)), min(heights), max(heights))


def box_of(points):
    return [(min(axis), max(axis)) for axis in zip(*points)]


def are_apart(box, other, margin):
    return any(low - margin > other_high or high + margin < other_low for (low, high), (other_low, other_high) in zip(box, other))


def surface_box(leg):
    """A box in which a leg touches its surface."""
    if leg.drive.is_circle:
        return [(middle - leg.drive.radius, middle + leg.drive.radius) for middle in (leg.drive.x, leg.drive.y)]
    # its track is off the surface by half the cutter's diameter
    return [(low - leg.settings.half - NEAR, high + leg.settings.half + NEAR) for low, high in box_of(path_of(leg))]


def cuts_into(motions):
    """All cuts into walls, in the order of the walls."""
    motions = [motion for motion in motions if motion.makes_a_move]
    places = list(places_of(motions))
    walls = walls_of(motions)
    for wall in walls:
        for leg in wall.legs:
            near = list(pieces_near(wall, leg, places))
            if any(comes_into(leg, piece, reach_of(motion)) for motion, pieces in near for piece in pieces):
                if not is_taken_away(wall, walls):
                    yield from cuts_of_leg(wall, leg, near, motions)


def pieces_near(wall, leg, places):
    """The motions of others at a wall's height, each with its segments near a leg."""
    box = surface_box(leg)
    for place in places:
        if not place.low <= wall.height <= place.high or are_apart(box, place.box, place.reach):
            continue
        if place.motion.is_contour and place.motion.drive == wall.surface:
            continue
        pieces = [piece for piece in pieces_at(place.motion, wall.height) if not are_apart(box, box_of(piece), place.reach)]
        if pieces:
            yield place.motion, pieces


def cuts_of_leg(wall, leg, near, motions):
    """The stretches of a leg's surface that are cut into, but for those with an end behind which it does not go on."""
    points = points_of(leg, min(reach_of(motion) for motion, _ in near) / 8)
    takers = takers_of(points, leg, near)
    first = 0
    while first < len(points):
        if not takers[first]:
            first += 1
            continue
        last = first
        while last + 1 < len(points) and takers[last + 1]:
            last += 1
        found = {id(motion): motion for point in takers[first : last + 1] for motion, is_exact in point if is_exact}
        is_inside = (first > 0 or goes_on(wall, leg, False, motions)) and (last + 1 < len(points) or goes_on(wall, leg, True, motions))
        if found and is_inside:
            yield Cut(wall, list(found.values()), tuple(map(round, points[(first + last) // 2])))
        first = last + 1


def takers_of(points, leg, near):
    """The motions that take each point of a leg's surface, each with whether it exactly comes into it there.

    Where a segment comes into it between two points alone, that is told of the nearest one.
    """
    takers = [[] for _ in points]
    for motion, pieces in near:
        reach = reach_of(motion)
        for piece in pieces:
            is_exact = comes_into(leg, piece, reach)
            distances = [distance(point, piece) for point in points]
            nearest = min(distances)
            for taken, far in zip(takers, distances):
                if far < reach or (is_exact and far == nearest):
                    taken.append((motion, is_exact))
    return takers
