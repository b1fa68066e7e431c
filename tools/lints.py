"""What no clause speaks of, by the motions of a CL file and the statements of its part: the warnings of tools/lint."""

from dataclasses import dataclass

import clfile
import facts
from ridges import ridges
from statements import statements_of
from walls import cuts_into


@dataclass(frozen=True)
class Finding:
    """What is seen at a line of the part."""

    line: int
    kind: str
    text: str


def by_line(warnings):
    """The first warning of each line and kind, by lines, and how many more there are."""
    found = {}
    for warning in warnings:
        found.setdefault((warning.line, warning.kind), []).append(warning)
    return [(alike[0], len(alike) - 1) for _, alike in sorted(found.items())]


def warnings_of(part, cl):
    records = clfile.read(cl)
    motions = list(clfile.motions(records))
    unit = facts.INCH if clfile.is_inch(records) else facts.MILLIMETRE
    statements = list(statements_of(part))
    return [
        *of_rapid_moves(motions, unit),
        *of_spindle(records, motions),
        *of_tool(motions),
        *of_heights(motions, statements, unit),
        *of_surfaces(motions, unit),
        *of_ridges(motions, unit),
    ]


# ---- moves


def is_cut(motion):
    return motion.makes_a_move and not motion.is_rapid


def of_rapid_moves(motions, unit):
    """Rapid moves down to the end of the cut before them or of the one behind, or lower, and level ones that are lower."""
    ahead = next_cuts(motions)
    before, depths = None, {}
    for motion, behind in zip(motions, ahead):
        end = motion.points[-1]
        if is_cut(motion):
            for point in motion.points:
                depths[point[:2]] = min(point[2], depths.get(point[:2], point[2]))
            before = motion
        elif motion.makes_a_move and motion.start is not None and motion.start != end:
            is_down, is_level = end[2] < motion.start[2], end[2] == motion.start[2]
            was_there = motion.start[:2] == end[:2] and depths.get(end[:2], end[2] + 1) <= end[2]
            cuts = [cut for cut in (before, behind) if cut is not None and (end[2] < cut.points[-1][2] or (is_down and end[2] == cut.points[-1][2]))]
            if cuts and (is_down or is_level) and not was_there:
                yield Finding(motion.line, "rapid", rapid_text(motion, cuts[0], cuts[0] is before, unit))


def next_cuts(motions):
    """For each motion the next cut behind it, or None."""
    ahead, cut = [], None
    for motion in reversed(motions):
        ahead.append(cut)
        cut = motion if is_cut(motion) else cut
    return ahead[::-1]


def rapid_text(motion, cut, is_before, unit):
    height, other = motion.points[-1][2], cut.points[-1][2]
    how = "down" if height < motion.start[2] else "level"
    depth = f"to z {unit.shown(height)}, " + ("as deep as" if height == other else "deeper than")
    return f"a rapid move leads {how} {depth} the {'last cut before it' if is_before else 'next cut'}, of line {cut.line}"


def of_spindle(records, motions):
    """The first cut of each row of cuts with the spindle off."""
    by_record = {motion.record: motion for motion in motions}
    reason, is_told = "the spindle is off: no SPINDL comes before this cut", False
    for record in records:
        if record.kind == (clfile.NOTE, clfile.SPINDL):
            reason, is_told = "" if record.words[0] else "the spindle is off in this cut", False
        elif record.kind == (clfile.NOTE, clfile.LOADTL) and not reason:
            reason, is_told = "no SPINDL comes between the change of tools and this cut: many controls stop the spindle for a change", False
        motion = by_record.get(record.number)
        if motion and reason and not is_told and is_cut(motion) and not is_straight_up(motion):
            yield Finding(motion.line, "spindle", reason)
            is_told = True


def is_straight_up(motion):
    return motion.start is not None and motion.start[:2] == motion.points[-1][:2] and motion.start[2] <= motion.points[-1][2]


def of_tool(motions):
    first = next(filter(is_cut, motions), None)
    if first is not None and first.settings.tool is None:
        yield Finding(first.line, "tool", "no tool is loaded before this cut, the first one: there is no LOADTL in front of it")


# ---- a GOTO without a height


def of_heights(motions, statements, unit):
    by_line = {statement.line: statement for statement in statements}
    heights = point_heights(statements)
    for motion in motions:
        if motion.reach != clfile.GOTO or motion.start is None or motion.points[0][2] != 0 or motion.start[2] <= 0:
            continue
        statement = by_line.get(motion.line)
        if statement and lacks_height(statement.tokens, heights):
            yield Finding(motion.line, "height", f"a GOTO without a height leads from z {unit.shown(motion.start[2])} down to z 0")


def point_heights(statements):
    """For each name of a point or of a pattern whether a definition gives it a height."""
    heights = {}
    for statement in statements:
        words = arguments(statement.tokens[4:])
        if statement.keyword == "POINT":
            gives = len(words) == 3 and "INTOF" not in statement.tokens
        elif statement.keyword == "PATERN":
            gives = any(heights.get("".join(word), True) for word in words[1:3])
        else:
            continue
        heights[statement.first] = heights.get(statement.first, False) or gives
    return heights


def lacks_height(tokens, heights):
    """Whether a GOTO gives no height: two numbers, or a point none of whose definitions gives one."""
    if tokens[:2] != ("GOTO", "/"):
        return False
    given_here = arguments(tokens[2:])
    if len(given_here) == 1 and len(given_here[0]) == 1:
        return heights.get(given_here[0][0], True) is False
    return len(given_here) == 2


def arguments(tokens):
    """Tokens between commas that stand in no parentheses."""
    parts, depth = [[]], 0
    for token in tokens:
        depth += {"(": 1, ")": -1}.get(token, 0)
        if token == "," and depth == 0:
            parts.append([])
        else:
            parts[-1].append(token)
    return parts


# ---- surfaces and ridges


def of_surfaces(motions, unit):
    for cut in cuts_into(motions):
        wall = cut.wall
        where = f"at {unit.point((*cut.spot, wall.height))}"
        for motion in cut.motions:
            what = "this contour" if motion.is_contour else "this rapid move" if motion.is_rapid else "this move"
            yield Finding(motion.line, "surface", f"{what} cuts into the {facts.surface_shown(wall.surface, unit)} of line {wall.line}, {where}")


def of_ridges(motions, unit):
    for ridge in ridges(motions):
        one, other, width = ridge.one, ridge.other, unit.shown(2 * ridge.one.settings.half)
        line, another = sorted((one.line, other.line))
        spot = unit.point((*ridge.spot, one.points[0][2]))
        far = unit.shown(round(ridge.apart))
        beside = "another pass of this line" if line == another else f"the pass of line {another}"
        yield Finding(line, "ridge", f"material is left between this pass and {beside}, {far} apart: no cut comes to {spot}, and the cutter is {width} wide")
