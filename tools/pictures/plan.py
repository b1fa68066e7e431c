"""The plan of a picture: the path to scale, seen from above."""

import math

from pictures import heights
from pictures import path as paths
from pictures.svg import BROWN, GREY, RED, TAN, Frame, chains_of, group, head_of_arrow, length, line_of, mark, number, tag, text, ticks


TALLEST, LOWEST = 580, 150
# whose arrows come first
RANKS = {paths.LOW: 0, paths.CUT: 1, paths.RAPID: 2}


def frame_of(path, shapes, left, top, width):
    """The frame of a plan: all of the path and of an outline's parts, with a margin."""
    xs, ys = [], []
    for n, piece in enumerate(path.pieces):
        half = (piece.cutter or 0) / 2 if piece.kind == paths.CUT else 0
        # the picture is that of a tape too, which does not know where a first rapid move comes from
        ends = [piece.end] if piece.start is None or (n == 0 and piece.kind != paths.CUT) else [piece.start, piece.end]
        for x, y, _ in ends:
            xs += [x - half, x + half]
            ys += [y - half, y + half]
    for kind, numbers in shapes:
        if kind == "edge":
            xs += numbers[::2]
            ys += numbers[1::2]
        else:
            x, y, radius = numbers
            xs += [x - radius, x + radius]
            ys += [y - radius, y + radius]
    wide, tall = max(xs) - min(xs), max(ys) - min(ys)
    margin = 0.06 * (max(wide, tall) or path.scale)
    scale = min(width / (wide + 2 * margin), TALLEST / (tall + 2 * margin))
    height = max(LOWEST, (tall + 2 * margin) * scale)
    x = (min(xs) + max(xs)) / 2 - width / scale / 2
    y = (min(ys) + max(ys)) / 2 - height / scale / 2
    return Frame(left, top, width, height, x, y, scale, scale)


def scales(frame, scale):
    """Grid lines and the numbers beside them."""
    x0, y0, x1, y1 = frame.bounds
    right, bottom = frame.left + frame.width, frame.top + frame.height
    lines, words = [], []
    for x in ticks(x0, x1, frame.across):
        at = frame.place(x, 0)[0]
        lines.append(f"M{number(at)} {number(frame.top)}V{number(bottom)}")
        words.append(text(at, bottom + 18, length(x, scale), text_anchor="middle"))
    for y in ticks(y0, y1, frame.up, 40):
        at = frame.place(0, y)[1]
        lines.append(f"M{number(frame.left)} {number(at)}H{number(right)}")
        words.append(text(frame.left - 8, at + 4, length(y, scale), text_anchor="end"))
    return [tag("path", d="".join(lines), stroke="#e6e6e6", fill="none"), *words]


def parts(path, frame, shades, shapes):
    layers = heights.layers(path.pieces, shades)
    found = outline_parts(frame, shapes, "boss", fill=TAN)
    if path.knows_cutter:
        found.append(group([stroke(frame, shades, *layer) for layer in layers], class_="cut", fill="none", stroke_linecap="round", stroke_linejoin="round"))
    found += outline_parts(frame, shapes, "boss", fill="none", stroke=BROWN)
    found += outline_parts(frame, shapes, "bore", fill="none", stroke=BROWN, stroke_width=3)
    found += outline_parts(frame, shapes, "edge", fill="none", stroke="#222222", stroke_width=3)
    found.append(figures(path, frame))
    found += moves(path, frame)
    width = 1.2 if path.knows_cutter else 2
    found.append(group([centre_line(frame, shades, *layer, width) for layer in layers], class_="centre", fill="none", stroke_linejoin="round"))
    return found + arrows(path, frame, shades) + marks(path, frame, shades)


def stroke(frame, shades, layer, steps):
    """A layer of cuts, as wide as the cutter. A cutter without a diameter leaves a line."""
    z, cutter = layer
    wide = cutter * frame.across
    colour = shades.stroke(z) if wide >= 2.4 else shades.line(z)
    return tag("path", d=line_of(frame, chains_of(steps)), stroke=colour, stroke_width=max(wide, 2.4))


def centre_line(frame, shades, layer, steps, width):
    chains = chains_of([step for step in steps if step[0][:2] != step[1][:2]])
    return tag("path", d=line_of(frame, chains), stroke=shades.line(layer[0]), stroke_width=width) if chains else ""


def outline_parts(frame, shapes, wanted, **look):
    parts = []
    for kind, numbers in shapes:
        if kind != wanted:
            continue
        if kind == "edge":
            parts.append(tag("path", d=line_of(frame, [[numbers[:2], numbers[2:]]]), class_=kind, **look))
        else:
            x, y = frame.place(*numbers[:2])
            parts.append(tag("circle", cx=x, cy=y, r=numbers[2] * frame.across, class_=kind, **look))
    return parts


def figures(path, frame):
    """The drive and check surfaces: a line runs through the whole frame."""
    parts = []
    for surface in path.surfaces:
        if surface.is_circle:
            x, y = frame.place(surface.x, surface.y)
            parts.append(tag("circle", cx=x, cy=y, r=surface.radius * frame.across))
        elif ends := within(surface, frame.bounds):
            parts.append(tag("path", d=line_of(frame, [ends])))
    return group(parts, class_="figures", fill="none", stroke="#8c8c8c", stroke_width=0.9)


def within(line, bounds):
    """The two points at which a line leaves these bounds, or nothing."""
    first, last = -math.inf, math.inf
    for at, way, low, high in ((line.x, line.dx, bounds[0], bounds[2]), (line.y, line.dy, bounds[1], bounds[3])):
        if way == 0:
            if not low <= at <= high:
                return None
            continue
        one, two = sorted(((low - at) / way, (high - at) / way))
        first, last = max(first, one), min(last, two)
    if first >= last:
        return None
    return [(line.x + line.dx * share, line.y + line.dy * share) for share in (first, last)]


def moves(path, frame):
    """The moves that cut nothing."""
    parts = []
    for kind, look in ((paths.RAPID, {"stroke": GREY, "stroke_width": 1.3}), (paths.LOW, {"stroke": RED, "stroke_width": 2})):
        steps = [(piece.start, piece.end) for piece in path.pieces if piece.kind == kind and piece.start and not piece.is_upright]
        if steps:
            parts.append(tag("path", d=line_of(frame, chains_of(steps)), fill="none", stroke_dasharray="5 4", class_=kind, **look))
    return parts


def arrows(path, frame, shades):
    """Heads of arrows, where none of the same way is near: of several those of the deepest cut."""
    taken = [frame.place(*place[:2]) for place in (path.start, path.pieces[-1].end)]
    parts, placed = [], {}
    for piece, spots, angle in sorted(arrow_places(path, frame), key=lambda found: (RANKS[found[0].kind], found[0].end[2])):
        colour = {paths.RAPID: GREY, paths.LOW: RED}.get(piece.kind) or shades.line(min(piece.start[2], piece.end[2]))
        for x, y in spots:
            near = [other for dx in (-1, 0, 1) for dy in (-1, 0, 1) for other in placed.get((x // 14 + dx, y // 14 + dy), [])]
            if any(math.cos(angle - other) > 0.8 for other in near):
                break
            if near or any(math.dist((x, y), place) < 15 for place in taken):
                continue
            placed.setdefault((x // 14, y // 14), []).append(angle)
            parts.append(head_of_arrow(x, y, angle, colour, 6 if piece.kind == paths.CUT else 4.5))
            break
    return [group(parts, class_="arrows")]


def arrow_places(path, frame):
    """Pieces that want an arrow, each with the spots that are as good: long ones, and of chains of short ones a few."""
    since = 60.0
    for piece in path.pieces:
        if piece.start is None or piece.is_upright:
            continue
        one, two = frame.place(*piece.start[:2]), frame.place(*piece.end[:2])
        long = math.dist(one, two)
        since += long
        if since >= 100 or long >= 44:
            since = 0
            shares = (0.5, 0.4, 0.6, 0.3, 0.7) if long >= 44 else (0.5,)
            spots = [(one[0] + (two[0] - one[0]) * share, one[1] + (two[1] - one[1]) * share) for share in shares]
            yield piece, spots, math.atan2(two[1] - one[1], two[0] - one[0])


def marks(path, frame, shades):
    found = paths.marks_of(path.pieces)
    parts = [mark("plunge", *frame.place(*piece.end[:2]), shades.line(piece.end[2])) for piece in once(found.plunges)]
    parts += [mark("hole", *frame.place(*piece.end[:2]), shades.line(piece.end[2])) for piece in once(found.holes)]
    parts += [mark("drop", *frame.place(*piece.end[:2])) for piece in once(found.drops)]
    if path.origin and holds(frame, path.origin):
        parts.append(mark("from", *frame.place(*path.origin[:2])))
    parts.append(mark("start", *frame.place(*path.start[:2])))
    parts.append(mark("end", *frame.place(*path.pieces[-1].end[:2])))
    return parts


def once(pieces):
    """Of the marks at one place the deepest."""
    return list({piece.end[:2]: piece for piece in sorted(pieces, key=lambda piece: -piece.end[2])}.values())


def holds(frame, place):
    x0, y0, x1, y1 = frame.bounds
    return x0 <= place[0] <= x1 and y0 <= place[1] <= y1
