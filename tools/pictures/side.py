"""The side view of a picture: the heights of the path, seen from the front, below the plan and by its scale in x."""

import math

from pictures import heights
from pictures import path as paths
from pictures.svg import GREY, RED, Frame, chains_of, group, length, line_of, number, tag, text

LEAST, MOST = 48, 150
FACTORS = (1, 2, 5, 10, 20, 50, 100, 200, 500, 1000)


def frame_of(path, shades, above, top):
    """The frame of the heights at which cuts are, and the words above it."""
    ends = [z for piece in path.pieces if piece.kind == paths.CUT and piece.start for z in (piece.start[2], piece.end[2])]
    low, high = min(ends), max(ends)
    factor = factor_of((high - low) * above.up, least_gap(shades) * above.up)
    up = above.up * factor
    height = (high - low) * up + 28
    note = "seen from the front" + ("" if factor == 1 else f", heights {said(factor)}")
    return Frame(above.left, top, above.width, height, above.x, low - 14 / up, above.across, up), note


def least_gap(shades):
    """The least way from one height to the next, where each has a shade."""
    gaps = [upper - lower for upper, lower in zip(shades.levels, shades.levels[1:])]
    return min(gaps) if shades.has_shades else sum(gaps)


def factor_of(tall, gap):
    """How many times as large heights are drawn as lengths: so that they can be told apart, where there is room."""
    if tall > MOST:
        return 1 / next((n for n in FACTORS if tall / n <= MOST), FACTORS[-1])
    large = [n for n in FACTORS if tall * n >= LEAST and tall * n <= MOST] or [next((n for n in FACTORS if tall * n >= LEAST), FACTORS[-1])]
    return next((n for n in large if gap * n >= 14), large[0])


def said(factor):
    return f"{factor} times as large" if factor > 1 else f"1/{round(1 / factor)} as large"


def scales(frame, shades, scale):
    """Lines at the heights of cuts, as far as their numbers have room, the deepest first."""
    levels = shades.levels if shades.has_shades else [shades.levels[0], shades.levels[-1]]
    top = frame.y + (frame.height - 14) / frame.up
    words, lines, last = [], [], math.inf
    for z in sorted({*levels, top}):
        at = frame.place(0, z)[1]
        if last - at < 12:
            continue
        last = at
        words.append(text(frame.left - 8, at + 4, length(z, scale), text_anchor="end"))
        lines.append(f"M{number(frame.left)} {number(at)}h{number(frame.width)}")
    return [tag("path", d="".join(lines), stroke="#e6e6e6", fill="none"), *words]


def parts(path, frame, shades):
    found = []
    for (z, cutter), steps in heights.layers(path.pieces, shades):
        found.append(bars(frame, shades, z, cutter or 0, steps))
    for kind, look in ((paths.RAPID, {"stroke": GREY, "stroke_width": 1.3}), (paths.LOW, {"stroke": RED, "stroke_width": 2})):
        steps = seen({(piece.start, piece.end): 1 for piece in path.pieces if piece.kind == kind and piece.start})
        if steps:
            found.append(tag("path", d=line_of(frame, chains_of(steps)), fill="none", stroke_dasharray="5 4", class_=kind, **look))
    steps = seen({(piece.start, piece.end): 1 for piece in path.pieces if piece.kind == paths.CUT and piece.start and not piece.is_level})
    if steps:
        found.append(tag("path", d=line_of(frame, chains_of(steps)), fill="none", stroke=shades.line(shades.levels[-1]), stroke_width=1.2, class_="centre"))
    return found


def seen(steps):
    """Steps as they are seen from the front, each once."""
    return list({((start[0], start[2]), (end[0], end[2])): 1 for start, end in steps if (start[0], start[2]) != (end[0], end[2])})


def bars(frame, shades, z, cutter, steps):
    """What the cutter takes at one height, and straight down to it."""
    half = cutter / 2
    level = joined(sorted((min(start[0], end[0]) - half, max(start[0], end[0]) + half) for start, end in steps if start[:2] != end[:2]))
    down = joined(sorted((start[0] - half, start[0] + half) for start, end in steps if start[:2] == end[:2] and end[2] < start[2]))
    drawn = []
    for spans, tall in ((down, 5), (level, 8)):
        for left, right in spans:
            (x, y), (u, _) = frame.place(left, z), frame.place(right, z)
            drawn.append(tag("rect", x=x - 1 if u - x < 2 else x, y=y - tall, width=max(u - x, 2), height=tall))
    edge = "".join(f"M{number(frame.place(left, z)[0])} {number(frame.place(left, z)[1])}H{number(frame.place(right, z)[0])}" for left, right in level + down)
    drawn.append(tag("path", d=edge, stroke=shades.line(z), stroke_width=1.6) if edge else "")
    return group(drawn, fill=shades.stroke(z), class_="cut")


def joined(spans):
    """Spans in order, where those that overlap are one."""
    found = []
    for left, right in spans:
        if found and left <= found[-1][1]:
            found[-1] = (found[-1][0], max(found[-1][1], right))
        else:
            found.append((left, right))
    return found
