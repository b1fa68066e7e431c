"""Draws a path as an SVG picture: a plan to scale, a side view where there is more than one height, and a legend."""

import math
import zlib
from html import escape

from pictures import heights, plan, side
from pictures.legend import legend
from pictures.svg import clipped, group, tag, text

WIDTH, LEFT, RIGHT, TOP = 720, 66, 24, 44


def picture(path, title, shapes=()):
    """The SVG picture of a path, with the parts of an outline: each its kind and its numbers."""
    shades = heights.heights_of(path.pieces)
    # several pictures may stand in one page
    name = f"{zlib.crc32(title.encode()):08x}"
    frame = plan.frame_of(path, shapes, LEFT, TOP, WIDTH - LEFT - RIGHT)
    body = [text(WIDTH / 2, 24, f"{title}, in {path.unit}", font_size=15, text_anchor="middle", fill="#111111")]
    body += plan.scales(frame, path.scale)
    body.append(clipped(plan.parts(path, frame, shades, shapes), frame, f"plan-{name}", class_="plan"))
    body.append(frame.box(fill="none", stroke="#333333"))
    bottom = frame.top + frame.height + 30
    if len(shades.levels) > 1:
        part, bottom = side_view(path, frame, shades, bottom, f"side-{name}")
        body += part
    key, bottom = legend(path, shades, shapes, frame, bottom + 16)
    body.append(group(key, class_="legend"))
    return document(title, math.ceil(bottom + 6), body)


def side_view(path, above, shades, top, name):
    """The side view with its scales, and where it ends."""
    frame, note = side.frame_of(path, shades, above, top + 22)
    parts = [text(LEFT, top + 12, note, fill="#555555"), *side.scales(frame, shades, path.scale)]
    parts.append(clipped(side.parts(path, frame, shades), frame, name, class_="side"))
    parts.append(frame.box(fill="none", stroke="#333333"))
    return parts, frame.top + frame.height + 12


def document(title, height, body):
    head = (
        f'<svg xmlns="http://www.w3.org/2000/svg" width="{WIDTH}" height="{height}" viewBox="0 0 {WIDTH} {height}"'
        ' font-family="DejaVu Sans, Verdana, sans-serif">'
    )
    about = f"<title>{escape(title)}: its path, to scale</title>\n<desc>Drawn by tools/plot</desc>"
    paper = tag("rect", width=WIDTH, height=height, fill="#ffffff")
    return "\n".join([head, about, paper, *(part for part in body if part), "</svg>"]) + "\n"
