"""The elements of an SVG picture: frames with their scales, lines, marks."""

import math
from dataclasses import dataclass
from html import escape

GREY, RED, GREEN, BROWN, TAN = "#777777", "#e00000", "#1a7f37", "#8a5a00", "#e3d3bd"


@dataclass
class Frame:
    """A rectangle of the picture, and how grid units become its places."""

    left: float
    top: float
    width: float
    height: float
    x: float
    y: float
    across: float
    up: float

    def place(self, x, y):
        return self.left + (x - self.x) * self.across, self.top + self.height - (y - self.y) * self.up

    def box(self, **more):
        return tag("rect", x=self.left, y=self.top, width=self.width, height=self.height, **more)

    @property
    def bounds(self):
        """The least and greatest x and y, in grid units."""
        return self.x, self.y, self.x + self.width / self.across, self.y + self.height / self.up


def number(value):
    """A place of the picture; 0 has no sign."""
    text = f"{value:.2f}".rstrip("0").rstrip(".")
    return "0" if text == "-0" else text


def length(units, scale):
    """A length in inches or millimetres."""
    text = f"{units / scale:.5f}".rstrip("0").rstrip(".")
    return "0" if text == "-0" else text


def tag(kind, content=None, **attributes):
    """An element. An underscore in the name of an attribute is a hyphen."""
    words = [kind]
    for name, value in attributes.items():
        if value is not None:
            text = number(value) if isinstance(value, (int, float)) else escape(str(value))
            words.append(f'{name.strip("_").replace("_", "-")}="{text}"')
    head = "<" + " ".join(words)
    return head + "/>" if content is None else f"{head}>{content}</{kind}>"


def text(x, y, words, **more):
    return tag("text", escape(words), x=x, y=y, **{"font_size": 12, "fill": "#333333", **more})


def group(parts, **attributes):
    return tag("g", "\n" + "\n".join(parts) + "\n", **attributes) if parts else ""


def line_of(frame, chains):
    """The data of an SVG path of chains of places. Places nearer than a hair to the one before are left out."""
    words = []
    for chain in chains:
        places = [frame.place(x, y) for x, y in chain]
        kept = [places[0]]
        for place in places[1:-1]:
            if math.dist(place, kept[-1]) >= 0.4:
                kept.append(place)
        last = places[-1] if len(places) > 1 else places[0]
        # a dot has a length, or it would not be drawn
        kept.append(last if last != kept[-1] else (last[0] + 0.01, last[1]))
        words.append("M" + "L".join(f"{number(x)} {number(y)}" for x, y in kept))
    return "".join(words)


def chains_of(steps):
    """Steps, each a start and an end, as chains in x and y."""
    chains = []
    for start, end in steps:
        if chains and chains[-1][-1] == start[:2]:
            chains[-1].append(end[:2])
        else:
            chains.append([start[:2], end[:2]])
    return chains


def clipped(parts, frame, name, **attributes):
    """Parts of which nothing is drawn outside of a frame."""
    inside = tag("clipPath", frame.box(), id=name)
    return tag("defs", inside) + "\n" + group(parts, clip_path=f"url(#{name})", **attributes)


def step_of(across, least):
    """The least of 1, 2 and 5 times a power of ten that is so many places of the picture apart, in grid units."""
    step = 1
    while step * across < least:
        step = step * 5 // 2 if str(step)[0] == "2" else step * 2
    return step


def ticks(low, high, across, least=64):
    step = step_of(across, least)
    return [n * step for n in range(math.ceil(low / step), math.floor(high / step) + 1)]


def mark(kind, x, y, colour="#0b5cad"):
    match kind:
        case "plunge":
            return tag("circle", cx=x, cy=y, r=3.2, fill=colour, class_=kind)
        case "hole":
            return group([tag("circle", cx=x, cy=y, r=6, fill="none", stroke=colour, stroke_width=2), tag("circle", cx=x, cy=y, r=1.6, fill=colour)], class_=kind)
        case "drop":
            corners = f"M{number(x)} {number(y + 9)}l-8 -14h16z"
            return tag("path", d=corners, fill="none", stroke=RED, stroke_width=2, class_=kind)
        case "from":
            return tag("rect", x=x - 5, y=y - 5, width=10, height=10, fill="none", stroke="#555555", stroke_width=1.6, class_=kind)
        case "start":
            return tag("circle", cx=x, cy=y, r=9, fill="none", stroke=GREEN, stroke_width=2.2, class_=kind)
        case "end":
            return tag("path", d=f"M{number(x - 6)} {number(y - 6)}l12 12m0 -12l-12 12", stroke="#c4161c", stroke_width=2.2, class_=kind)


def head_of_arrow(x, y, angle, colour, size):
    corners = ((size, 0), (-size * 0.8, size * 0.62), (-size * 0.8, -size * 0.62))
    turned = ((x + a * math.cos(angle) - b * math.sin(angle), y + a * math.sin(angle) + b * math.cos(angle)) for a, b in corners)
    return tag("path", d="M" + "L".join(f"{number(u)} {number(v)}" for u, v in turned) + "z", fill=colour)
