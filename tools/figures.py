"""The figures of a part's names that hold at its FINI, as the program tells them.

A part that goes to the figures' points is compiled: it is the part up to its FINI, with moves behind. No language is
worked out here.
"""

import os
import re
import tempfile

import clfile
import partfile
from acts import Refusal, answer_of

TABLE = "MACHINE 1\nCODE RS358\nSEQ 0\nFEEDMAX 9999\nSPINMAX 9999\nTOOLMAX 99\n"
MOST = 300
# three places that are not in a line: of no line all the nearest points are one
CORNERS = ("0,0", "100,0", "0,100")


class NoFigure(Exception):
    """A name that stands for no figure of the kind that is asked."""


def compiled(program, lines, machine=None):
    """The records of the CL file of a part of these lines, or a Refusal."""
    with tempfile.TemporaryDirectory() as room:
        part, table, cl = (os.path.join(room, name) for name in ("part", "machine", "cl"))
        with open(part, "w", encoding="latin-1") as file:
            file.write("\n".join(lines) + "\n")
        with open(table, "wb") as file:
            file.write(TABLE.encode() if machine is None else machine)
        line, status = answer_of(program, "compile", part, table, cl, os.path.join(room, "tape"))
        if status:
            raise Refusal(line, status)
        with open(cl, "rb") as file:
            return clfile.read(file.read())


def named_in(statements):
    """Each name that a text gives a figure, with the kind of the last definition."""
    return dict(statement.figure for statement in statements if statement.figure)


def at_fini(program, content, names, is_strict=False):
    """The figures of these names, each with its kind, that hold at FINI: of a point x, y and z, else a Surface.

    A name that stands for no such figure there has none; where it must have one, there is a NoFigure.
    """
    statements = partfile.statements_of(content)
    wanted = dict(list(names.items())[:MOST])
    while True:
        lines, asked = probe(statements, wanted)
        try:
            records = compiled(program, lines)
            break
        except Refusal as refusal:
            number = re.search(r"LINE (\d+)", refusal.line)
            name = asked.get(int(number[1])) if number else None
            if name is None:
                raise
            if is_strict:
                raise NoFigure(f"{name} is no {wanted[name].lower()} at the FINI of the part") from refusal
            del wanted[name]
    places = [motion.points[0] for motion in clfile.motions(records) if motion.makes_a_move]
    counts = {"POINT": 1, "CIRCLE": 2, "LINE": 2 * len(CORNERS)}
    places = iter(places[len(places) - sum(counts[kind] for kind in wanted.values()) :])
    return {name: figure_of(kind, [next(places) for _ in range(counts[kind])]) for name, kind in wanted.items()}


def probe(statements, wanted):
    """The lines of the part with moves behind, and which of these lines ask for which name."""
    spare = partfile.spare_letters(statements)
    lines, asked = [], {}
    for statement in statements:
        if statement.text == "FINI" and not statement.is_title:
            break
        # nothing may be executed behind END
        lines += ["".join(f"{statement.label})" if statement.label else "") + "CLPRNT"] if statement.text == "END" else statement.lines()
    lines += ["CYCLE/OFF", f"{spare}=LINE/0,0,1,0"]
    for number, (name, kind) in enumerate(wanted.items()):
        moves = moves_to(name, kind, f"{spare}{number}", spare)
        asked.update((len(lines) + n, name) for n in range(1, len(moves) + 1))
        lines += moves
    return [*lines, "FINI"], asked


def moves_to(name, kind, own, level):
    """Moves by which a figure is known: of a circle to its centre and to the point at its right, of a line to its
    points nearest to three others."""
    if kind == "POINT":
        return ["RAPID", f"GOTO/{name}"]
    if kind == "CIRCLE":
        centre, through, right = f"{own}A", f"{own}B", f"{own}C"
        found = [f"{centre}=POINT/CENTER,{name}", f"{through}=LINE/{centre},PARLEL,{level}", f"{right}=POINT/XLARGE,INTOF,{through},{name}"]
        return [*found, "RAPID", f"GOTO/{centre}", "RAPID", f"GOTO/{right}"]
    return [line for corner in CORNERS for line in ("RAPID", f"GOTO/{corner}", "RAPID", f"GO/ON,{name}")]


def figure_of(kind, places):
    if kind == "POINT":
        return places[0]
    if kind == "CIRCLE":
        (x, y, _), (right, _, _) = places
        return clfile.Surface(x, y, radius=right - x)
    (x, y, _), *others = places[1::2]
    far = max(others, key=lambda place: abs(place[0] - x) + abs(place[1] - y))
    return clfile.Surface(x, y, far[0] - x, far[1] - y)


def parts_of_outline(content):
    """The kind of each part of an outline's text, with its names."""
    parts = []
    for line in partfile.lines_of(content)[1:]:
        match line.split(" "):
            case ["EDGE", one, two]:
                parts.append(("edge", (one, two)))
            case [("BOSS" | "BORE") as kind, name]:
                parts.append((kind.lower(), (name,)))
    return parts


def shapes_of(program, content, outline):
    """The parts of an outline, each its kind and its numbers in grid units: x and y of both ends, or a circle's."""
    parts = parts_of_outline(outline)
    names = {name: "POINT" if kind == "edge" else "CIRCLE" for kind, names in parts for name in names}
    known = at_fini(program, content, names, is_strict=True)
    shapes = []
    for kind, names in parts:
        figures = [known[name] for name in names]
        numbers = [n for figure in figures for n in figure[:2]] if kind == "edge" else [figures[0].x, figures[0].y, figures[0].radius]
        shapes.append((kind, numbers))
    return shapes
