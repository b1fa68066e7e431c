"""What is the same for machines of all tables: the acts of a tape, whose arcs are taken apart into chords, and the tape of
acts by another hand than the program's (docs/TAPE.md)."""

import functools
from math import isqrt

import acts
import clfile
from shared import punch

SIMPLE = {
    "UNITS INCH": "G70G90G94",
    "UNITS MM": "G71G90G94",
    "SPINDLE OFF": "M05",
    "COOLANT MIST": "M07",
    "COOLANT FLOOD": "M08",
    "COOLANT OFF": "M09",
    "STOP": "M00",
    "OPSTOP": "M01",
    "END": "M02",
}
TURNS = {"CW": ("M03", "G02", -1), "CCW": ("M04", "G03", 1)}
# how far the distances of an arc's chords from its centre may differ, of which each end is some units off its track
SLACK = 8


def place_of(act):
    """Where a move leads, or None for another act."""
    match act.split():
        case ["RAPID" | "CUT", x, y, z, *_] | ["ARC", _, x, y, z, *_]:
            return int(x), int(y), int(z)


def are_apart(given, plain):
    """Whether the acts of a tape are plain ones, once chords stand in the place of each of its arcs."""
    rest, place = iter(plain), None
    for act in given:
        if act.startswith("ARC"):
            if not are_chords(act, place, rest):
                return False
        elif next(rest, None) != act:
            return False
        place = place_of(act) or place
    return next(rest, None) is None


def are_chords(arc, start, rest):
    """Takes the cuts up to the end of an arc, and tells whether they go round its centre, as it turns, at its feed."""
    _, turn, x, y, z, _, cx, cy, _, feed = arc.split()
    cx, cy, sense = int(cx), int(cy), TURNS[turn][2]
    end = int(x), int(y), int(z)
    radius = isqrt((end[0] - cx) ** 2 + (end[1] - cy) ** 2)
    while start and start != end:
        act = next(rest, "")
        place = place_of(act)
        if not place or place[2] != end[2] or act.split()[4:] != ["FEED", feed]:
            return False
        (px, py, _), (qx, qy, _) = start, place
        if sense * ((px - cx) * (qy - cy) - (py - cy) * (qx - cx)) <= 0 or abs(isqrt((qx - cx) ** 2 + (qy - cy) ** 2) - radius) > SLACK:
            return False
        start = place
    return bool(start)


@functools.lru_cache(256)
def asked_by(cl, arcs):
    """The acts that a CL file asks for on a machine with this value of ARCS, as decode tells them; None where it can't be read."""
    try:
        return "".join(f"{act.text}\n" for act in acts.asked_by(records_of(cl), arcs == "CIRCLES")).encode("ascii")
    except clfile.Fault:
        return None


@functools.lru_cache(256)
def records_of(cl):
    return clfile.read(cl)


@functools.lru_cache(256)
def tape_of(lines, code, zeros):
    """The tape of acts by another hand, as decode tells them: absolute, with all words and no numbers of blocks, and holes as their moves."""
    blocks, place = ["%"], None
    for act in lines.decode("ascii").splitlines():
        blocks.append(block_of(act, place, zeros == "DROPPED"))
        place = place_of(act) or place
    return punch("".join(f"{block}\n" for block in blocks), code)


def block_of(act, place, is_short):
    """The words of an act, from where the tool stands."""
    def signed(letters, numbers):
        return "".join(f"{letter}{int(number):{'+' if is_short else '+09'}}" for letter, number in zip(letters, numbers))

    match act.split():
        case ["RAPID", *to]:
            return "G00" + signed("XYZ", to)
        case ["CUT", *to, _, feed]:
            return f"G01{signed('XYZ', to)}F{feed if is_short else feed.zfill(4)}"
        case ["ARC", turn, x, y, z, _, cx, cy, _, feed]:
            centre = int(cx) - place[0], int(cy) - place[1]
            return f"{TURNS[turn][1]}{signed('XYZIJ', (x, y, z, *centre))}F{feed if is_short else feed.zfill(4)}"
        case ["SPINDLE", "CW" | "CCW" as turn, speed]:
            return f"S{speed if is_short else speed.zfill(4)}{TURNS[turn][0]}"
        case ["TOOL", tool]:
            return f"T{tool if is_short else tool.zfill(2)}M06"
    return SIMPLE[act]
