"""The records of a CL file, and the acts of a tape, in words, by docs/CLDATA.md and docs/TAPE.md."""

import clfile

COOLANTS = ("OFF", "MIST", "FLOOD")
NOTES = {clfile.RAPID: "RAPID", clfile.STOP: "STOP", clfile.OPSTOP: "OPSTOP", clfile.END: "END"}
LENGTHS = {clfile.CUTTER: "CUTTER", clfile.INTOL: "INTOL", clfile.OUTTOL: "OUTTOL"}
INCH_PLACES, MM_PLACES = 5, 4


def length(units, is_inch):
    """A length of so many grid units in inches or millimetres."""
    places = INCH_PLACES if is_inch else MM_PLACES
    digits = str(abs(units)).rjust(places + 1, "0")
    return ("-" if units < 0 else "") + digits[:-places] + "." + digits[-places:]


def tenths(number):
    return f"{number // 10}.{number % 10}"


def place(point, is_inch):
    """A point or a direction in words."""
    return "(" + ", ".join(length(units, is_inch) for units in point) + ")"


def surface(words, is_inch):
    """The surface of a drive or check record in words."""
    it = clfile.surface_of(words)
    if it.is_circle:
        return f"circle about {place((it.x, it.y), is_inch)} of radius {length(it.radius, is_inch)}"
    return f"line through {place((it.x, it.y), is_inch)} in direction {place((it.dx, it.dy), is_inch)}"


def drive(words, is_inch):
    """A drive surface in words, with the way along it and the side of the cutter as seen along this way."""
    is_circle = words[0] == 2
    senses = ("anticlockwise", "clockwise") if is_circle else ("along its direction", "against its direction")
    # left of an anticlockwise way is the inside
    is_inside = (words[5] == 1) == (words[6] == 1)
    lies = "inside of it" if is_circle and is_inside else "outside of it" if is_circle else ("on the left", "on the right")[words[5] == 2]
    return f"{surface(words, is_inch)}, {senses[words[6] != 1]}, " + ("the cutter's centre on it" if words[5] == 3 else f"the cutter {lies}")


def in_words(record, is_inch):
    """A record in words."""
    words, (its_class, subtype) = record.words, record.kind
    match its_class:
        case clfile.STATEMENT:
            return f"line {words[0]}, step {words[1]}"
        case clfile.SURFACE:
            if subtype == clfile.DRIVE:
                return f"drive surface: {drive(words, is_inch)}"
            return f"check surface: {surface(words, is_inch)}, {clfile.STOPS[words[5]]}"
        case clfile.SETTING if subtype == clfile.UNITS:
            return "UNITS inches" if words[0] == 1 else "UNITS millimetres"
        case clfile.SETTING:
            return f"{LENGTHS[subtype]} {length(words[0], is_inch)}"
        case clfile.POINT if subtype == clfile.CONTOUR:
            count = len(words) // 3
            return f"contour of {count} segment{'s' * (count > 1)}, to {place(words[-3:], is_inch)}"
        case clfile.POINT:
            return f"{clfile.REACHES[subtype]} {place(words, is_inch)}"
        case clfile.LAST:
            return "FINI"
    return note(subtype, words)


def note(subtype, words):
    """A record of class 2000 in words."""
    match subtype:
        case clfile.PARTNO:
            return "PARTNO " + bytes(list(words)).decode("ascii")
        case clfile.FEDRAT:
            return f"FEDRAT {tenths(words[0])} per minute"
        case clfile.SPINDL:
            return f"SPINDL {words[0]} {('', 'clockwise', 'anticlockwise')[words[1]]}" if words[1] else "SPINDL OFF"
        case clfile.COOLNT:
            return f"COOLNT {COOLANTS[words[0]]}"
        case clfile.LOADTL:
            return f"LOADTL {words[0]}"
    return NOTES[subtype]


def statements_of(records):
    """The records with the line and the step of the statement to which each belongs."""
    line = step = 0
    for record in records:
        if record.kind == (clfile.STATEMENT, 0):
            line, step = record.words
        yield record, line, step


def act_in_words(text, is_inch):
    """An act that decode prints, with its lengths in inches or millimetres and its feed per minute."""
    words = text.split()
    if words[0] not in ("CUT", "RAPID", "ARC"):
        return text
    at = 2 if words[0] == "ARC" else 1
    said = [*words[:at], "to", place(map(int, words[at : at + 3]), is_inch)]
    if words[0] == "ARC":
        said += ["about", place(map(int, words[6:8]), is_inch)]
    if "FEED" in words:
        said += ["at feed", tenths(int(words[-1]))]
    return " ".join(said)
