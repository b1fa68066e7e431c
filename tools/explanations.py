"""What there is to say of a line of the program: what the files show of its cause, and what the manual says of it."""

import os
from dataclasses import dataclass

import clfile
import filefaults
import manual
import partfaults
from manual import CERTIFICATE, LANGUAGE, MACHINE, OUTLINE
from statements import lines_of, shown

STEPS, TEXTS, TABLES = "Refused steps", "Faults of a text", "What is refused"
OUTLINES, CLS, TAPES, CONTOURS = "BAD OUTLINE LINE n cause", "BAD CL AT place cause", "BAD TAPE AT place cause", "The tests of a contour"
PLACES = ((LANGUAGE, TEXTS), (LANGUAGE, STEPS), (MACHINE, TABLES), (OUTLINE, OUTLINES), (CERTIFICATE, CONTOURS), (CERTIFICATE, CLS), (CERTIFICATE, TAPES))


# the longest file that is followed up
FOLLOWED = 16 << 20


@dataclass(frozen=True)
class Files:
    """The names of the files that a line is about; an empty one stands for none."""

    part: str = ""
    machine: str = ""
    cl: str = ""
    tape: str = ""
    outline: str = ""

    def content(self, name):
        """What a file holds, nothing where there is none."""
        try:
            with open(name, "rb") as file:
                return file.read() if os.path.isfile(name) else b""
        except (OSError, ValueError):
            return b""


def source(text, number):
    """The line of a text, with its number."""
    line = shown(text, number)
    return [] if line is None or not text else [f"line {number}: {line}"]


def row(page, heading, name):
    """What a page says of a name, and where."""
    return [*manual.sentence(page, heading, name), f"    (docs/{page}: {heading})"]


def section(page, heading):
    return [*manual.section(page, heading), f"    (docs/{page}: {heading})"]


def explanation(line, files):
    """What is to be said of a line of the program: what the files show, and what the manual says."""
    match line.split():
        case ["BAD", "PART", "LINE", number, cause]:
            text = files.content(files.part)
            return [*partfaults.source(text, int(number)), *(partfaults.of_text(text, int(number), cause) if text else ())], row(LANGUAGE, TEXTS, cause)
        case ["REFUSED", "LINE", number, "STEP", step, case]:
            text = files.content(files.part)
            seen = partfaults.of_step(text, files.content(files.machine), int(number), int(step), case) if text else ()
            return [*partfaults.source(text, int(number)), *seen], row(LANGUAGE, STEPS, case)
        case ["BAD", "MACHINE", "LINE", number, cause]:
            text = files.content(files.machine)
            return [*source(text, int(number)), *(filefaults.of_machine(text, int(number), cause) if text else ())], row(MACHINE, TABLES, cause)
        case ["BAD", "OUTLINE", "LINE", number, cause]:
            text, part = files.content(files.outline), files.content(files.part)
            names = (shown(text, int(number)) or "").split()[1:]
            return [*source(text, int(number)), *(partfaults.of_outline(part, names, cause) if part else ())], row(OUTLINE, OUTLINES, cause)
        case ["BAD", "CL", "AT", place, cause]:
            return list(filefaults.of_cl(files.content(files.cl), int(place))), row(CERTIFICATE, CLS, cause)
        case ["BAD", "TAPE", "AT", place, cause]:
            seen = filefaults.of_tape(files.content(files.tape), files.content(files.machine), int(place), cause) if files.tape else ()
            return list(seen), row(CERTIFICATE, TAPES, cause)
    return followed_up(line.split(), files)


def followed_up(words, files):
    """The same for what is not certified, and for a gouge."""
    match words:
        case ["NOT", "CERTIFIED", "ENTRY", number]:
            return seen_in(files, filefaults.of_entry, int(number)), section(CERTIFICATE, "NOT CERTIFIED ENTRY n")
        case ["NOT", "CERTIFIED", "ACT", number]:
            return seen_in(files, filefaults.of_act, int(number)), section(CERTIFICATE, "NOT CERTIFIED ACT n")
        case ["NOT", "CERTIFIED", "MOTION", number, "SEGMENT", segment, reason, *at]:
            seen = seen_in(files, filefaults.of_motion, int(number), int(segment), share_of(at))
            return seen, [*section(CERTIFICATE, "NOT CERTIFIED MOTION n SEGMENT n reason AT j/m"), *row(CERTIFICATE, CONTOURS, reason)]
        case ["GOUGE", "MOTION", number, "SEGMENT", segment, "PART", part, *at]:
            seen = [*named(files.content(files.outline), int(part)), *seen_in(files, filefaults.of_motion, int(number), int(segment), share_of(at))]
            return seen, section(OUTLINE, "GOUGE MOTION n SEGMENT n PART n AT j/m")
    return [], []


def share_of(words):
    """The share of AT j/m, or None."""
    return tuple(map(int, words[1].split("/"))) if len(words) == 2 else None


def seen_in(files, look, *numbers):
    """What a look into the CL file and the tape shows, nothing where they are not given or can't be read."""
    if not os.path.isfile(files.cl):
        return []
    if any(os.path.getsize(name) > FOLLOWED for name in (files.cl, files.tape) if os.path.isfile(name)):
        return [f"files of more than {FOLLOWED >> 20} MiB are not followed up"]
    try:
        return list(look(files, *numbers))
    except clfile.Fault:
        return []


def named(text, number):
    """The line of an outline that names a part, with its number."""
    parts = [n for n, line in enumerate(lines_of(text), 1) if n > 1 and line] if text else []
    return source(text, parts[number - 1]) if 0 < number <= len(parts) else []
