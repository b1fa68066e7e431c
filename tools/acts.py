"""The acts of a control, as 'apt decode' prints them: those of a tape, and those that a CL file's records ask for."""

import subprocess
from dataclasses import dataclass

import clfile

UNITS = {1: "UNITS INCH", 2: "UNITS MM"}
TURNS = {0: "SPINDLE OFF", 1: "SPINDLE CW", 2: "SPINDLE CCW"}
COOLANTS = {0: "COOLANT OFF", 1: "COOLANT MIST", 2: "COOLANT FLOOD"}


@dataclass(frozen=True, slots=True)
class Asked:
    """An act that the records ask for: its line, and the record that asks for it."""

    text: str
    record: int


@dataclass(frozen=True, slots=True)
class Move:
    """A move of a tape: where it leads, and of an arc its centre and its turn, 'CW' or 'CCW'."""

    act: int
    place: tuple
    is_rapid: bool
    feed: int | None = None
    centre: tuple | None = None
    turn: str = ""


class Refusal(Exception):
    """The program's line for files that it refuses, with its status."""

    def __init__(self, line, status):
        super().__init__(line)
        self.line, self.status = line, status


def answer_of(program, *words, lines=False):
    """What the program prints: its line and its status; with lines all of them, or a Refusal."""
    run = subprocess.run([program, *words], capture_output=True, text=True, errors="replace")
    said = run.stdout.splitlines()
    if not lines:
        return (said[-1] if said else ""), run.returncode
    if run.returncode:
        raise Refusal(said[-1] if said else f"status {run.returncode}", run.returncode)
    return said


def acts_of_tape(program, machine, tape):
    """The lines of the acts of a tape, in order."""
    return answer_of(program, "decode", machine, tape, lines=True)


def moves_of(acts):
    """The moves among acts, with the numbers of these, from 1."""
    for number, act in enumerate(acts, 1):
        word, *rest = act.split()
        if word in ("CUT", "RAPID"):
            place = tuple(map(int, rest[:3]))
            yield Move(number, place, word == "RAPID", None if word == "RAPID" else int(rest[4]))
        elif word == "ARC":
            x, y, z, cx, cy, feed = (int(rest[n]) for n in (1, 2, 3, 5, 6, 8))
            yield Move(number, (x, y, z), False, feed, (cx, cy), rest[0])


def has_arcs(machine):
    """Whether a machine's table asks for arcs round circles."""
    return b"ARCS CIRCLES" in machine.replace(b"\r", b"").split(b"\n")


def asked_by(records, with_arcs):
    """The acts that records ask for, by docs/CLDATA.md and docs/TAPE.md."""
    motions = {motion.record: motion for motion in clfile.motions(records)}
    yield Asked(UNITS[1 if clfile.is_inch(records) else 2], 0)
    ended = moved = False
    for record in records:
        motion = motions.get(record.number)
        if motion:
            for text in texts_of(motion, with_arcs and moved):
                yield Asked(text, record.number)
            moved = moved or motion.makes_a_move
        elif record.kind in ((clfile.NOTE, clfile.END), (clfile.LAST, 0)):
            if not ended:
                yield Asked("END", record.number)
            ended = True
        elif text := text_of_note(record):
            yield Asked(text, record.number)


def text_of_note(record):
    """The act of a record that is none of a motion, or nothing."""
    words = record.words
    match record.kind:
        case (2000, 3):
            return "STOP"
        case (2000, 4):
            return "OPSTOP"
        case (2000, 7):
            return TURNS[words[1]] + (f" {words[0]}" if words[1] else "")
        case (2000, 8):
            return COOLANTS[words[0]]
        case (2000, 9):
            return f"TOOL {words[0]}"
    return ""


def texts_of(motion, with_arcs):
    """The acts of a motion. A leg round a circle is one arc, where the machine takes arcs and a move came before."""
    if not motion.makes_a_move:
        return
    feed = motion.settings.feed or 0
    if with_arcs and motion.is_contour and motion.drive and motion.drive.is_circle:
        turn = "CCW" if motion.sense == 1 else "CW"
        yield "ARC {} {} {} {} CENTRE {} {} FEED {}".format(turn, *motion.points[-1], motion.drive.x, motion.drive.y, feed)
        return
    for x, y, z in motion.points:
        yield f"RAPID {x} {y} {z}" if motion.is_rapid else f"CUT {x} {y} {z} FEED {feed}"
