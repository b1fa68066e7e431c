"""The words of today's controls (LinuxCNC and the like) for the acts of a tape, one line for each of its blocks."""

import re
from dataclasses import dataclass

from acts import acts_of_tape
from shared import bytes_of, sense

# what such a control may else hold from before: the plane of x and y, no cutter compensation, no tool length, a path
# without rounded corners, no cycle
SAFE_START = "G17 G40 G49 G61 G80"
UNITS = {"INCH": ("G20", 5), "MM": ("G21", 4)}
SIMPLE_ACTS = {
    "SPINDLE OFF": "M5",
    "COOLANT MIST": "M7",
    "COOLANT FLOOD": "M8",
    "COOLANT OFF": "M9",
    "STOP": "M0",
    "OPSTOP": "M1",
    "END": "M2",
}
MOVING = ("RAPID", "CUT", "ARC")

# what a comment can't hold: its own marks, and a percent sign, which ends a program on some controls
COMMENT_MARKS = str.maketrans("()%", "[] ")
COMMENT_LENGTH = 200


class NoWords(Exception):
    """An act that has no words; its text says why."""


# ---- how the tape spells its moves


@dataclass(frozen=True)
class Spelling:
    """How a block of a tape spells its move: of how many acts it is, three for a hole, and whether under G91."""

    acts: int
    is_incremental: bool


def spellings(characters):
    """The spelling of each block of a tape that moves, in order (docs/TAPE.md, The run of a control)."""
    motion, is_incremental = None, False
    for block in characters.partition("%")[2].split("\n"):
        words = re.findall(r"([A-Z])[+-]?(\d+)", block)
        codes = {number for letter, number in words if letter == "G"}
        motion = next(iter(codes & {"00", "01", "02", "03", "80", "81"}), motion)
        if codes & {"90", "91"}:
            is_incremental = "91" in codes
        letters = {letter for letter, _ in words}
        if motion == "81" and letters & set("XY"):
            yield Spelling(3, False)
        elif motion in ("00", "01") and letters & set("XYZ") or motion in ("02", "03") and letters & set("XYZIJ"):
            yield Spelling(1, is_incremental)


def code_of(table):
    """The tape code of a machine's table, which the program has read."""
    return re.search(rb"^CODE (RS\d+)", table, re.M)[1].decode()


def blocks_of_tape(apt, machine, tape):
    """The acts of a tape in groups: those of a move's block with its spelling, every other one alone with None."""
    acts = [line.split() for line in acts_of_tape(apt, machine, tape)]
    spelled = spellings(sense(bytes_of(tape), code_of(bytes_of(machine))))
    at = 0
    while at < len(acts):
        spelling = next(spelled) if acts[at][0] in MOVING else None
        count = spelling.acts if spelling else 1
        yield acts[at : at + count], spelling
        at += count


# ---- the words


def decimal(number, places):
    """A whole number of units, of which 10^places make one, with its point."""
    whole, rest = divmod(abs(number), 10**places)
    return f"{'-' if number < 0 else ''}{whole}.{rest:0{places}}"


def comment(text):
    """A text as a comment, which no control takes for a command."""
    return f"({text.translate(COMMENT_MARKS)[:COMMENT_LENGTH]})"


class Words:
    """The lines of a program so far, and what a control holds behind them."""

    def __init__(self, has_lengths=False):
        self.has_lengths = has_lengths
        self.lines = [SAFE_START]
        self.places = 5
        # in grid units; None where the control's own numbers may be others than the tape's
        self.place = None
        self.is_incremental = False
        self.is_drilling = False
        self.said = set()
        self.tools = 0
        self.turns, self.stopped_by = False, None
        self.notes = []

    def put(self, *words):
        self.lines.append(" ".join(word for word in words if word))

    def once(self, word):
        """A word that holds to the end, in front of the first block that needs it."""
        if word not in self.said:
            self.said.add(word)
            self.put(word)

    def block(self, acts, spelling):
        """The lines of a tape's block."""
        if self.is_drilling and not (spelling and spelling.acts == 3):
            self.put("G80")
            self.is_drilling = False
        if spelling is None:
            self.act(acts[0])
        elif spelling.acts == 3:
            self.hole(*acts)
        else:
            self.move(acts[0], spelling.is_incremental)

    def act(self, act):
        """An act that is no move."""
        match act:
            case ["UNITS", unit]:
                code, self.places = UNITS[unit]
                self.place, self.is_incremental = None, False
                self.put(code, "G90", "G94")
            case ["TOOL", number]:
                self.change(number)
            case ["SPINDLE", ("CW" | "CCW") as sense_, speed]:
                self.turns, self.stopped_by = True, None
                self.put(f"S{speed}", "M3" if sense_ == "CW" else "M4")
            case _ if " ".join(act) in SIMPLE_ACTS:
                self.turns = self.turns and act != ["SPINDLE", "OFF"]
                self.put(SIMPLE_ACTS[" ".join(act)])
            case _:
                raise NoWords(f"no words for the act {' '.join(act)}")

    def change(self, number):
        """A change of tools, with the length of the new one. Behind it the control's height is no longer the tape's."""
        self.tools += 1
        self.stopped_by = number if self.turns else None
        self.turns, self.place = False, None
        self.put(f"T{number}", "M6")
        if self.has_lengths:
            self.put("G43", f"H{number}")
        else:
            self.put("M0", comment(f"MSG, tool {number} is loaded: set its length"))

    def move(self, act, is_incremental):
        """A rapid move, a cut or an arc; incremental where the tape's is, and the control counts from the same place."""
        kind, *numbers = act
        if kind != "RAPID":
            self.note_cut()
        match kind, numbers:
            case "RAPID", [x, y, z]:
                self.put(self.mode(is_incremental), "G0", self.to(x, y, z))
            case "CUT", [x, y, z, "FEED", feed]:
                self.put(self.mode(is_incremental), "G1", self.to(x, y, z), f"F{decimal(int(feed), 1)}")
            case "ARC", [turn, x, y, z, "CENTRE", i, j, "FEED", feed]:
                if self.place is None:
                    raise NoWords(f"no words for an arc directly behind other units or a change of tools: {' '.join(act)}")
                self.once("G91.1")
                i, j = (decimal(int(centre) - start, self.places) for centre, start in zip((i, j), self.place))
                code = "G2" if turn == "CW" else "G3"
                self.put(self.mode(is_incremental), code, self.to(x, y, z), f"I{i} J{j}", f"F{decimal(int(feed), 1)}")

    def hole(self, over, cut, back):
        """A hole as a block of the drill cycle, behind which the tool is at the height R, as it is on the tape."""
        self.note_cut()
        self.once("G99")
        self.is_drilling = True
        mode, place = self.mode(False), self.to(*cut[1:4])
        self.put(mode, "G81", place, f"R{decimal(int(over[3]), self.places)}", f"F{decimal(int(cut[5]), 1)}")
        self.place = tuple(map(int, back[1:4]))

    def mode(self, wanted):
        """The word in front of a move by which the distance mode changes, where it does."""
        wanted = wanted and self.place is not None
        word = "" if self.is_incremental == wanted else "G91" if wanted else "G90"
        self.is_incremental = wanted
        return word

    def to(self, *place):
        """The words of a place, in the mode that holds."""
        place = tuple(map(int, place))
        numbers = [new - old for new, old in zip(place, self.place)] if self.is_incremental else place
        self.place = place
        return " ".join(f"{letter}{decimal(number, self.places)}" for letter, number in zip("XYZ", numbers))

    def note_cut(self):
        if self.stopped_by is not None:
            self.notes.append(f"M6 stops the spindle: behind the change to tool {self.stopped_by} a cut comes before it is started again")
        self.stopped_by = None


def program_of_blocks(blocks, title, partno="", has_lengths=False):
    """The words of a tape's blocks: the lines of a whole program, and what is to be noted of them."""
    words = Words(has_lengths)
    for acts, spelling in blocks:
        words.block(acts, spelling)
    if words.tools and not has_lengths:
        words.notes.append(
            "no tool lengths: behind each change of tools the control stops (M0), so that the length can be set;"
            " with --g43 it takes it from its own table"
        )
    heads = [comment(f"from the tape {title}, by tools/ngc")] + [comment(f"PARTNO {partno}")] * bool(partno)
    return ["%", *heads, *words.lines, "%"], words.notes


def partno_of(path):
    """The text of PARTNO in a part program, "" where there is none."""
    with open(path, encoding="ascii", errors="replace") as file:
        line = re.search(r"^[ \t]*(?:[A-Z][A-Z0-9]{0,5}[ \t]*\)[ \t]*)?PARTNO(?![A-Z0-9]) ?(.*)", file.read(), re.I | re.M)
    return line[1].rstrip() if line else ""
