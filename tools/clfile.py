"""The CL file, by docs/CLDATA.md: its records with their words, and the motions that they are.

    clfile.read(bytes)                 its records, or a Fault with the place and the cause that the program tells
    clfile.motions(clfile.read(bytes)) each motion: a position, or a leg of a contour, with all that holds where it stands
"""

import array
import struct
import sys
from dataclasses import dataclass, replace

LONGEST = 67108864
HEADS = (b"APTCL 1\n", b"APTCL 2\n")

STATEMENT, NOTE, SURFACE, POINT, SETTING, LAST = 1000, 2000, 3000, 5000, 6000, 14000
PARTNO, RAPID, STOP, OPSTOP, END, FEDRAT, SPINDL, COOLNT, LOADTL = range(1, 10)
DRIVE, CHECK = 1, 2
FROM, GOTO, GODLTA, START, CONTOUR = range(1, 6)
CUTTER, INTOL, OUTTOL, UNITS = range(1, 5)

# every kind of record, and how many words it has; None where the file itself says how many
KINDS = {
    (STATEMENT, 0): 2,
    **dict.fromkeys([(NOTE, RAPID), (NOTE, STOP), (NOTE, OPSTOP), (NOTE, END), (LAST, 0)], 0),
    **dict.fromkeys([(NOTE, FEDRAT), (NOTE, COOLNT), (NOTE, LOADTL)], 1),
    **dict.fromkeys([(SETTING, CUTTER), (SETTING, INTOL), (SETTING, OUTTOL), (SETTING, UNITS)], 1),
    **dict.fromkeys([(POINT, FROM), (POINT, GOTO), (POINT, GODLTA), (POINT, START)], 3),
    (NOTE, SPINDL): 2,
    (SURFACE, DRIVE): 7,
    (SURFACE, CHECK): 6,
    (NOTE, PARTNO): None,
    (POINT, CONTOUR): None,
}
CLASSES = {kind[0] for kind in KINDS}

COUNT = range(1, 2147483648)
COORDINATE = range(-50000000, 50000001)
PART_OF_DIRECTION = range(-100000000, 100000001)
FARTHEST, SMALLEST_RADIUS = 49000000, 100
# the ranges of the words of each kind, of those with a fixed number whose words stand by themselves
RANGES = {
    (STATEMENT, 0): (COUNT, COUNT),
    (NOTE, FEDRAT): (COUNT,),
    (NOTE, COOLNT): (range(3),),
    (NOTE, LOADTL): (COUNT,),
    (SETTING, CUTTER): (range(1000001),),
    (SETTING, INTOL): (range(10001),),
    (SETTING, OUTTOL): (range(10001),),
    (SETTING, UNITS): (range(1, 3),),
    **{(POINT, reach): (COORDINATE,) * 3 for reach in (FROM, GOTO, GODLTA, START)},
}

# which of the settings a record gives
SET_BY = {
    (SETTING, CUTTER): "cutter",
    (SETTING, INTOL): "intol",
    (SETTING, OUTTOL): "outtol",
    (NOTE, FEDRAT): "feed",
    (NOTE, SPINDL): "spindle",
    (NOTE, COOLNT): "coolant",
    (NOTE, LOADTL): "tool",
}

SIDES = {1: "left", 2: "right", 3: "on"}
STOPS = {1: "TO", 2: "ON", 3: "PAST", 4: "TANTO"}
REACHES = {FROM: "FROM", GOTO: "GOTO", GODLTA: "GODLTA", START: "GO", CONTOUR: "contour"}


class Fault(Exception):
    """Bytes that are no CL file: the place and the cause, by the tests of docs/CLDATA.md in their order."""

    def __init__(self, place, cause):
        super().__init__(f"BAD CL AT {place} {cause}")
        self.place, self.cause = place, cause


@dataclass(frozen=True, slots=True)
class Record:
    """A record: its sequence number, the place of its length in the file, its class and subtype, its words."""

    number: int
    place: int
    kind: tuple
    words: array.array


@dataclass(frozen=True, slots=True)
class Surface:
    """A line by a point and its direction, or a circle by its centre and its radius; lengths in grid units."""

    x: int
    y: int
    dx: int = 0
    dy: int = 0
    radius: int = 0

    @property
    def is_circle(self):
        return self.radius > 0


@dataclass(frozen=True, slots=True)
class Settings:
    """What holds at a record. Lengths are in grid units, the feed in tenths; None where nothing was given.

    A spindle is its number and its turn, 1 clockwise and 2 anticlockwise, or 0 and 0.
    """

    cutter: int = 0
    intol: int = 0
    outtol: int = 50
    feed: int | None = None
    spindle: tuple | None = None
    coolant: int | None = None
    tool: int | None = None

    @property
    def half(self):
        """Half the cutter's diameter, as it counts: rounded up to a grid unit."""
        return (self.cutter + 1) // 2


@dataclass(frozen=True, slots=True)
class Motion:
    """A record of class 5000 with what it stands among.

    The start is the place of the tool before it, None where it has none. The drive, check and so on are those of a
    leg of a contour; legs are counted as certify counts motions, from 1.
    """

    record: int
    line: int
    step: int
    reach: int
    start: tuple | None
    points: list
    settings: Settings
    is_rapid: bool = False
    leg: int = 0
    drive: Surface | None = None
    side: int = 0
    sense: int = 0
    check: Surface | None = None
    stop: int = 0

    @property
    def is_contour(self):
        return self.reach == CONTOUR

    @property
    def makes_a_move(self):
        return self.reach != FROM


def read(content):
    """The records of a CL file. A Fault says where it is none."""
    return list(records_of(content))


def read_up_to_fault(content):
    """The records in front of the first fault, and the fault; None where there is none."""
    records = []
    try:
        for record in records_of(content):
            records.append(record)
    except Fault as fault:
        return records, fault
    return records, None


def records_of(content):
    """The records of a CL file one by one."""
    place = head_of(content)
    number = 0
    while True:
        number += 1
        record = record_at(content, place, number)
        place += 4 + 8 * (3 + len(record.words))
        yield record
        if record.kind == (LAST, 0):
            break
    if place < len(content):
        raise Fault(place, "AfterFini")
    if content.startswith(HEADS[1]) and struct.unpack_from(">Q", content, 8)[0] != number:
        raise Fault(8, "Count")


def head_of(content):
    """How long the head is."""
    for place in range(8):
        if place == len(content):
            raise Fault(place, "Truncated")
        if all(content[: place + 1] != head[: place + 1] for head in HEADS):
            raise Fault(place, "Header")
    if content.startswith(HEADS[0]):
        return 8
    if len(content) < 16:
        raise Fault(len(content), "Truncated")
    return 16


def record_at(content, place, number):
    """The record whose length stands at a place, and which has this number."""
    if len(content) - place < 4:
        raise Fault(len(content), "Truncated")
    (length,) = struct.unpack_from(">I", content, place)
    if length % 8 or not 24 <= length <= LONGEST:
        raise Fault(place, "Length")
    if len(content) - place - 4 < length:
        raise Fault(len(content), "Truncated")
    words = array.array("q", content[place + 4 : place + 4 + length])
    if sys.byteorder == "little":
        words.byteswap()
    if words[0] != number:
        raise Fault(place + 4, "Seq")
    kind = (words[1], words[2])
    if kind not in KINDS:
        raise Fault(place + (20 if words[1] in CLASSES else 12), "Class")
    record = Record(number, place, kind, words[3:])
    if not has_its_length(record):
        raise Fault(place, "Length")
    bad = first_out_of_range(record)
    if bad is not None:
        raise Fault(place + 28 + 8 * bad, "Range")
    return record


def has_its_length(record):
    count = len(record.words)
    if record.kind == (POINT, CONTOUR):
        return count > 0 and count % 3 == 0
    return KINDS[record.kind] in (None, count)


def first_out_of_range(record):
    """The index of the first word that is out of its range, or None."""
    words = record.words
    if record.kind == (POINT, CONTOUR):
        # most words of a file stand in contours
        if min(words) in COORDINATE and max(words) in COORDINATE:
            return None
        ranges = (COORDINATE,) * len(words)
    elif record.kind == (NOTE, PARTNO):
        return next((n for n, byte in enumerate(words) if not (32 <= byte <= 126 or byte == 9)), None)
    elif record.kind == (NOTE, SPINDL):
        ranges = (range(2147483648), range(1, 3) if words[0] else range(1))
    elif record.kind[0] == SURFACE:
        bad = surface_out_of_range(words)
        if bad is not None:
            return bad
        ranges = (range(1, 4), (-1, 1)) if record.kind[1] == DRIVE else (range(1, 5),)
        return next((n + 5 for n, (word, allowed) in enumerate(zip(words[5:], ranges)) if word not in allowed), None)
    else:
        ranges = RANGES.get(record.kind, ())
    return next((n for n, (word, allowed) in enumerate(zip(words, ranges)) if word not in allowed), None)


def surface_out_of_range(words):
    """The same for the five words of a surface."""
    kind, x, y, third, fourth = words[:5]
    if kind not in (1, 2):
        return 0
    for n, coordinate in ((1, x), (2, y)):
        if coordinate not in COORDINATE:
            return n
    if kind == 2:
        too_large = third < SMALLEST_RADIUS or max(abs(x), abs(y)) + third > FARTHEST
        return 3 if too_large else 4 if fourth else None
    if third not in PART_OF_DIRECTION:
        return 3
    return 4 if fourth not in PART_OF_DIRECTION or (third == 0 and fourth == 0) else None


def surface_of(words):
    """The surface of the five words of a drive or check surface."""
    kind, x, y, third, fourth = words[:5]
    return Surface(x, y, radius=third) if kind == 2 else Surface(x, y, third, fourth)


def title_of(records):
    """The text of PARTNO."""
    return next((bytes(list(record.words)).decode("ascii") for record in records if record.kind == (NOTE, PARTNO)), "")


def is_inch(records):
    """Whether its lengths are in inches: by the first UNITS record, wherever it stands."""
    return next((record.words[0] == 1 for record in records if record.kind == (SETTING, UNITS)), True)


def settings_behind(record, settings):
    """What holds behind a record."""
    name = SET_BY.get(record.kind)
    if name is None:
        return settings
    return replace(settings, **{name: tuple(record.words) if name == "spindle" else record.words[0]})


def points_of(words):
    """The points of the words of a position or of a contour."""
    return list(zip(words[::3], words[1::3], words[2::3]))


def motions(records):
    """The motions of records, one by one."""
    settings, place, is_rapid, legs = Settings(), None, False, 0
    statement, drive, check = (0, 0), (None, 0, 0), (None, 0)
    for record in records:
        words = record.words
        if record.kind == (STATEMENT, 0):
            statement = tuple(words)
        elif record.kind == (NOTE, RAPID):
            is_rapid = True
        elif record.kind == (SURFACE, DRIVE):
            drive = (surface_of(words), words[5], words[6])
        elif record.kind == (SURFACE, CHECK):
            check = (surface_of(words), words[5])
        elif record.kind == (POINT, CONTOUR):
            legs += 1
            points = points_of(words)
            yield Motion(record.number, *statement, CONTOUR, place, points, settings, False, legs, *drive, *check)
            place = points[-1]
        elif record.kind[0] == POINT:
            makes_a_move = record.kind[1] != FROM
            yield Motion(record.number, *statement, record.kind[1], place, points_of(words), settings, is_rapid and makes_a_move)
            place, is_rapid = tuple(words), is_rapid and not makes_a_move
        else:
            settings = settings_behind(record, settings)
