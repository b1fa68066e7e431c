"""Damages of the files that tools/campaign runs the program over: bits, bytes, numbers, words, lines, records and blocks."""

import bisect
import functools
import itertools
import random
import re
import struct

import tables
from shared import CL_HEAD, cl_head, punch, sense

NUMBERS = (
    "0 1 -1 2 .5 .00001 .000004 .000005 .00004 .001 .0008 .1 .10001 10 10.00001 49.5 99 100 490 490.00001 500 500.00001 -500 -500.00001 999.9 "
    "999.95 9999 10000 49999 50000 99997 200000 1000000 1000000.000001 -1000000 2147483647 2147483648 999999999999 1000000000000 "
    "000000000001 .000000000001 .0000000000001 00 1. . 1.2.3 1-1 1/0 1/3 SQRTF(2) SQRTF(-1) (1) ((((1)))) -(-1)"
).encode().split()
VOCABULARY = (
    "PARTNO REMARK UNITS INCHES MM CLPRNT NOPOST MACHIN POINT INTOF XLARGE XSMALL YLARGE YSMALL CENTER LINE PARLEL PERPTO LEFT RIGHT TANTO "
    "CIRCLE RADIUS CUTTER INTOL OUTTOL TLLFT TLRGT TLON FROM GOTO GODLTA GO TO ON PAST GOLFT GORGT GOFWD GOBACK RAPID STOP OPSTOP END FINI "
    "FEDRAT SPINDL CLW CCLW OFF COOLNT FLOOD MIST LOADTL PATERN LINEAR CYCLE DRILL MACRO TERMAC CALL LOOPST LOOPND JUMPTO IF SQRTF ABSF"
).encode().split()
STATEMENTS = (
    "INTOL/0;OUTTOL/0;INTOL/.1;OUTTOL/.00007;CUTTER/0;CUTTER/10;CUTTER/10.00001;UNITS/MM;UNITS/INCHES;TLLFT;TLRGT;TLON;RAPID;STOP;OPSTOP;END;"
    "FINI;FROM/0,0;GOTO/0,0,0;GOTO/500,-500,0;GODLTA/0,0,-.5;GODLTA/1,0,0;FEDRAT/999.9;FEDRAT/.04;SPINDL/9999,CCLW;SPINDL/OFF;COOLNT/MIST;"
    "LOADTL/99;LOADTL/100;LOOPST;LOOPND;TERMAC;M=MACRO/A,B=1;CALL/M,A=1;CALL/M;REMARK a text;PARTNO AGAIN;L1=LINE/0,0,1,1;C1=CIRCLE/0,0,490;"
    "C1=CIRCLE/480,0,11;C=CIRCLE/0,0,.001;GO/TO,L1;GO/ON,C1,ON,L1;GOFWD/L1,TANTO,C1;GOLFT/L1,PAST,L2;GOBACK/C1,ON,L1;GOFWD/L1,ON,2,INTOF,C1;"
    "TLON,GOLFT/C1,K,INTOF,L1;GOFWD/L1,TO,2,INTOF,C1;GORGT/C1,PAST,2,INTOF,L1;GOBACK/L1,2.5,INTOF,C1;A=PATERN/LINEAR,P1,P2,4;"
    "A=PATERN/LINEAR,P1,P2,1000;A=PATERN/LINEAR,P1,P1,2;GOTO/A;CYCLE/DRILL,.25,.1;CYCLE/DRILL,10,.00001;CYCLE/OFF;LA)K=K+1;JUMPTO/LA;"
    "IF (K-3) LA,LA,LA;K=0;$;$$ a remark;GOTO/1, $;P=POINT/INTOF,L1,L2;L9=LINE/PARLEL,L1,XLARGE,1"
).encode().split(b";")
TABLE_VALUES = b"0 1 -1 +1 01 00 99 100 999 1000 9999 10000 99999 999999999999 18446744073709551616 RS244 RS358 RS999 ALL CHANGED SOME ABS INC KEPT DROPPED LINES CIRCLES MOVES CYCLES".split()
TABLE_LINES = (
    "MACHINE 1;MACHINE 2;MACHINE 3;CODE RS244;CODE RS358;SEQ 0;SEQ 999;FEEDMAX 1;SPINMAX 1;TOOLMAX 1;WORDS ALL;WORDS CHANGED;MODE ABS;MODE INC;"
    "ZEROS KEPT;ZEROS DROPPED;ARCS LINES;ARCS CIRCLES;DRILL MOVES;DRILL CYCLES;;  ;SPEED 1"
).encode().split(b";")
OUTLINE_WORDS = b"OUTLINE EDGE BOSS BORE 1 2 P1 P2 C1 L1 K NONE TO CIRCLE LONGNAME p1 FACE".split()
OUTLINE_LINES = b"OUTLINE 1;EDGE P1 P2;EDGE P1 P1;BOSS C1;BORE C1;BORE C2;EDGE P1;BOSS;;  ;EDGE P1 P2 P3;EDGE  P1 P2".split(b";")
CL_WORDS = (
    [0, 1, -1, 2, 3, 4, 5, 6, 8, 9, 31, 32, 99, 100, 126, 127, 1000, 2000, 3000, 5000, 6000, 9999, 10000, 10001, 14000, 1000000, 1000001]
    + [sign * (limit + more) for limit in (49000000, 50000000, 100000000) for more in (0, 1) for sign in (1, -1)]
    + [2**31 - 1, 2**31, 2**32, 2**62, 2**63 - 1, -(2**63)]
)
TAPE_NUMBERS = "0 1 2 3 4 9 10 70 71 80 81 90 91 94 99 100 9999 10000 25000000 49999999 50000000 50000001 99999999".split()
TAPE_NUMBERS = [number.zfill(size) for number in TAPE_NUMBERS for size in (1, 2, 4, 8)]
TAPE_SIGNS = ["+", "-", "%", "\n", "", *"FGIJMNRSTXYZ"]
TAPE_WORDS = (
    "G00 G01 G70 G71 G90 G91 G94 G02 G03 G81 G80 G04 M02 M03 M2 M10 T99M06 F9999 F0 X+0 Y50000000 Z-50000001 I+1 J0 I-50000000 J25000 "
    "R-5 R+10000 R50000001 Z-1"
).split() + [""]
TAPE_BLOCKS = (
    ";M02;%;G71;G90;G91;G91X+0;S0001M03;S1M03;G00X+00000000;X-50000000;G02X+1Y+1I+1;G03X+0I+1J-1;X+9J+1;I+5;G81X+0R+1;G81X+0Y+0Z-5R+5F10;G81;"
    "X+5;Z-5R+5;R+1;G80;G80X+1;G91G81X+1Y+1Z-1R+1;G91X-50000000;G91G02X+2I+1"
).split(";")

# the tokens that are changed for others
PART_NUMBER = re.compile(rb"(?<![A-Z0-9])[0-9]*\.?[0-9]+")
PART_WORD = re.compile(rb"[A-Z][A-Z0-9]*")
PART_MARK = re.compile(rb"[-=/,()+*]")
OUTLINE_WORD = re.compile(rb"[A-Z0-9]+")
TABLE_WORD = re.compile(rb"(?<= )[A-Z0-9]+")
TAPE_NUMBER = re.compile("[0-9]+")
TAPE_SIGN = re.compile("[-+%FGIJMNRSTXYZ]|\n")
TAPE_WORD = re.compile("[FGIJMNRSTXYZ][-+]?[0-9]+")


class Dice(random.Random):
    """The numbers that an input is made from, thrown faster than those of the library are."""

    def below(self, size):
        return int(self.random() * size)

    def pick(self, items):
        return items[int(self.random() * len(items))]

    def weighed(self, items, edges):
        """An item, in the shares that lie between these edges."""
        return items[bisect.bisect(edges, self.random() * edges[-1], 0, len(items) - 1)]


DICE = Dice()


# Damages of bytes, whatever they say.


def piece(rng, size):
    """A place and an end behind it, mostly near."""
    start = rng.below(size + 1)
    return start, min(size, start + int(rng.expovariate(1 / 12)) + 1)


def damage_bytes(rng, content, other):
    """Bits and bytes changed, and pieces cut, doubled, exchanged and put in."""
    if not content:
        return rng.randbytes(3)
    work = bytearray(content)
    start, end = piece(rng, len(work))
    at = rng.below(len(work))
    match rng.below(9):
        case 0:
            work[at] ^= 1 << rng.below(8)
        case 1:
            for _ in range(2 + rng.below(7)):
                work[rng.below(len(work))] ^= 1 << rng.below(8)
        case 2:
            work[at] = rng.pick((0, 10, 13, 37, 127, 128, 255, rng.below(256)))
        case 3:
            del work[at:]
        case 4:
            del work[start:end]
        case 5:
            work[end:end] = work[start:end] * rng.pick((1, 1, 1, 2, 40))
        case 6:
            first, last = sorted((piece(rng, len(work)), (start, end)))
            middle = min(first[1], last[0])
            work[first[0] : last[1]] = work[last[0] : last[1]] + work[middle : last[0]] + work[first[0] : middle]
        case 7:
            work[at:at] = rng.randbytes(1 + rng.below(5))
        case 8:
            front, back = piece(rng, len(other))
            work[start:end] = other[front:back]
    return bytes(work)


# Damages of texts.


def damage_items(rng, items, others):
    """Items of a list dropped, doubled, exchanged, put in from another list, or cut off."""
    items = list(items)
    at = rng.below(len(items))
    match rng.below(5) if items else 3:
        case 0:
            del items[at]
        case 1:
            items.insert(rng.below(len(items) + 1), items[at])
        case 2:
            to = rng.below(len(items))
            items[at], items[to] = items[to], items[at]
        case 3:
            items.insert(at, rng.pick(others))
        case 4:
            del items[at:]
    return items


def token_of(rng, text, pattern):
    """A token of this pattern in the line at some place, or anywhere where that line has none."""
    newline = "\n" if isinstance(text, str) else b"\n"
    at = rng.below(len(text))
    found = list(pattern.finditer(text, text.rfind(newline, 0, at) + 1, text.find(newline, at) + 1 or len(text))) or list(pattern.finditer(text))
    return rng.pick(found) if found else None


def damage_token(rng, text, pattern, others):
    """One token of this pattern changed for another, or for one of the text itself."""
    token = token_of(rng, text, pattern)
    if not token:
        return text
    new = rng.pick(others) if rng.random() < 0.7 else token_of(rng, text, pattern).group()
    return text[: token.start()] + new + text[token.end() :]


@functools.lru_cache(256)
def lines(text):
    return text.split(b"\n")


def damage_part(rng, part, other):
    match rng.below(6):
        case 0 | 1:
            return damage_token(rng, part, PART_NUMBER, NUMBERS)
        case 2:
            return damage_token(rng, part, PART_WORD, VOCABULARY)
        case 3:
            return damage_token(rng, part, PART_MARK, (b"=", b"/", b",", b"(", b")", b"+", b"-", b"*", b"$", b" ", b""))
        case 4:
            return b"\n".join(damage_items(rng, lines(part), STATEMENTS + lines(other)))
        case 5:
            return damage_bytes(rng, part, other)


def damage_machine(rng, table, other):
    match rng.below(5):
        case 0 | 1:
            return damage_token(rng, table, TABLE_WORD, TABLE_VALUES)
        case 2:
            return b"\n".join(damage_items(rng, lines(table), TABLE_LINES))
        case 3:
            return damage_bytes(rng, table, other)
        case 4:
            return another_machine(rng, table)


def another_machine(rng, table):
    """A table with another value of a key, of those that it may have: that of another machine."""
    key = rng.pick(list(tables.KEYS)).encode()
    line = key + b" " + rng.pick(tables.KEYS[key.decode()]).encode()
    kept = [there for there in lines(table) if not there.startswith(key + b" ")]
    return b"\n".join([b"MACHINE 2", line, *kept[1:]])


def damage_outline(rng, outline, other):
    match rng.below(4):
        case 0 | 1:
            return damage_token(rng, outline, OUTLINE_WORD, OUTLINE_WORDS)
        case 2:
            return b"\n".join(damage_items(rng, lines(outline), OUTLINE_LINES + lines(other)))
        case 3:
            return damage_bytes(rng, outline, other)


# Damages of CL files: what is left has lengths that fit, and mostly sequence numbers that do.

WORD = struct.Struct(">q")
LENGTH = struct.Struct(">I")
FIRST_HEAD = b"APTCL 1\n"
CONTOUR = struct.pack(">2q", 5000, 5)


def in_first_version(cl):
    """A CL file of version 2 as one of version 1, whose head tells no number."""
    return FIRST_HEAD + cl[len(CL_HEAD) + 8 :]


def in_second_version(cl):
    """A CL file of version 1 as one of version 2, whose head tells how many records there are."""
    return cl_head(len(records_of(cl))) + cl[len(FIRST_HEAD) :]


@functools.lru_cache(256)
def records_of(cl):
    """The whole records at the front of a CL file, each with its length."""
    records, at = [], len(FIRST_HEAD) if cl.startswith(FIRST_HEAD) else len(CL_HEAD) + 8
    while at + 4 <= len(cl):
        (length,) = LENGTH.unpack_from(cl, at)
        if length % 8 or at + 4 + length > len(cl):
            break
        records.append(cl[at : at + 4 + length])
        at += 4 + length
    return records


def words_of(record):
    return [word for (word,) in WORD.iter_unpack(record[4:])]


def record_of(words):
    return LENGTH.pack(8 * len(words)) + struct.pack(f">{len(words)}q", *words)


def with_number(record, number):
    """A record with the bytes of this sequence number."""
    return record[:4] + number + record[12:] if len(record) > 4 else LENGTH.pack(8) + number


def damage_cl(rng, cl, other):
    if rng.below(4) == 0:
        return damage_bytes(rng, cl, other)
    records = list(records_of(cl))
    contours = [at for at, record in enumerate(records) if record[12:28] == CONTOUR and len(record) >= 52]
    if contours and rng.below(3) == 0:
        at = rng.pick(contours)
        records[at] = record_of(damage_contour(rng, words_of(records[at])))
    elif rng.below(3) == 0 or not records:
        records = damage_items(rng, records, records_of(other))
    else:
        at = rng.below(len(records))
        records[at] = record_of(damage_words(rng, words_of(records[at])))
    if rng.below(8):
        numbers = map(WORD.pack, itertools.count(1))
        records = [record if record[4:12] == number else with_number(record, number) for number, record in zip(numbers, records)]
    head = FIRST_HEAD if cl.startswith(FIRST_HEAD) else cl_head(len(records) if rng.below(8) else rng.below(100))
    return head + b"".join(records)


def fitting(number):
    """A number, or the nearest one that eight bytes can hold."""
    return max(-(2**63), min(2**63 - 1, number))


def damage_contour(rng, words):
    """A vertex of a contour moved a little, left out, or put half way to the next one, as another hand may have it."""
    at = 3 + 3 * rng.below(len(words) // 3 - 1)
    point, behind = words[at : at + 3], words[at + 3 : at + 6]
    match rng.below(4) if behind else 0:
        case 0 | 1:
            axis = at + rng.below(2)
            words[axis] = fitting(words[axis] + rng.pick((1, -1)) * rng.pick((1, 2, 3, 7, 8, 9, 49, 50, 51)))
        case 2:
            del words[at : at + 3]
        case 3:
            words[at + 3 : at + 3] = [(a + b) // 2 for a, b in zip(point, behind)]
    return words


def damage_words(rng, words):
    """A word of a record changed; words dropped, doubled or put in, one or three of them, as a vertex has."""
    at = rng.below(len(words))
    size = rng.pick((1, 3))
    match rng.below(7) if words else 6:
        case 0 | 1:
            words[at] = rng.pick(CL_WORDS)
        case 2 | 3:
            changed = rng.pick((words[at] + rng.pick((-100, -9, -8, -1, 1, 8, 9, 100)), -words[at]))
            words[at] = fitting(changed)
        case 4:
            del words[at : at + size]
        case 5:
            words[at:at] = words[at : at + size]
        case 6:
            words[at:at] = [rng.pick(CL_WORDS) for _ in range(size)]
    return words


# Damages of tapes: the holes of what is left are right.

sensed = functools.lru_cache(256)(sense)


def damage_tape(rng, tape, other, code):
    if rng.below(3) == 0:
        return damage_bytes(rng, tape, other)
    text = sensed(tape, code)
    match rng.below(5):
        case 0 | 1:
            text = damage_token(rng, text, TAPE_NUMBER, TAPE_NUMBERS)
        case 2:
            text = damage_token(rng, text, TAPE_SIGN, TAPE_SIGNS)
        case 3:
            text = damage_token(rng, text, TAPE_WORD, TAPE_WORDS)
        case 4:
            blocks = text.split("\n")
            text = "\n".join(damage_items(rng, blocks, blocks + TAPE_BLOCKS))
    return punch(text, code)


def code_of(machine):
    return "RS244" if b"RS244" in machine else "RS358"


def damage(rng, kind, files, other):
    """A file of a kind, damaged once."""
    match kind:
        case "part":
            return damage_part(rng, files["part"], other["part"])
        case "machine":
            return damage_machine(rng, files["machine"], other["machine"])
        case "cl":
            return damage_cl(rng, files["cl"], other["cl"])
        case "tape":
            return damage_tape(rng, files["tape"], other["tape"], code_of(files["machine"]))
        case "outline":
            return damage_outline(rng, files["outline"], other["outline"])
