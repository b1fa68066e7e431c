"""Machine tables, by docs/MACHINE.md: their text, and the values of their keys."""

import functools
import itertools

CODES = ("RS358", "RS244")
# the keys that must be there, with the greatest limits
REQUIRED = {"CODE": CODES[0], "SEQ": "1", "FEEDMAX": "9999", "SPINMAX": "9999", "TOOLMAX": "99"}
LIMITS = ("FEEDMAX", "SPINMAX", "TOOLMAX")
# the keys that may be left out, with their values, the first of which holds then; version 1 has the first alone
KEYS = {
    "WORDS": ("ALL", "CHANGED"),
    "MODE": ("ABS", "INC"),
    "ZEROS": ("KEPT", "DROPPED"),
    "ARCS": ("LINES", "CIRCLES"),
    "DRILL": ("MOVES", "CYCLES"),
}
# what a control takes goes by these keys alone; the others say how a tape is written
READING = ("CODE", "ARCS", "DRILL")


def text_of(values, version=2):
    """The table of some values, in which the keys that must be there and aren't named have those of above."""
    lines = [f"MACHINE {version}", *(f"{key} {value}" for key, value in (REQUIRED | values).items())]
    return "".join(f"{line}\n" for line in lines).encode("latin-1")


@functools.lru_cache(1024)
def values_of(table):
    """The values of all keys of a table that is none of the refused ones."""
    lines = [line.removesuffix(b"\r").decode("latin-1").partition(" ") for line in table.split(b"\n")[1:]]
    return REQUIRED | {key: values[0] for key, values in KEYS.items()} | {key: value for key, _, value in lines if key in REQUIRED or key in KEYS}


def every(sequences=("1",)):
    """The tables of version 2 with all values of all keys that may be left out, the code and the sequences in turns."""
    for number, values in enumerate(itertools.product(*KEYS.values())):
        named = {"CODE": CODES[number.bit_count() % 2], "SEQ": sequences[number % len(sequences)]}
        yield text_of(named | dict(zip(KEYS, values)))
