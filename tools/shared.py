"""What the scripts in Python share: where the program lies, its statuses, and the bytes of tapes and CL files."""

import os
import struct
import sys

TOP = os.path.dirname(os.path.dirname(os.path.abspath(__file__)))
SAMPLES = os.path.join(TOP, "docs", "samples")

# every exit status that the program may have, by README.md
STATUSES = {
    0: "Done",
    1: "Usage",
    2: "Missing",
    3: "ReadFault",
    4: "TooLong",
    5: "BadMachine",
    6: "BadPart",
    7: "Refused",
    8: "BadCl",
    9: "BadTape",
    10: "NotCertified",
    11: "WriteFault",
    12: "NoMemory",
    13: "BadOutline",
    14: "Gouge",
    15: "words unreadable",
}

# the characters of a tape in both codes, by docs/TAPE.md; a line feed is the end of block, % the rewind stop
CHARACTERS = "0123456789FGIJMNRSTXYZ+-\n%"
CODES = {
    "RS358": {c: ord(c) | 0x80 * (ord(c).bit_count() % 2) for c in CHARACTERS},
    "RS244": dict(zip(CHARACTERS, bytes.fromhex("20010213041516070819" "766779515445493223373829" "7040800b"))),
}

# the same as tables over all bytes: which byte is punched, which character is sensed, and which bytes are none
PUNCHED = {code: bytes.maketrans(CHARACTERS.encode(), bytes(row.values())) for code, row in CODES.items()}
SENSED = {code: bytes.maketrans(bytes(row.values()), CHARACTERS.encode()) for code, row in CODES.items()}
DROPPED = {code: bytes(set(range(256)) - set(row.values())) for code, row in CODES.items()}

# how a CL file begins; the number of its records stands behind it, in eight bytes
CL_HEAD = b"APTCL 2\n"


def program_of(path):
    """The built program: this path, else that of APT, else where `rt` leaves it."""
    path = os.path.abspath(path or os.environ.get("APT") or os.path.join(TOP, "crates/apt_cli/out/apt_cli"))
    if not (os.path.isfile(path) and os.access(path, os.X_OK)):
        print(f"there is no program {path}", file=sys.stderr)
        sys.exit(2)
    return path


def command():
    """The command that the tools call: that of APT, else ./apt, which builds the program where it isn't built."""
    return os.environ.get("APT") or os.path.join(TOP, "apt")


def given(parser, text, counts):
    """What the command line says: the parser's options, and so many names. The text of help is the tool's own."""
    words = sys.argv[1:]
    if {"-h", "--help"} & set(words[: words.index("--")] if "--" in words else words):
        print(text, end="")
        sys.exit(0)
    parser.add_argument("names", nargs="*")
    said, strange = parser.parse_known_args()
    if strange:
        print(f"{parser.prog}: {strange[0]} is no option; a file of that name stands behind --", file=sys.stderr)
    elif len(said.names) not in counts:
        print(text, end="", file=sys.stderr)
    else:
        return said
    sys.exit(2)


def status_name(status):
    """An exit status in words; below 0 it is the signal that ended the program."""
    return f"signal {-status}" if status < 0 else f"{status} {STATUSES.get(status, '(no status of the program)')}"


def bytes_of(path):
    """What a name holds, or None where there is nothing."""
    try:
        with open(path, "rb") as file:
            return file.read()
    except FileNotFoundError:
        return None


def put(path, content):
    """Writes a file anew; None removes it."""
    if content is None:
        if os.path.lexists(path):
            os.remove(path)
    else:
        with open(path, "wb") as file:
            file.write(content)


def punch(text, code):
    """A tape of these characters."""
    return text.encode("ascii").translate(PUNCHED[code])


def sense(tape, code):
    """The characters of a tape; every other byte is dropped."""
    return tape.translate(SENSED[code], DROPPED[code]).decode("ascii")


def cl_head(count):
    """The head of a CL file of so many records."""
    return CL_HEAD + struct.pack(">Q", count)


def cl_file(records):
    """The CL file of these records, each a list of its words from the sequence number on."""
    parts = [struct.pack(">I", 8 * len(words)) + struct.pack(f">{len(words)}q", *words) for words in records]
    return cl_head(len(parts)) + b"".join(parts)


def row_files(rows, title):
    """The files of a row of crates/apt_rows/data, by name (docs/ROWS.md); of the writings those without edits."""
    kept, files, here = {}, {}, False
    with open(os.path.join(TOP, "crates/apt_rows/data", rows), encoding="ascii") as file:
        parts = ("\n" + file.read()).split("\n:")
    for part in parts[1:]:
        mark, *lines = part.split("\n")
        words = mark.split()
        if words[0] == "row":
            here = mark == f"row {title}"
        elif words[0] == "keep":
            kept[words[1]] = written(lines, words[2:], kept)
        elif words[0] == "file" and here:
            files[words[1]] = written(lines, words[2:], kept)
    if not files:
        sys.exit(f"there is no row '{title}' in {rows}")
    return files


def written(lines, writing, kept):
    """The content of a mark of a row."""
    match writing:
        case []:
            return "".join(f"{line}\n" for line in lines).encode("ascii")
        case ["as", name]:
            return kept[name]
        case ["records"]:
            return cl_file([number, *map(int, line.split())] for number, line in enumerate(lines, 1))
        case [("rs358" | "rs244") as code]:
            return punch("".join(f"{line}\n" for line in lines), code.upper())
    sys.exit(f"this writing is not read here: {writing}")


def usage_error(tool, usage, words):
    """Ends a tool whose words fit none of its uses."""
    option = next((word for word in words if word.startswith("-")), None)
    if option:
        print(f"{tool}: {option} is no option; a file of that name stands behind --", file=sys.stderr)
    else:
        print(usage, file=sys.stderr)
    sys.exit(2)


def name_of(path):
    """The name of a file without its folder and its last ending, in characters that a picture can show."""
    name = os.path.splitext(os.path.basename(path))[0]
    return "".join(c for c in name if c.isascii() and (c.isalnum() or c in " ._-"))
