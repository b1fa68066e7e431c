"""How tools/campaign runs the program: in processes of its own, over the files of a folder (Cold), or again and again in one
process, over files in memory (Warm). Each run ends on one of the lines that its command has, or is a Surprise."""

import collections
import fcntl
import mmap
import os
import shutil
import signal
import struct
import subprocess
import sys

from shared import TOP, bytes_of, put, status_name

SECONDS = 60

FILES = ("part", "machine", "cl", "tape", "outline", "newcl", "newtape", "other", "othercl", "othertape")

# the answers of a command when nothing fails, and how their lines begin
JUDGED = {
    5: b"BAD MACHINE LINE ",
    6: b"BAD PART LINE ",
    7: b"REFUSED LINE ",
    8: b"BAD CL AT ",
    9: b"BAD TAPE AT ",
    10: b"NOT CERTIFIED ",
}
LINES = {
    "compile": {0: b"DONE ", 5: b"BAD MACHINE LINE ", 6: b"BAD PART LINE ", 7: b"REFUSED LINE "},
    "certify": {0: b"YES ", **JUDGED},
    "guard": {0: b"CLEAR ", **JUDGED, 13: b"BAD OUTLINE LINE ", 14: b"GOUGE MOTION "},
    "decode": {0: b"", 5: b"BAD MACHINE LINE ", 9: b"BAD TAPE AT "},
    "list": {0: b"", 8: b"BAD CL AT "},
}


class Surprise(Exception):
    pass


def is_text_of(command, status, printed):
    """Whether this can be printed for a status: its line, or lines of any kind."""
    begin = LINES[command][status]
    return printed.startswith(begin) and printed.endswith(b"\n") and (not begin or printed.count(b"\n") == 1)


def empty(output):
    os.lseek(output, 0, os.SEEK_SET)
    os.ftruncate(output, 0)


def out_of_time(*_):
    raise Surprise(f"no answer within {SECONDS} seconds")


class Runs:
    """Runs of the program over files, which stay from one run to the next."""

    # the runs of this process by command and status
    counts = collections.Counter()

    def __init__(self, program, tells=False):
        self.program, self.tells = program, tells
        self.complained = os.memfd_create("complained")
        # the files that the last run changed
        self.changed = set()

    def told(self, words, status, printed):
        """The status of a run and what it printed, in a line that the command has."""
        command = words[0]
        self.counts[command, status] += 1
        if self.tells:
            print(f"campaign: {' '.join(words)}: {status_name(status)}: {printed[:200].decode('latin-1').rstrip()}")
        if status not in LINES[command]:
            raise Surprise(f"{status_name(status)}, which {command} does not answer: {os.pread(self.complained, 200, 0)!r}")
        if not is_text_of(command, status, printed):
            raise Surprise(f"{status_name(status)}, but printed {printed[:80]!r}")
        return status, printed


# the descriptors of the pipes that a process reads and writes in place of files begin here
PIPES = 200
# a pipe holds so many pieces, each in a page, and a piece is at most a page
PIECES, PAGE = 250, 4096


class Cold(Runs):
    """Runs in processes of their own, over the files of a folder."""

    def __init__(self, program, folder, tells=False):
        super().__init__(program, tells)
        os.makedirs(folder)
        os.chdir(folder)
        self.printed = os.memfd_create("printed")
        self.actions = [(os.POSIX_SPAWN_DUP2, self.printed, 1), (os.POSIX_SPAWN_DUP2, self.complained, 2)]
        self.files = {}
        signal.signal(signal.SIGALRM, out_of_time)

    def put(self, files):
        """Makes these the files of the folder."""
        for name in FILES:
            self.add(name, files.get(name))

    def add(self, name, content):
        """Makes this one of the files."""
        if self.files.get(name) != content:
            put(name, content)
        if content is None:
            self.files.pop(name, None)
        else:
            self.files[name] = content

    def clear(self):
        """Removes all files of the folder, whoever made them."""
        for name in os.listdir("."):
            os.remove(name)
        self.files = {}

    def left(self):
        """The files of the folder."""
        return {name: bytes_of(name) for name in os.listdir(".")}

    def content(self, name):
        return self.files.get(name)

    def run(self, words, times=1, piece=0):
        """A run, so often with the same end; where it is repeated and a piece is given, over pipes too."""
        said = self.run_once(words)
        left = self.left()
        self.changed = {name for name in self.files.keys() | left.keys() if left.get(name) != self.files.get(name)}
        self.files = left
        for _ in range(1, times):
            if self.run_once(words) != said:
                raise Surprise("another answer to the same run")
            if self.left() != left:
                raise Surprise("other files behind the same run")
        if times > 1 and piece:
            self.run_piped(words, said, piece)
        return said

    def run_once(self, words, more=()):
        for output in (self.printed, self.complained):
            empty(output)
        status = self.status_of(words, more)
        return self.told(words, status, os.pread(self.printed, os.fstat(self.printed).st_size, 0))

    def status_of(self, words, more):
        """The status of a process; below 0 the signal that ended it."""
        child = os.posix_spawn(self.program, ("apt", *words), {}, file_actions=[*self.actions, *more])
        signal.alarm(SECONDS)
        try:
            return os.waitstatus_to_exitcode(os.waitpid(child, 0)[1])
        except Surprise:
            os.kill(child, signal.SIGKILL)
            os.waitpid(child, 0)
            raise
        finally:
            signal.alarm(0)

    def run_piped(self, words, said, piece):
        """The same run, whose inputs come through pipes in pieces of so many bytes, and whose outputs go into pipes."""
        outputs = words[3:] if words[0] == "compile" else ()
        if max((len(self.files.get(name, b"")) for name in words[1:]), default=0) > PIECES * PAGE:
            return
        ours, theirs, got = {}, {}, {}
        try:
            for name in words[1:]:
                ours[name], theirs[name] = pipe_of(None if name in outputs else self.files[name], piece)
            more = [(os.POSIX_SPAWN_DUP2, end, PIPES + at) for at, end in enumerate(theirs.values())]
            given = (words[0], *(f"/dev/fd/{PIPES + at}" for at in range(len(theirs))))
            again = self.run_once(given, more)
            got = {name: read_out(ours[name]) for name in outputs}
        finally:
            for end in (*ours.values(), *theirs.values()):
                if end is not None:
                    os.close(end)
        if again != said:
            raise Surprise(f"another answer where files come in pieces of {piece} bytes: {again[1][:80]!r}")
        if any(got[name] != (self.files[name] if said[0] == 0 else b"") for name in outputs):
            raise Surprise(f"other outputs where files come in pieces of {piece} bytes, and outputs go into pipes")


def pipe_of(content, piece):
    """Two ends of a pipe, ours and that of a process: of an input the whole of which is in it in pieces, or of an output."""
    reading, writing = os.pipe2(os.O_CLOEXEC | os.O_NONBLOCK | (0 if content is None else os.O_DIRECT))
    fcntl.fcntl(writing, fcntl.F_SETPIPE_SZ, (PIECES + 6) * PAGE)
    if content is None:
        return reading, writing
    # a process that opens it blocks, whatever is said here
    size = max(min(piece, PAGE), -(-len(content) // PIECES))
    for at in range(0, len(content), size):
        os.write(writing, content[at : at + size])
    os.close(writing)
    return None, reading


def read_out(pipe):
    """All that is in a pipe."""
    pieces = []
    try:
        while piece := os.read(pipe, 1 << 20):
            pieces.append(piece)
    except BlockingIOError:
        pass
    return b"".join(pieces)


# The memory that tools/campaign.c shares: a head with the slots of the files and their lengths, the words of the next runs,
# and how the last one ended; then the slots: those of the files and of six more, of what is printed, and of what is kept.
SLOT = 1 << 27
SPARE, KEPT = 6, 3
PRINTED = len(FILES) + SPARE
SLOTS = PRINTED + 1 + KEPT
PLACES = struct.Struct(f"{len(FILES)}q")
SIZES = struct.Struct(f"{SLOTS}q")
ASKS = struct.Struct("2q")
ENDED = struct.Struct("3q")
WORDS, LONGEST = 8, 32
SIZES_AT = PLACES.size
ASKS_AT = SIZES_AT + SIZES.size
ENDED_AT = ASKS_AT + ASKS.size
WORDS_AT = ENDED_AT + ENDED.size
ASKED, ANSWERED, MEMORY = 100, 101, 102
# a process that runs main again and again judges so many inputs, lest what it does not give back grow
LIFE = 10000


class Server:
    """A process that runs main whenever it is asked to."""

    def __init__(self, program, preloaded, actions):
        theirs, self.ask = os.pipe()
        self.answer, ours = os.pipe()
        actions = [*actions, (os.POSIX_SPAWN_DUP2, theirs, ASKED), (os.POSIX_SPAWN_DUP2, ours, ANSWERED)]
        self.child = os.posix_spawn(program, ("apt",), {"LD_PRELOAD": preloaded}, file_actions=actions)
        os.close(theirs)
        os.close(ours)

    def has_run(self, times):
        """Runs main so often; whether the process is still there."""
        try:
            os.write(self.ask, b"%c" % times)
            return bool(os.read(self.answer, 1))
        except BrokenPipeError:
            return False

    def end(self):
        """Ends the process; its status where it ended by itself."""
        os.close(self.ask)
        os.close(self.answer)
        return os.waitstatus_to_exitcode(os.waitpid(self.child, 0)[1])


class Warm(Runs):
    """Runs in a process that stays, over files in memory that is shared with tools/campaign.c."""

    def __init__(self, program, preloaded):
        super().__init__(program)
        self.preloaded = preloaded
        self.shared = os.memfd_create("shared")
        os.ftruncate(self.shared, SLOT * (SLOTS + 1))
        self.memory = mmap.mmap(self.shared, SLOT * (SLOTS + 1))
        theirs = {1: self.complained, 2: self.complained, MEMORY: self.shared}
        self.actions = [(os.POSIX_SPAWN_DUP2, ours, at) for at, ours in theirs.items()]
        self.server = None
        self.begun = 0

    def put(self, files):
        """Makes these the files in memory."""
        self.begun += 1
        if self.begun % LIFE == 0:
            self.clear()
        contents = [files.get(name) for name in FILES]
        PLACES.pack_into(self.memory, 0, *[-1 if content is None else slot for slot, content in enumerate(contents)])
        for slot, content in enumerate(contents):
            if content is not None:
                self.fill(slot, content)

    def add(self, name, content):
        """Makes this one of the files; its slot is one to which no name leads."""
        places = list(PLACES.unpack_from(self.memory))
        at = FILES.index(name)
        places[at] = -1
        places[at] = next(slot for slot in range(PRINTED) if slot not in places)
        PLACES.pack_into(self.memory, 0, *places)
        self.fill(places[at], content)

    def fill(self, slot, content):
        struct.pack_into("q", self.memory, SIZES_AT + 8 * slot, len(content))
        self.memory[SLOT * (slot + 1) : SLOT * (slot + 1) + len(content)] = content

    def slot(self, slot):
        (size,) = struct.unpack_from("q", self.memory, SIZES_AT + 8 * slot)
        return self.memory[SLOT * (slot + 1) : SLOT * (slot + 1) + size]

    def clear(self):
        """Ends the process, and gives the memory back."""
        if self.server:
            self.server.end()
        self.server = None
        empty(self.complained)
        empty(self.shared)
        os.ftruncate(self.shared, SLOT * (SLOTS + 1))
        PLACES.pack_into(self.memory, 0, *[-1] * len(FILES))

    def left(self):
        """The files in memory."""
        return {name: self.content(name) for name, place in zip(FILES, PLACES.unpack_from(self.memory)) if place >= 0}

    def content(self, name):
        place = PLACES.unpack_from(self.memory)[FILES.index(name)]
        return None if place < 0 else self.slot(place)

    def run(self, words, times=1, piece=0):
        """A run, so often with the same end; all but the first move at most a piece of so many bytes in a call."""
        if not self.server:
            self.server = Server(self.program, self.preloaded, self.actions)
        ASKS.pack_into(self.memory, ASKS_AT, len(words), piece)
        for at, word in enumerate(words):
            struct.pack_into(f"{LONGEST}s", self.memory, WORDS_AT + LONGEST * at, word.encode())
        if not self.server.has_run(times):
            server, self.server = self.server, None
            status = server.end()
            if status == -signal.SIGALRM:
                out_of_time()
            return self.told(words, status, b"")
        status, changed, is_same = ENDED.unpack_from(self.memory, ENDED_AT)
        if not is_same:
            raise Surprise(f"another answer to the same run, or other files behind it, where a call moves {piece or 'any number of'} bytes")
        self.changed = {name for bit, name in enumerate((*FILES, "another file")) if changed & 1 << bit}
        self.counts[words[0], status] += times - 1
        return self.told(words, status, self.slot(PRINTED))


def built(folder):
    """What makes a program run its main again and again."""
    compiler = os.environ.get("CC") or "cc"
    if not shutil.which(compiler):
        sys.exit("campaign: --warm needs a C compiler")
    preloaded = os.path.join(folder, "campaign.so")
    names = {"SLOT": f"{SLOT}L", "SECONDS": SECONDS, "ASKED": ASKED, "ANSWERED": ANSWERED, "MEMORY": MEMORY}
    given = [f"-D{name}={value}" for name, value in names.items()]
    subprocess.run([compiler, "-O1", "-shared", "-fPIC", *given, "-o", preloaded, os.path.join(TOP, "tools/campaign.c"), "-ldl"], check=True)
    return preloaded
