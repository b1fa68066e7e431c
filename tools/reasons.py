"""Why a file could not be read or written: the system's own reasons, found without a change of any file."""

import os
import stat
import tempfile

# which words of a command are read, and which are written
READ = {"compile": (1, 2), "certify": (1, 2, 3, 4), "guard": (1, 2, 3, 4, 5), "decode": (1, 2), "list": (1,)}
WRITTEN = {"compile": (3, 4)}
# where ./apt leaves the program's standard output for this
OUTPUT = 3


def of_status(status, words):
    """The files of a command that could not be read (3) or written (11), each with the reason."""
    if status == 3:
        return [f"{words[at]} could not be read: {reason}" for at in READ.get(words[0], ()) if at < len(words) and (reason := unread(words[at]))]
    found = [f"{words[at]} could not be written: {reason}" for at in WRITTEN.get(words[0], ()) if at < len(words) and (reason := unwritten(words, at))]
    reason = unprinted()
    return found + [f"the answer's line could not be written: {reason}"] * bool(reason)


def unread(name):
    """Why a file can't be read, or None."""
    try:
        if not stat.S_ISREG(os.stat(name).st_mode) and not os.path.isdir(name):
            return None
        file = os.open(name, os.O_RDONLY)
        try:
            os.read(file, 1)
        finally:
            os.close(file)
    except OSError as fault:
        return fault.strerror
    return None


def unwritten(words, at):
    """Why no file can be written under a name, or None."""
    name = words[at]
    same = next((other for other in (*READ[words[0]], *WRITTEN[words[0]]) if other != at and other < len(words) and is_same(name, words[other])), None)
    if same is not None:
        return f"it leads to the same file as {words[same]}"
    if is_output(name):
        return "it leads to what standard output leads to"
    try:
        if os.path.isdir(name):
            return os.strerror(21)
        if os.path.exists(name) and not os.path.isfile(name):
            return unwritten_device(name)
        if os.path.exists(name):
            os.close(os.open(name, os.O_WRONLY))
        return unwritten_folder(os.path.dirname(os.path.realpath(name)))
    except OSError as fault:
        return fault.strerror


def unwritten_device(name):
    """The same of a device: an empty write asks it."""
    if not stat.S_ISCHR(os.stat(name).st_mode):
        return None
    file = os.open(name, os.O_WRONLY | os.O_NONBLOCK)
    try:
        os.write(file, b"")
    finally:
        os.close(file)
    return None


def unwritten_folder(folder):
    """Why a folder takes no new file: one without a name is tried, and a block of it."""
    if not os.path.isdir(folder):
        return f"there is no folder {folder}" if not os.path.exists(folder) else f"{folder} is no folder"
    with tempfile.TemporaryFile(dir=folder, buffering=0) as file:
        file.write(bytes(4096))
        os.fsync(file.fileno())
    return None


def is_same(name, other):
    try:
        return os.path.samefile(name, other)
    except OSError:
        return os.path.abspath(name) == os.path.abspath(other)


def is_output(name):
    """Whether a name leads to where the program's standard output went."""
    try:
        return os.path.samestat(os.stat(name), os.fstat(OUTPUT)) and not stat.S_ISCHR(os.stat(name).st_mode)
    except OSError:
        return False


def unprinted():
    """Why standard output takes no line, or None: an empty write asks it."""
    try:
        os.write(OUTPUT, b"")
    except OSError as fault:
        # without such an output there is nothing to ask
        return fault.strerror if fault.errno != 9 else None
    return None
