"""The command lines of the tools in Python, the files that they name, and the program that they run."""

import os
import signal
import sys

from shared import TOP


def words_of_call(name, usage, least, most):
    """The words behind a tool's name, so many of them. --help prints its usage; a word that begins with - stands behind --."""
    end_with_reader()
    words = sys.argv[1:]
    if words[:1] in (["-h"], ["--help"]):
        print(usage.strip())
        sys.exit(0)
    if words[:1] == ["--"]:
        words = words[1:]
    elif words and words[0].startswith("-"):
        stop(name, f"{words[0]} is no option; a name that begins so stands behind --")
    if not least <= len(words) <= most:
        print(usage.strip(), file=sys.stderr)
        sys.exit(2)
    return words


def stop(name, text):
    """Ends a tool that can't do what is asked."""
    print(f"{name}: {text}", file=sys.stderr)
    sys.exit(2)


def end_with_reader():
    """Lets a tool end where what reads its lines ends before it."""
    signal.signal(signal.SIGPIPE, signal.SIG_DFL)


def content_of(name, path):
    """What a file holds; where it can't be read, the tool ends."""
    try:
        with open(path, "rb") as file:
            return file.read()
    except OSError as fault:
        stop(name, f"{path}: {fault.strerror}")


def program():
    """The program that a tool may ask: that of APT, else the one that is built, or None. None is built for this."""
    path = os.environ.get("APT") or os.path.join(TOP, "crates/apt_cli/out/apt_cli")
    return path if os.path.isfile(path) and os.access(path, os.X_OK) else None
