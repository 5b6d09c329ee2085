"""What the scripts beside this file have in common as commands: reading a file, writing UTF-8, and exit statuses.

The statuses are those of `ledgerd`.
"""

import io
import re
import signal
import sys
from typing import Callable, Iterator

USAGE, LIMIT, FAULT, MISSING, DIGESTS, INPUT, NOT_IMAGE, NO_ENTRY = 2, 3, 6, 7, 8, 10, 11, 14
MAX_IMAGE, MAX_INPUT = 256 * 2**20, 4 * 2**20


class Ended(Exception):
    """An exit status, and the sentence that standard error says."""


def read_file(path: str, most: int = MAX_IMAGE) -> bytes:
    """The bytes of a file, of at most so many."""
    try:
        with open(path, "rb") as file:
            data = file.read(most + 1)
    except FileNotFoundError as error:
        raise Ended(MISSING, f"no such file: {path}") from error
    except OSError as error:
        raise Ended(FAULT, f"{path} could not be read: {error.strerror}") from error
    if len(data) > most:
        raise Ended(LIMIT, f"{path} has more than {most >> 20} MiB")
    return data


def write_lines(lines: Iterator[str]) -> None:
    """Writes them in UTF-8, whatever the locale. On a terminal what would steer it is written as an escape."""
    if isinstance(sys.stdout, io.TextIOWrapper):
        sys.stdout.reconfigure(encoding="utf-8", newline="\n")
    is_terminal = sys.stdout.isatty()
    for line in lines:
        print(re.sub(STEERING, escape, line) if is_terminal else line)


# control characters, and those that turn the direction of writing
STEERING = "[\x00-\x08\x0b-\x1f\x7f-\x9f\u200e\u200f\u2028-\u202e\u2066-\u2069]"


def escape(found: re.Match[str]) -> str:
    return f"\\u{{{ord(found[0]):x}}}"


def run(name: str, command: Callable[[list[str]], int]) -> None:
    """Ends the program as the command does. A reader that goes away ends it silently."""
    signal.signal(signal.SIGPIPE, signal.SIG_DFL)
    sys.exit(status_of(name, command, sys.argv[1:]))


def status_of(name: str, command: Callable[[list[str]], int], words: list[str]) -> int:
    """The exit status of a command, which says on standard error why it ended early."""
    try:
        return command(words)
    except Ended as ended:
        status, said = ended.args
        if isinstance(sys.stderr, io.TextIOWrapper):
            sys.stderr.reconfigure(encoding="utf-8")
        print(f"{name}: {said}", file=sys.stderr)
        return status
