"""Reading and writing files for the tools; every trouble becomes one clear message and status 2."""
from __future__ import annotations

import argparse
import os
import sys
from typing import Callable, Optional

from .job import Job, Refused, bytes_of_hex, from_bytes
from .text import NoText, decoded


BAD_INPUT = 2
ENDED = 130  # by Ctrl-C


class Stop(Exception):
    """The message for a person, and the status that the tool ends with."""

    def __init__(self, words: str, status: int = BAD_INPUT) -> None:
        super().__init__(words)
        self.status = status


def shown(path: str) -> str:
    return "standard input" if path == "-" else path


def printable(name: str) -> str:
    """A file's name for a page: what no page can hold becomes a question mark."""
    return "".join(letter if letter.isprintable() else "?" for letter in name)


def read_bytes(path: str) -> bytes:
    if path == "-":
        return sys.stdin.buffer.read()
    with open(path, "rb") as file:
        return file.read()


def title(path: str) -> str:
    """A job's name on a page."""
    return "job sheet" if path == "-" else printable(os.path.basename(path))


def read_text(path: str) -> str:
    return text_of(read_bytes(path), path)


def text_of(content: bytes, path: str) -> str:
    try:
        return decoded(content)
    except NoText as bad:
        raise Stop("%s:%d: %s" % (shown(path), bad.line, bad)) from None


def read_sheet(path: str, is_hex: bool) -> bytes:
    if not is_hex:
        return read_bytes(path)
    try:
        return bytes_of_hex(read_text(path))
    except ValueError:
        raise Stop("%s: these are no hex digits, two for each byte" % shown(path)) from None


def read_job(path: str, is_hex: bool) -> Job:
    """The job a sheet spells, whose faults are still to be looked for."""
    try:
        return from_bytes(read_sheet(path, is_hex))
    except Refused as refused:
        raise Stop("%s: %s (number %d)" % (shown(path), refused, refused.number)) from None


def write(path: Optional[str], content: bytes, is_text: bool) -> None:
    if path is not None:
        with open(path, "wb") as file:
            file.write(content)
    elif sys.stdout.isatty() and not is_text:
        raise Stop("a sheet's bytes are not for the screen; name a file with -o, or use --hex")
    else:
        sys.stdout.buffer.write(content)
        sys.stdout.buffer.flush()


def guarded(tool: str, run: Callable[[], Optional[int]]) -> int:
    """Runs the tool: the status that it gives, 0 if none; with a message, what Stop says; 130 after Ctrl-C."""
    try:
        return run() or 0
    except Stop as stop:
        print(stop, file=sys.stderr)
        return stop.status
    except KeyboardInterrupt:
        return ENDED
    except BrokenPipeError:
        # the reader has seen enough; nothing more is to be flushed at the end
        os.dup2(os.open(os.devnull, os.O_WRONLY), sys.stdout.fileno())
    except OSError as error:
        print("%s: %s: %s" % (tool, error.filename or "standard output", error.strerror), file=sys.stderr)
    return BAD_INPUT


def main(tool: str, about: str, configure: Callable[[argparse.ArgumentParser], None]) -> int:
    """A tool that is one word of the command line by itself."""
    parser = argparse.ArgumentParser(prog=tool, description=about[:1].upper() + about[1:] + ".")
    configure(parser)
    args = parser.parse_args()
    return guarded(tool, lambda: args.run(args))
