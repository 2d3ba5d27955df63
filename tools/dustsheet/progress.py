"""Long work tells on standard error that it goes on."""
from __future__ import annotations

import sys
import threading
import time
from typing import Callable, List, TypeVar

Answer = TypeVar("Answer")
FIRST, NEXT = 1.0, 10.0  # seconds until the first word of work, and until each further one where no terminal shows it


class Progress:
    """On a terminal one line is written over and over; elsewhere each is a line of its own."""

    def __init__(self, name: str, quiet: bool) -> None:
        self.name, self.quiet = name, quiet
        self.over = sys.stderr.isatty()
        self.shown = False

    def say(self, words: str) -> None:
        if self.quiet:
            return
        line = "%s: %s" % (self.name, words)
        sys.stderr.write("\r\033[K" + line if self.over else line + "\n")
        sys.stderr.flush()
        self.shown = True

    def done(self) -> None:
        """Takes the line away, so that what follows stands by itself."""
        if self.over and self.shown:
            sys.stderr.write("\r\033[K")
            sys.stderr.flush()
        self.shown = False

    def watch(self, what: str, work: Callable[[], Answer]) -> Answer:
        """Does the work, which no signal can reach, in a thread of its own, and tells how long it has gone on. Ctrl-C ends the wait."""
        answers: List[Answer] = []
        faults: List[BaseException] = []

        def run() -> None:
            try:
                answers.append(work())
            except BaseException as fault:  # handed on to the thread that waits
                faults.append(fault)

        thread = threading.Thread(target=run, daemon=True)
        began = time.monotonic()
        thread.start()
        thread.join(FIRST)
        while thread.is_alive():
            self.say("%s, %d s" % (what, time.monotonic() - began))
            thread.join(FIRST if self.over else NEXT)
        self.done()
        if faults:
            raise faults[0]
        return answers[0]
