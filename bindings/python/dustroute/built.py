"""What is proved and built once: found where it was built by this toolchain from these sources, else built, with a word of progress.

It goes by the content of the sources, since an edit may keep a file's time. Another process that builds is waited for. However
the build ends, by Ctrl-C or TERM too, no process of it is left."""
from __future__ import annotations

import contextlib
import fcntl
import hashlib
import os
import re
import shutil
import signal
import subprocess
import threading
from pathlib import Path
from typing import Callable, Iterator, List, Optional, Set

from .repository import ROOT

Say = Callable[[str], None]
CRATE = "dustroute"
SHARED = "lib%s.so" % CRATE
ENDS_WITHIN = 5  # seconds that the processes of a build are given to end by themselves


class NotBuilt(Exception):
    """The library is not there and can't be built: why, and what helps."""


def shared_library(say: Say) -> Path:
    """The shared library's file: that of the folder DUSTROUTE_ARCHIVE, or this repository's own."""
    return _found_or_built(SHARED, "--shared", say)


def wasm_module(say: Say) -> Path:
    """The WebAssembly module's file, found or built as the shared library is."""
    return _found_or_built("%s.wasm" % CRATE, "--wasm", say)


def shared_library_if_built() -> Optional[Path]:
    """The same file where it is built; None where it isn't, and nothing is built for it."""
    named = os.environ.get("DUSTROUTE_ARCHIVE")
    file = (Path(named).resolve() if named else ROOT / "target" / "native") / SHARED
    return file if (file.is_file() if named else is_built(file)) else None


def _found_or_built(name: str, option: str, say: Say) -> Path:
    named = os.environ.get("DUSTROUTE_ARCHIVE")
    if named:
        file = Path(named).resolve() / name
        if not file.is_file():
            raise NotBuilt("DUSTROUTE_ARCHIVE names %s, and there is no %s in it; tools/native-archive %s makes it" % (named, file.name, option))
        return file
    file = ROOT / "target" / "native" / name
    if not is_built(file):
        _build(file, option, say)
    return file


# ---- whether it is built

def crates_of(crate: str) -> List[str]:
    """The crate and all that it depends on by crates.txt, itself last."""
    listed = {}
    for line in (ROOT / "crates.txt").read_text(encoding="utf-8").splitlines():
        name, colon, needs = line.split("#")[0].partition(":")
        if colon:
            listed[name.split()[0]] = needs.split()
    found: List[str] = []

    def visit(name: str) -> None:
        if name in listed and name not in found:
            for needed in listed[name]:
                visit(needed)
            found.append(name)

    visit(crate)
    return found


def sum_of_sources(crate: str) -> str:
    """A checksum of all that the library is made from: the crates' files and the script that builds it."""
    total = hashlib.sha256()
    for file in [ROOT / "crates.txt", ROOT / "tools" / "native-archive", *_files_of(crate)]:
        content = file.read_bytes()
        total.update(b"%s %d\n" % (os.fsencode(file.relative_to(ROOT)), len(content)))
        total.update(content)
    return total.hexdigest()


def _files_of(crate: str) -> Iterator[Path]:
    for name in crates_of(crate):
        for folder, below, files in os.walk(ROOT / "crates" / name):
            below[:] = sorted(part for part in below if part not in ("must-fail", "out"))
            yield from (Path(folder) / file for file in sorted(files))


def toolchain() -> Optional[str]:
    """The toolchain's name for itself, empty where it has none; None where no `rt` is on the PATH."""
    rt = shutil.which("rt")
    if rt is None:
        return None
    try:
        return " ".join((Path(rt).resolve().parents[1] / "KIT-ID").read_text(encoding="utf-8").split())
    except OSError:
        return ""


def stamp_of(file: Path) -> Path:
    return file.with_name(file.name + ".proved")


def is_built(file: Path) -> bool:
    """Whether the file is as it was built from these sources, and by this toolchain, if there is one: what is built needs none."""
    try:
        stamp = stamp_of(file).read_text(encoding="utf-8")
        by = toolchain()
        return stamp == stamp_text(file, stamp.split("\n")[0] if by is None else by, sum_of_sources(CRATE))
    except OSError:
        return False


def stamp_text(file: Path, by: str, sources: str) -> str:
    return "%s\nsources %s\nlibrary %s\n" % (by, sources, hashlib.sha256(file.read_bytes()).hexdigest())


# ---- building it

def _build(file: Path, option: str, say: Say) -> None:
    by = toolchain()
    if by is None:
        raise NotBuilt("no rt on the PATH: the Rattle toolchain proves and builds the router, the first time")
    file.parent.mkdir(parents=True, exist_ok=True)
    with _alone(file.with_name(file.name + ".lock"), say):
        if is_built(file):
            return
        stamp_of(file).unlink(missing_ok=True)
        sources = sum_of_sources(CRATE)
        say("proving and building the router; the first time takes minutes")
        _prove_and_link(file, option, say)
        stamp_of(file).write_text(stamp_text(file, by, sources), encoding="utf-8")


@contextlib.contextmanager
def _alone(lock: Path, say: Say) -> Iterator[None]:
    """While it lasts no other process builds the same."""
    with open(lock, "w", encoding="utf-8") as held:
        try:
            fcntl.flock(held, fcntl.LOCK_EX | fcntl.LOCK_NB)
        except OSError:
            say("another process builds the router; waiting for it")
            fcntl.flock(held, fcntl.LOCK_EX)
        yield


def _prove_and_link(file: Path, option: str, say: Say) -> None:
    """The script proves the crates, those below first, and builds; what `rt` prints behind each crate tells how far it is."""
    crates = crates_of(CRATE)
    proved: Set[str] = set()
    last = ""

    def told(line: str) -> None:
        nonlocal last
        last = line
        found = re.match(r"crate (\w+): modules ", line)
        if found and found[1] in crates[:-1] and found[1] not in proved:
            proved.add(found[1])
            say("%d of %d crates" % (len(proved), len(crates)))

    if run([str(ROOT / "tools" / "native-archive"), option, CRATE, str(file)], told):
        raise NotBuilt("the router is not proved, so it is not used: `rt check` in %s says why (%s)" % (ROOT / "crates" / CRATE, last))
    say("%d of %d crates; built" % (len(crates), len(crates)))


def run(words: List[str], told: Callable[[str], object]) -> int:
    """Runs a command in a session of its own, and hands on each line it prints. No process of it outlives this call."""
    with _terminated_is_raised():
        process = subprocess.Popen(words, cwd=ROOT, stdin=subprocess.DEVNULL, stdout=subprocess.PIPE, stderr=subprocess.STDOUT,
                                   start_new_session=True, text=True, errors="replace")
        try:
            assert process.stdout is not None
            for line in process.stdout:
                told(line.rstrip("\n"))
            return process.wait()
        except BaseException:
            _end_all(process)
            raise


def _end_all(process: subprocess.Popen) -> None:
    """Ends all processes of the session, which is the group of its first."""
    for how, seconds in ((signal.SIGTERM, ENDS_WITHIN), (signal.SIGKILL, ENDS_WITHIN)):
        with contextlib.suppress(ProcessLookupError):
            os.killpg(process.pid, how)
        with contextlib.suppress(subprocess.TimeoutExpired):
            process.wait(seconds)
    if process.stdout is not None:
        process.stdout.close()


@contextlib.contextmanager
def _terminated_is_raised() -> Iterator[None]:
    """TERM and HUP, which would end this process and leave its children, raise SystemExit meanwhile, as Ctrl-C raises
    KeyboardInterrupt. Where the program has a way of its own with them, or this is no main thread, nothing is changed."""
    taken = []
    if threading.current_thread() is threading.main_thread():
        taken = [one for one in (signal.SIGTERM, signal.SIGHUP) if signal.getsignal(one) is signal.SIG_DFL]

    def end(number: int, frame: object) -> None:
        raise SystemExit(128 + number)

    for one in taken:
        signal.signal(one, end)
    try:
        yield
    finally:
        for one in taken:
            signal.signal(one, signal.SIG_DFL)
