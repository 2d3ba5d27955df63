"""Chromium without a window, for looking at pages: tests and pictures use it where one is installed; nothing else does."""
from __future__ import annotations

import os
import shutil
import subprocess
from typing import Optional

NAMES = ["chromium", "chromium-browser", "google-chrome", "google-chrome-stable"]


def find() -> Optional[str]:
    """The browser's program; none where none is installed."""
    return next(filter(None, map(shutil.which, NAMES)), None)


def browse(browser: str, folder: str, address: str, *words: str) -> str:
    """What the browser prints for a page, with a profile of its own in the folder. The address is a file, with a part of it perhaps."""
    command = [browser, "--headless", "--disable-gpu", "--hide-scrollbars", "--user-data-dir=" + os.path.join(folder, "profile")]
    if os.geteuid() == 0:
        command.append("--no-sandbox")  # Chromium's sandbox refuses root
    done = subprocess.run([*command, *words, "file://" + address], stdout=subprocess.PIPE, stderr=subprocess.DEVNULL, timeout=120, check=True)
    return done.stdout.decode()


def picture(browser: str, folder: str, address: str, file: str, width: int, height: int) -> None:
    """A page's upper left part as a PNG file."""
    browse(browser, folder, address, "--window-size=%d,%d" % (width, height), "--screenshot=" + os.path.abspath(file))
