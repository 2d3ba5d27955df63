"""A function file as a data pack: a zip that the game takes as it is. Java Edition 1.21 to 1.21.8."""
from __future__ import annotations

import io
import json
import os
import re
import zipfile

NAMESPACE = "dustroute"
# the pack format of 1.21, in which functions went from the folder `functions` to `function`; and the highest that takes the pack, 1.21.8
FORMAT, LAST_FORMAT = 48, 81
VERSIONS = "Java Edition 1.21 to 1.21.8"
MADE = (1980, 1, 1, 0, 0, 0)  # the earliest time that a zip can hold: the same room gives the same bytes


def function_name(path: str) -> str:
    """A name that the game takes: small letters, digits, and `_`, `-` or `.`."""
    stem = os.path.splitext(os.path.basename(path))[0].lower()
    return re.sub(r"[^a-z0-9_.-]", "_", stem) or "room"


def mcmeta() -> bytes:
    pack = {"pack_format": FORMAT, "supported_formats": {"min_inclusive": FORMAT, "max_inclusive": LAST_FORMAT},
            "description": "A room of redstone, laid by a function"}
    return (json.dumps({"pack": pack}, indent=2) + "\n").encode()


def zipped(name: str, text: bytes) -> bytes:
    """The zip, of which no byte hangs on the time or the machine."""
    out = io.BytesIO()
    with zipfile.ZipFile(out, "w") as pack:
        for path, content in (("pack.mcmeta", mcmeta()), ("data/%s/function/%s.mcfunction" % (NAMESPACE, name), text)):
            entry = zipfile.ZipInfo(path, MADE)
            entry.compress_type = zipfile.ZIP_DEFLATED
            entry.create_system = 3
            entry.external_attr = 0o644 << 16
            pack.writestr(entry, content)
    return out.getvalue()
