"""The memory that the library is lent, kept from one call to the next."""
from __future__ import annotations

import ctypes
import threading
from typing import Dict


class Memory:
    """Buffers by the names of their parameters. Each call is lent just the lengths it needs, as the front of what is kept, which
    grows where a call needs more. For one thread at a time; `own()` is that of the thread at hand."""

    def __init__(self) -> None:
        self._kept: Dict[str, ctypes.Array] = {}

    def lend(self, name: str, kind: type, length: int) -> ctypes.Array:
        size = ctypes.sizeof(kind) * length  # type: ignore[arg-type]
        kept = self._kept.get(name)
        if kept is None or ctypes.sizeof(kept) < size:
            kept = self._kept[name] = (ctypes.c_uint64 * (size // 8 + 1))()  # aligned for every kind
        return (kind * length).from_buffer(kept)  # type: ignore[operator]

    def size(self) -> int:
        """How many bytes are kept."""
        return sum(map(ctypes.sizeof, self._kept.values()))


_threads = threading.local()


def own() -> Memory:
    """The memory of this thread, which the calls of this module take unless they are given another."""
    if not hasattr(_threads, "memory"):
        _threads.memory = Memory()
    return _threads.memory
