"""The shared library's functions, each called by the names of its parameters in the header."""
from __future__ import annotations

import ctypes
import threading
from typing import Callable, Dict, List, Optional, Tuple

from . import built, header
from .header import Parameter
from .repository import HEADER

Say = Callable[[str], None]


class Function:
    """One function of the header. Numbers are given as ints, slices as anything with a buffer of the right element size: bytes, a
    bytearray, an array, a ctypes array. What it writes, it writes into the buffers given. Its number comes back."""

    def __init__(self, name: str, parameters: Tuple[Parameter, ...], call: Callable[..., int]) -> None:
        self.name, self.parameters, self._call = name, parameters, call
        call.restype = ctypes.c_uint32  # type: ignore[attr-defined]
        call.argtypes = [part for one in parameters for part in (  # type: ignore[attr-defined]
            (ctypes.POINTER(one.type), ctypes.c_size_t) if one.is_slice else (one.type,))]

    def __call__(self, **given: object) -> int:
        names = [parameter.name for parameter in self.parameters]
        if sorted(given) != sorted(names):
            wrong = sorted(set(given) ^ set(names))
            raise TypeError("%s takes %s; missing or unknown: %s" % (self.name, ", ".join(names), ", ".join(wrong)))
        words: list = []
        spans = []
        for parameter in self.parameters:
            if not parameter.is_slice:
                words.append(_number(parameter, given[parameter.name]))
                continue
            array = _array(parameter, given[parameter.name])
            words += [array, len(array)]
            spans.append((ctypes.addressof(array), ctypes.sizeof(array), parameter.name))
        _check_apart(spans)
        return self._call(*words)


def _number(parameter: Parameter, value: object) -> int:
    """ctypes cuts a number to its size without a word; here one that doesn't fit is told."""
    most = 256 ** ctypes.sizeof(parameter.type) - 1
    if not isinstance(value, int):
        raise TypeError("%s is %r; a number was expected" % (parameter.name, value))
    if not 0 <= value <= most:
        raise OverflowError("%s is %d; it is 0 to %d" % (parameter.name, value, most))
    return int(value)


def _array(parameter: Parameter, value: object) -> ctypes.Array:
    view = memoryview(value)  # type: ignore[arg-type]
    size = ctypes.sizeof(parameter.type)
    if not view.nbytes:
        return (parameter.type * 0)()  # type: ignore[operator]
    if view.itemsize != size or not view.c_contiguous:
        raise TypeError("%s needs elements of %d bytes, one behind another" % (parameter.name, size))
    kind = parameter.type * (view.nbytes // size)  # type: ignore[operator]
    if not view.readonly:
        return kind.from_buffer(value)
    if not parameter.is_const:
        raise TypeError("%s is written to; its buffer can't be" % parameter.name)
    return kind.from_buffer_copy(value)


def _check_apart(spans: list) -> None:
    """No two buffers of a call may overlap: the one thing that the library can't see for itself."""
    held = sorted(span for span in spans if span[1])
    for one, other in zip(held, held[1:]):
        if one[0] + one[1] > other[0]:
            raise ValueError("the buffers of %s and %s overlap" % (one[2], other[2]))


class Library:
    """The library, loaded: `library["dustroute_search"](wide=3, ..)` is the bare call."""

    def __init__(self, path: str) -> None:
        self.path = path
        loaded = ctypes.CDLL(path)
        read = header.read(HEADER)
        self.constants = read.constants
        self.functions: Dict[str, Function] = {
            name: Function(name, parameters, getattr(loaded, name)) for name, parameters in read.functions.items()}

    def __getitem__(self, name: str) -> Function:
        return self.functions[name]


_lock = threading.Lock()
_kept: List[Library] = []


def library(say: Optional[Say] = None) -> Library:
    """The library of this repository, proved and built where it isn't, and loaded once; `say` is told of progress, line by line."""
    with _lock:
        if not _kept:
            _kept.append(Library(str(built.shared_library(say or (lambda line: None)))))
        return _kept[0]


def library_if_built() -> Optional[Library]:
    """The same where it is built; None where it isn't, and nothing is built for it."""
    with _lock:
        if not _kept:
            path = built.shared_library_if_built()
            if path is None:
                return None
            _kept.append(Library(str(path)))
        return _kept[0]
