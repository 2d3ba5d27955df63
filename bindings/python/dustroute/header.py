"""The functions and constants of bindings/c/dustroute.h, read from it: what the header has, Python has."""
from __future__ import annotations

import ctypes
import re
from pathlib import Path
from typing import Dict, NamedTuple, Tuple

NUMBERS = {"size_t": ctypes.c_size_t, "uint8_t": ctypes.c_uint8, "uint16_t": ctypes.c_uint16, "uint32_t": ctypes.c_uint32,
           "uint64_t": ctypes.c_uint64}


class Parameter(NamedTuple):
    """A single number, or a slice: a pointer, which the header follows by the slice's length."""
    name: str
    type: type
    is_slice: bool
    is_const: bool


class Header(NamedTuple):
    functions: Dict[str, Tuple[Parameter, ...]]
    constants: Dict[str, int]


def read(path: Path) -> Header:
    text = re.sub(r"/\*.*?\*/", "", path.read_text(encoding="utf-8"), flags=re.DOTALL)
    functions = {}
    # one begins a line; an inline helper of the header begins with `static`, and the library has none of those
    for name, listed in re.findall(r"^uint32_t (dustroute_\w+)\(([^)]*)\);", text, re.MULTILINE):
        functions[name] = _parameters(name, " ".join(listed.split()).split(", "))
    constants = {name: int(value) for name, value in re.findall(r"\b(DUSTROUTE_\w+) = (\d+)", text)}
    return Header(functions, constants)


def _parameters(function: str, listed: list) -> Tuple[Parameter, ...]:
    found, place = [], 0
    while place < len(listed):
        words = re.fullmatch(r"(const )?(\w+) (\*?)(\w+)", listed[place])
        if words is None or words[2] not in NUMBERS:
            raise ValueError("%s: '%s' is no parameter that Python can pass" % (function, listed[place]))
        parameter = Parameter(words[4], NUMBERS[words[2]], bool(words[3]), bool(words[1]))
        place += 1
        if parameter.is_slice:
            if listed[place:place + 1] != ["size_t %s_length" % parameter.name]:
                raise ValueError("%s: no length stands behind %s" % (function, parameter.name))
            place += 1
        found.append(parameter)
    return tuple(found)
