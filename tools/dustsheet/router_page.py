"""The page that routes in a browser: scripts, style, tables, examples and the proved module as one HTML file."""
from __future__ import annotations

import base64
import ctypes
import json
from pathlib import Path
from typing import Dict, List, Tuple

from . import job as jobs, reason, sinks, symbols, text as texts, words
from .bundle import SCRIPTS, bundle, names, parts
from .check import NOT_KNOWN
from .files import Stop

EXAMPLES = ["lane", "three-lamps", "lamp", "power-block", "gap", "lever-door", "walled-in", "closet", "hemmed-in", "shelf", "dust-inside",
            "smallest", "hall", "controller"]  # the first is shown at first
FUNCTION = 0  # the kind of a module's export


def page(module: bytes, header: object, examples: Path) -> str:
    """The page of a WebAssembly module and the header's functions and constants."""
    given = exported(module)
    tables = "export const TABLES = %s;\n" % json.dumps(tables_of(header, given), separators=(",", ":"))
    chosen = parts(given)
    worker = bundle([SCRIPTS / "router" / "worker.mjs", *chosen], tables)
    script = bundle([*chosen, SCRIPTS / "app" / "main.mjs"], tables)
    shell = (SCRIPTS / "page.html").read_text(encoding="utf-8")
    filled = {"STYLE": (SCRIPTS / "style.css").read_text(encoding="utf-8"), "WORKER": in_script(worker), "SCRIPT": in_script(script),
              "MODULE": base64.b64encode(module).decode(), "EXAMPLES": in_script(json.dumps(listed(examples)))}
    for name, content in filled.items():
        shell = shell.replace("{{%s}}" % name, content)
    return shell


def node_bundle(module: bytes, header: object) -> str:
    """All scripts that need no page, with all that they declare given away: for tests in Node."""
    given = exported(module)
    tables = "export const TABLES = %s;\n" % json.dumps(tables_of(header, given))
    files = [file for folder in ("job", "router", "room") for file in sorted((SCRIPTS / folder).glob("*.mjs")) if file.name != "worker.mjs"]
    script = bundle([*files, *parts(given)], tables)
    return "%s\nexport { %s };\n" % (script, ", ".join(sorted(names(script))))


def in_script(content: str) -> str:
    """A text that may stand in a script element."""
    if "</script" in content.lower() or "<!--" in content:
        raise Stop("page: a script holds what would end it")
    return content


def listed(examples: Path) -> List[Dict[str, str]]:
    return [{"name": name, "text": (examples / (name + ".txt")).read_text(encoding="utf-8")} for name in EXAMPLES]


# ---- what the scripts take from Python's modules

def tables_of(header: object, given: Tuple[str, ...]) -> Dict[str, object]:
    constants = header.constants  # type: ignore[attr-defined]
    versions = [{**version._asdict(), "ranges": version.ranges._asdict()} for version in jobs.VERSIONS]
    limits = {"versions": versions, "mostSteps": jobs.MAX_LIMIT, "usualRun": jobs.USUAL_RUN,
              "usualTail": jobs.USUAL_TAIL, "bytes": jobs.MAX_BYTES, "sinks": jobs.MAX_SINKS, "side": jobs.MAX_SIDE, "cells": jobs.MAX_CELLS,
              "routeCells": jobs.ROUTE_CELLS, "cost": jobs.MAX_COST, "nodes": jobs.MAX_NODES, "place": texts.MOST_PLACE, "quoted": texts.MOST_QUOTED,
              "records": texts.MOST_RECORDS, "defaultCosts": texts.DEFAULT_COSTS, "defaultLimit": texts.DEFAULT_LIMIT,
              "treeValues": constants["DUSTROUTE_TREE_VALUES"], "treeWhyValues": constants["DUSTROUTE_TREE_WHY_VALUES"],
              "searchTotals": constants["DUSTROUTE_SEARCH_TOTALS"], "writeValues": constants["DUSTROUTE_WRITE_VALUES"],
              "functionValues": constants["DUSTROUTE_FUNCTION_VALUES"], "lineBytes": constants["DUSTROUTE_LINE_BYTES"],
              "netsValues": constants["DUSTROUTE_NETS_VALUES"], "netName": texts.MOST_NAME}
    return {"KINDS": jobs.KINDS, "FACINGS": jobs.FACINGS, "PORTS": jobs.PORTS, "PLACE_LISTS": jobs.PLACE_LISTS, "PART_NAMES": jobs.PART_NAMES,
            "LIMITS": limits, "ALSO": texts.ALSO, "FORMS": texts.FORMS, "PLACE_WORDS": texts.PLACE_WORDS, "ROOM_WORDS": texts.ROOM_WORDS,
            "GENERAL": words.GENERAL,
            "KIND_SIGNS": symbols.KIND_SIGNS, "KIND_NAMES": symbols.KIND_NAMES, "COLOURS": symbols.COLOURS, "DASHES": symbols.DASHES,
            "LINE_WORDS": reason.LINE_WORDS, "CAUSES": [{"bit": bit, **cause._asdict()} for bit, cause in sinks.CAUSES.items()],
            "NOT_KNOWN": NOT_KNOWN, "FUNCTIONS": functions_of(header, given)}


def functions_of(header: object, given: Tuple[str, ...]) -> Dict[str, List[Dict[str, object]]]:
    """The parameters of the header's functions that the module has."""
    return {name: [{"name": one.name, "size": ctypes.sizeof(one.type), "isSlice": one.is_slice, "isLong": one.type is ctypes.c_size_t}
                   for one in parameters]
            for name, parameters in header.functions.items() if name in given}  # type: ignore[attr-defined]


# ---- what a module gives

def exported(module: bytes) -> Tuple[str, ...]:
    """The names of the functions that a WebAssembly module exports."""
    if module[:8] != b"\0asm\1\0\0\0":
        raise Stop("page: this is no WebAssembly module")
    place = 8
    while place < len(module):
        section = module[place]
        length, place = _number(module, place + 1)
        if section == 7:
            return tuple(_names(module, place))
        place += length
    return ()


def _names(module: bytes, place: int) -> List[str]:
    count, place = _number(module, place)
    found = []
    for _ in range(count):
        length, place = _number(module, place)
        name, kind = module[place:place + length].decode(), module[place + length]
        _, place = _number(module, place + length + 1)
        if kind == FUNCTION:
            found.append(name)
    return found


def _number(module: bytes, place: int) -> Tuple[int, int]:
    """An unsigned number in groups of seven bits, the lowest first, and the place behind it."""
    value = shift = 0
    while True:
        byte = module[place]
        value |= (byte & 127) << shift
        place, shift = place + 1, shift + 7
        if byte < 128:
            return value, place
