"""The library's functions as Python has them: typed answers come back, refusals are raised.

Each is a few lines over `call`, which lends all memory that is not given: as many elements as the room has cells, unless another
length is said."""
from __future__ import annotations

import ctypes
import dataclasses
from array import array
from typing import Dict, Iterable, NamedTuple, Optional, Sequence, Tuple, Union

from . import memory as memories
from .answers import Config, PlainRoute, Refusal, Room, Route, Tree
from .library import library, library_if_built
from .memory import Memory
from dustsheet import job as jobs, text as texts, words
from dustsheet.job import MAX_NODES, MAX_SINKS, Job


class Called(NamedTuple):
    """What a call left: its number, the number's detail, and the lent buffers by their names."""
    number: int
    detail: int
    lent: Dict[str, ctypes.Array]


def queue_length(cells: int, config: Config) -> int:
    """A queue so long is never full (bindings/README.md says why); a place of it takes two numbers."""
    places = 5 * cells if config.horizontal >= 10 and config.stair >= 20 else 11 * min(config.limit, MAX_NODES) + 1
    return 2 * places


def call(name: str, room: Room, config: Config, memory: Optional[Memory], lengths: Dict[str, int], /, **given: object) -> Called:
    """Calls the function `dustroute_NAME`. Room and config are handed on where it takes them."""
    function = library()["dustroute_" + name]
    lengths = {"queue": queue_length(room.cells(), config), **lengths}
    known = {**room._asdict(), **config._asdict(), **given}
    kept = memory or memories.own()
    lent = {one.name: kept.lend(one.name, one.type, lengths.get(one.name, room.cells()))
            for one in function.parameters if one.is_slice and one.name not in given}
    numbers = {one.name: known[one.name] for one in function.parameters if one.name not in lent}
    number = function(**numbers, **lent)
    # numbers 1 to 6 touch nothing: no detail is to be read
    return Called(number, lent["values"][0] if number > 6 else 0, lent)


# ---- one search

def search(room: Room, kinds: Sequence[int], start: int, goal: int, config: Config = Config(), memory: Optional[Memory] = None) -> Route:
    """The route from cell `start` to cell `goal` in a room whose cells hold `kinds`, one for each cell in number order.

    Raises Refusal with number 2 to 6, 10, 11 (there is no way) or 12 (the node limit was passed)."""
    room, config = Room(*room), Config(*config)
    called = call("search", room, config, memory, {"values": library().constants["DUSTROUTE_SEARCH_TOTALS"]}, kinds=bytes(kinds),
                  start=start, goal=goal)
    if called.number:
        raise Refusal(called.number, called.detail, words.of_search(called.number, called.detail, room, config.limit))
    return route_told(called)


def route_told(called: Called) -> Route:
    """The route that a search has told, with its totals."""
    _, length, cost, expanded, steps, supports, laid = called.lent["values"][:]
    return Route(tuple(called.lent["path"][:length]), cost, expanded, steps, supports, laid)


def plain(room: Room, kinds: Sequence[int], start: int, goal: int, config: Config = Config(), memory: Optional[Memory] = None) -> PlainRoute:
    """A cheapest route by the plain engine, to check `search` against: sweeps over the room, slower, but cheapest at any costs. The
    config's node limit has no part in it.

    Raises Refusal with number 2 to 6, 10 or 11 (there is no way; its detail is how many cells can be reached)."""
    room, config = Room(*room), Config(*config)
    called = call("plain", room, config, memory, {"values": library().constants["DUSTROUTE_PLAIN_VALUES"]}, kinds=bytes(kinds),
                  start=start, goal=goal)
    if called.number:
        raise Refusal(called.number, called.detail, words.of_search(called.number, called.detail, room, config.limit))
    _, length, cost = called.lent["values"][:3]
    return PlainRoute(tuple(called.lent["path"][:length]), cost)


# ---- a job's sheet

def write_sheet(job: Job, memory: Optional[Memory] = None) -> bytes:
    """The sheet of a job, by the proved writer: what the router reads of it is this job, its records in their order.

        dustroute.write_sheet(dustsheet.job.from_bytes(sheet)) == sheet      # of every sheet of its job's version that the router accepts

    It is of the lowest version that holds the job (`Job.version`). Raises Refusal with number 1 (over 16 sinks
    or 60,000 bytes) or 2 to 5, as the router would of its sheet. The numbers of a record fit sixteen bits, the limits and the costs 32;
    others raise OverflowError."""
    room, config = Room(*job.sides), Config(job.limit, *job.costs)
    lists = {name: array("H", _flat(getattr(job, name))) for name in jobs.PLACE_LISTS}
    blocks = array("H", _flat((block.node, *block.at, block.kind, block.facing) for block in job.blocks))
    source = array("H", (*job.source.at, job.source.port, job.source.facing))
    sinks = array("H", _flat((*sink.at, sink.port, sink.facing, sink.tail) for sink in job.sinks))
    lengths = {"sheet": min(jobs.size(job), jobs.MAX_BYTES), "values": library().constants["DUSTROUTE_WRITE_VALUES"]}
    called = call("write_sheet", room, config, memory, lengths, run=job.run, blocks=blocks, source=source, sinks=sinks, **lists)
    if called.number:
        unread = dataclasses.replace(job, read_as=None)  # the writer has no sheet, in whose version it would be judged
        raise Refusal(called.number, called.detail, words.of_job(called.number, called.detail, unread))
    return bytes(called.lent["sheet"][:called.lent["values"][1]])


def _flat(records: Iterable[Sequence[int]]) -> Iterable[int]:
    return (number for record in records for number in record)


def sheet_made(job: Job) -> bytes:
    """The sheet of a job, good or not: by the proved writer where the library is built, else by `dustsheet.job.to_bytes`, which gives the
    same bytes. What the writer refuses the latter writes, and the router refuses it."""
    if library_if_built() is None:
        return jobs.to_bytes(job)
    try:
        return write_sheet(job)
    except Refusal:
        return jobs.to_bytes(job)


# ---- the tree of a job

class BadText(ValueError):
    """The text is none of a job: all that is wrong, each with its line."""

    def __init__(self, problems: Sequence[texts.Problem]) -> None:
        super().__init__("\n".join("line %d: %s" % (problem.line, problem.words) for problem in problems))
        self.problems = list(problems)


def sheet_of(sheet_or_text: Union[bytes, str, Job]) -> bytes:
    """The sheet of a job: the bytes themselves, or those of the text that tools/TEXT.md describes, or of a job.

    Bytes are told apart by the first one. A text that can't be read raises BadText; one that the router refuses is made."""
    if isinstance(sheet_or_text, Job):
        return sheet_made(sheet_or_text)
    if isinstance(sheet_or_text, (bytes, bytearray, memoryview)):
        content = bytes(sheet_or_text)
        if jobs.is_sheet(content):
            return content
        try:
            sheet_or_text = texts.decoded(content)
        except texts.NoText as bad:
            raise BadText([texts.Problem(bad.line, str(bad))]) from None
    draft = texts.read(sheet_or_text, "text")
    first, *more = texts.drafts_of(draft)
    problems = draft.problems or [texts.Problem(net.begins, "a second net; `nets` routes several") for net in more[:1]]
    if problems:
        raise BadText(problems)
    return sheet_made(texts.job_of(first))


def route(sheet_or_text: Union[bytes, str, Job], memory: Optional[Memory] = None, *, strict: bool = False) -> Tree:
    """The tree of the net that a job sheet, or the text of one, describes.

    A cell of air that other nets hold or keep clear, or that is reserved, counts as solid, as the published router has it, so wire may
    rest on it for free. With `strict` wire neither enters it nor rests on it, but at the ends of each search.

    Raises Refusal with number 1 to 5, 7 to 9, or 14 (no way was found to a sink); BadText for a text that can't be read."""
    sheet = sheet_of(sheet_or_text)
    room, config = head_of(sheet)
    lengths = {**tree_lengths(room), "values": library().constants["DUSTROUTE_TREE_VALUES"]}
    mode = library().constants["DUSTROUTE_STRICT" if strict else "DUSTROUTE_PUBLISHED"]
    called = call("tree_mode", room, config, memory, lengths, strict=mode, sheet=sheet)
    if called.number:
        raise Refusal(called.number, called.detail, words.of_sheet(called.number, called.detail, sheet))
    return tree_told(room, called)


def tree_lengths(room: Room) -> Dict[str, int]:
    """A branch buffer that is long enough for sixteen branches of every cell."""
    return {"branches": MAX_SINKS * (room.cells() + 1)}


def head_of(sheet: bytes) -> Tuple[Room, Config]:
    """Of a sheet that ends too early nothing is needed: it is refused."""
    try:
        sides, limit, costs = jobs.head(sheet)
    except jobs.Refused:
        return Room(0, 0, 0), Config()
    return Room(*sides), Config(limit, *costs)


def tree_told(room: Room, called: Called) -> Tree:
    """The tree that a call has told."""
    lent = called.lent
    _, count, _, _, *lengths = lent["values"][:20]
    branches, place = [], 0
    for length in lengths[:count]:
        branches.append(tuple(lent["branches"][place:place + length]))
        place += length
    return Tree(room, tuple(branches), _marked(lent["occupied"]), _marked(lent["repeaters"]))


def _marked(marks: ctypes.Array) -> Tuple[int, ...]:
    return tuple(cell for cell, mark in enumerate(marks) if mark)
