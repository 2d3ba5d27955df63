"""Refusals in plain words, without a capital and a full stop: docs/RULES.md, Numbers that come back."""
from __future__ import annotations

from typing import Iterator, Optional, Sequence, Tuple

from .job import (BLOCK_POWER, KINDS, MAX_CELLS, MAX_COST, MAX_LIMIT, MAX_NODES, MAX_PRODUCT, MAX_SIDE, MAX_SINKS, ROUTE_CELLS, Fault, Job, Pos, Refused,
                  first_fault, from_bytes, head, place_of, record_name, spell)
from .rules import approach, end_name, is_step, late_faults

# for a number whose cause can't be named more closely
GENERAL = {
    1: "the bytes are no job sheet",
    2: "a side is not 1 to %d, or the room has over %d cells" % (MAX_SIDE, MAX_CELLS),
    3: "a cost is over %d, the node limit over %d, or a run or tail limit isn't 1 to %d; or the cells times the sum of the support cost and the "
       "dearer step are over %d" % (MAX_COST, MAX_NODES, MAX_LIMIT, MAX_PRODUCT),
    4: "something stands outside the room",
    5: "an unknown kind, facing or port",
    6: "a lent buffer is too short",
}


def sentence(words: str) -> str:
    return words[:1].upper() + words[1:] + "."


# ---- a tree

def of_sheet(number: int, detail: int, sheet: bytes) -> str:
    """Why the library refuses a sheet."""
    try:
        job = from_bytes(sheet)
    except Refused as refused:
        return str(refused) if number == refused.number else GENERAL.get(number, "refused with number %d" % number)
    return of_job(number, detail, job)


def of_job(number: int, detail: int, job: Job) -> str:
    """Why the library, or program route, refuses a job."""
    if number <= 6:
        return _fault_words(number, first_fault(job), job)
    if number == 7:
        return "two blocks stand in one cell: %s, number %d" % (spell(job.place(detail)), detail)
    if number == 8:
        return "%s is block-power and must face north, east, south or west" % end_name(detail)
    if number == 9:
        fault = next(late_faults(job), None)
        return "the wire of %s would lie outside the room%s" % (end_name(detail), ": " + fault.words if fault else "")
    if number == 13:
        return "the search ran out of memory: its queue was full after %d cells" % detail
    if number == 14:
        return _no_way(detail, job)
    return "the branches up to %s have more cells than the branch buffer holds" % end_name(detail)


def _fault_words(number: int, fault: Optional[Fault], job: Job) -> str:
    if fault is not None and fault.number == number:
        return "%s: %s" % (record_name(fault.part, fault.index), fault.words)
    if number == 2 and ROUTE_CELLS < job.cells() <= MAX_CELLS:
        return "the room has %d cells; program route takes at most %d" % (job.cells(), ROUTE_CELLS)
    return GENERAL[number]


def _no_way(cell: int, job: Job) -> str:
    """Not that there is none: a tree's searches can miss one."""
    place, at = sink_of(cell, job)
    words = "no way was found to %s at %s" % (end_name(place), spell(at))
    return words if job.number(at) == cell else words + ", looked for from cell %s, number %d" % (spell(job.place(cell)), cell)


def sink_of(cell: int, job: Job) -> Tuple[int, Pos]:
    """The first sink that is approached from a cell: its place from 1, and where it is."""
    for place, sink in enumerate(job.sinks, 1):
        if job.number(approach(sink)) == cell:
            return place, sink.at
    raise ValueError("no sink is approached from cell %d" % cell)


# ---- several nets

def of_net(number: int, detail: int, net: int, sheets: Sequence[bytes]) -> str:
    """Why the library refuses a net of a list, of which these are the sheets."""
    if number == 1 and net:
        differs = _difference(sheets[0], sheets[net])
        if differs:
            return differs
    if number == 16:
        return of_overlap(detail, head(sheets[0])[0])
    return of_sheet(number, detail, sheets[net])


def of_overlap(cell: int, sides: Pos) -> str:
    return "its wire would lie in a cell that a net before it occupies: %s, number %d" % (spell(place_of(cell, sides)), cell)


def _difference(first: bytes, other: bytes) -> Optional[str]:
    """In what a sheet has another room than the first one of its list; nothing where one of them is no sheet."""
    try:
        one, two = from_bytes(first), from_bytes(other)
    except Refused:
        return None
    return of_difference(one, two)


def of_difference(one: Job, two: Job) -> Optional[str]:
    """In what a job has another room than the first one of its list."""
    if one.sides != two.sides:
        return "its room is %dx%dx%d, and that of net 0 is %dx%dx%d: nets of a list share one room" % (*two.sides, *one.sides)
    if one.blocks == two.blocks:
        return None
    more, less = ([block for block in these.blocks if block not in those.blocks] for these, those in ((two, one), (one, two)))
    if more or less:
        block, has, hasnt = (more[0], "it has", "net 0 hasn't") if more else (less[0], "net 0 has", "it hasn't")
        name = KINDS[block.kind] if block.kind < len(KINDS) else "block"
        return "its blocks aren't those of net 0: %s a %s at %s that %s; nets of a list share one room" % (has, name, spell(block.at), hasnt)
    return "its blocks stand in another order than those of net 0, or one of them twice; nets of a list share one room"


# ---- limits

def of_limits(job: Job) -> str:
    """How many steps the net may have without a repeater; nothing where it is as in every sheet of version 1."""
    if job.has_usual_limits():
        return ""
    tails = ["%s to %s" % (steps_of(sink.tail), end_name(place)) for place, sink in enumerate(job.sinks, 1) if sink.port != BLOCK_POWER]
    words = "a repeater is due after %s" % steps_of(job.run)
    return words + "; behind the last one at most " + ", ".join(tails) if tails else words


def steps_of(limit: int) -> str:
    return "%d step%s" % (limit, "" if limit == 1 else "s")


# ---- a search

def of_search(number: int, detail: int, sides: Pos, limit: int) -> str:
    """Why the library refuses a search in a room of these sides."""
    place = "(%d, %d, %d)" % place_of(detail, sides) if all(sides) else ""
    return {
        4: "the start or the goal is outside the room",
        5: "an unknown kind; kinds are 0 to %d" % (len(KINDS) - 1),
        6: "there are not as many kinds as the room has cells, or a lent buffer is too short",
        10: "cell %s, number %d, holds neither air nor redstone wire: no wire can begin or end there" % (place, detail),
        11: "there is no way: none of the %d cells that can be reached leads on" % detail,
        12: "the node limit %d was passed" % limit,
        13: "the search ran out of memory: its queue was full after %d cells" % detail,
    }.get(number) or GENERAL.get(number, "refused with number %d" % number)


# ---- a function file

def of_function(number: int, detail: int) -> str:
    """Why the library refuses a room that is to be written, or a text that is to be read."""
    return {
        5: "an unknown kind, or a facing that its kind can't have",
        6: "there are not as many kinds or facings as the room has cells, or a lent buffer is too short",
        18: "the text of the room is longer than the buffer",
        19: "line %d is none that a function file of this room has there" % detail,
    }.get(number) or GENERAL.get(number, "refused with number %d" % number)


# ---- the repeaters of a net

def of_plan(number: int, detail: int, job: Job, branches: Sequence[Sequence[int]]) -> str:
    """Why the library refuses to plan the repeaters of a job's ends along branches."""
    if number == 6:
        return "over %d branches or sinks, or a lent buffer is too short" % MAX_SINKS
    fault = first_fault(job)
    if number == 4 and (fault is None or fault.number != 4):
        return next(_branch_faults(job, branches), GENERAL[4])
    return of_job(number, detail, job)


def _branch_faults(job: Job, branches: Sequence[Sequence[int]]) -> Iterator[str]:
    for place, branch in enumerate(branches, 1):
        for cell in branch:
            if cell >= job.cells():
                yield "branch %d has cell %d; the room's last cell is %d" % (place, cell, job.cells() - 1)
        for one, other in zip(branch, branch[1:]):
            if not is_step(job.place(one), job.place(other)):
                yield "branch %d jumps from cell %d to cell %d" % (place, one, other)


# ---- one route drawn

def of_drawing(number: int) -> str:
    """Why the library refuses to draw a path into a room."""
    return {
        4: "a cell of the path is outside the room",
        5: "an unknown kind, of a cell or of the supports; kinds are 0 to %d" % (len(KINDS) - 1),
        6: "there are not as many kinds as the room has cells, or a lent buffer is too short",
    }.get(number) or GENERAL.get(number, "refused with number %d" % number)
