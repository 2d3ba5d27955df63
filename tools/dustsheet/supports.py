"""What a builder fetches: the supports beneath a path, or beneath a tree's branches, counted as they are laid.

A search counts a new support for each cell of its path but the start that has Air beneath. That is not what is fetched: the start
wants a support too, and where the path turns back beneath itself its own wire stands where a support was counted:
docs/DIFFERENCES.md, Supports. Cells are numbers."""
from __future__ import annotations

from typing import Iterable, NamedTuple, Optional, Sequence

from .answer import Answer
from .job import AIR, Job, Pos
from .rules import approach, terminal


class Supports(NamedTuple):
    """Of one path `fetch - start + on_path` is the search's own count."""
    fetch: int  # different cells that get a support: Air right beneath wire, and no wire of the net itself
    start: int  # of these, the ones beneath a start, at which no search looked
    on_path: int  # cells where a search counted a support and the net's own wire stands instead


def beneath(cell: int, sides: Pos) -> Optional[int]:
    """The cell right beneath a cell; none on the floor, which bears."""
    _, high, deep = sides
    return cell - deep if cell // deep % high else None


def count(sides: Pos, kinds: Sequence[int], paths: Iterable[Sequence[int]], starts: Iterable[int]) -> Supports:
    """The supports of all these paths together, in a room whose cells hold `kinds`. At the `starts` no search looked beneath."""
    wire = {cell for path in paths for cell in path}

    def bare(cells: Iterable[int]) -> set:
        below = (beneath(cell, sides) for cell in cells)
        return {cell for cell in below if cell is not None and kinds[cell] == AIR}

    own = bare(wire.intersection(starts))
    counted = bare(wire.difference(starts))
    return Supports(len((own | counted) - wire), len(own - wire), len(counted & wire))


def of_route(sides: Pos, kinds: Sequence[int], path: Sequence[int]) -> Supports:
    """Of the route that a search answered."""
    return count(sides, kinds, [path], path[:1])


def of_tree(job: Job, branches: Sequence[Sequence[int]]) -> Supports:
    """Of a job's tree. Its searches start at the sinks' approaches, and the terminals behind these were never searched."""
    source = job.number(terminal(job.source))
    starts = [job.number(at) for sink in job.sinks for at in (approach(sink), terminal(sink))]
    return count(job.sides, kinds_of(job), [[source], *branches], starts if branches else [source])


def of_answer(job: Job, answer: Answer) -> Supports:
    """Of the tree that was answered."""
    return of_tree(job, [[job.number(at) for at in branch] for branch in answer.branches])


def kinds_of(job: Job) -> bytes:
    """What each cell of the room holds, in number order."""
    kinds = bytearray(job.cells())
    for block in job.blocks:
        kinds[job.number(block.at)] = block.kind
    return bytes(kinds)
