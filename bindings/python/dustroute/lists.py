"""Several nets over one room, routed one after another, and laid."""
from __future__ import annotations

from typing import List, NamedTuple, Optional, Sequence, Tuple, Union

from .answers import Config, Refusal, Room, Tree
from .calls import BadText, Job, call, head_of, queue_length, sheet_made, sheet_of
from .library import library
from .memory import Memory
from dustsheet import job as jobs, text as texts, words

Given = Union[bytes, str, Job]
SIXTEEN = jobs.MAX_SINKS


class Nets(NamedTuple):
    """The answer of a list. `nets` has a Tree for each net, in list order; the laid room is a kind and a facing for each cell."""
    room: Room
    nets: Tuple[Tree, ...]
    owners: Tuple[int, ...]  # for each cell 0, or one more than the place of the net that occupies it
    kinds: bytes
    facings: bytes

    def __str__(self) -> str:
        """What `./dustroute nets` prints of nets without names."""
        return printed(self.nets, [""] * len(self.nets))


class NetRefusal(Refusal):
    """Why a list is refused: number and detail of a Refusal, and the net whose they are, by its place in the list, from 0."""

    def __init__(self, net: int, number: int, detail: int, words: str) -> None:
        super().__init__(number, detail, words)
        self.net = net

    def line(self) -> str:
        """What `./dustroute nets` prints."""
        return "refused %d %d %d\n" % (self.net, self.number, self.detail)


def printed(nets: Sequence[Tree], names: Sequence[str]) -> str:
    """A line `nets` with their count, and of each net what program `route` prints, with its place, and its name, in its first line."""
    parts = ["nets %d\n" % len(nets)]
    for place, (net, name) in enumerate(zip(nets, names)):
        first, rest = str(net).split("\n", 1)
        counts = first.split(" ", 1)[1]
        parts.append(" ".join(filter(None, ["net %d" % place, counts, name])) + "\n" + rest)
    return "".join(parts)


def list_of(given: Union[Given, Sequence[Given]]) -> bytes:
    """The list of some nets: whole sheets one behind the other. Each of them is a text, of one net or of several, a sheet, a list or a job."""
    if isinstance(given, (str, bytes, bytearray, memoryview, Job)):
        given = [given]
    return b"".join(sheet for one in given for sheet in _sheets_of(one))


def _sheets_of(given: Given) -> List[bytes]:
    if isinstance(given, (bytes, bytearray, memoryview)):
        content = bytes(given)
        if jobs.is_sheet(content):
            return [content]
        try:
            given = texts.decoded(content)
        except texts.NoText as bad:
            raise BadText([texts.Problem(bad.line, str(bad))]) from None
    if isinstance(given, Job):
        return [sheet_of(given)]
    draft = texts.read(given, "text")
    if draft.problems:
        raise BadText(draft.problems)
    return [sheet_made(job) for job in texts.jobs_of(draft)]


def nets(sheets_or_texts: Union[Given, Sequence[Given]], memory: Optional[Memory] = None, *, strict: bool = False) -> Nets:
    """The nets of a list, routed in its order, each past the wire of those before it and clear of all others' ends; and the room with
    all of them laid.

        answer = dustroute.nets(open("examples/controller.txt").read())                # a text of several nets over one room
        answer = dustroute.nets([first, second])                                       # or texts, sheets, jobs, in this order
        answer.nets[0].branches, answer.nets[0].repeaters                              # each is the tree of its job
        dustroute.write_function(answer.room, answer.kinds, answer.facings)            # all of it as commands for the game

    All have the room and the blocks of the first. The mode is one for all. Raises NetRefusal, which has the net's place: with number 1 to 5
    or 7 to 9, judged of all nets before any is routed, then 14 (no way was found to a sink of that net) or 16 (two nets would occupy the
    same cell, its detail); BadText for a text that can't be read."""
    content = list_of(sheets_or_texts)
    sheets = jobs.sheets_of(content)
    room, config = _ample(sheets)
    constants = library().constants
    # a branch has at most one cell more than the room
    lengths = {"lengths": SIXTEEN * len(sheets), "branches": sum(map(_sinks, sheets)) * (room.cells() + 1),
               "values": constants["DUSTROUTE_NETS_VALUES"]}
    mode = constants["DUSTROUTE_STRICT" if strict else "DUSTROUTE_PUBLISHED"]
    called = call("nets", room, config, memory, lengths, strict=mode, list=content)
    detail, net, count = called.lent["values"][:3]
    if called.number:
        raise NetRefusal(net, called.number, detail, words.of_net(called.number, detail, net, sheets))
    return _told(room, called.lent, count)


def _ample(sheets: Sequence[bytes]) -> Tuple[Room, Config]:
    """The room of the first sheet, and the config that asks for the longest queue: the memory that is lent suffices for every net."""
    heads = [head_of(sheet) for sheet in sheets]
    room = heads[0][0]
    return room, max((config for _, config in heads), key=lambda config: queue_length(room.cells(), config))


def _sinks(sheet: bytes) -> int:
    """How many sinks a sheet has; none where it is refused by number 1."""
    try:
        return min(len(jobs.from_bytes(sheet).sinks), SIXTEEN)
    except jobs.Refused:
        return 0


def _told(room: Room, lent: dict, count: int) -> Nets:
    """The trees of so many nets, out of what all of them have in common."""
    owners, repeaters = tuple(lent["owners"]), bytes(lent["repeaters"])
    held: List[List[int]] = [[] for _ in range(count)]
    for cell, owner in enumerate(owners):
        if owner:
            held[owner - 1].append(cell)
    trees, place = [], 0
    for net, cells in enumerate(held):
        branches = []
        for length in filter(None, lent["lengths"][SIXTEEN * net:SIXTEEN * (net + 1)]):
            branches.append(tuple(lent["branches"][place:place + length]))
            place += length
        trees.append(Tree(room, tuple(branches), tuple(cells), tuple(cell for cell in cells if repeaters[cell])))
    return Nets(room, tuple(trees), owners, bytes(lent["kinds"]), bytes(lent["facings"]))
