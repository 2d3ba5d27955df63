"""A job, its bytes, and numbers 1 to 5: docs/RULES.md, The job sheet."""
from __future__ import annotations

import itertools
import re
from dataclasses import dataclass, field
from typing import Dict, Iterator, List, NamedTuple, Optional, Tuple, Union

Pos = Tuple[int, int, int]
Head = Tuple[Pos, int, Tuple[int, int, int]]  # the sides, the node limit and the costs

MAX_BYTES = 60_000
MAX_SINKS = 16
ROUTE_CELLS = 4_096  # program `route` takes rooms up to here; the library up to MAX_CELLS
MAX_LIMIT = 15  # of a run and of a tail; the least is 1
# what a sheet means that carries no limits
USUAL_RUN = 12
USUAL_TAIL = 8

# in the order of BlockKind: the place in the list is the code
KINDS = ["air", "solid", "transparent", "redstone-wire", "redstone-torch", "repeater", "comparator", "lever", "button",
         "pressure-plate", "redstone-lamp", "redstone-block", "piston"]
FACINGS = ["none", "north", "east", "south", "west", "up", "down"]
PORTS = ["wire", "block-power"]
(AIR, SOLID, TRANSPARENT, WIRE, TORCH, REPEATER, COMPARATOR, LEVER, BUTTON, PLATE, LAMP, REDSTONE_BLOCK, PISTON) = range(13)
BLOCK_POWER = 1
# the flat steps of the horizontal facings
AHEAD = {1: (0, 0, -1), 2: (1, 0, 0), 3: (0, 0, 1), 4: (-1, 0, 0)}
# the four lists of bare positions, in sheet order
PLACE_LISTS = ["conductors", "clearances", "terminals", "reserved"]


class Block(NamedTuple):
    node: int
    at: Pos
    kind: int
    facing: int


class End(NamedTuple):
    """A source, or where a sink is."""
    at: Pos
    port: int
    facing: int


class Sink(NamedTuple):
    """A sink: an end, and how many steps after the last repeater it bears."""
    at: Pos
    port: int
    facing: int
    tail: int = USUAL_TAIL


AnyEnd = Union[End, Sink]


class Ranges(NamedTuple):
    """How large a room, its costs and its node limit may be."""
    side: int
    cells: int
    cost: int
    nodes: int
    product: int  # the cells times the sum of the support cost and the dearer step


SMALL = Ranges(64, 16_384, 100_000, 200_000, 3_300_000_000)  # the product follows from the others
WIDE = Ranges(300, 65_536, 1_000_000, 800_000, 3_300_000_000)  # of larger halls, and of every search
MAX_SIDE, MAX_CELLS, MAX_COST, MAX_NODES, MAX_PRODUCT = WIDE


class Version(NamedTuple):
    """What the versions of a sheet differ in."""
    number: int  # its first byte
    limits: bool  # whether it carries the run limit and the sinks' tail limits
    coordinate: int  # how many bytes a side and a coordinate have
    ranges: Ranges

    def size(self, blocks: int, places: int, sinks: int) -> int:
        """The length of a sheet with so many records."""
        place, limit = 3 * self.coordinate, int(self.limits)
        return 5 + place + 16 + limit + 10 + (4 + place) * blocks + place * places + place + 2 + 1 + (place + 2 + limit) * sinks


VERSIONS = (Version(1, False, 1, SMALL), Version(2, True, 1, SMALL), Version(3, True, 2, WIDE))


@dataclass
class Job:
    sides: Pos
    limit: int
    costs: Tuple[int, int, int]  # flat step, stair, new support; in tenths
    source: End
    sinks: List[Sink] = field(default_factory=list)
    blocks: List[Block] = field(default_factory=list)
    conductors: List[Pos] = field(default_factory=list)
    clearances: List[Pos] = field(default_factory=list)
    terminals: List[Pos] = field(default_factory=list)
    reserved: List[Pos] = field(default_factory=list)
    run: int = USUAL_RUN  # so many steps past the last reset need no repeater
    read_as: Optional[Version] = field(default=None, compare=False)  # the version of the sheet it was read from, in whose ranges it is judged

    def version(self) -> Version:
        """The lowest version that holds the job: limits other than 12 and 8 take version 2; a larger room, dearer costs or a higher node
        limit than a sheet of version 2 may have take version 3."""
        if not (_sides_in(self, SMALL) and self.limit <= SMALL.nodes and max(self.costs) <= SMALL.cost):
            return VERSIONS[2]
        return VERSIONS[0 if self.has_usual_limits() else 1]

    def has_usual_limits(self) -> bool:
        return self.run == USUAL_RUN and all(sink.tail == USUAL_TAIL for sink in self.sinks)

    def cells(self) -> int:
        x, y, z = self.sides
        return x * y * z

    def dearest(self) -> int:
        """What a single step costs at most: the dearer step, onto a new support."""
        flat, stair, support = self.costs
        return max(flat, stair) + support

    def holds(self, at: Pos) -> bool:
        return all(0 <= place < side for place, side in zip(at, self.sides))

    def number(self, at: Pos) -> int:
        return (at[0] * self.sides[1] + at[1]) * self.sides[2] + at[2]

    def place(self, number: int) -> Pos:
        return place_of(number, self.sides)


def _sides_in(job: Job, ranges: Ranges) -> bool:
    return all(1 <= side <= ranges.side for side in job.sides) and job.cells() <= ranges.cells


def place_of(number: int, sides: Pos) -> Pos:
    """Where the cell with a number is, in a room of these sides."""
    rest, z = divmod(number, sides[2])
    x, y = divmod(rest, sides[1])
    return (x, y, z)


def spell(at: Pos) -> str:
    return "(%d, %d, %d)" % at


class Refused(Exception):
    """Bytes that mean no job: number 1, with what is wrong in words."""
    number = 1


# ---- a job's bytes

def groups(job: Job) -> List[bytes]:
    """The bytes in the groups of the hex sheet of tools/TEXT.md: a record each, the lists' counts by themselves."""
    version = _spelling(job)
    rest = [_place_bytes(version, job.sides)]
    rest += [value.to_bytes(4, "big") for value in (job.limit, *job.costs)]
    rest += _limit_bytes(version, job.run)
    rest.append(len(job.blocks).to_bytes(2, "big"))
    rest += [block.node.to_bytes(2, "big") + _place_bytes(version, block.at) + bytes((block.kind, block.facing)) for block in job.blocks]
    for name in PLACE_LISTS:
        places = getattr(job, name)
        rest.append(len(places).to_bytes(2, "big"))
        rest += [_place_bytes(version, at) for at in places]
    rest.append(_end_bytes(version, job.source))
    rest.append(bytes([len(job.sinks)]))
    for sink in job.sinks:
        rest += [_end_bytes(version, sink), *_limit_bytes(version, sink.tail)]
    return [bytes([version.number]), sum(map(len, rest)).to_bytes(4, "big"), *rest]


def to_bytes(job: Job) -> bytes:
    """The job's sheet, whatever the router says of it. `dustroute.write_sheet` gives the same bytes, proved, of what it doesn't refuse."""
    return b"".join(groups(job))


def to_hex(job: Job, sheet: bytes) -> str:
    """The job's sheet as hex digits, with a blank between its groups."""
    ends = list(itertools.accumulate(map(len, groups(job)), initial=0))
    return " ".join(sheet[first:end].hex().upper() for first, end in zip(ends, ends[1:])) + "\n"


def size(job: Job, version: Optional[Version] = None) -> int:
    """The length of the job's sheet, in its own version or in this one."""
    places = sum(len(getattr(job, name)) for name in PLACE_LISTS)
    return (version or job.version()).size(len(job.blocks), places, len(job.sinks))


def _spelling(job: Job) -> Version:
    """The job's version; the last one where a position, good or not, takes more than a byte."""
    places = [job.source.at, *(one.at for one in (*job.blocks, *job.sinks)), *(at for name in PLACE_LISTS for at in getattr(job, name))]
    return VERSIONS[-1] if any(max(at) > 255 for at in places) else job.version()


def _place_bytes(version: Version, at: Pos) -> bytes:
    return b"".join(place.to_bytes(version.coordinate, "big") for place in at)


def _end_bytes(version: Version, end: AnyEnd) -> bytes:
    return _place_bytes(version, end.at) + bytes((end.port, end.facing))


def _limit_bytes(version: Version, limit: int) -> List[bytes]:
    """A limit, where the version carries it."""
    return [bytes([limit])] if version.limits else []


# ---- bytes to a job

class _Bytes:
    """The sheet's bytes and the place of the next one. They are read as the version of the first byte has them; of one that isn't known, as
    version 1 has them."""

    def __init__(self, sheet: bytes) -> None:
        self.sheet = sheet
        self.at = 0
        self.version = next((version for version in VERSIONS if sheet[:1] == bytes([version.number])), VERSIONS[0])

    def take(self, count: int, what: str) -> bytes:
        if self.at + count > len(self.sheet):
            raise Refused("the sheet ends at byte %d, in the middle of %s" % (len(self.sheet), what))
        self.at += count
        return self.sheet[self.at - count:self.at]

    def value(self, count: int, what: str) -> int:
        return int.from_bytes(self.take(count, what), "big")

    def pos(self, what: str) -> Pos:
        wide = self.version.coordinate
        taken = self.take(3 * wide, what)
        x, y, z = (int.from_bytes(taken[axis * wide:(axis + 1) * wide], "big") for axis in range(3))
        return (x, y, z)

    def end(self, what: str) -> End:
        at = self.pos(what)
        port, facing = self.take(2, what)
        return End(at, port, facing)

    def limit(self, usual: int, what: str) -> int:
        """The limit that stands here; the usual one where the version carries none."""
        return self.value(1, what) if self.version.limits else usual

    def sink(self, what: str) -> Sink:
        return Sink(*self.end(what), self.limit(USUAL_TAIL, what))

    def block(self, what: str) -> Block:
        node, at = self.value(2, what), self.pos(what)
        kind, facing = self.take(2, what)
        return Block(node, at, kind, facing)

    def head(self) -> Head:
        sides = self.pos("the sides")
        limit, flat, stair, support = [self.value(4, "the limit and the costs") for _ in range(4)]
        return sides, limit, (flat, stair, support)


def head(sheet: bytes) -> Head:
    """What a sheet names first, good or not; Refused where its bytes don't go so far."""
    read = _Bytes(sheet)
    read.take(5, "the version and the length")
    return read.head()


def is_sheet(content: bytes) -> bool:
    """Whether these bytes are to be read as a sheet and not as a text: by the first one, which is a sheet's version. A text begins with a
    letter or a sign, a blank or an end of line, or a byte order mark. Bytes that are neither, or none at all, are a bad sheet."""
    return not re.match(rb"[\t\n\r -~\xef]", content)


def from_bytes(sheet: bytes) -> Job:
    """The job that the bytes spell, good or not; Refused where they spell none. Sheets that are too long or have too many
    sinks still spell one: `faults` tells."""
    read = _Bytes(sheet)
    number = read.value(1, "the version")
    if number != read.version.number:
        known = [str(version.number) for version in VERSIONS]
        raise Refused("the version byte is %d; a sheet begins with %s or %s" % (number, ", ".join(known[:-1]), known[-1]))
    length = read.value(4, "the length")
    if length != len(sheet) - read.at:
        raise Refused("the length says that %d bytes follow, but %d do" % (length, len(sheet) - read.at))
    job = Job(*read.head(), End((0, 0, 0), 0, 0), run=read.limit(USUAL_RUN, "the run limit"), read_as=read.version)
    job.blocks = [read.block("the blocks") for _ in range(read.value(2, "the count of blocks"))]
    for name in PLACE_LISTS:
        setattr(job, name, [read.pos("the " + name) for _ in range(read.value(2, "the count of " + name))])
    job.source = read.end("the source")
    job.sinks = [read.sink("the sinks") for _ in range(read.value(1, "the count of sinks"))]
    if read.at < len(sheet):
        raise Refused("bytes are left over behind the last sink: %d" % (len(sheet) - read.at))
    return job


# ---- a list: whole sheets one behind the other

HEAD_BYTES = 5  # a sheet's version, and the length of all that follows


def sheets_of(content: bytes) -> List[bytes]:
    """The sheets of a list: each ends where its own length says, or where the list ends. Of no bytes there is one, which is empty."""
    found, rest = [], content
    while True:
        length = HEAD_BYTES + int.from_bytes(rest[1:HEAD_BYTES], "big") if len(rest) >= HEAD_BYTES else len(rest)
        found.append(rest[:length])
        rest = rest[length:]
        if not rest:
            return found


def is_list(content: bytes) -> bool:
    """Whether these bytes are several whole sheets, and not one with something left over."""
    sheets = sheets_of(content)
    return len(sheets) > 1 and all(is_whole(sheet) for sheet in sheets)


def is_whole(sheet: bytes) -> bool:
    """Whether a sheet has a version that is known, and the length that it says."""
    known = any(sheet[:1] == bytes([version.number]) for version in VERSIONS)
    return known and len(sheet) >= HEAD_BYTES and len(sheet) == HEAD_BYTES + int.from_bytes(sheet[1:HEAD_BYTES], "big")


def bytes_of_hex(text: str) -> bytes:
    """Hex digits with blanks wherever one likes; ValueError otherwise."""
    return bytes.fromhex("".join(text.split()))


# ---- numbers 1 to 5, in the router's order; the first fault decides

@dataclass(frozen=True)
class Fault:
    number: int
    part: str  # the list it stands in, or "room", "limit", "costs", "run", "source", "sheet"
    index: int  # its place in that list
    words: str


def faults(job: Job) -> Iterator[Fault]:
    yield from _sheet_faults(job)
    yield from _head_faults(job)
    for index, block in enumerate(job.blocks):
        yield from _record_faults(job, "blocks", index, block.at, _block_code(block))
    for name in PLACE_LISTS:
        for index, at in enumerate(getattr(job, name)):
            yield from _record_faults(job, name, index, at, None)
    yield from _record_faults(job, "source", 0, job.source.at, _end_code(job.source))
    for index, sink in enumerate(job.sinks):
        yield from _record_faults(job, "sinks", index, sink.at, _end_code(sink))
        yield from _limit_faults("sinks", index, "tail", sink.tail)


def first_fault(job: Job) -> Optional[Fault]:
    return next(faults(job), None)


def _sheet_faults(job: Job) -> Iterator[Fault]:
    if len(job.sinks) > MAX_SINKS:
        yield Fault(1, "sinks", MAX_SINKS, "%d sinks; a net has at most %d" % (len(job.sinks), MAX_SINKS))
    length = size(job, job.read_as)
    if length > MAX_BYTES:
        yield Fault(1, "sheet", 0, "the sheet would have %d bytes; at most %d are allowed" % (length, MAX_BYTES))


def _head_faults(job: Job) -> Iterator[Fault]:
    version = job.read_as or job.version()
    ranges = version.ranges
    where = "" if ranges == WIDE else " in a sheet of version %d" % version.number
    if not all(1 <= side <= ranges.side for side in job.sides):
        yield Fault(2, "room", 0, "a room of %dx%dx%d; each side is 1 to %d%s" % (*job.sides, ranges.side, where))
    elif job.cells() > ranges.cells:
        yield Fault(2, "room", 0, "a room of %d cells; at most %d are allowed%s" % (job.cells(), ranges.cells, where))
    if job.limit > ranges.nodes:
        yield Fault(3, "limit", 0, "a node limit of %d; at most %d is allowed%s" % (job.limit, ranges.nodes, where))
    for cost in job.costs:
        if cost > ranges.cost:
            yield Fault(3, "costs", 0, "a cost of %d; at most %d is allowed%s" % (cost, ranges.cost, where))
    if job.cells() * job.dearest() > ranges.product:
        yield Fault(3, "costs", 0, "%d cells times %d, the dearer step and a new support, are %d; at most %d are allowed"
                    % (job.cells(), job.dearest(), job.cells() * job.dearest(), ranges.product))
    yield from _limit_faults("run", 0, "run", job.run)


def _limit_faults(part: str, index: int, word: str, limit: int) -> Iterator[Fault]:
    if not 1 <= limit <= MAX_LIMIT:
        yield Fault(3, part, index, "a %s limit of %d; it is 1 to %d" % (word, limit, MAX_LIMIT))


def _record_faults(job: Job, part: str, index: int, at: Pos, code: Optional[str]) -> Iterator[Fault]:
    if not job.holds(at):
        last = tuple(max(side - 1, 0) for side in job.sides)
        yield Fault(4, part, index, "position %s is outside the room; the last cell is %s" % (spell(at), spell(last)))
    if code is not None:
        yield Fault(5, part, index, code)


def _block_code(block: Block) -> Optional[str]:
    if block.kind >= len(KINDS):
        return "unknown kind, code %d; kinds are 1 to %d" % (block.kind, len(KINDS) - 1)
    if block.kind == AIR:
        return "a block of air; leave the cell out, it is air then"
    return _facing_code(block.facing)


def _end_code(end: AnyEnd) -> Optional[str]:
    if end.port >= len(PORTS):
        return "unknown port kind, code %d; it is 0 (wire) or 1 (block-power)" % end.port
    return _facing_code(end.facing)


def _facing_code(facing: int) -> Optional[str]:
    if facing >= len(FACINGS):
        return "unknown facing, code %d; facings are 0 to %d" % (facing, len(FACINGS) - 1)
    return None


# ---- a name for each record, for messages

PART_NAMES: Dict[str, str] = {"blocks": "block", "conductors": "conductor", "clearances": "clearance",
                              "terminals": "terminal", "reserved": "reserved cell", "sinks": "sink"}


def record_name(part: str, index: int) -> str:
    return "%s %d" % (PART_NAMES[part], index + 1) if part in PART_NAMES else "the " + part
