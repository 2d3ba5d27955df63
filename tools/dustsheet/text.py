"""The text of a job: read with its line numbers, and written in one canonical form. tools/TEXT.md has the grammar."""
from __future__ import annotations

import difflib
import re
from dataclasses import dataclass, field
from typing import Dict, Iterator, List, Optional, Sequence, Set, Tuple

from .job import (FACINGS, KINDS, PLACE_LISTS, PORTS, USUAL_RUN, USUAL_TAIL, AnyEnd, Block, End, Fault, Job, Pos, Sink, faults, record_name,
                  spell)
from .rules import late_faults

DEFAULT_COSTS = (10, 25, 15)
DEFAULT_LIMIT = 30_000
MOST_QUOTED = 40  # characters of a word that a message quotes
MOST_RECORDS = 65_535  # what a list's two-byte count can say
MOST_PLACE = 65_535  # what two bytes of a side or a coordinate can say
PLACE_WORDS = {"conductor": "conductors", "clearance": "clearances", "terminal": "terminals", "reserved": "reserved"}
FORMS = {
    "room": "room X Y Z",
    "costs": "costs FLAT STAIR SUPPORT",
    "limit": "limit NODES",
    "run": "run STEPS",
    "block": "block KIND X Y Z [to X Y Z] [FACING] [node N]",
    "clear": "clear X Y Z [to X Y Z]",
    **{word: word + " X Y Z [to X Y Z]" for word in PLACE_WORDS},
    "source": "source [PORT] X Y Z [FACING]",
    "sink": "sink [PORT] X Y Z [FACING] [tail STEPS]",
    "net": "net [NAME]",
}
ROOM_WORDS = ("room", "block", "clear")  # one for all nets of a text
END_WORDS = ("source", "sink")  # each net's own
MOST_NAME = 24  # letters of a net's name


@dataclass(frozen=True)
class Problem:
    line: int
    words: str


class BadLine(Exception):
    """What is wrong with the line being read, and what was expected."""


# ---- the words of one line

BLANKS = str.maketrans(",()", "   ")


class Words:
    """The words of a line, taken one by one."""

    def __init__(self, line: str) -> None:
        # commas and brackets count as blanks, so that (3, 0, 4) is a position
        self.left = line.split("#", 1)[0].translate(BLANKS).split()
        self.form = ""

    def next(self, what: str) -> str:
        if not self.left:
            raise BadLine("%s is missing; expected: %s" % (what, self.form))
        return self.left.pop(0)

    def number(self, what: str, most: int) -> int:
        word = self.next(what)
        if not (word.isascii() and word.isdigit() and len(word) <= 12):
            raise BadLine("%s is no number; %s was expected: %s" % (quoted(word), what, self.form))
        if int(word) > most:
            raise BadLine("%s is %s; a sheet has room for 0 to %d there" % (what, word, most))
        return int(word)

    def skip(self, word: str) -> bool:
        found = bool(self.left) and plain(self.left[0]) == word
        if found:
            self.left.pop(0)
        return found

    def pos(self) -> Pos:
        return (self.number("x", MOST_PLACE), self.number("y", MOST_PLACE), self.number("z", MOST_PLACE))

    def box(self) -> Tuple[Pos, Pos]:
        """One cell, or all from a corner to the opposite one."""
        self.skip("at")
        one = self.pos()
        other = self.pos() if self.skip("to") else one
        return (min(one[0], other[0]), min(one[1], other[1]), min(one[2], other[2])), \
            (max(one[0], other[0]), max(one[1], other[1]), max(one[2], other[2]))

    def facing(self) -> int:
        """The facing that may stand here; none if it doesn't."""
        said = self.skip("facing")
        if not self.left and not said or self.left and plain(self.left[0]) in ("node", "tail"):
            return 0
        return code(self.next("the facing"), "facing")

    def end(self) -> None:
        if self.left:
            raise BadLine("%s is too much; expected: %s" % (quoted(" ".join(self.left)), self.form))


def quoted(word: str) -> str:
    """A word for a message: its start, if it is long, and a question mark for what can't be printed."""
    start = "".join(letter if letter.isprintable() else "?" for letter in word[:MOST_QUOTED])
    return "'%s'%s" % (start, "" if len(word) <= MOST_QUOTED else ".. (%d characters)" % len(word))


def plain(word: str) -> str:
    """Capitals, hyphens and underscores make no difference: RedstoneWire, redstone_wire, redstone-wire."""
    return word.replace("-", "").replace("_", "").lower()


NAMES = {"kind": KINDS, "facing": FACINGS, "port": PORTS}
# what people call a kind, too
ALSO = {"stone": "solid", "wall": "solid", "floor": "solid", "brick": "solid", "glass": "transparent", "dust": "redstone-wire",
        "wire": "redstone-wire", "torch": "redstone-torch", "plate": "pressure-plate", "lamp": "redstone-lamp", "light": "redstone-lamp",
        "switch": "lever"}
CODES = {what: {plain(name): place for place, name in enumerate(names)} for what, names in NAMES.items()}
CODES["kind"].update((name, KINDS.index(kind)) for name, kind in ALSO.items())


def code(word: str, what: str) -> int:
    """The code of a name. 'code-N' stands for any code, for sheets that are meant to be refused."""
    known, names = CODES[what], NAMES[what]
    asked = plain(word[:2 * MOST_QUOTED])
    if asked in known:
        return known[asked]
    bare = re.fullmatch(r"code([0-9]{1,3})", asked)
    if bare and int(bare.group(1)) <= 255:
        return int(bare.group(1))
    close = difflib.get_close_matches(asked, known, 1, 0.7)
    hint = "; did you mean '%s'?" % names[known[close[0]]] if close else ""
    raise BadLine("unknown %s %s%s (%ss: %s)" % (what, quoted(word), hint, what, ", ".join(names)))


# ---- reading

NO_TEXT = "this is no text (UTF-8 was expected)"


class NoText(Exception):
    """The bytes are no text, from this line on."""

    def __init__(self, line: int) -> None:
        super().__init__(NO_TEXT)
        self.line = line


def decoded(content: bytes) -> str:
    try:
        return content.decode("utf-8")
    except UnicodeDecodeError as error:
        raise NoText(content[:error.start].count(b"\n") + 1) from None


@dataclass
class Draft:
    """A job as far as it is read, with the line of each record."""
    path: str
    problems: List[Problem] = field(default_factory=list)
    once: Dict[str, Tuple[int, object]] = field(default_factory=dict)  # the lines that come once: line and value
    records: Dict[str, List[Tuple[int, object]]] = field(
        default_factory=lambda: {part: [] for part in ["blocks", *PLACE_LISTS, "sinks"]})
    tried: Set[str] = field(default_factory=set)  # first words of lines, good ones and bad ones
    last: int = 1
    # of a text of several nets: what stands before the first `net` line is shared by all, and each has its own draft
    nets: List[Draft] = field(default_factory=list)
    shared: Optional[Draft] = None
    name: str = ""
    begins: int = 0  # the line of the net's word

    def put_once(self, word: str, line: int, value: object) -> None:
        if word in self.once:
            raise BadLine("a second '%s' line; the first is line %d" % (word, self.once[word][0]))
        self.once[word] = (line, value)

    def put(self, part: str, line: int, values: List[object]) -> None:
        most = 255 if part == "sinks" else MOST_RECORDS
        if len(self.records[part]) + len(values) > most:
            raise BadLine("more than %d %ss; a sheet can't count them" % (most, record_name(part, 0)[:-2]))
        self.records[part] += [(line, value) for value in values]

    def said(self, word: str) -> Optional[Tuple[int, object]]:
        """The line and the value of a word that comes once: the net's own before what is shared."""
        return self.once[word] if word in self.once else self.shared.said(word) if self.shared else None

    def value(self, word: str, default: object) -> object:
        said = self.said(word)
        return said[1] if said else default

    def all(self, part: str) -> List[Tuple[int, object]]:
        """The records of a list with their lines: what is shared, and then the net's own."""
        return [*(self.shared.all(part) if self.shared else []), *self.records[part]]

    def listed(self, part: str) -> list:
        return [value for _, value in self.all(part)]

    def record(self, part: str, index: int) -> Tuple[int, object]:
        """One of them."""
        shared = self.shared.records[part] if self.shared else []
        return shared[index] if index < len(shared) else self.records[part][index - len(shared)]

    def line_of(self, fault: Fault) -> int:
        if fault.part in self.records:
            return self.record(fault.part, fault.index)[0]
        said = self.said(fault.part)
        return said[0] if said else self.last


def cells_of(low: Pos, high: Pos) -> List[Pos]:
    """The cells of a box in the order of their numbers."""
    sides = [top - bottom + 1 for bottom, top in zip(low, high)]
    if sides[0] * sides[1] * sides[2] > MOST_RECORDS:
        raise BadLine("the box from %s to %s has more than %d cells" % (spell(low), spell(high), MOST_RECORDS))
    return [(x, y, z) for x in range(low[0], high[0] + 1) for y in range(low[1], high[1] + 1) for z in range(low[2], high[2] + 1)]


def read(text: str, path: str) -> Draft:
    draft = Draft(path)
    for line, content in enumerate(re.split(r"\r\n|\n|\r", text.lstrip("\ufeff")), 1):
        words = Words(content)
        if words.left:
            draft.last = line
            try:
                _read_line(draft, line, words)
            except BadLine as bad:
                draft.problems.append(Problem(line, str(bad)))
    for word in ("room", "source"):
        if word not in draft.tried and not (draft.nets and word == "source"):
            draft.problems.append(Problem(draft.last, "no '%s' line; expected somewhere: %s" % (word, FORMS[word])))
    for place, net in enumerate(draft.nets):
        if "source" not in net.tried:
            draft.problems.append(Problem(net.begins, "%s has no 'source' line; expected behind it: %s" % (net_name(place, net.name), FORMS["source"])))
    return draft


def net_name(place: int, name: str) -> str:
    """A net of a list in words, by its place, from 0, and its name, if it has one."""
    return "net %d (%s)" % (place, name) if name else "net %d" % place


def drafts_of(draft: Draft) -> List[Draft]:
    """The draft of each net; of a text without a `net` line there is one."""
    return draft.nets or [draft]


def _read_line(whole: Draft, line: int, words: Words) -> None:
    first = words.next("the first word")
    word = plain(first[:2 * MOST_QUOTED])
    if word not in FORMS:
        raise BadLine("unknown word %s; %s" % (quoted(first), _hint(word)))
    words.form = FORMS[word]
    draft = whole.nets[-1] if whole.nets else whole
    draft.tried.add(word)
    draft.last = line
    if word == "net":
        return _begin_net(whole, line, words)
    if whole.nets and word in ROOM_WORDS:
        raise BadLine("a '%s' line behind a 'net' line; the room is one for all nets: put it before the first 'net' line" % word)
    if word == "block":
        _read_block(draft, line, words)
    elif word == "clear":
        _clear(draft, words)
    elif word in PLACE_WORDS:
        low, high = words.box()
        words.end()
        draft.put(PLACE_WORDS[word], line, cells_of(low, high))
    elif word in ("source", "sink"):
        _read_end(draft, line, word, words)
    else:
        _read_head(draft, line, word, words)


def _begin_net(whole: Draft, line: int, words: Words) -> None:
    """A net's name is one word, which no other net has. A number is no name: a net is known by its place, too."""
    name = words.left.pop(0) if words.left else ""
    words.end()
    place = len(whole.nets)
    net = Draft(whole.path, shared=whole, begins=line, last=line)
    whole.nets.append(net)
    for word in END_WORDS if not place else ():
        if word in whole.tried:
            raise BadLine("a '%s' line stands before the first 'net' line; each net has its own, behind its 'net' line" % word)
    if name.isascii() and name.isdigit():
        if name != str(place):
            raise BadLine("this is net %d, and not %s; nets are counted from 0" % (place, quoted(name)))
        return
    if len(name) > MOST_NAME or not name.isprintable():
        raise BadLine("the name %s; a net's name has at most %d letters" % (quoted(name), MOST_NAME))
    if name and name in [other.name for other in whole.nets]:
        raise BadLine("a second net %s; each has a name of its own" % quoted(name))
    net.name = name


def _hint(word: str) -> str:
    """What a line's first word may have been meant to be."""
    if word in CODES["kind"]:
        return "did you mean 'block %s'? expected: %s" % (KINDS[CODES["kind"][word]], FORMS["block"])
    close = difflib.get_close_matches(word, FORMS, 1, 0.6)
    return "did you mean '%s'?" % close[0] if close else "a line begins with one of: " + ", ".join(FORMS)


def _read_head(draft: Draft, line: int, word: str, words: Words) -> None:
    most = 2 ** 32 - 1
    if word == "room":
        value: object = (words.number("side X", MOST_PLACE), words.number("side Y", MOST_PLACE), words.number("side Z", MOST_PLACE))
    elif word == "costs":
        value = (words.number("the flat step", most), words.number("the stair", most), words.number("the new support", most))
    elif word == "run":
        value = words.number("the run limit", 255)
    else:
        value = words.number("the node limit", most)
    words.end()
    draft.put_once(word, line, value)


def _read_block(draft: Draft, line: int, words: Words) -> None:
    kind = code(words.next("the kind"), "kind")
    low, high = words.box()
    facing = words.facing()
    node = words.number("the node", 65_535) if words.skip("node") else 0
    words.end()
    draft.put("blocks", line, [Block(node, at, kind, facing) for at in cells_of(low, high)])


def _clear(draft: Draft, words: Words) -> None:
    low, high = words.box()
    words.end()
    gone = set(cells_of(low, high))
    left = [(line, block) for line, block in draft.records["blocks"] if block.at not in gone]
    if len(left) == len(draft.records["blocks"]):
        raise BadLine("nothing to clear: no line above puts a block there")
    draft.records["blocks"] = left


def _read_end(draft: Draft, line: int, word: str, words: Words) -> None:
    named = bool(words.left) and not words.left[0][0].isdigit() and plain(words.left[0]) != "at"
    port = code(words.next("the port"), "port") if named else 0
    words.skip("at")
    end = End(words.pos(), port, words.facing())
    if word == "source":
        words.end()
        draft.put_once(word, line, end)
        return
    tail = words.number("the tail limit", 255) if words.skip("tail") else USUAL_TAIL
    words.end()
    draft.put("sinks", line, [Sink(*end, tail)])


def job_of(draft: Draft) -> Job:
    """The job of a draft without problems."""
    job = Job(draft.value("room", None), draft.value("limit", DEFAULT_LIMIT), draft.value("costs", DEFAULT_COSTS),
              draft.value("source", None), draft.listed("sinks"), draft.listed("blocks"), run=draft.value("run", USUAL_RUN))
    for name in PLACE_LISTS:
        setattr(job, name, draft.listed(name))
    return job


def jobs_of(draft: Draft) -> List[Job]:
    """The jobs of a draft without problems, one for each net."""
    return [job_of(net) for net in drafts_of(draft)]


def problems_of(draft: Draft, job: Job) -> List[Problem]:
    """What the router would refuse by numbers 1 to 5, or else 7 to 9, each at its line."""
    return _problems([(draft, job)])


def problems_of_all(draft: Draft) -> List[Problem]:
    """The same of every net of a text; what is shared is told once."""
    return _problems([(net, job_of(net)) for net in drafts_of(draft)])


def _problems(nets: Sequence[Tuple[Draft, Job]]) -> List[Problem]:
    by_line: Dict[int, Problem] = {}  # of each line the first: a box can be wrong in many cells
    for draft, job in nets:
        for fault in list(faults(job)) or list(late_faults(job)):
            line = draft.line_of(fault)
            if line not in by_line:
                by_line[line] = Problem(line, "%s (the router refuses this with number %d)" % (_full_words(draft, fault), fault.number))
    return [by_line[line] for line in sorted(by_line)]


def _full_words(draft: Draft, fault: Fault) -> str:
    if fault.number == 7:
        at = draft.record("blocks", fault.index)[1].at  # type: ignore[attr-defined]
        lines = [line for line, block in draft.all("blocks") if block.at == at]
        return fault.words + "; blocks are put there by the lines " + " and ".join(str(line) for line in lines)
    if fault.number in (8, 9):
        return "%s: %s" % (record_name(fault.part, fault.index), fault.words)
    return fault.words


# ---- writing

def write(job: Job) -> str:
    """The canonical text: the parts in sheet order, boxes as long as they go. It makes the same sheet again."""
    lines = [*_head_lines(job), *_list_lines({part: getattr(job, part) for part in PLACE_LISTS})]
    lines += _section("the net", _end_lines(job))
    return "\n".join(lines) + "\n"


def write_all(jobs: Sequence[Job], names: Sequence[str]) -> str:
    """The canonical text of several nets over one room: what all share, by the first, and each net's own. It makes the same list again."""
    first = jobs[0]
    shared = {part: _common([getattr(job, part) for job in jobs]) for part in PLACE_LISTS}
    lines = [*_head_lines(first), *_list_lines(shared)]
    for place, job in enumerate(jobs):
        lines += ["", "net %s" % (names[place] or place)]
        lines += [line for line, own, all_share in zip(_cost_lines(job), (job.costs, job.limit, job.run), (first.costs, first.limit, first.run))
                  if own != all_share]
        for word, part in PLACE_WORDS.items():
            lines += _place_lines(word, getattr(job, part)[len(shared[part]):])
        lines += _end_lines(job)
    return "\n".join(lines) + "\n"


def _common(lists: List[List[Pos]]) -> List[Pos]:
    """The longest list with which all of these begin."""
    length = next((place for place, ats in enumerate(zip(*lists)) if len(set(ats)) > 1), min(map(len, lists)))
    return lists[0][:length]


def _cost_lines(job: Job) -> List[str]:
    return ["costs %d %d %d  # flat step, stair, new support; in tenths" % job.costs, "limit %d  # node limit" % job.limit,
            "run %d  # so many steps need no repeater" % job.run]


def _head_lines(job: Job) -> List[str]:
    """The room, what all is paid with, and the blocks."""
    costs, limit, run = _cost_lines(job)
    lines = ["room %d %d %d  # sides: x to the east, y up, z to the south" % job.sides, costs, limit]
    if job.run != USUAL_RUN:
        lines.append(run)
    return lines + _section("blocks", [_block_line(*box) for box in boxes([(b.at, (b.kind, b.facing, b.node)) for b in job.blocks])])


def _list_lines(lists: Dict[str, List[Pos]]) -> List[str]:
    lines: List[str] = []
    for word, part in PLACE_WORDS.items():
        title = "cells that are reserved" if part == "reserved" else part + " of other nets"
        lines += _section(title, _place_lines(word, lists[part]))
    return lines


def _place_lines(word: str, places: List[Pos]) -> List[str]:
    return ["%s %s" % (word, _box_text(low, high)) for low, high, _ in boxes([(at, ()) for at in places])]


def _end_lines(job: Job) -> List[str]:
    return [_end_line("source", job.source), *(_sink_line(sink) for sink in job.sinks)]


def _section(title: str, lines: List[str]) -> List[str]:
    return ["", "# " + title, *lines] if lines else []


def _block_line(low: Pos, high: Pos, same: tuple) -> str:
    kind, facing, node = same
    words = ["block", name(kind, KINDS), _box_text(low, high)]
    if facing:
        words.append(name(facing, FACINGS))
    if node:
        words.append("node %d" % node)
    return " ".join(words)


def _end_line(word: str, end: AnyEnd) -> str:
    line = "%s %s %d %d %d" % (word, name(end.port, PORTS), *end.at)
    return line + " " + name(end.facing, FACINGS) if end.facing else line


def _sink_line(sink: Sink) -> str:
    line = _end_line("sink", sink)
    return line if sink.tail == USUAL_TAIL else "%s tail %d" % (line, sink.tail)


def _box_text(low: Pos, high: Pos) -> str:
    one = "%d %d %d" % low
    return one if low == high else one + " to %d %d %d" % high


def name(value: int, names: List[str]) -> str:
    return names[value] if value < len(names) else "code-%d" % value


def boxes(records: List[Tuple[Pos, tuple]]) -> Iterator[Tuple[Pos, Pos, tuple]]:
    """The records, in their order, as boxes of like ones: the longest row along z, then rows along y, then slabs along x."""
    place = 0
    while place < len(records):
        low, same = records[place]
        sides = [1, 1, 1]
        for axis in (2, 1, 0):
            while _is_box(records, place, low, same, sides, axis):
                sides[axis] += 1
        yield low, (low[0] + sides[0] - 1, low[1] + sides[1] - 1, low[2] + sides[2] - 1), same
        place += sides[0] * sides[1] * sides[2]


def _is_box(records: List[Tuple[Pos, tuple]], place: int, low: Pos, same: tuple, sides: List[int], axis: int) -> bool:
    """Whether the box goes on by one row or slab along this axis: the next records are just those."""
    start = list(low)
    start[axis] += sides[axis]
    behind = place + sides[0] * sides[1] * sides[2]
    first = ((start[0], start[1], start[2]), same)
    if behind >= len(records) or records[behind] != first:
        return False
    span = [1 if other == axis else side for other, side in enumerate(sides)]
    more = cells_of(first[0], (start[0] + span[0] - 1, start[1] + span[1] - 1, start[2] + span[2] - 1))
    return records[behind:behind + len(more)] == [(at, same) for at in more]
