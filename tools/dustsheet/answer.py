"""What program `route` prints, read and checked against the sheet it answers."""
from __future__ import annotations

import re
from collections import deque
from dataclasses import dataclass, field
from typing import Dict, List, Optional, Set, Tuple

from .job import AHEAD, ROUTE_CELLS, Job, Pos, Sink, first_fault, spell
from .rules import approach, blocked, is_step, late_faults, step, terminal
from .text import quoted
from .words import of_job, sentence

# the numbers that a net's answer can carry; 6 and 10 to 12 belong to buffers and single searches
NUMBERS = (1, 2, 3, 4, 5, 7, 8, 9, 13, 14, 15)


class BadAnswer(Exception):
    """The text is no answer to this sheet: why."""


@dataclass
class Answer:
    branches: List[List[Pos]] = field(default_factory=list)
    repeaters: List[Pos] = field(default_factory=list)
    refused: Optional[Tuple[int, int]] = None  # number and detail


def read(text: str, job: Job, strict: bool = False) -> Answer:
    """The answer to a job that no number 1 to 5 refuses, in the published mode or in strict mode."""
    lines = [line.split() for line in text.splitlines() if line.strip()]
    if not lines:
        raise BadAnswer("the answer is empty; expected a line 'net ..' or 'refused ..'")
    if lines[0][0] == "refused":
        return _read_refusal(lines, job)
    if lines[0][0] != "net":
        raise BadAnswer("line 1 begins with %s; expected 'net' or 'refused'" % quoted(lines[0][0]))
    answer = _read_net(lines, job)
    if strict:
        _check_strict(answer, job)
    return answer


def numbers(words: List[str], line: str) -> List[int]:
    for word in words:
        if not re.fullmatch(r"[0-9]{1,10}", word):
            raise BadAnswer("%s in the line '%s' is no number" % (quoted(word), line))
    return [int(word) for word in words]


def refusal(line: List[str]) -> Tuple[int, int]:
    values = numbers(line[1:], "refused")
    if len(values) != 2:
        raise BadAnswer("a line 'refused' has a number and a detail, not %d numbers" % len(values))
    if values[0] not in NUMBERS:
        raise BadAnswer("a net is never refused with number %d; its numbers are %s" % (values[0], ", ".join(map(str, NUMBERS))))
    return values[0], values[1]


# ---- a refusal

def _read_refusal(lines: List[List[str]], job: Job) -> Answer:
    number, detail = refusal(lines[0])
    if len(lines) > 1:
        raise BadAnswer("lines follow behind 'refused'")
    if number <= 5 and not (number == 2 and job.cells() > ROUTE_CELLS):
        raise BadAnswer("the answer is number %d, but this sheet has no such fault: it answers another sheet" % number)
    if number in (7, 8, 9):
        _check_late(number, detail, job)
    if number == 14 and detail not in [job.number(approach(sink)) for sink in _sound_sinks(job)]:
        raise BadAnswer("number 14 names cell %d, which is no sink's approach" % detail)
    if number == 15 and not 1 <= detail <= len(job.sinks):
        raise BadAnswer("number 15 names sink %d; the sheet has %d" % (detail, len(job.sinks)))
    return Answer(refused=(number, detail))


def _check_late(number: int, detail: int, job: Job) -> None:
    fault = next(late_faults(job), None)
    if fault is None or fault.number != number:
        raise BadAnswer("the answer is number %d, but this sheet has no such fault: it answers another sheet" % number)
    due = job.number(job.blocks[fault.index].at) if number == 7 else fault.index + 1 if fault.part == "sinks" else 0
    if detail != due:
        raise BadAnswer("number %d has detail %d; for this sheet it would be %d" % (number, detail, due))


def _sound_sinks(job: Job) -> List[Sink]:
    if next(late_faults(job), None) is not None:
        raise BadAnswer("this sheet is refused with number 7, 8 or 9 before any search")
    return job.sinks


def refusal_words(number: int, detail: int, job: Job) -> str:
    return sentence(of_job(number, detail, job))


def marked_cells(answer: Answer, job: Job) -> List[Pos]:
    """The cells that a refusal speaks of."""
    if answer.refused is None:
        return []
    number, detail = answer.refused
    if number in (7, 14):
        return [job.place(detail)]
    if number in (8, 9, 15):
        return [[job.source, *job.sinks][detail].at]
    return []


# ---- a net

def _read_net(lines: List[List[str]], job: Job) -> Answer:
    if next(late_faults(job), None) is not None:
        raise BadAnswer("the answer is a net, but this sheet is refused with number 7, 8 or 9: it answers another sheet")
    head = numbers(lines[0][1:], "net")
    if len(head) != 2:
        raise BadAnswer("a line 'net' has the counts of branches and of occupied cells, not %d numbers" % len(head))
    if [line[0] for line in lines[1:]] != ["branch"] * head[0] + ["repeaters"]:
        raise BadAnswer("'net %d' is to be followed by %d lines 'branch' and one line 'repeaters'" % (head[0], head[0]))
    if head[0] != len(job.sinks):
        raise BadAnswer("the answer has %d branches, the sheet %d sinks" % (head[0], len(job.sinks)))
    rows = [[_cell(value, job) for value in numbers(line[1:], line[0])] for line in lines[1:]]
    answer = Answer(rows[:-1], rows[-1])
    for place, branch in enumerate(answer.branches, 1):
        _check_branch(place, branch, job)
    _check_counts(answer, head[1], job)
    return answer


def _cell(value: int, job: Job) -> Pos:
    if value >= job.cells():
        raise BadAnswer("cell %d is outside the room, whose last cell is %d" % (value, job.cells() - 1))
    return job.place(value)


def _check_branch(place: int, branch: List[Pos], job: Job) -> None:
    end = terminal(job.sinks[place - 1])
    if not branch or branch[-1] != end:
        raise BadAnswer("branch %d doesn't end at its sink's terminal %s, cell %d" % (place, spell(end), job.number(end)))
    for one, other in zip(branch, branch[1:]):
        if not is_step(one, other):
            raise BadAnswer("branch %d jumps from cell %d to cell %d" % (place, job.number(one), job.number(other)))


def _check_strict(answer: Answer, job: Job) -> None:
    """In strict mode air that is blocked at the outset is neither entered nor rested on, but for the ends of the search. It goes from the
    sink's approach to where the branch leaves the tree."""
    free = {block.at for block in job.blocks}
    barred = {at for at in blocked(job) if at not in free}
    for sink, branch in zip(job.sinks, answer.branches):
        ends = (branch[0], approach(sink))
        way = branch if approach(sink) == terminal(sink) else branch[:-1]
        for at in way[:-1]:
            for used, words in ((at, "lies in"), (step(at, (0, -1, 0)), "rests on")):
                if used in barred and used not in ends:
                    raise BadAnswer("this is no answer of strict mode: the wire at %s %s the cell %s, which is blocked" % (spell(at), words, spell(used)))


def _check_counts(answer: Answer, said: int, job: Job) -> None:
    if said != len(occupied(answer, job)):
        raise BadAnswer("'net' says %d occupied cells, the branches and the source have %d" % (said, len(occupied(answer, job))))
    reached = directions(answer, job)
    apart = [branch[0] for branch in answer.branches if branch[0] not in reached]
    if apart:
        raise BadAnswer("the branch that begins at cell %d doesn't hang together with the source" % job.number(apart[0]))
    for at in answer.repeaters:
        if reached.get(at) not in AHEAD:
            raise BadAnswer("the repeater in cell %d doesn't stand on a flat piece of a branch" % job.number(at))


def occupied(answer: Answer, job: Job) -> Set[Pos]:
    """All cells of the branches, and the source's terminal."""
    return {terminal(job.source)}.union(*answer.branches)


def neighbours(answer: Answer) -> Dict[Pos, List[Pos]]:
    """For each cell of the branches those that a step of a branch joins it to, in number order."""
    beside: Dict[Pos, set] = {}
    for branch in answer.branches:
        for one, other in zip(branch, branch[1:]):
            beside.setdefault(one, set()).add(other)
            beside.setdefault(other, set()).add(one)
    return {at: sorted(cells) for at, cells in beside.items()}


def parents(answer: Answer, job: Job) -> Dict[Pos, Optional[Pos]]:
    """For each cell that the source reaches, the cell that the signal comes from (None at the source): breadth first from the source
    over all branches, neighbours in number order."""
    beside = neighbours(answer)
    source = terminal(job.source)
    found: Dict[Pos, Optional[Pos]] = {source: None}
    waiting = deque([source])
    while waiting:
        at = waiting.popleft()
        for following in beside.get(at, ()):
            if following not in found:
                found[following] = at
                waiting.append(following)
    return found


def directions(answer: Answer, job: Job) -> Dict[Pos, int]:
    """For each cell that the source reaches, the facing in which the signal comes in: 0 at the source and on stairs."""
    return {at: next((facing for facing, by in AHEAD.items() if before is not None and step(before, by) == at), 0)
            for at, before in parents(answer, job).items()}


# ---- a sheet that is refused as it is read

def check_damaged(text: str, number: int) -> None:
    """Of a sheet that a number 1 to 5 refuses: nothing but that refusal answers it."""
    if text.split() != ["refused", str(number), "0"]:
        raise BadAnswer("this sheet is answered by 'refused %d 0' and by nothing else" % number)


def damage(job: Job, said: Optional[str]) -> Optional[Tuple[int, str]]:
    """The number 1 to 5 by which the job is refused, and why. Program route judges the size of a room that is too large for it before
    numbers 3 to 5: where its number 2 is what was said, that is due."""
    fault = first_fault(job)
    if fault is None:
        return None
    by_size = fault.number > 2 and job.cells() > ROUTE_CELLS and (said or "").split()[:2] == ["refused", "2"]
    number = 2 if by_size else fault.number
    return number, refusal_words(number, 0, job)
