"""An answer as JSON, with coordinates and numbers for programs. Positions are [x, y, z]."""
from __future__ import annotations

import json
from typing import List, Optional, Sequence

from .answer import Answer, occupied
from .check import NOT_KNOWN, Remark
from .job import FACINGS, KINDS, PORTS, Job, Pos
from .net import Branch, branches, signals
from .reason import Question, Surroundings
from .several import Laid, Net, RefusedNet, puts
from .sinks import APPROACH_TAKEN, CAUSES, SHUT_IN, VERDICTS, Unreached
from .supports import of_answer
from .tries import Tried


def of_net(job: Job, answer: Answer, found: List[Remark], strict: bool) -> str:
    return _text({"room": job.sides, "mode": _mode(strict), **_net(job, answer), "supports": of_answer(job, answer)._asdict(), **_warnings(found)})


def _net(job: Job, answer: Answer) -> dict:
    signal = signals(answer, job)
    listed = [_branch(place, branch, signal) for place, branch in enumerate(branches(answer, job), 1)]
    return {"run": job.run, "occupied": len(occupied(answer, job)), "branches": listed, "repeaters": answer.repeaters}


# ---- several nets

def of_nets(nets: Sequence[Net], laid: Laid, found: List[Remark], strict: bool) -> str:
    """Each net as one alone is told, and every block that is laid, with its net's place."""
    listed = [{"net": net.place, "name": net.name, **_net(net.job, net.answer)} for net in nets]
    blocks = [{"at": put.at, "kind": KINDS[put.kind], "facing": FACINGS[put.facing], "net": put.net} for put in puts(nets, laid)]
    return _text({"room": nets[0].job.sides, "mode": _mode(strict), "nets": listed, "laid": blocks, **_warnings(found)})


def of_refused_net(refused: RefusedNet, strict: bool) -> str:
    told = {"net": refused.place, "name": refused.name, "number": refused.number, "detail": refused.detail, "words": "\n".join(refused.reason),
            **({"why": why_sink(refused.stopped)} if refused.stopped else {})}
    return _text({"room": refused.seen.sides if refused.seen else None, "mode": _mode(strict), "refused": told})


def of_refusal(job: Optional[Job], number: int, detail: int, reason: List[str], found: List[Remark], strict: bool,
               stopped: Optional[Unreached] = None) -> str:
    """The room is null where the sheet has none. Why a sink wasn't reached is told on 13 and 14."""
    refused = {"number": number, "detail": detail, "words": "\n".join(reason), **({"why": why_sink(stopped)} if stopped else {})}
    return _text({"room": job.sides if job else None, "mode": _mode(strict), "refused": refused, **_warnings(found)})


# ---- why a sink wasn't reached, and why a search finds no way

REASONS = {1: "outside", 2: "taken", 3: "bad support", 4: "kept free", 5: "support kept free"}


def of_reached(job: Job, words: str, strict: bool) -> str:
    return _text({"room": job.sides, "mode": _mode(strict), "why": None, "words": words})


def of_unreached(unreached: Unreached, tried: Tried, lines: List[str]) -> str:
    refused = {"number": unreached.number, "detail": unreached.detail}
    helpful = [{"words": change.words, "at": change.at} for change in tried.found]
    return _text({"room": unreached.job.sides, "mode": _mode(unreached.strict), "refused": refused, "why": {**why_sink(unreached), "tries": helpful},
                  "words": "\n".join(lines)})


def why_sink(unreached: Unreached) -> dict:
    """`impossible` is true where it is proved that the sink can't be reached from the net so far; else nothing is said of that."""
    causes = [{"at": at, "causes": [cause.name for bit, cause in CAUSES.items() if bits & bit]} for at, bits in sorted(unreached.causes.items())]
    return {"sink": unreached.place, "at": unreached.job.sinks[unreached.place - 1].at, "approach": unreached.approach,
            "verdict": VERDICTS[unreached.verdict], "impossible": unreached.verdict in (APPROACH_TAKEN, SHUT_IN),
            "net": unreached.net, "net_is_exact": unreached.is_exact, **_surroundings(unreached.told), "kept_free": causes}


def of_search(told: Surroundings, words: List[str]) -> str:
    asked = told.asked
    return _text({"room": asked.job.sides, "from": asked.start, "to": asked.goal, "way": None, **_surroundings(told), "words": "\n".join(words)})


def of_way(asked: Question, way: List[Pos], words: str) -> str:
    return _text({"room": asked.job.sides, "from": asked.start, "to": asked.goal, "way": way, "words": words})


def _surroundings(told: Surroundings) -> dict:
    walls = [{"at": at, "reason": REASONS[reason]} for at, reason in sorted(told.round.items())]
    return {"reached": sorted(told.reached), "walls": walls, "at_edge": told.at_edge}


def _mode(strict: bool) -> str:
    return "strict" if strict else "published"


def _branch(place: int, branch: Branch, signal: dict) -> dict:
    return {"sink": place, "at": branch.sink.at, "port": PORTS[branch.sink.port], "tail": branch.sink.tail, "cells": branch.cells,
            "steps": branch.steps, "stairs": branch.stairs, "new_supports": branch.supports, "repeaters": branch.repeaters, "signal": branch.signal,
            "signals": [signal[at] for at in branch.cells]}


def _warnings(found: List[Remark]) -> dict:
    return {"warnings": [{"at": remark.at, "words": remark.words} for remark in found], "not_checked": NOT_KNOWN}


def _text(content: dict) -> str:
    return json.dumps(content) + "\n"
