"""`repeaters FILE ANSWER` plans the repeaters of wire that is laid, at the job's limits or others, by the proved call: tools/README.md."""
from __future__ import annotations

import argparse
import sys
from dataclasses import replace
from typing import List

import dustroute

from .. import files
from ..job import MAX_LIMIT, Job, spell
from ..page import count
from ..progress import Progress
from .why import NOT_BUILT, REFUSED, read_job

ABOUT = "plan the repeaters of branches that are given, at any limits"


def configure(parser: argparse.ArgumentParser) -> None:
    parser.add_argument("file", metavar="FILE", help="the text of a job, or a job sheet; its room, ends and limits alone count")
    parser.add_argument("branches", metavar="ANSWER", help="what `route` printed, or - for standard input: each line `branch` and the numbers "
                        "of its cells counts, and no other line")
    parser.add_argument("--run", dest="steps", type=limit, metavar="N", help="a repeater is due after so many steps; the job's if left out")
    parser.add_argument("--tail", type=limit, metavar="N", help="so many steps at most behind the last one; each sink's own if left out")
    parser.add_argument("-q", "--quiet", action="store_true", help="tell nothing of progress")
    parser.set_defaults(run=plan)


def limit(word: str) -> int:
    if not (word.isascii() and word.isdigit() and len(word) < 3 and 1 <= int(word) <= MAX_LIMIT):
        raise argparse.ArgumentTypeError("'%s' is no limit; a number from 1 to %d was expected" % (word, MAX_LIMIT))
    return int(word)


def plan(args: argparse.Namespace) -> int:
    job = read_job(args.file)
    branches = read_branches(args.branches)
    sinks = [sink._replace(tail=args.tail or sink.tail) for sink in job.sinks]
    cells = planned(replace(job, run=args.steps or job.run, sinks=sinks), branches, args.quiet)
    print(*["repeaters", *cells])
    where = ": " + ", ".join(spell(job.place(cell)) for cell in cells) if cells else ""
    print("repeaters: %s%s" % (count(len(cells), "repeater"), where), file=sys.stderr)
    return 0


def read_branches(name: str) -> List[List[int]]:
    """The cells of each line `branch`."""
    lines = [line.split() for line in files.read_text(name).splitlines()]
    branches = [line[1:] for line in lines if line[:1] == ["branch"]]
    for word in (word for branch in branches for word in branch):
        if not (word.isascii() and word.isdigit() and len(word) < 10):
            raise files.Stop("%s: '%s' is no cell; a line 'branch' has the numbers of its cells" % (files.shown(name), word))
    return [[int(word) for word in branch] for branch in branches]


def planned(job: Job, branches: List[List[int]], quiet: bool) -> List[int]:
    progress = Progress("repeaters", quiet)
    try:
        dustroute.library(progress.say)
        return list(dustroute.place_repeaters(job, branches))
    except dustroute.NotBuilt as why:
        raise files.Stop("repeaters: %s" % why, NOT_BUILT) from None
    except dustroute.Refusal as refusal:
        raise files.Stop("repeaters: %s" % refusal.words, REFUSED) from None
    finally:
        progress.done()
