"""`draw FILE` lays one route into a room, as the proved library draws it: its supports, wire and repeaters: tools/README.md."""
from __future__ import annotations

import argparse
import sys
from dataclasses import replace
from typing import List

import dustroute

from .. import files
from ..job import FACINGS, KINDS, Block, Job, spell
from ..page import count, page
from ..progress import Progress
from ..rules import approach, late_faults, terminal
from ..supports import kinds_of
from ..words import sentence
from .why import NOT_BUILT, REFUSED, position, read_job

ABOUT = "lay one route from one cell of a room to another, with its supports, wire and repeaters"


def configure(parser: argparse.ArgumentParser) -> None:
    parser.add_argument("file", metavar="FILE", help="the text of a job, or a job sheet, or - for standard input; its blocks alone count")
    parser.add_argument("--from", dest="start", type=position, metavar="X,Y,Z", help="where wire begins; the source's wire if left out")
    parser.add_argument("--to", dest="goal", type=position, metavar="X,Y,Z", help="where it should get to; where sink 1 is approached if left out")
    parser.add_argument("--support", choices=KINDS[1:], default="solid", metavar="KIND", help="what supports are made of; solid if left out")
    parser.add_argument("--run", dest="wires", type=limit, default=dustroute.drawing.RUN, metavar="N", help="a repeater after so many wires; 12 if left out")
    parser.add_argument("-o", dest="out", metavar="PAGE.html", help="also draw the room with all that is laid as a page for a browser")
    parser.add_argument("-q", "--quiet", action="store_true", help="tell nothing of progress")
    parser.set_defaults(run=lay)


def limit(word: str) -> int:
    if not (word.isascii() and word.isdigit() and len(word) < 10):
        raise argparse.ArgumentTypeError("'%s' is no run limit; a number from 0 on was expected" % word)
    return int(word)


def lay(args: argparse.Namespace) -> int:
    job = read_job(args.file)
    if args.start is None or args.goal is None:
        usual_ends(job, args)
    drawn = drawn_route(job, args)
    laid = blocks_of(job, drawn)
    for block in laid:
        words = ["block", KINDS[block.kind], *map(str, block.at)]
        print(*words, *([FACINGS[block.facing]] if block.facing else []))
    kinds = [block.kind for block in laid]
    wire, repeaters = kinds.count(dustroute.Kind.REDSTONE_WIRE), kinds.count(dustroute.Kind.REPEATER)
    print("draw: %s, %s, %s from %s to %s" % (
        count(len(kinds) - wire - repeaters, "support"), count(wire, "wire"), count(repeaters, "repeater"), spell(args.start), spell(args.goal)),
        file=sys.stderr)
    if args.out:
        there = {job.number(block.at) for block in laid}
        kept = [block for block in job.blocks if job.number(block.at) not in there]
        files.write(args.out, page(files.title(args.file), replace(job, blocks=kept + laid), None).encode(), is_text=True)
    return 0


def usual_ends(job: Job, args: argparse.Namespace) -> None:
    """From the source to sink 1, where nothing else is said: a repeater passes a signal on the way the path goes."""
    fault = next(late_faults(job), None)
    if fault is not None:
        raise files.Stop("%s: %s; name the two cells with --from and --to" % (files.shown(args.file), sentence(fault.words)[:-1]))
    if not job.sinks:
        raise files.Stop("%s: there is no sink; name the two cells with --from and --to" % files.shown(args.file))
    args.start, args.goal = args.start or terminal(job.source), args.goal or approach(job.sinks[0])


def drawn_route(job: Job, args: argparse.Namespace) -> dustroute.Drawn:
    """The room with the route that the proved search answers."""
    for at in (args.start, args.goal):
        if not job.holds(at):
            raise files.Stop("draw: %s is outside the room" % spell(at))
    progress = Progress("draw", args.quiet)
    try:
        dustroute.library(progress.say)
        room, kinds = dustroute.Room(*job.sides), kinds_of(job)
        route = dustroute.search(room, kinds, job.number(args.start), job.number(args.goal), dustroute.Config(job.limit, *job.costs))
        return dustroute.draw(room, kinds, route.path, KINDS.index(args.support), args.wires)
    except dustroute.NotBuilt as why:
        raise files.Stop("draw: %s" % why, NOT_BUILT) from None
    except dustroute.Refusal as refusal:
        raise files.Stop("draw: %s" % refusal.words, REFUSED) from None
    finally:
        progress.done()


def blocks_of(job: Job, drawn: dustroute.Drawn) -> List[Block]:
    """What is laid, in cell order: each cell whose kind is another than before. A repeater has the facing of its last passage."""
    facings = {entry.cell: entry.facing for entry in drawn.repeaters}
    before = kinds_of(job)
    return [Block(0, job.place(cell), kind, facings.get(cell, 0)) for cell, kind in enumerate(drawn.kinds) if kind != before[cell]]
