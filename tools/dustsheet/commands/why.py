"""`why FILE` says why a sink of a net wasn't reached, or why no wire can get from one cell to another, and draws it: tools/README.md."""
from __future__ import annotations

import argparse
import re
import sys
from typing import Optional, Tuple, Union

import dustroute

from .. import files, job as jobs, reason as reasons, report, sink_page, tries
from ..job import Job, Pos, spell
from ..page import count
from ..progress import Progress
from ..rules import approach, late_faults, terminal
from ..supports import kinds_of
from ..words import sentence
from . import unreached
from .given import read

ABOUT = "say why a sink wasn't reached, or why no wire can get from one cell to another, and draw it"
NOT_BUILT, REFUSED = 1, 3


def configure(parser: argparse.ArgumentParser) -> None:
    parser.add_argument("file", metavar="FILE", help="the text of a job, or a job sheet, or - for standard input")
    parser.add_argument("--strict", action="store_true", help="the net in strict mode, as of `route`")
    parser.add_argument("--search", action="store_true", help="instead one search past the blocks alone, from where sink 1 is approached to the "
                        "source's wire; so with --from and --to")
    parser.add_argument("--from", dest="start", type=position, metavar="X,Y,Z", help="where that search begins")
    parser.add_argument("--to", dest="goal", type=position, metavar="X,Y,Z", help="where it should get to")
    parser.add_argument("--json", action="store_true", help="print it as JSON instead")
    parser.add_argument("-o", dest="out", metavar="PAGE.html", help="also draw it as a page for a browser")
    parser.add_argument("-q", "--quiet", action="store_true", help="tell nothing of progress")
    parser.set_defaults(run=explain)


def position(word: str) -> Pos:
    found = re.fullmatch(r"\(?\s*([0-9]{1,3})[\s,]+([0-9]{1,3})[\s,]+([0-9]{1,3})\s*\)?", word)
    if found is None:
        raise argparse.ArgumentTypeError("'%s' is no position; X,Y,Z was expected, as 3,1,4" % word)
    return (int(found[1]), int(found[2]), int(found[3]))


def explain(args: argparse.Namespace) -> int:
    if not (args.search or args.start or args.goal):
        return explain_net(args)
    if args.strict:
        raise files.Stop("why: --strict is for a net; a search past the blocks alone has no mode")
    return explain_search(args)


# ---- the net

def explain_net(args: argparse.Namespace) -> int:
    job, progress = read_job(args.file), Progress("why", args.quiet)
    told = explained(job, args.strict, progress, files.shown(args.file))
    if isinstance(told, dustroute.Tree):
        said = reached_words(told)
        print(report.of_reached(job, said, args.strict) if args.json else said + "\n", end="")
        if args.out:
            print("why: every sink is reached, so no page was drawn", file=sys.stderr)
        return 0
    if args.out:
        files.write(args.out, net_page(args.file, told).encode(), is_text=True)
    print(report.of_unreached(told.unreached, told.tried, told.lines()) if args.json else "".join(line + "\n" for line in told.lines()), end="")
    return 0


def explained(job: Job, strict: bool, progress: Progress, shown: str) -> Union[dustroute.Tree, unreached.Explained]:
    usual_ends(job, shown)  # a net has an end at least, and each of them its wire in the room
    load(progress)
    return progress.watch("looking for the reason", lambda: unreached.explain(job, strict))


def net_page(path: str, told: unreached.Explained) -> str:
    return sink_page.page(files.title(path), told.unreached, tries.helpful(told.unreached, told.tried))


def reached_words(tree: dustroute.Tree) -> str:
    return "Every sink is reached: %s, %s occupied. `route` draws them." % (count(len(tree.branches), "branch"), count(len(tree.occupied), "cell"))


# ---- one search

def explain_search(args: argparse.Namespace) -> int:
    asked = question(read_job(args.file), args.start, args.goal, files.shown(args.file))
    told = answer_of(asked, Progress("why", args.quiet))
    if isinstance(told, dustroute.Route):
        said = way_words(asked, told)
        print(report.of_way(asked, [asked.job.place(cell) for cell in told.path], said) if args.json else said + "\n", end="")
        if args.out:
            print("why: there is a way, so no page was drawn", file=sys.stderr)
        return 0
    if args.out:
        files.write(args.out, reasons.page(files.title(args.file), told).encode(), is_text=True)
    said = [reasons.no_way(asked), reasons.sentence(told)]
    print(report.of_search(told, said) if args.json else "".join(line + "\n" for line in said), end="")
    return 0


def answer_of(asked: reasons.Question, progress: Progress) -> Union[dustroute.Route, reasons.Surroundings]:
    """What the proved library says: a route, or the cells that wire gets to with what stands round them."""
    load(progress)
    job = asked.job
    try:
        answer = dustroute.why(dustroute.Room(*job.sides), kinds_of(job), job.number(asked.start), job.number(asked.goal),
                               dustroute.Config(job.limit, *job.costs))
    except dustroute.Refusal as refusal:
        raise files.Stop("why: %s%s" % (refusal.words, "; no wall is named" if refusal.number in (12, 13) else ""), REFUSED) from None
    if isinstance(answer, dustroute.Route):
        return answer
    return reasons.Surroundings(asked, answer.reached, ((wall.cell, dustroute.MOVES[wall.move], wall.reason) for wall in answer.walls()))


def page_of(path: str, strict: bool) -> str:
    """The page that draws why a sink wasn't reached."""
    job = read_job(path)
    told = explained(job, strict, Progress("view", True), files.shown(path))
    if isinstance(told, dustroute.Tree):
        raise files.Stop("view: there is no reason to draw. " + reached_words(told))
    return net_page(path, told)


def way_words(asked: reasons.Question, route: dustroute.Route) -> str:
    cells = [asked.job.place(cell) for cell in route.path]
    stairs = sum(one[1] != other[1] for one, other in zip(cells, cells[1:]))
    return ("Wire can get from %s to %s past the blocks: %s, %d of them stairs. What is kept free for other nets and beside live "
            "blocks was left aside." % (spell(asked.start), spell(asked.goal), count(len(cells) - 1, "step"), stairs))


def read_job(path: str) -> Job:
    """The job of a file, which no number 1 to 5, nor 7, refuses."""
    try:
        job = jobs.from_bytes(read(path).sheet)
    except jobs.Refused as refused:
        raise files.Stop("%s: %s (number %d)" % (files.shown(path), refused, refused.number)) from None
    fault = jobs.first_fault(job) or next((late for late in late_faults(job) if late.number == 7), None)
    if fault is not None:
        raise files.Stop("%s: %s: %s (number %d)" % (files.shown(path), jobs.record_name(fault.part, fault.index), fault.words, fault.number))
    return job


def question(job: Job, start: Optional[Pos], goal: Optional[Pos], shown: str) -> reasons.Question:
    """The search that is asked for: one of the router's own, from sink 1 to the source, where nothing else is said."""
    if start is None or goal is None:
        usual = usual_ends(job, shown)
        start, goal = start or usual[0], goal or usual[1]
    for at in (start, goal):
        if not job.holds(at):
            raise files.Stop("why: %s is outside the room; its last cell is (%d, %d, %d)" % ((spell(at),) + tuple(side - 1 for side in job.sides)))
    return reasons.Question(job, start, goal)


def usual_ends(job: Job, shown: str) -> Tuple[Pos, Pos]:
    fault = next(late_faults(job), None)
    if fault is not None:
        raise files.Stop("%s: %s; name the two cells with --from and --to" % (shown, sentence(fault.words)[:-1]))
    if not job.sinks:
        raise files.Stop("%s: there is no sink; name the two cells with --from and --to" % shown)
    return approach(job.sinks[0]), terminal(job.source)


def load(progress: Progress) -> None:
    """The library, proved and built the first time."""
    try:
        dustroute.library(progress.say)
    except dustroute.NotBuilt as why:
        raise files.Stop("why: %s" % why, NOT_BUILT) from None
    finally:
        progress.done()
