"""`route FILE` routes a job through the proved library: docs/RULES.md has the rules, README.md what is printed."""
from __future__ import annotations

import argparse
import dataclasses
import sys
from typing import List, Optional, Tuple, Union

import dustroute

from .. import answer as answers, crosscheck, files, job as jobs, report, sinks, text as texts
from ..check import Remark, remarks
from ..progress import Progress
from ..rules import ample_limit
from ..sinks import Unreached
from . import sheet as sheets, unreached, view as views
from .given import Given, read_all

ABOUT = "route a job: a text or a sheet"
NOT_BUILT, DIFFERS, REFUSED = 1, 1, 3
NAME = "dustroute"


def configure(parser: argparse.ArgumentParser) -> None:
    parser.add_argument("file", metavar="FILE", help="the text of a job, or a job sheet, or - for standard input")
    parser.add_argument("--view", metavar="PAGE.html", help="also draw it as a page for a browser")
    parser.add_argument("--strict", action="store_true", help="strict mode: wire neither enters nor rests on air that other nets hold or keep "
                        "clear, or that is reserved; else such air counts as solid, as in the published router")
    parser.add_argument("--json", action="store_true", help="print coordinates and numbers as JSON instead")
    parser.add_argument("--check", action="store_true", help="then make the tree's searches again beside the plain engine, and tell where "
                        "they differ; takes longer, in a large maze some seconds a branch")
    parser.add_argument("-q", "--quiet", action="store_true", help="tell nothing of progress")
    parser.set_defaults(run=route)


Answered = Union[dustroute.Tree, dustroute.Refusal]


def route(args: argparse.Namespace) -> int:
    listed = read_all(args.file)
    if len(listed) > 1:
        return several_nets(args, listed)
    given = listed[0][1]
    progress = Progress(NAME, args.quiet)
    load(progress)
    answered = progress.watch("routing", lambda: attempt(given.sheet, args.strict))
    stopped = progress.watch("looking for the reason", lambda: stopped_at(given, answered, args.strict))
    reason = progress.watch("looking for the reason", lambda: refusal_lines(given, answered, args.strict, stopped))
    said = printed(answered)
    job = given.job()
    answer = answers.read(said, job, args.strict) if job else None
    found = remarks(job, answer) if job else []
    if args.view:
        page = views.page_of(files.title(args.file), given.sheet, said, files.shown(args.file), one_paragraph(reason), args.strict)
        files.write(args.view, page.encode(), is_text=True)
    if not args.json:
        print_out(said)
    elif isinstance(answered, dustroute.Refusal):
        print_out(report.of_refusal(job, answered.number, answered.detail, reason, found, args.strict, stopped))
    elif job and answer:
        print_out(report.of_net(job, answer, found, args.strict))
    tell(reason, found)
    is_sound = not args.check or cross_check(progress, job, answered, args.strict)
    return REFUSED if isinstance(answered, dustroute.Refusal) else 0 if is_sound else DIFFERS


def several_nets(args: argparse.Namespace, listed: List[Tuple[str, Given]]) -> int:
    """A text of several nets, or a list of sheets, is routed as `nets` does it."""
    from . import nets  # which takes much from here
    if args.check:
        raise files.Stop("%s: %d nets; --check takes one" % (files.shown(args.file), len(listed)))
    args.file = [args.file]
    return nets.routed(args, [nets.GivenNet(place, name, args.file[0], given) for place, (name, given) in enumerate(listed)])


def printed(answered: Answered) -> str:
    """What program route prints."""
    return answered.line() if isinstance(answered, dustroute.Refusal) else str(answered)


def load(progress: Progress) -> None:
    """The library, proved and built the first time."""
    try:
        dustroute.library(progress.say)
    except dustroute.NotBuilt as why:
        progress.done()
        raise files.Stop("%s: %s" % (NAME, why), NOT_BUILT) from None
    progress.done()


def attempt(sheet: bytes, strict: bool) -> Answered:
    try:
        return dustroute.route(sheet, strict=strict)
    except dustroute.Refusal as refusal:
        return refusal


# ---- beside the plain engine

def cross_check(progress: Progress, job: Optional[jobs.Job], answered: Answered, strict: bool) -> bool:
    """Whether the tree's searches are as cheap as the plain engine's and its branches their ways. It is told, and where it isn't so."""
    if job is None or isinstance(answered, dustroute.Refusal):
        print("%s: checked: nothing, there is no tree" % NAME, file=sys.stderr)
        return True
    checked = progress.watch("checking beside the plain engine", lambda: crosscheck.check(job, answered.branches, strict))
    for line in (checked.words(), *checked.differences):
        print("%s: %s" % (NAME, line), file=sys.stderr)
    return not checked.differences


# ---- why it was refused

def stopped_at(given: Given, answered: Answered, strict: bool) -> Optional[Unreached]:
    """The sink that a tree stopped at with 13 or 14, and why."""
    job = given.job()
    if job is None or isinstance(answered, dustroute.Tree) or answered.number not in (13, 14):
        return None
    told = unreached.found(job, strict)
    return None if isinstance(told, dustroute.Tree) else told


def refusal_lines(given: Given, answered: Answered, strict: bool, stopped: Optional[Unreached]) -> List[str]:
    """The reason of a refusal in plain words: for a text at its lines, if a line is to blame; of a sink that wasn't reached all that is
    known, or, where its search was cut short, which limit is to blame."""
    if isinstance(answered, dustroute.Tree):
        return []
    if given.draft is not None and answered.number < 13:
        problems = texts.problems_of(given.draft, texts.job_of(given.draft))
        if problems:
            return sheets.listed(given.draft, problems).split("\n")
    if stopped is not None and stopped.verdict != sinks.CUT_SHORT:
        return [answered.words, *sinks.words(stopped), "`./dustroute why` says what to try, and draws it."]
    more = limit_words(given, answered, strict) if answered.number == 14 else None
    return [answered.words + (": " + more if more else "")]


def one_paragraph(reason: List[str]) -> str:
    """The lines of a refusal as one text, behind which a page puts a full stop: sentences follow the first line, or faults of a text."""
    if reason and all(line.endswith(".") for line in reason[1:]):
        return ". ".join([reason[0], *(line[:-1] for line in reason[1:])])
    return "; ".join(reason)


def limit_words(given: Given, refusal: dustroute.Refusal, strict: bool) -> Optional[str]:
    """Whether the node limit is to blame: that is so just if another limit, which suffices, changes the answer."""
    job = given.job()
    if job is None:
        return None
    enough = ample_limit(job) or jobs.MAX_NODES
    if job.limit >= enough:
        return "the node limit %d is the highest there is" % job.limit
    again = attempt(dustroute.sheet_made(dataclasses.replace(job, limit=enough)), strict)
    passed = "the node limit %d was passed; a limit of %d suffices" % (job.limit, enough)
    if isinstance(again, dustroute.Tree):
        return passed
    if (again.number, again.detail) != (refusal.number, refusal.detail):
        return "%s for it, and then %s" % (passed, again.words)
    return "a node limit of %d doesn't help" % enough


# ---- what is printed

def print_out(text: str) -> None:
    try:
        sys.stdout.write(text)
        sys.stdout.flush()
    except BrokenPipeError:
        raise
    except OSError as error:
        raise files.Stop("%s: the answer could not be written: %s" % (NAME, error.strerror), NOT_BUILT) from None


def tell(reason: List[str], found: List[Remark]) -> None:
    for line in reason:
        print("%s: %s" % (NAME, line), file=sys.stderr)
    for remark in found:
        print("%s: warning: %s" % (NAME, remark.words), file=sys.stderr)
