"""`sheet make TEXT` turns a text into a job sheet, `sheet show SHEET` a sheet into its text: tools/README.md."""
from __future__ import annotations

import argparse
import sys
from typing import List

import dustroute

from .. import files, job as jobs, rules, text as texts, words

ABOUT = "make a job sheet, or of several nets a list, from a text, or show it as its text"
MOST_SHOWN = 20


def configure(parser: argparse.ArgumentParser) -> None:
    actions = parser.add_subparsers(dest="action", required=True, metavar="make|show")
    for action, run, about, file, out, hex_about in (
            ("make", make, "text to sheet", "TEXT", "SHEET", "write the sheet as hex digits"),
            ("show", show, "sheet to text", "SHEET", "TEXT", "the sheet is written as hex digits")):
        sub = actions.add_parser(action, help=about, description=about)
        sub.add_argument("file", metavar=file, help="a file, or - for standard input")
        sub.add_argument("-o", dest="out", metavar=out, help="where to write it; standard output if left out")
        sub.add_argument("--hex", action="store_true", help=hex_about)
        sub.add_argument("--any", action="store_true", help="also what the router refuses")
        sub.set_defaults(run=run)


def make(args: argparse.Namespace) -> None:
    draft = read_draft(files.read_text(args.file), files.shown(args.file))
    nets = texts.jobs_of(draft)
    problems = texts.problems_of_all(draft)
    if problems and not args.any:
        raise files.Stop(listed(draft, problems) + "\nno sheet was made; --any makes it all the same")
    for warning in [listed(draft, problems)] if problems else size_warning(nets[0]):
        print("sheet: warning: " + warning, file=sys.stderr)
    sheets = [dustroute.sheet_made(job) for job in nets]  # of several nets one behind the other: a list
    digits = "".join(jobs.to_hex(job, sheet) for job, sheet in zip(nets, sheets))
    files.write(args.out, digits.encode() if args.hex else b"".join(sheets), is_text=args.hex)


def read_draft(text: str, path: str) -> texts.Draft:
    """A text that can be read; else all that is wrong with it is told."""
    draft = texts.read(text, path)
    if draft.problems:
        raise files.Stop(listed(draft, draft.problems))
    return draft


def listed(draft: texts.Draft, problems: List[texts.Problem]) -> str:
    lines = ["%s:%d: %s" % (draft.path, problem.line, problem.words) for problem in problems[:MOST_SHOWN]]
    if len(problems) > MOST_SHOWN:
        lines.append("and %d more" % (len(problems) - MOST_SHOWN))
    return "\n".join(lines)


def size_warning(job: jobs.Job) -> List[str]:
    if job.cells() <= jobs.ROUTE_CELLS:
        return []
    return ["the room has %d cells; ./dustroute and the library take it, but program route refuses more than %d with number 2"
            % (job.cells(), jobs.ROUTE_CELLS)]


def show(args: argparse.Namespace) -> None:
    path = files.shown(args.file)
    content = files.read_sheet(args.file, args.hex)
    sheets = jobs.sheets_of(content) if jobs.is_list(content) else [content]
    nets = [shown_job(sheet, "%s: net %d" % (path, place) if len(sheets) > 1 else path, args.any) for place, sheet in enumerate(sheets)]
    if len(nets) == 1:
        files.write(args.out, texts.write(nets[0]).encode(), is_text=True)
        return
    for place, job in enumerate(nets):
        differs = words.of_difference(nets[0], job)
        if differs:
            raise files.Stop("%s: net %d: %s (number 1)" % (path, place, differs))
    files.write(args.out, texts.write_all(nets, [""] * len(nets)).encode(), is_text=True)


def shown_job(sheet: bytes, path: str, takes_any: bool) -> jobs.Job:
    """The job of a sheet, with what is wrong told; one that numbers 1 to 5 refuse is shown if any is."""
    try:
        job = jobs.from_bytes(sheet)
    except jobs.Refused as refused:
        raise files.Stop("%s: %s (number %d)" % (path, refused, refused.number)) from None
    fault = jobs.first_fault(job)
    if fault and not takes_any:
        raise files.Stop("%s: %s: %s (number %d)" % (path, jobs.record_name(fault.part, fault.index), fault.words, fault.number))
    late = [] if fault else list(rules.late_faults(job))[:1]
    for found in [fault] if fault else late:
        print("sheet: warning: %s: %s: %s (the router refuses this with number %d)"
              % (path, jobs.record_name(found.part, found.index), found.words, found.number), file=sys.stderr)
    return job
