"""`view FILE [ANSWER]` draws a job, and the net that the router answered, as a page for a browser: tools/README.md."""
from __future__ import annotations

import argparse
from typing import Optional, Tuple

from .. import answer as answers, files, job as jobs, page as pages
from .given import read

ABOUT = "draw a job, with the router's answer if there is one, as a page for a browser"


def configure(parser: argparse.ArgumentParser) -> None:
    parser.add_argument("file", metavar="FILE", help="a job sheet, or the text of one, or - for standard input")
    parser.add_argument("answer", metavar="ANSWER", nargs="?", help="what the router printed for it, or - for standard input")
    parser.add_argument("-o", dest="out", metavar="PAGE.html", help="where to write the page; standard output if left out")
    parser.add_argument("--strict", action="store_true", help="the answer was routed in strict mode; with --why, the net is")
    parser.add_argument("--why", action="store_true", help="draw instead why a sink wasn't reached, and the net so far; asks the proved library")
    parser.add_argument("--hex", action="store_true", help="the sheet is written as hex digits")
    parser.set_defaults(run=draw)


def draw(args: argparse.Namespace) -> None:
    if args.file == "-" and args.answer == "-":
        raise files.Stop("view: sheet and answer can't both come from standard input")
    if args.why:
        return draw_why(args)
    if args.strict and args.answer is None:
        raise files.Stop("view: --strict is for an answer, and none was given")
    said = None if args.answer is None else files.read_text(args.answer)
    try:
        content = page_of(files.title(args.file), read(args.file, args.hex).sheet, said, files.shown(args.file), strict=args.strict)
    except answers.BadAnswer as bad:
        raise files.Stop("%s: %s" % (files.shown(args.answer), bad)) from None
    files.write(args.out, content.encode(), is_text=True)


def draw_why(args: argparse.Namespace) -> None:
    """The page of `why`, which has more to ask."""
    if args.answer is not None or args.hex:
        raise files.Stop("view: --why takes a job alone")
    from . import why  # it needs the library, which drawing alone doesn't
    files.write(args.out, why.page_of(args.file, args.strict).encode(), is_text=True)


def page_of(name: str, sheet: bytes, said: Optional[str], shown: str, reason: Optional[str] = None, strict: bool = False) -> str:
    """The page of a sheet with what was answered in which mode, and why it was refused, if more is known of that. BadAnswer where it
    can't be."""
    try:
        job = jobs.from_bytes(sheet)
    except jobs.Refused as refused:
        return damaged(name, said, (refused.number, "%s." % refused), shown)
    damage = answers.damage(job, said)
    if damage:
        return damaged(name, said, damage, shown)
    return pages.page(name, job, None if said is None else answers.read(said, job, strict), reason, strict)


def damaged(name: str, said: Optional[str], damage: Tuple[int, str], shown: str) -> str:
    """A sheet that is refused as it is read has no floors; with its refusal as the answer, the page says why."""
    number, words = damage
    if said is None:
        raise files.Stop("%s: %s (number %d)" % (shown, words, number))
    answers.check_damaged(said, number)
    return pages.damaged_page(name, number, words)
