"""`page -o ROUTER.html` makes the page that routes in a browser, with the proved module in it: tools/PAGE.md."""
from __future__ import annotations

import argparse

import dustroute
from dustroute import built, header
from dustroute.repository import HEADER, ROOT

from .. import files, router_page
from ..progress import Progress

ABOUT = "make the page that draws and routes a room in any browser: one file, which needs no network"
NOT_BUILT = 1


def configure(parser: argparse.ArgumentParser) -> None:
    parser.add_argument("-o", dest="out", metavar="ROUTER.html", help="where to write the page; standard output if left out")
    parser.add_argument("-q", "--quiet", action="store_true", help="tell nothing of progress")
    parser.set_defaults(run=make)


def make(args: argparse.Namespace) -> None:
    files.write(args.out, made(Progress("page", args.quiet)).encode(), is_text=True)


def made(progress: Progress) -> str:
    """The page, with the module proved and built the first time."""
    try:
        module = built.wasm_module(progress.say).read_bytes()
    except dustroute.NotBuilt as why:
        raise files.Stop("page: %s" % why, NOT_BUILT) from None
    finally:
        progress.done()
    return router_page.page(module, header.read(HEADER), ROOT / "examples")
