"""The job that a word of the command line is given: a text or a sheet, told by its first byte."""
from __future__ import annotations

from typing import List, NamedTuple, Optional, Tuple

import dustroute

from .. import files, job as jobs, text as texts
from . import sheet as sheets


class Given(NamedTuple):
    """The sheet, and the draft of the text if it was made from one."""
    sheet: bytes
    draft: Optional[texts.Draft]

    def job(self) -> Optional[jobs.Job]:
        """The job, unless the bytes mean none or a number 1 to 5 refuses it."""
        try:
            job = jobs.from_bytes(self.sheet)
        except jobs.Refused:
            return None
        return job if jobs.first_fault(job) is None else None


def read(path: str, is_hex: bool = False) -> Given:
    """A text that can't be read is told with its lines; one that the router refuses is taken. Of several nets none is."""
    if is_hex:
        return Given(files.read_sheet(path, is_hex), None)
    nets = read_all(path)
    if len(nets) > 1:
        raise files.Stop("%s: %d nets; this word takes one: `./dustroute nets` routes and draws them all" % (files.shown(path), len(nets)))
    return nets[0][1]


def read_all(path: str, takes_any: bool = False) -> List[Tuple[str, Given]]:
    """The nets of a text or of a list of sheets, each with its name, if it has one. Bytes that are no whole sheets are one sheet, which is
    refused, unless any list is taken."""
    content = files.read_bytes(path)
    if jobs.is_sheet(content):
        return [("", Given(sheet, None)) for sheet in (jobs.sheets_of(content) if takes_any or jobs.is_list(content) else [content])]
    draft = sheets.read_draft(files.text_of(content, path), files.shown(path))
    return [(net.name, Given(dustroute.sheet_made(texts.job_of(net)), net)) for net in texts.drafts_of(draft)]
