"""The scripts of tools/page put together into one: no module is left, so that a browser runs it from a file on a disk.

A script names what it takes from others (`import { a, b } from "./c.mjs"`) and what it gives (`export`), each name just once in all of
them. A script of parts/ says in its first line which of the proved library's functions it needs, and is left out where one isn't there."""
from __future__ import annotations

import ast
import re
from functools import lru_cache
from pathlib import Path
from typing import Dict, Iterable, Iterator, List, Set

from .files import Stop

TOOLS = Path(__file__).resolve().parents[1]
SCRIPTS = TOOLS / "page"
TABLES = SCRIPTS / "job" / "tables.mjs"  # made, not kept: what comes from Python's modules

IMPORT = re.compile(r'^import \{([^}]*)\} from "([^"]+)";\n', re.MULTILINE)
EXPORT = re.compile(r"^export (?=(?:async )?(?:function\*?|class|const|let) )", re.MULTILINE)
DECLARED = re.compile(r"^(?:export )?(?:async )?(?:function\*?|class|const|let) (?:(\w+)|[{[]([^}\]]*)[}\]])", re.MULTILINE)
LITERAL = r'"(?:[^"\\]|\\.)*"'
SAID = re.compile(r"\bsaid\(\s*(%s(?:\s*\+\s*%s)*)" % (LITERAL, LITERAL))


def bundle(entries: Iterable[Path], tables: str) -> str:
    """The scripts that the entries need, each behind those that it takes something from."""
    listed = order(entries)
    taken: Dict[str, Path] = {}
    parts = []
    for file in listed:
        content = tables if file == TABLES else file.read_text(encoding="utf-8")
        for name in names(content):
            if name in taken:
                raise Stop("page: %s is declared in %s and in %s" % (name, taken[name].name, file.name))
            taken[name] = file
        check_said(file, content)
        parts.append("// ---- %s\n%s" % (file.relative_to(SCRIPTS), EXPORT.sub("", IMPORT.sub("", content))))
    return "\n".join(parts)


def order(entries: Iterable[Path]) -> List[Path]:
    found: List[Path] = []
    begun: Set[Path] = set()

    def visit(file: Path) -> None:
        if file in begun:
            return
        begun.add(file)
        content = "" if file == TABLES else file.read_text(encoding="utf-8")
        for wanted, path in IMPORT.findall(content):
            other = (file.parent / path).resolve()
            visit(other)
            if other != TABLES:
                check_given(file, wanted, other)
        found.append(file)

    for entry in entries:
        visit(entry.resolve())
    return found


def check_given(file: Path, wanted: str, other: Path) -> None:
    content = other.read_text(encoding="utf-8")
    given = {name for line in re.findall(r"^export .*", content, re.MULTILINE) for name in names(line)}
    for name in wanted.replace(",", " ").split():
        if name not in given:
            raise Stop("page: %s takes %s from %s, which doesn't give it" % (file.name, name, other.name))


def names(content: str) -> Iterator[str]:
    """What a script declares outside of its functions."""
    for one, several in DECLARED.findall(content):
        yield from [one] if one else several.replace(",", " ").split()


# ---- parts

def parts(functions: Iterable[str]) -> List[Path]:
    """The scripts of parts/ that these functions of the library allow."""
    there = set(functions)
    return [file for file in sorted((SCRIPTS / "parts").glob("*.mjs")) if needs(file) <= there]


def needs(file: Path) -> Set[str]:
    first = file.read_text(encoding="utf-8").split("\n", 1)[0]
    found = re.fullmatch(r"// needs:((?: dustroute_\w+)+)", first)
    if found is None:
        raise Stop("page: %s doesn't begin with '// needs: dustroute_..'" % file.name)
    return set(found[1].split())


# ---- words

def check_said(file: Path, content: str) -> None:
    """Words for people have one source: what a script says stands in a module of Python's, letter by letter."""
    for words in SAID.findall(content):
        spoken = "".join(part[1:-1] for part in re.findall(LITERAL, words)).replace('\\"', '"')
        if spoken not in spoken_by_tools():
            raise Stop("page: %s says \"%s\", and no module of tools/dustsheet does" % (file.name, spoken))


@lru_cache(None)
def spoken_by_tools() -> Set[str]:
    """The texts of Python's modules."""
    found: Set[str] = set()
    for file in (TOOLS / "dustsheet").rglob("*.py"):
        if file.name != Path(__file__).name:
            tree = ast.parse(file.read_text(encoding="utf-8"))
            found.update(node.value for node in ast.walk(tree) if isinstance(node, ast.Constant) and isinstance(node.value, str))
    return found
