"""One route drawn into a room of kinds: supports and wire along a path, then repeaters."""
from __future__ import annotations

from array import array
from typing import NamedTuple, Optional, Sequence, Tuple

from .answers import Config, Kind, Refusal, Room
from .calls import Called, call
from .library import library
from .memory import Memory
from dustsheet import words

# so many wires may follow one another in a run, as a tree has them
RUN = 12


class Repeater(NamedTuple):
    """A repeater of a path: its cell, and the way the path goes there, from input to output."""
    cell: int
    facing: int  # 1 north, 2 east, 3 south, 4 west


class Drawn(NamedTuple):
    """A room with a route in it: its kinds, one byte for each cell in number order, and the repeaters in path order."""
    room: Room
    kinds: bytes
    repeaters: Tuple[Repeater, ...] = ()


def materialize_route(room: Room, kinds: Sequence[int], path: Sequence[int], support: int = Kind.SOLID,
                      memory: Optional[Memory] = None) -> bytes:
    """The room's kinds with the path drawn: cell by cell a support where the cell beneath is air, then wire where the cell is air.

    A support outside the room isn't laid. Raises Refusal with number 2, 6, 5 or 4."""
    room, drawn = Room(*room), bytearray(kinds)
    called = call("materialize_route", room, Config(), memory, {"values": library().constants["DUSTROUTE_ROUTE_VALUES"]},
                  support_kind=support, kinds=drawn, path=array("I", path))
    _refuse(called)
    return bytes(drawn)


def insert_repeaters(room: Room, kinds: Sequence[int], path: Sequence[int], run: int = RUN, memory: Optional[Memory] = None) -> Drawn:
    """The room with straight cells of the path swapped for repeaters at the run limit; 0 acts as 1.

    Raises Refusal with number 2, 6, 5 or 4."""
    room, drawn = Room(*room), bytearray(kinds)
    lengths = {"cells": len(path), "facings": len(path), "values": library().constants["DUSTROUTE_LIST_VALUES"]}
    called = call("insert_repeaters", room, Config(), memory, lengths, run=run, kinds=drawn, path=array("I", path))
    _refuse(called)
    count = called.lent["values"][1]
    listed = map(Repeater, called.lent["cells"][:count], called.lent["facings"][:count])
    return Drawn(room, bytes(drawn), tuple(listed))


def draw(room: Room, kinds: Sequence[int], path: Sequence[int], support: int = Kind.SOLID, run: int = RUN,
         memory: Optional[Memory] = None) -> Drawn:
    """Both in turn: the path drawn, and then its repeaters.

        route = dustroute.search(room, kinds, start, goal)
        dustroute.draw(room, kinds, route.path).kinds      # the room as it is to be built"""
    return insert_repeaters(room, materialize_route(room, kinds, path, support, memory), path, run, memory)


def _refuse(called: Called) -> None:
    if called.number:
        raise Refusal(called.number, called.detail, words.of_drawing(called.number))
