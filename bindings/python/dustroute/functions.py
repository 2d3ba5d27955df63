"""A room as a function file: the text of `setblock` commands that lays it in the game, written and read."""
from __future__ import annotations

from typing import NamedTuple, Optional, Sequence

from .answers import Config, Refusal, Room
from .calls import call
from .library import library
from .memory import Memory
from dustsheet import words


class LaidRoom(NamedTuple):
    """A kind and a facing for each cell, by their codes, in number order; and how many cells are not Air."""
    kinds: bytes
    facings: bytes
    lines: int


def write_function(room: Room, kinds: Sequence[int], facings: Sequence[int], memory: Optional[Memory] = None) -> bytes:
    """The text that lays a room, one line for each cell that isn't Air, in number order:

        dustroute.write_function(dustroute.Room(1, 1, 1), [dustroute.Kind.REPEATER], [2])
        # b'setblock ~ ~ ~ minecraft:repeater[facing=west] replace\\n': in the game a repeater faces its input

    Raises Refusal with number 2, 5 (an unknown kind, or a facing that its kind can't have) or 6."""
    room, kinds, facings = Room(*room), bytes(kinds), bytes(facings)
    constants = library().constants
    blocks = len(kinds) - kinds.count(0)
    lengths = {"text": constants["DUSTROUTE_LINE_BYTES"] * blocks, "values": constants["DUSTROUTE_FUNCTION_VALUES"]}
    called = call("write_function", room, Config(), memory, lengths, kinds=kinds, facings=facings)
    if called.number:
        raise Refusal(called.number, called.detail, words.of_function(called.number, called.detail))
    return bytes(called.lent["text"][:called.lent["values"][1]])


def read_function(room: Room, text: bytes, memory: Optional[Memory] = None) -> LaidRoom:
    """The room of these sides that a text lays. Only what `write_function` writes is read.

    Raises Refusal with number 2 or 19 (a bad line; its detail is the line's number, from 1)."""
    room = Room(*room)
    lengths = {"values": library().constants["DUSTROUTE_FUNCTION_VALUES"]}
    called = call("read_function", room, Config(), memory, lengths, text=bytes(text))
    if called.number:
        raise Refusal(called.number, called.detail, words.of_function(called.number, called.detail))
    return LaidRoom(bytes(called.lent["kinds"]), bytes(called.lent["facings"]), called.lent["values"][1])
