"""The proved router for redstone wire, from Python; it needs the standard library alone.

    import dustroute

    tree = dustroute.route(open("examples/lane.txt").read())     # a text, or a sheet's bytes
    print(tree.branches, tree.repeaters)                         # cells by number; tree.room.position(cell) is where one is
    dustroute.route(open("examples/gap.txt").read(), strict=True)     # no wire rests on what other nets hold or keep clear
    dustroute.why_tree(open("examples/closet.txt").read()).verdict    # why a sink wasn't reached: SHUT_IN, at any costs

    answer = dustroute.nets(open("examples/controller.txt").read())   # several nets over one room, one after another, and laid
    print(answer.nets[0].branches, answer.kinds, answer.facings)

    room = dustroute.Room(3, 1, 1)
    dustroute.search(room, [dustroute.Kind.AIR] * 3, start=0, goal=2)
    # Route(path=(0, 1, 2), cost=20, expanded=2, steps=20, supports=0, laid=0)

    dustroute.why(room, [dustroute.Kind.AIR, dustroute.Kind.SOLID, dustroute.Kind.AIR], 0, 2).reached   # (0,): no way leads further
    dustroute.plain(room, [dustroute.Kind.AIR] * 3, start=0, goal=2)       # the same cost by other means, to check against
    dustroute.draw(room, [dustroute.Kind.AIR] * 3, [0, 1, 2]).kinds        # the room with wire, supports and repeaters along a path

    job = dustsheet.job.from_bytes(sheet)
    dustroute.write_sheet(job) == sheet                                    # a job as a sheet, by the proved writer
    dustroute.place_repeaters(job, tree.branches) == tree.repeaters        # the repeaters of any branches, in one call

    text = dustroute.write_function(room, [0, dustroute.Kind.REPEATER, 0], [0, 2, 0])    # a room as commands for the game
    dustroute.read_function(room, text).kinds                                           # and back

A refusal is raised: `Refusal` has its number, detail and words, `NetRefusal` the net too. The first call proves and builds the router, which takes minutes and
needs the Rattle toolchain; `library(say)` does just that, and tells `say` of its progress. The memory that the router is lent is kept
from one call to the next, for each thread its own; a `Memory` can be given instead. bindings/README.md has more."""
from .answers import Config, Kind, PlainRoute, Refusal, Room, Route, Tree
from .built import NotBuilt
from .calls import BadText, plain, route, search, sheet_made, sheet_of, write_sheet
from .functions import LaidRoom, read_function, write_function
from .drawing import Drawn, Repeater, draw, insert_repeaters, materialize_route
from .library import Library, library
from .memory import Memory
from .lists import NetRefusal, Nets, list_of, nets
from .reasons import MOVES, Reason, Wall, WalledIn, why
from .repeaters import place_repeaters
from .sinks import Cause, Unreached, Verdict, why_tree

__version__ = "0.1.0"

__all__ = ["BadText", "Cause", "Config", "Drawn", "Kind", "LaidRoom", "Library", "MOVES", "Memory", "NetRefusal", "Nets", "NotBuilt", "PlainRoute", "Reason", "Refusal",
           "Repeater", "Room", "Route", "Tree", "Unreached", "Verdict", "Wall", "WalledIn", "draw", "insert_repeaters", "library",
           "list_of", "materialize_route", "nets", "place_repeaters", "plain", "read_function", "route", "search", "sheet_made", "sheet_of", "why", "why_tree", "write_function",
           "write_sheet"]
