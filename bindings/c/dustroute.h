/* DustRoute's router, proved: one search over a room of kinds, why such a search finds no route, a plain engine to check a search
 * against, the job sheet of a job's parts, the tree of one, in the published router's way or in strict mode, and why a sink wasn't
 * reached; several nets over one room, routed one after another and laid. One route drawn into a room of kinds. And a room as a
 * function file: the text of `setblock` commands that lays it in the game, written and read.
 *
 * Link with libdustroute.a, which `tools/native-archive dustroute` makes; it needs memset and memcpy of the C library and
 * nothing else. The functions allocate nothing, keep nothing between calls and may be called from several threads at once,
 * each with memory of its own. Every input gets an answer: no length, no content and no number is forbidden, and nothing
 * outside the buffers is read or written.
 *
 * HOW A BUFFER IS PASSED: as a pointer to its first element and then its length, counted in elements and not in bytes. The
 * caller sees to three things, which no function can see for itself:
 *   - the buffer has that many elements; with length 0 any pointer will do, NULL too;
 *   - the pointer is aligned as its type asks (2 bytes for uint16_t, 4 for uint32_t, 8 for uint64_t);
 *   - no two buffers of a call overlap.
 * What a buffer holds when the function is called is of no account, but for `kinds` of a search, of the plain engine or of a drawing,
 * `path` of a drawing, the lists of a sheet that is written, `sheet` of a tree, `list` of several nets, `kinds` and `facings` where a
 * function file is written, and its `text` where it is read.
 *
 * A room has sides of 1 to 300 and V = wide * high * deep cells, at most 65,536. The cell at (x, y, z) has the number
 * (x * high + y) * deep + z.
 *
 * WHAT COMES BACK: a number, 0 for a route, a sheet, a tree, a text or a room, else one of those below.
 *   Numbers 1 to 6 leave every buffer as it was, `values` included: read nothing from it. Their detail is 0. Of dustroute_nets alone
 *   the first three values are written then, too.
 *   A number from 7 on has its detail in values[0] and leaves zeros in all else that can be written, to its very end; but 11 of
 *   dustroute_why has its reason in `reached` and `walls`, and 13 and 14 of dustroute_tree_why tell of a sink in the last two
 *   values, and where it is shut in, in `reached`, `walls` and `causes`.
 *   0 leaves the answer at the front of the outputs, zeros behind it, and zeros in the work memory. */
#ifndef DUSTROUTE_H
#define DUSTROUTE_H

#include <stddef.h>
#include <stdint.h>

#ifdef __cplusplus
extern "C" {
#endif

/* The numbers that come back. */
enum dustroute_number {
    DUSTROUTE_DONE = 0,
    DUSTROUTE_SHEET = 1,          /* the sheet's length, version or counts, bytes left over, over 16 sinks; parts too long for one */
    DUSTROUTE_SIDES = 2,          /* a side or V is out of range */
    DUSTROUTE_CONFIG = 3,         /* a cost, the node limit, a run or tail limit is out of range; or V times the dearest step is */
    DUSTROUTE_POSITION = 4,       /* a position is outside the room; a search's end or a drawn path's cell is V or more */
    DUSTROUTE_CODE = 5,           /* an unknown kind, facing or port kind; Air in a block record */
    DUSTROUTE_BUFFER = 6,         /* a buffer is too short, or kinds of a search or a drawing are not exactly V */
    DUSTROUTE_OVERLAP = 7,        /* two blocks in one cell; the detail is that cell */
    DUSTROUTE_PORT_FACING = 8,    /* BlockPower without a horizontal facing; 0 for the source, k for the k-th sink */
    DUSTROUTE_END_OUTSIDE = 9,    /* a terminal or an approach outside the room; the detail is as in 8 */
    DUSTROUTE_NOT_ROUTEABLE = 10, /* the start, else the goal, is not routeable; the detail is that cell */
    DUSTROUTE_NO_ROUTE = 11,      /* there is no route; how many cells were expanded, by the plain engine: are reached */
    DUSTROUTE_LIMIT_PASSED = 12,  /* the node limit was passed; expanded */
    DUSTROUTE_QUEUE_FULL = 13,    /* a push was due and the queue was full; expanded */
    DUSTROUTE_NO_GOAL = 14,       /* no way was found from a sink to the tree; its approach cell */
    DUSTROUTE_BRANCHES_FULL = 15, /* the branches exceed the branch buffer; that sink's place in the sheet, from 1 */
    DUSTROUTE_NETS_OVERLAP = 16,  /* two nets of a list occupy one cell; that cell */
    DUSTROUTE_NO_DIRECTION = 17,  /* a laid repeater without a direction; never comes: it is proved that trees have none */
    DUSTROUTE_TEXT_SHORT = 18,    /* the text of a function file is longer than its buffer */
    DUSTROUTE_BAD_LINE = 19       /* a line that no function file of the room has there; its number, from 1 */
};

enum {
    DUSTROUTE_MAX_SIDE = 300,
    DUSTROUTE_MAX_CELLS = 65536,
    DUSTROUTE_MAX_SINKS = 16,
    DUSTROUTE_MAX_SHEET = 60000,
    DUSTROUTE_SEARCH_VALUES = 4,
    DUSTROUTE_SEARCH_TOTALS = 7,
    DUSTROUTE_PLAIN_VALUES = 3,
    DUSTROUTE_ROUTE_VALUES = 1,
    DUSTROUTE_LIST_VALUES = 2,
    DUSTROUTE_PLAN_VALUES = 2,
    DUSTROUTE_TREE_VALUES = 20,
    DUSTROUTE_TREE_WHY_VALUES = 22,
    DUSTROUTE_NETS_VALUES = 3,
    DUSTROUTE_FUNCTION_VALUES = 2,
    DUSTROUTE_WRITE_VALUES = 2,
    DUSTROUTE_BLOCK_NUMBERS = 6,
    DUSTROUTE_POSITION_NUMBERS = 3,
    DUSTROUTE_END_NUMBERS = 5,
    DUSTROUTE_SINK_NUMBERS = 6,
    DUSTROUTE_USUAL_RUN = 12,
    DUSTROUTE_USUAL_TAIL = 8,
    DUSTROUTE_MAX_STEPS = 15,
    DUSTROUTE_LINE_BYTES = 77,
    DUSTROUTE_MOVES = 12
};

/* What blocked Air is to the searches of dustroute_tree_mode. */
enum dustroute_mode {
    DUSTROUTE_PUBLISHED = 0, /* Solid, as in the published router */
    DUSTROUTE_STRICT = 1     /* neither entered nor used as a support; any number but 0 says the same */
};

/* What dustroute_why tells of a move; where several hold, the least. */
enum dustroute_reason {
    DUSTROUTE_ALLOWED = 0,    /* a lawful step */
    DUSTROUTE_OUTSIDE = 1,    /* out of the room */
    DUSTROUTE_TAKEN = 2,      /* the cell holds a block; RedstoneWire at the start or the goal doesn't count */
    DUSTROUTE_BAD_SUPPORT = 3 /* what is right beneath the cell is none of Air, Solid, Transparent and RedstoneBlock */
};

/* What dustroute_tree_why tells of a move besides. */
enum dustroute_tree_reason {
    DUSTROUTE_KEPT_FREE = 4,        /* the cell is blocked Air */
    DUSTROUTE_SUPPORT_KEPT_FREE = 5 /* what is right beneath it is, in strict mode */
};

/* What dustroute_tree_why says of a sink. */
enum dustroute_verdict {
    DUSTROUTE_APPROACH_TAKEN = 1, /* its approach is neither Air nor RedstoneWire */
    DUSTROUTE_SHUT_IN = 2,        /* from its approach no cell of the net can be got to, at any costs */
    DUSTROUTE_CONFLICTS = 3,      /* it can, but each route that was tried was in conflict with the net's own wire */
    DUSTROUTE_CUT_SHORT = 4       /* a search may have ended early: a higher node limit, or after 13 a longer queue */
};

/* Why dustroute_tree_why says that a cell is blocked: one bit a reason. */
enum dustroute_cause {
    DUSTROUTE_CAUSE_CONDUCTOR = 1, /* another net's conductor */
    DUSTROUTE_CAUSE_KEEPOUT = 2,   /* in the keepout of one */
    DUSTROUTE_CAUSE_CLEARANCE = 4, /* another net's clearance */
    DUSTROUTE_CAUSE_TERMINAL = 8,  /* another net's terminal */
    DUSTROUTE_CAUSE_RESERVED = 16, /* a reserved cell */
    DUSTROUTE_CAUSE_BLOCK = 32,    /* the keepout of a block of the room */
    DUSTROUTE_CAUSE_OWN = 64       /* a clearance of this net's own branches so far */
};

/* Lengths that suffice for a room of V cells.
 *
 * The queue takes two numbers a place. With a flat step of at least 10 and a stair of at least 20 a queue of 5V places is never
 * full. At lower costs 11 places for each node of the limit and one more are: each cell that is expanded leaves its place
 * and enters at most twelve others. A shorter queue is no fault; what comes then may be 13.
 *
 * A branch has at most V + 1 cells, so this branch buffer never gives 15; so many for each sink of the sheet is enough too. Of several
 * nets it is so many for each of them; and sixteen lengths. */
#define DUSTROUTE_QUEUE_LENGTH(V) ((size_t)2 * 5 * (V))
#define DUSTROUTE_QUEUE_LENGTH_AT_ANY_COST(limit) ((size_t)2 * (11 * (size_t)(limit) + 1))
#define DUSTROUTE_WALLS_LENGTH(V) ((size_t)DUSTROUTE_MOVES * (V))
#define DUSTROUTE_BRANCHES_LENGTH(V) ((size_t)DUSTROUTE_MAX_SINKS * ((V) + 1))
#define DUSTROUTE_LENGTHS_LENGTH(nets) ((size_t)DUSTROUTE_MAX_SINKS * (nets))

/* A line of a function file has at most 77 bytes: so many for each cell that isn't Air hold its text, and never give 18. */
#define DUSTROUTE_TEXT_LENGTH(blocks) ((size_t)DUSTROUTE_LINE_BYTES * (blocks))

/* One search from `start` to `goal` in a room whose cells hold these kinds. May return 0, 2 to 6 and 10 to 13, and
 * judges 2, 3, 6, 5, 4, 10 in that order.
 *
 * limit          the most cells that may be expanded, up to 800,000
 * horizontal, stair, support
 *                what a flat step, a stair and a new support cost, in tenths, each up to 1,000,000; V times the sum of
 *                support and the dearer step is at most 3,300,000,000
 * kinds          V exactly: each cell's kind, 0 Air to 12 Piston; only read
 * path           V at least. Output: the route's cells, from start to goal
 * known, previous, classes
 *                V at least each. Work memory
 * queue          2 at least; see DUSTROUTE_QUEUE_LENGTH. Work memory
 * values         DUSTROUTE_SEARCH_VALUES at least. Output, untouched by numbers 2 to 6: the detail, how many cells the route has,
 *                its cost in tenths, how many cells were expanded. Behind these, each where so many values are lent: what its
 *                steps come to, what its new supports come to, and how many these are; DUSTROUTE_SEARCH_TOTALS hold all. The two
 *                amounts add up to the cost. A support is new beneath each cell of the path but the start that has Air
 *                there, on the path itself too. All but the detail are 0 from number 10 on */
uint32_t dustroute_search(
    size_t wide, size_t high, size_t deep,
    uint32_t limit, uint32_t horizontal, uint32_t stair, uint32_t support,
    const uint8_t *kinds, size_t kinds_length,
    size_t start, size_t goal,
    uint32_t *path, size_t path_length,
    uint32_t *known, size_t known_length,
    uint32_t *previous, size_t previous_length,
    uint8_t *classes, size_t classes_length,
    uint64_t *queue, size_t queue_length,
    uint64_t *values, size_t values_length);

/* One search, and why it finds no route. Number, detail, `path` and `values` are those of dustroute_search, and 6 is also
 * for either of the two outputs being too short. On 11 the reason is told: `reached` holds the start and lacks the goal, and no
 * lawful step leaves it, so there is no way at any costs, node limit or queue. On 12 and 13 the search was cut short, and
 * nothing is told: both outputs are zero, as they are on 0 and 10.
 *
 * reached        V at least. Output: on 11 a 1 for each cell that lawful steps lead to from the start, else 0
 * walls          DUSTROUTE_WALLS_LENGTH(V) at least. Output: on 11, of each cell v that is reached, in walls[DUSTROUTE_MOVES * v + i]
 *                an enum dustroute_reason of its move i, else 0. The moves are to x + 1, x - 1, z + 1 and z - 1, each one down,
 *                level and one up, in this order
 * all others     as of dustroute_search */
uint32_t dustroute_why(
    size_t wide, size_t high, size_t deep,
    uint32_t limit, uint32_t horizontal, uint32_t stair, uint32_t support,
    const uint8_t *kinds, size_t kinds_length,
    size_t start, size_t goal,
    uint32_t *path, size_t path_length,
    uint8_t *reached, size_t reached_length,
    uint8_t *walls, size_t walls_length,
    uint32_t *known, size_t known_length,
    uint32_t *previous, size_t previous_length,
    uint8_t *classes, size_t classes_length,
    uint64_t *queue, size_t queue_length,
    uint64_t *values, size_t values_length);

/* A cheapest route from `start` to `goal`, at any costs, by sweeps over the room: with no estimate, no queue and no node limit.
 * Slower than a search, to check one against: with a flat step of at least 10 and a stair of at least 20 both have the same
 * cost. Which of the cheapest paths comes is not promised. May return 0, 2 to 6, 10 and 11, and judges 2, 3, 6, 5, 4, 10 in
 * that order. The detail of 11 is how many cells lawful steps lead to, the start included.
 *
 * horizontal, stair, support, kinds, path, known, previous, classes
 *                as of a search
 * values         DUSTROUTE_PLAIN_VALUES at least. Output, untouched by numbers 2 to 6: the detail, how many cells the route has,
 *                its cost in tenths; the last two are 0 from number 10 on */
uint32_t dustroute_plain(
    size_t wide, size_t high, size_t deep,
    uint32_t horizontal, uint32_t stair, uint32_t support,
    const uint8_t *kinds, size_t kinds_length,
    size_t start, size_t goal,
    uint32_t *path, size_t path_length,
    uint32_t *known, size_t known_length,
    uint32_t *previous, size_t previous_length,
    uint8_t *classes, size_t classes_length,
    uint64_t *values, size_t values_length);

/* The job sheet of a job's parts, told as 16-bit numbers, in the lowest version that holds it. Version 1 means a `run` of
 * DUSTROUTE_USUAL_RUN and tail limits of DUSTROUTE_USUAL_TAIL; version 2 has any; version 3 is for a side over 64, over 16,384 cells,
 * a cost over 100,000 or a node limit over 200,000. What was written is read as these parts. The parts of a sheet that is accepted
 * give its own bytes back; those of a sheet in a higher version than they need, the same job in the lower. May return 0 to 6, and judges 1,
 * 2, 3, then record by record 4 and 5 and of a sink then 3, then 6. 1 is for over 16 sinks, over 60,000 bytes, a list that is no
 * whole number of records, or a source of another length.
 *
 * run            the run limit: so many steps past the last repeater need none. 1 to DUSTROUTE_MAX_STEPS
 * blocks         DUSTROUTE_BLOCK_NUMBERS a record: node, x, y, z, kind, facing; only read, as all lists
 * conductors, clearances, terminals, reserved
 *                DUSTROUTE_POSITION_NUMBERS a record: x, y, z
 * source         DUSTROUTE_END_NUMBERS: x, y, z, port kind, facing
 * sinks          DUSTROUTE_SINK_NUMBERS a record: as the source, and the tail limit: so many steps past its last repeater a Wire
 *                sink bears, 1 to DUSTROUTE_MAX_STEPS
 * sheet          any length; DUSTROUTE_MAX_SHEET always suffices. Output: the sheet's bytes, and zeros behind them
 * values         DUSTROUTE_WRITE_VALUES at least. Output, untouched by numbers 1 to 6: 0, and how many bytes were written */
uint32_t dustroute_write_sheet(
    size_t wide, size_t high, size_t deep,
    uint32_t limit, uint32_t horizontal, uint32_t stair, uint32_t support, uint32_t run,
    const uint16_t *blocks, size_t blocks_length,
    const uint16_t *conductors, size_t conductors_length,
    const uint16_t *clearances, size_t clearances_length,
    const uint16_t *terminals, size_t terminals_length,
    const uint16_t *reserved, size_t reserved_length,
    const uint16_t *source, size_t source_length,
    const uint16_t *sinks, size_t sinks_length,
    uint8_t *sheet, size_t sheet_length,
    uint64_t *values, size_t values_length);

/* The tree of the one net that a job sheet of any version describes. May return 0 to 9 and 13 to 15, and judges 1, 2, 3, then
 * record by record 4 and 5 and of a sink then 3, then 6, 7, 8, 9, then per sink 13 or 14, then 15.
 *
 * sheet          the sheet's bytes, any number of them; only read
 * branches       any length; see DUSTROUTE_BRANCHES_LENGTH. Output: each sink's branch in sheet order, one behind another, from
 *                the cell where it leaves the tree to the sink's terminal
 * occupied       V at least. Output: 1 for each cell that the tree occupies, else 0
 * repeaters      V at least. Output: 1 for each cell that holds a repeater, else 0
 * kinds, blocked, classes, joinable, known, previous, path, best
 *                V at least each. Work memory
 * queue          2 at least; see DUSTROUTE_QUEUE_LENGTH. Work memory
 * values         DUSTROUTE_TREE_VALUES at least. Output, untouched by numbers 1 to 6: the detail; how many branches, occupied cells
 *                and repeaters there are; then sixteen lengths, those of the branches and zeros behind them. All but the detail
 *                are 0 from number 7 on */
uint32_t dustroute_tree(
    const uint8_t *sheet, size_t sheet_length,
    uint32_t *branches, size_t branches_length,
    uint8_t *occupied, size_t occupied_length,
    uint8_t *repeaters, size_t repeaters_length,
    uint8_t *kinds, size_t kinds_length,
    uint8_t *blocked, size_t blocked_length,
    uint8_t *classes, size_t classes_length,
    uint8_t *joinable, size_t joinable_length,
    uint32_t *known, size_t known_length,
    uint32_t *previous, size_t previous_length,
    uint32_t *path, size_t path_length,
    uint32_t *best, size_t best_length,
    uint64_t *queue, size_t queue_length,
    uint64_t *values, size_t values_length);

/* dustroute_tree in the mode that the caller chooses; the sheet doesn't carry it. Numbers, their order, outputs and lengths are those
 * of dustroute_tree, which is the published mode.
 *
 * strict         DUSTROUTE_PUBLISHED, 0: blocked Air counts as Solid, so that wire may rest on another net's wire for free. Any other
 *                number, as DUSTROUTE_STRICT: blocked Air is neither entered nor used as a support, but for the start and the goal of
 *                each search. Blocked are cells that other nets hold or keep clear, and reserved ones
 * all others     as of dustroute_tree */
uint32_t dustroute_tree_mode(
    uint32_t strict,
    const uint8_t *sheet, size_t sheet_length,
    uint32_t *branches, size_t branches_length,
    uint8_t *occupied, size_t occupied_length,
    uint8_t *repeaters, size_t repeaters_length,
    uint8_t *kinds, size_t kinds_length,
    uint8_t *blocked, size_t blocked_length,
    uint8_t *classes, size_t classes_length,
    uint8_t *joinable, size_t joinable_length,
    uint32_t *known, size_t known_length,
    uint32_t *previous, size_t previous_length,
    uint32_t *path, size_t path_length,
    uint32_t *best, size_t best_length,
    uint64_t *queue, size_t queue_length,
    uint64_t *values, size_t values_length);

/* "Why couldn't this sink be reached?" dustroute_tree_mode, and for 13 and 14 the sink whose turn it was and what may be said of it.
 * Numbers, their order, outputs and lengths are those of dustroute_tree_mode, but that 6 is also due for one of the three outputs or
 * the values. Takes up to twice as long.
 *
 * reached        V at least. Output: 1 for each cell that wire gets to from the sink's approach, where any cell of the net may be the
 *                goal, else 0
 * walls          DUSTROUTE_WALLS_LENGTH at least. Output: byte 12v + i is what stands against move i out of cell v, a
 *                dustroute_reason or dustroute_tree_reason; 0 where v is not reached
 * causes         V at least. Output: why each cell is blocked, the bits of dustroute_cause; 0 where it isn't
 *                All three are zero but for DUSTROUTE_SHUT_IN
 * values         DUSTROUTE_TREE_WHY_VALUES at least. Output: those of dustroute_tree; then the sink's place in the sheet, from 1, and a
 *                dustroute_verdict, both 0 but for 13 and 14
 * all others     as of dustroute_tree_mode */
uint32_t dustroute_tree_why(
    uint32_t strict,
    const uint8_t *sheet, size_t sheet_length,
    uint32_t *branches, size_t branches_length,
    uint8_t *occupied, size_t occupied_length,
    uint8_t *repeaters, size_t repeaters_length,
    uint8_t *reached, size_t reached_length,
    uint8_t *walls, size_t walls_length,
    uint8_t *causes, size_t causes_length,
    uint8_t *kinds, size_t kinds_length,
    uint8_t *blocked, size_t blocked_length,
    uint8_t *classes, size_t classes_length,
    uint8_t *joinable, size_t joinable_length,
    uint32_t *known, size_t known_length,
    uint32_t *previous, size_t previous_length,
    uint32_t *path, size_t path_length,
    uint32_t *best, size_t best_length,
    uint64_t *queue, size_t queue_length,
    uint64_t *values, size_t values_length);

/* A room as a function file of the game's Java Edition: for each cell that isn't Air, in number order, one line
 * `setblock ~x ~y ~z minecraft:STATE replace` and a newline, relative to where it is run; a 0 is left out behind its `~`. No byte
 * of it is free: docs/LAYING-RULES.md has the states. A Repeater and a Comparator face their output here and their input in
 * the game, so the text says the opposite side. May return 0, 2, 5, 6 and 18, and judges 2, 6, 5, 18 in that order; 5 is also for
 * a facing that its kind can't have: a Repeater and a Comparator have 1 to 4, a Piston 1 to 6, a RedstoneTorch, a Lever and
 * a Button 0 to 4, all others 0.
 *
 * kinds, facings V exactly each: each cell's kind and facing; only read
 * text           any length; see DUSTROUTE_TEXT_LENGTH. Output: the text, zeros behind it; 18 leaves it all zero
 * values         DUSTROUTE_FUNCTION_VALUES at least. Output, untouched by 2, 5 and 6: 0, and how many bytes the text has; 0 after 18 */
uint32_t dustroute_write_function(
    size_t wide, size_t high, size_t deep,
    const uint8_t *kinds, size_t kinds_length,
    const uint8_t *facings, size_t facings_length,
    uint8_t *text, size_t text_length,
    uint64_t *values, size_t values_length);

/* The room that such a text lays. A line is good only if dustroute_write_function could have it there, for a room of these sides:
 * byte for byte, in number order, no cell twice. What comes before the first newline is a line, and so is a rest without one,
 * which is bad. May return 0, 2, 6 and 19, and judges 2, 6, 19 in that order.
 *
 * text           the text's bytes and no more; only read
 * kinds, facings V at least each. Output: each cell's kind and facing, zeros behind them; 19 leaves them all zero
 * values         DUSTROUTE_FUNCTION_VALUES at least. Output, untouched by 2 and 6: the number of the first bad line, from 1, or 0; and
 *                how many lines were read, 0 after 19 */
uint32_t dustroute_read_function(
    size_t wide, size_t high, size_t deep,
    const uint8_t *text, size_t text_length,
    uint8_t *kinds, size_t kinds_length,
    uint8_t *facings, size_t facings_length,
    uint64_t *values, size_t values_length);

/* ONE ROUTE DRAWN into a room of kinds, which is changed in place; the path may be any cells of the room, not only a search's. Both
 * functions return 0, 2, 6, 5 or 4, judged in that order, with detail 0; a refusal touches nothing.
 *
 * dustroute_materialize_route goes along the path: where the cell beneath is Air it becomes a support, then, where the cell itself is Air, it
 * becomes RedstoneWire. Each cell sees the room as those before it have left it, so a support may take the place of a later cell's
 * wire. A support outside the room isn't laid. Only the path's cells and those right beneath them change, and what isn't Air stays.
 *
 * support_kind   a support's kind, 0 Air (none is laid) to 12 Piston; any other number is 5
 * kinds          V exactly: each cell's kind. Changed in place
 * path           cells, any number of them; one of V or more is 4. Only read
 * values         DUSTROUTE_ROUTE_VALUES at least. Output, untouched by a refusal: the detail, 0 */
uint32_t dustroute_materialize_route(
    size_t wide, size_t high, size_t deep,
    uint32_t support_kind,
    uint8_t *kinds, size_t kinds_length,
    const uint32_t *path, size_t path_length,
    uint64_t *values, size_t values_length);

/* Repeaters along a path. A count starts at 0 and goes up by 1 at each place from the second to the last but one; where it has reached the
 * limit, and the steps in and out have the same flat facing, the cell becomes a Repeater, whatever stands there, and the count is
 * 0 again. Only these cells change.
 *
 * run            the run limit, any number; 0 acts as 1
 * kinds, path    as of dustroute_materialize_route
 * cells, facings as long as the path at least, each. Outputs: the repeaters' cells in path order, and the facing of the path's passage
 *                through each, from input to output: 1 North, 2 East, 3 South, 4 West. A path that crosses itself may list a cell twice
 * values         DUSTROUTE_LIST_VALUES at least. Output, untouched by a refusal: the detail, 0, and how many repeaters are listed */
uint32_t dustroute_insert_repeaters(
    size_t wide, size_t high, size_t deep,
    uint32_t run,
    uint8_t *kinds, size_t kinds_length,
    const uint32_t *path, size_t path_length,
    uint32_t *cells, size_t cells_length,
    uint8_t *facings, size_t facings_length,
    uint64_t *values, size_t values_length);

/* ONE CALL FOR REPEATERS: where the repeaters of a net stand, by its source, sinks, branches and limits. The runs of all sinks are planned,
 * and only then the tails; a sink that no branch joins to the source is passed over. The branches need be neither as many as the sinks nor
 * end at their terminals; their order and direction change nothing. May return 0, 2, 3, 4, 5, 6, 8 and 9, judged so: 2; 3 for the run
 * limit; the source by 4, then 5; each sink by 4, 5, then 3 for its tail limit; each branch by 4; then 6; all of 8; all of 9. The detail of
 * 8 and 9 is 0 for the source, k for the k-th sink. 2 to 6 touch nothing; 8 and 9 leave everything lent zero.
 *
 * run            the run limit, 1 to 15; any other number is 3
 * source         5 numbers: x, y, z, port (0 Wire, 1 BlockPower, as in a sheet), facing. Another length is 6, and then nothing of it is judged
 * sinks          6 numbers each: those of the source, and the tail limit, 1 to 15, of a BlockPower sink too. No whole number of sinks, or over
 *                sixteen, is 6; the whole ones, up to sixteen, are judged before
 * branches       cells, one branch behind another; one of V or more, or a step that is none of the twelve moves, is 4. Only read
 * lengths        one a branch, at most sixteen; over sixteen, or a sum of over branches_length, is 6; what is there is judged before
 * repeaters      V at least. Output: 1 where a repeater stands, else 0, zeros behind
 * classes, known, previous, path
 *                V at least each: work memory, zero afterwards
 * values         DUSTROUTE_PLAN_VALUES at least. Output, untouched by 2 to 6: the detail, and how many repeaters there are */
uint32_t dustroute_place_repeaters(
    size_t wide, size_t high, size_t deep,
    uint32_t run,
    const uint16_t *source, size_t source_length,
    const uint16_t *sinks, size_t sinks_length,
    const uint32_t *branches, size_t branches_length,
    const uint32_t *lengths, size_t lengths_length,
    uint8_t *repeaters, size_t repeaters_length,
    uint8_t *classes, size_t classes_length,
    uint32_t *known, size_t known_length,
    uint32_t *previous, size_t previous_length,
    uint32_t *path, size_t path_length,
    uint64_t *values, size_t values_length);

/* SEVERAL NETS OVER ONE ROOM, routed in the order of a list, and laid. A list is whole job sheets one behind the other, as
 * `cat a.sheet b.sheet` makes it, each of any version; net k is the k-th, from 0. All have the first one's sides and the same blocks in
 * the same order; costs, limits and the four lists are each net's own. A net sees the cells of those before it as another net's
 * conductors, their stairs' headroom, and of every other net the ends with what is beside them; each is the tree that a single job with
 * these in its lists would have. Nothing is ripped up: the first net that is refused ends the list.
 *
 * May return 0 to 9 and 13 to 16. 1 to 9 are judged net by net, all of net 0 first, before any is routed; other sides or blocks than net
 * 0's are 1. Then 13, 14 and 15 of the net whose turn it is; then 16, whose net is the later of the two. 1 to 6 touch nothing but the
 * first three values; from 7 on all else is zero, nets that were routed before included.
 *
 * strict         as of dustroute_tree_mode, for the whole list
 * list           the sheets' bytes, any number of them; only read
 * branches       any length; DUSTROUTE_BRANCHES_LENGTH for each net suffices. Output: the branches of all nets, one behind another, in
 *                list order, of a net in sheet order
 * lengths        DUSTROUTE_LENGTHS_LENGTH of the nets at least, else 6 for the first net that has none. Output: sixteen a net, those of
 *                its branches and zeros behind them
 * owners         V at least. Output: 0, or k + 1 where net k occupies the cell
 * repeaters      V at least. Output: 1 where a planned repeater stands, else 0
 * kinds, facings V at least each. Output: the room with all nets laid, a kind and a facing for each cell. Net by net each of its cells gets
 *                a support where Air is beneath, Solid under a planned repeater, a BlockPower sink's terminal and both ends of a stair,
 *                else Transparent; then wire where it is Air itself. Then planned repeaters come, whatever stands there, facing the way
 *                the signal runs, and one at each BlockPower sink's terminal, facing its block
 * occupied, planned_work, before_work, room_work, blocked, classes, joinable, known, previous, path, best
 *                V at least each. Work memory
 * queue          2 at least; see DUSTROUTE_QUEUE_LENGTH. Work memory
 * values         DUSTROUTE_NETS_VALUES at least; fewer are 6 at its place of net 0, and untouched. Output, at every number: the detail; the
 *                net that is refused, from 0, and 0 after a success; how many nets there are, 0 after a refusal */
uint32_t dustroute_nets(
    uint32_t strict,
    const uint8_t *list, size_t list_length,
    uint32_t *branches, size_t branches_length,
    uint32_t *lengths, size_t lengths_length,
    uint32_t *owners, size_t owners_length,
    uint8_t *repeaters, size_t repeaters_length,
    uint8_t *kinds, size_t kinds_length,
    uint8_t *facings, size_t facings_length,
    uint8_t *occupied, size_t occupied_length,
    uint8_t *planned_work, size_t planned_work_length,
    uint8_t *before_work, size_t before_work_length,
    uint8_t *room_work, size_t room_work_length,
    uint8_t *blocked, size_t blocked_length,
    uint8_t *classes, size_t classes_length,
    uint8_t *joinable, size_t joinable_length,
    uint32_t *known, size_t known_length,
    uint32_t *previous, size_t previous_length,
    uint32_t *path, size_t path_length,
    uint32_t *best, size_t best_length,
    uint64_t *queue, size_t queue_length,
    uint64_t *values, size_t values_length);

/* ONE LENT ARENA FOR A TREE, instead of thirteen buffers: ask dustroute_arena_size for the bytes that suffice, lend so many, and call
 * dustroute_tree_in_arena, or dustroute_tree_mode_in_arena with a mode. The answer's pointers go into the arena. Any arena is lawful, NULL of size 0 too: in one that is too short a
 * sheet that would need more is refused with 6. */
struct dustroute_tree_answer {
    size_t cells;                                /* V; 0 for a sheet without a room that could be routed */
    const uint32_t *branches;                    /* one behind another; lengths[k] cells for the k-th */
    const uint64_t *lengths;                     /* sixteen */
    const uint8_t *occupied, *repeaters;         /* V marks each */
    size_t branch_count, occupied_count, repeater_count;
    uint64_t detail;                             /* of a refusal */
};

static inline uint32_t dustroute_sheet_number(const uint8_t *sheet, size_t place) {
    return (uint32_t)sheet[place] << 24 | (uint32_t)sheet[place + 1] << 16 | (uint32_t)sheet[place + 2] << 8 | sheet[place + 3];
}

/* How many cells and queue numbers a sheet's tree needs; both 0 where the sheet is refused before memory counts. */
static inline size_t dustroute_sheet_cells(const uint8_t *sheet, size_t sheet_length, size_t *queue_length) {
    int is_hall = sheet_length > 0 && sheet[0] == 3; /* version 3: two bytes a side, larger rooms */
    size_t cells = 1, at = 5, most_side = is_hall ? DUSTROUTE_MAX_SIDE : 64, most_cells = is_hall ? DUSTROUTE_MAX_CELLS : 16384;
    *queue_length = 0;
    if (sheet_length < (is_hall ? 27u : 24u))
        return 0;
    for (int axis = 0; axis < 3; axis++) {
        size_t side = sheet[at++];
        if (is_hall)
            side = side << 8 | sheet[at++];
        if (side < 1 || side > most_side)
            return 0;
        cells *= side;
    }
    uint32_t limit = dustroute_sheet_number(sheet, at), flat = dustroute_sheet_number(sheet, at + 4), stair = dustroute_sheet_number(sheet, at + 8);
    if (cells > most_cells || limit > (is_hall ? 800000u : 200000u))
        return 0;
    *queue_length = flat >= 10 && stair >= 20 ? DUSTROUTE_QUEUE_LENGTH(cells) : DUSTROUTE_QUEUE_LENGTH_AT_ANY_COST(limit);
    return cells;
}

static inline size_t dustroute_arena_bytes(size_t cells, size_t queue_length) {
    return 8 * (queue_length + DUSTROUTE_TREE_VALUES) + 4 * (DUSTROUTE_BRANCHES_LENGTH(cells) + 4 * cells) + 6 * cells;
}

/* The bytes that suffice for a sheet's tree, wherever they begin: then neither 6 nor 13 nor 15 comes back. */
static inline size_t dustroute_arena_size(const uint8_t *sheet, size_t sheet_length) {
    size_t queue_length, cells = dustroute_sheet_cells(sheet, sheet_length, &queue_length);
    return dustroute_arena_bytes(cells, queue_length) + 7;
}

/* dustroute_tree_mode over an arena: the same number, and the answer. */
static inline uint32_t dustroute_tree_mode_in_arena(
    uint32_t strict, const uint8_t *sheet, size_t sheet_length, void *arena, size_t arena_size, struct dustroute_tree_answer *answer) {
    size_t queue_length, cells = dustroute_sheet_cells(sheet, sheet_length, &queue_length), skipped = (8 - (uintptr_t)arena % 8) % 8;
    struct dustroute_tree_answer none = {0, 0, 0, 0, 0, 0, 0, 0, 0};
    *answer = none;
    if (arena_size < skipped || arena_size - skipped < dustroute_arena_bytes(cells, queue_length))
        return dustroute_tree_mode(
            strict, sheet, sheet_length, 0, 0, 0, 0, 0, 0, 0, 0, 0, 0, 0, 0, 0, 0, 0, 0, 0, 0, 0, 0, 0, 0, 0, 0, 0, 0);
    /* the widest elements first: then each buffer is aligned */
    uint64_t *queue = (uint64_t *)((uint8_t *)arena + skipped), *values = queue + queue_length;
    uint32_t *branches = (uint32_t *)(values + DUSTROUTE_TREE_VALUES), *known = branches + DUSTROUTE_BRANCHES_LENGTH(cells);
    uint8_t *occupied = (uint8_t *)(known + 4 * cells);
    uint32_t number = dustroute_tree_mode(
        strict, sheet, sheet_length, branches, DUSTROUTE_BRANCHES_LENGTH(cells), occupied, cells, occupied + cells, cells,
        occupied + 2 * cells, cells, occupied + 3 * cells, cells, occupied + 4 * cells, cells, occupied + 5 * cells, cells,
        known, cells, known + cells, cells, known + 2 * cells, cells, known + 3 * cells, cells, queue, queue_length,
        values, DUSTROUTE_TREE_VALUES);
    answer->cells = cells;
    answer->detail = number > DUSTROUTE_BUFFER ? values[0] : 0;
    if (number == DUSTROUTE_DONE) {
        answer->branches = branches, answer->lengths = values + 4;
        answer->occupied = occupied, answer->repeaters = occupied + cells;
        answer->branch_count = (size_t)values[1], answer->occupied_count = (size_t)values[2], answer->repeater_count = (size_t)values[3];
    }
    return number;
}

/* dustroute_tree over an arena: the same number, and the answer. */
static inline uint32_t dustroute_tree_in_arena(
    const uint8_t *sheet, size_t sheet_length, void *arena, size_t arena_size, struct dustroute_tree_answer *answer) {
    return dustroute_tree_mode_in_arena(DUSTROUTE_PUBLISHED, sheet, sheet_length, arena, arena_size, answer);
}

#ifdef __cplusplus
}
#endif

#endif
