/* Currantplane: routines over linked lists, translated into counter automata, which are walked, also with counters that
 * are known only within ranges; heaps folded, unfolded and stepped.
 *
 * C99 and later, and C++. Link with libcurrantplane.a (x86-64); it wants memcpy and memset and nothing else.
 *
 * Every call takes any bytes, lengths and numbers, and ends with a finished result or a numbered refusal. What it
 * answers and every byte that it writes is proved, for every input. What a caller owes:
 *   - A pointer with a length points to so many bytes, or to so many numbers, aligned as their type asks. With
 *     length 0 it may be null. Bytes may stand at any address.
 *   - A pointer without a length (`place`, `node`, `number`, `made`, `configuration`) points to one of what its type
 *     says, aligned as that asks, and is not null.
 *   - Nothing that a call writes overlaps with anything else that it is given. What is only read may overlap.
 * Nothing is kept after a call, nothing is allocated and nothing is locked: there is no state between calls, and
 * calls that write to buffers of their own may run at the same time. A translation was seen to use less than 4 KB of
 * stack, every other call less than 1.5 KB.
 *
 * Each call answers the number of the refusal, 0 for none (enum currantplane_refusal), and tells its place, 0 where
 * nothing is refused; move and walk do not tell it, since it is always 0. Refusals 9, 18 and 19 are about a node of a
 * shape: translate and unfold tell its number, 0 to 11, and 0 with every other refusal and with none. Only search,
 * which refuses nothing, answers otherwise: whether there is such a record (enum currantplane_search_answer).
 */
#ifndef CURRANTPLANE_H
#define CURRANTPLANE_H

#include <stddef.h>
#include <stdint.h>

#ifdef __cplusplus
extern "C" {
#endif

/* ---- sizes */

enum {
    CURRANTPLANE_RECORD = 32,           /* the bytes of every record */
    CURRANTPLANE_POINTERS = 6,          /* the pointer bytes of a heap, of a shape too */
    CURRANTPLANE_MOST_CELLS = 240,      /* the cell bytes of a heap */
    CURRANTPLANE_MOST_NODES = 12,       /* the nodes of a shape, and the counters and updates */
    CURRANTPLANE_MOST_STATEMENTS = 64,  /* the S records of a routine */
    CURRANTPLANE_MOST_SHAPES = 16,      /* its H records */
    CURRANTPLANE_MOST_LOCATIONS = 1024, /* the places of a table of locations that are used, however long it is */
    CURRANTPLANE_MOST_EDGES = 2048,     /* and of a table of edges */
    CURRANTPLANE_MOST_MOVES = 4096,     /* the edge numbers of a walk, and of a path for ranges */
    CURRANTPLANE_MOST_VALUE = 65535,    /* the highest end of a range at the start of a path */
    CURRANTPLANE_MOST_INPUT = 32 * (64 + 16), /* the bytes of the longest routine that passes the checks */
    CURRANTPLANE_ANSWER = 4,            /* the numbers that currantplane_translate tells */
    CURRANTPLANE_RECORD_ANSWER = 3,     /* the numbers that currantplane_record tells */
    CURRANTPLANE_STEP_ANSWER = 4,       /* the bytes that currantplane_step tells */
    CURRANTPLANE_RANGES = 24,           /* the numbers of ranges: twelve lowest values, then twelve highest */
    CURRANTPLANE_RANGES_ANSWER = 3      /* the numbers that currantplane_ranges tells */
};

/* ---- bytes */

/* byte 0 of a record */
enum {
    CURRANTPLANE_RECORD_S = 0x53, /* statement */
    CURRANTPLANE_RECORD_H = 0x48, /* starting shape, and what a fold gives */
    CURRANTPLANE_RECORD_L = 0x4c, /* location */
    CURRANTPLANE_RECORD_E = 0x45  /* edge */
};

/* what a pointer, a next or a successor holds besides the number of a cell or a node; UNUSED is for a cell alone, one
 * that is not in use */
enum { CURRANTPLANE_UNUSED = 0xfd, CURRANTPLANE_NULL = 0xfe, CURRANTPLANE_UNDEFINED = 0xff };

/* An S record: byte 1 is the op, 2 u, 3 w, 4 the first target, 5 the second target, the rest zero. A field that
 * the op does not use is zero. The pointers u and w are used where the table names them, the first target by all
 * but STOP, the second by TEST_NULL, TEST_SAME and CHOOSE. */
enum currantplane_op {
    CURRANTPLANE_STOP = 0,
    CURRANTPLANE_SET_NULL = 1,  /* u := null */
    CURRANTPLANE_COPY = 2,      /* u := w */
    CURRANTPLANE_LOAD = 3,      /* u := w.next */
    CURRANTPLANE_CLEAR = 4,     /* u.next := null */
    CURRANTPLANE_STORE = 5,     /* u.next := w */
    CURRANTPLANE_NEW = 6,       /* u := new */
    CURRANTPLANE_FREE = 7,      /* free u */
    CURRANTPLANE_TEST_NULL = 8, /* test u = null */
    CURRANTPLANE_TEST_SAME = 9, /* test u = w */
    CURRANTPLANE_CHOOSE = 10,
    CURRANTPLANE_SKIP = 11,
    CURRANTPLANE_RELINK = 12,   /* u.next := w.next */
    CURRANTPLANE_DROP = 13      /* drop u: u := null, and the cells that no pointer then reaches are gone */
};

/* faults: byte 2 of an L record, and byte 0 of a step's answer */
enum {
    CURRANTPLANE_NO_FAULT = 0,
    CURRANTPLANE_AT_NULL = 1,      /* a statement reads or writes through null */
    CURRANTPLANE_AT_UNDEFINED = 2, /* through an undefined pointer, frees one, or compares one in a test */
    CURRANTPLANE_LEAK = 3          /* a statement other than DROP leaves a cell that no pointer reaches */
};

/* ---- refusals */

enum currantplane_refusal {
    CURRANTPLANE_ACCEPTED = 0,
    /* translate; the place is 0 */
    CURRANTPLANE_BAD_LENGTH = 1,     /* the input is empty, or not a multiple of 32 bytes */
    CURRANTPLANE_BAD_STATEMENTS = 2, /* not 1 to 64 S */
    CURRANTPLANE_BAD_SHAPES = 3,     /* not 1 to 16 H */
    /* translate; the place is the record's number from 0. step (4 to 7) and unfold (8, 9, 18, 19): the place is 0 */
    CURRANTPLANE_BAD_KIND = 4,       /* a record that is neither S nor H, or an S after an H; in a step, no S */
    CURRANTPLANE_BAD_OP = 5,         /* op above 13 */
    CURRANTPLANE_BAD_FIELD = 6,      /* a used pointer above 5, or an unused byte not zero */
    CURRANTPLANE_BAD_TARGET = 7,     /* a used target is no statement; in a step, not below 64 */
    CURRANTPLANE_BAD_LAYOUT = 8,     /* an H record breaks the layout */
    CURRANTPLANE_UNREACHABLE = 9,    /* no pointer reaches a node; told with the first such node */
    CURRANTPLANE_REPEATED = 10,      /* equal to an earlier H */
    /* translate; the place is the number of the location being explored, or of the starting shape without one */
    CURRANTPLANE_NO_LOCATION = 11,   /* no place for a new location */
    CURRANTPLANE_NO_EDGE = 12,       /* no place for an edge */
    /* fold, unfold, step, record; the place is 0 */
    CURRANTPLANE_BAD_HEAP = 13,      /* pointers not six bytes, or over 240 cells; in fold and step, also a value that
                                      * names no cell in use */
    CURRANTPLANE_LOST_CELL = 14,     /* a used cell is unreachable */
    CURRANTPLANE_BAD_COUNTERS = 15,  /* not twelve, one of 0 below k or not 0 past it, or a sum above the cells */
    CURRANTPLANE_BAD_ENTRY = 16,     /* a pick above 1 at choose; at new, a cell in use or past the end */
    CURRANTPLANE_NO_RECORD = 17,     /* `table` above 1, a count above its table's places, or no such record */
    /* translate and unfold; looked at right after 9, with its place */
    CURRANTPLANE_NOT_CORE = 18,      /* all nodes are reachable, and one is held by no pointer and by the next of one
                                      * node alone; told with the first such node */
    CURRANTPLANE_BAD_NUMBERING = 19, /* all nodes are reachable and core, and one has another number than the walk
                                      * gives it; told with the first such node */
    /* move and walk; the place is 0, and is not told */
    CURRANTPLANE_NO_MOVE = 20,       /* the tables or the configuration break the layout, a walk is longer than 4,096,
                                      * or an edge is not in the table, does not leave the location or is not enabled */
    CURRANTPLANE_TOO_LARGE = 21,     /* a counter would pass 32 bits */
    /* ranges; the place is the counter's number from 0 */
    CURRANTPLANE_BAD_RANGE = 22,     /* an end of a counter's range is outside 1 to 65,535, or its ends are in the
                                      * wrong order */
    /* ranges, looked at before 22; the place is 0, or for an edge its position in the path, from 0 */
    CURRANTPLANE_BAD_PATH = 23       /* the tables break the layout, the start is not in the table, the path is longer
                                      * than 4,096, or an edge is not in the table or does not leave the location
                                      * reached, whatever its guards say */
};

/* whether a refusal is about a node of a shape, which is then told with it */
static inline int currantplane_tells_node(uint8_t refusal)
{
    return refusal == CURRANTPLANE_UNREACHABLE || refusal == CURRANTPLANE_NOT_CORE
           || refusal == CURRANTPLANE_BAD_NUMBERING;
}

/* ---- calls */

/* Translates a routine into the automaton's locations and edges.
 *
 * input       the routine's records: 1 to 64 S, then 1 to 16 H
 * locations   the table of locations; it has length / 32 places, rounded down, of which 1,024 are used at most
 * edges       the table of edges; it has length / 32 places, rounded down, of which 2,048 are used at most
 * answer      the place of the refusal, the number of locations, the number of edges and the node of the refusal, in
 *             this order
 *
 * Accepted (0): every location that is reached stands in the table, as an L record at 32 times its number, and
 * every edge likewise, as an E record; all bytes after the last record are zero. A routine is accepted exactly if
 * its input passes every check and its full listing fits both tables; records and counts do not depend on how long
 * these are. Refused (1 to 12, 18, 19): both tables are all zero and both counts are 0. The whole input is looked at
 * first (1, 4, 2, 3), then each record in order (an S: 5, 6, 7; an H: 8, 9, 18, 19, 10), then the places: the starting
 * shapes' (11), and for each edge in the order found its target's (11) and its own (12).
 *
 * Every byte of both tables is written. Of `answer` as many numbers are written as it has, at most four; the rest
 * of it is left. */
uint8_t currantplane_translate(const uint8_t *input, size_t input_length,
                               uint8_t *locations, size_t locations_length,
                               uint8_t *edges, size_t edges_length,
                               size_t *answer, size_t answer_length);

/* The places of the four numbers in the answer of a translation. */
enum { CURRANTPLANE_PLACE = 0, CURRANTPLANE_LOCATION_COUNT = 1, CURRANTPLANE_EDGE_COUNT = 2, CURRANTPLANE_NODE = 3 };

/* Where one record stands in two tables, so that it is read there and not copied.
 *
 * locations, edges             the tables; what stands in them is not looked at, and they may be the same
 * location_count, edge_count   the counts in use
 * table                        which table is meant: 0 locations, 1 edges
 * number                       the number of the record
 * answer                       the place of the refusal, where the record begins in the table that is meant, and
 *                              its length, in this order
 *
 * Accepted (0): the record begins at 32 times its number and has 32 bytes. Refused (17): it begins at 0 and has
 * none. Of `answer` as many numbers are written as it has, at most three; the rest of it is left. */
uint8_t currantplane_record(const uint8_t *locations, size_t locations_length,
                            const uint8_t *edges, size_t edges_length,
                            size_t location_count, size_t edge_count, size_t table, size_t number,
                            size_t *answer, size_t answer_length);

/* Which table is meant, and the places of the numbers in the answer, after CURRANTPLANE_PLACE. */
enum { CURRANTPLANE_LOCATIONS = 0, CURRANTPLANE_EDGES = 1 };
enum { CURRANTPLANE_BEGINS = 1, CURRANTPLANE_LENGTH = 2 };

/* Looks for a record among the first records of a table, from the newest back. It refuses nothing.
 *
 * table    the table; of its bytes nothing is asked, and it may hold a record many times
 * count    how many records are in use; a count above the table's places (length / 32, rounded down, at most 1,024) is
 *          cut to them
 * record   the record that is looked for; one that is not 32 bytes long is equal to none
 * number   the highest number below the count whose record is equal, byte for byte; 0 where there is none
 *
 * Answers 1 where there is such a record, and 0 where there is none. `number` is always written. In the tables of an
 * accepted translation each location is found at its own number, since no two are equal. */
uint8_t currantplane_search(const uint8_t *table, size_t table_length, size_t count,
                            const uint8_t *record, size_t record_length, size_t *number);

/* the answer of a search */
enum currantplane_search_answer { CURRANTPLANE_NOT_FOUND = 0, CURRANTPLANE_FOUND = 1 };

/* Folds a heap: its shape as an H record, and the number of cells of each segment.
 *
 * pointers   six values, each the number of a cell in use, 0xfe null or 0xff undefined
 * cells      0 to 240 cells, each the number of the next cell, 0xfe, 0xff, or 0xfd for a cell that is not in use
 * shape      the H record, 32 bytes
 * counters   twelve counters, 0 past the shape's nodes
 * place      0, in every case
 *
 * Accepted (0): shape and counters as said. Refused (13, 14): zeros in their place. Of `shape` and `counters` as
 * many bytes and numbers are written as they have, at most 32 and twelve; the rest of them is left. `place` is
 * written. The heap is only read. */
uint8_t currantplane_fold(const uint8_t *pointers, size_t pointers_length,
                          const uint8_t *cells, size_t cells_length,
                          uint8_t *shape, size_t shape_length,
                          uint32_t *counters, size_t counters_length, size_t *place);

/* Unfolds a shape with counters into a heap: cells from 0, node by node, head to tail.
 *
 * shape      an H record, 32 bytes (else 8)
 * counters   twelve (else 15): 1 or more for each node, 0 past them
 * pointers   room for six bytes, neither more nor fewer (else 13)
 * cells      room for the heap, at most 240 bytes (else 13); its length is the number of cells of the heap
 * place      0, in every case
 * node       the node of refusals 9, 18 and 19, else 0
 *
 * Accepted (0): the pointers and every cell are written, the cells past the sum of the counters as 0xfd. Refused
 * (13, 8, 9, 18, 19, 15, looked at in this order): pointers and cells are left as they are. `place` and `node` are
 * written. */
uint8_t currantplane_unfold(const uint8_t *shape, size_t shape_length,
                            const uint32_t *counters, size_t counters_length,
                            uint8_t *pointers, size_t pointers_length,
                            uint8_t *cells, size_t cells_length, size_t *place, uint8_t *node);

/* Carries out one statement on a heap.
 *
 * pointers, cells   the heap, as in currantplane_fold; changed where the step goes on
 * statement         an S record, 32 bytes (else 4); its targets need only be below 64
 * pick              0 or 1, read at choose alone
 * cell              the cell that new takes, not in use and below the number of cells; read at new alone
 * answer            fault, 1 for a stop (else 0), branch and next statement, in this order
 * place             0, in every case
 *
 * Accepted (0): the step goes on (fault 0, stop 0), and the heap is changed by it; or it faults, or the statement is a
 * stop, and then branch and next statement are 0 and the heap stays as it was. DROP never faults: the cells that it
 * loses become 0xfd, and what the others hold is left. Every other statement that would lose a cell is fault 3.
 * Refused (13, 14, 4, 5, 6, 7, 16, looked at in this order): the answer is zeros and the heap stays as it was. Of
 * `answer` as many bytes are written as it has, at most four; the rest of it is left. `place` is written. */
uint8_t currantplane_step(uint8_t *pointers, size_t pointers_length,
                          uint8_t *cells, size_t cells_length,
                          const uint8_t *statement, size_t statement_length, uint8_t pick, size_t cell,
                          uint8_t *answer, size_t answer_length, size_t *place);

/* The places of the four bytes in the answer of a step. */
enum { CURRANTPLANE_FAULT = 0, CURRANTPLANE_STOPPED = 1, CURRANTPLANE_BRANCH = 2, CURRANTPLANE_NEXT = 3 };

/* Where an automaton stands. It stays with the caller, and moves and walks advance it where it lies. */
struct currantplane_configuration {
    uint32_t location;                          /* the number of a location */
    uint32_t counters[CURRANTPLANE_MOST_NODES]; /* 1 or more for each of its nodes, 0 past them; a fault has none */
};

/* Moves along one edge of an automaton.
 *
 * configuration                where the automaton stands; advanced where the move is made
 * locations, edges             the tables; they are only read, and what stands past the counts is not looked at
 * location_count, edge_count   the counts in use
 * number                       the number of the edge
 *
 * Accepted (0): the location is the edge's target, each counter of a node there is its update's constant plus the old
 * counters that it adds, and all others are 0. Refused (20, 21, looked at in this order): 20, where the tables or the
 * configuration break the layout, or the edge is not below the count, does not leave the location or is not enabled;
 * 21, where a new counter would be 2^32 or more. The configuration is then left as it is.
 *
 * The tables break the layout where a count exceeds its table's places (length / 32, rounded down, 1,024 or 2,048 at
 * most), or a record in use
 *   - has a byte that its kind does not allow: a statement of 64 or more, for one, or a fault above 3;
 *   - is an edge with an end that is not below location_count;
 *   - names a node that its shape lacks: a value of a location, a guard's node, an old counter that is added;
 *   - adds an old counter in two updates;
 *   - has an update of a present node that could give less than 1, from counters of 1 or more for which both guards
 *     hold.
 * Shapes need not be canonical or different. What an accepted translation wrote keeps the layout, with its two counts.
 * The configuration breaks it where its location is not below location_count, or a counter is 0 below the location's
 * k or not 0 past it. After a move it keeps it. */
uint8_t currantplane_move(struct currantplane_configuration *configuration,
                          const uint8_t *locations, size_t locations_length,
                          const uint8_t *edges, size_t edges_length,
                          size_t location_count, size_t edge_count, size_t number);

/* Moves along one edge after the other, and looks at the tables once.
 *
 * configuration, locations, edges, location_count, edge_count   as in currantplane_move
 * path                         the numbers of the edges, at most 4,096
 * made                         how many moves were made
 *
 * Accepted (0): all moves of the path are made, each as currantplane_move makes it from where the one before led; none
 * where the path is empty. Refused: 20, where the tables or the configuration break the layout, also where the path is
 * empty, or the path is longer than 4,096, and no move is then made; or 20 or 21, as the first move that is refused
 * says, with the moves before it made and no other. The configuration is as the moves made leave it, and `made` is
 * written in every case: the edge that is refused is the one at that place of the path, from 0. */
uint8_t currantplane_walk(struct currantplane_configuration *configuration,
                          const uint8_t *locations, size_t locations_length,
                          const uint8_t *edges, size_t edges_length,
                          size_t location_count, size_t edge_count,
                          const uint32_t *path, size_t path_length, size_t *made);

/* Tells whether some start within ranges can follow a path, and with which counters it then ends. Here counters are
 * known only by a lowest and a highest value each, both included.
 *
 * locations, edges, location_count, edge_count   as in currantplane_move
 * start     the number of the location where the path starts
 * path      the numbers of the edges, at most 4,096
 * ranges    for each counter of the start its lowest value, then, from number 12 on, its highest; 24 numbers in all. A
 *           number that is not there counts as 0. What stands for counters past the start's k is not looked at.
 *           Written only where some start follows the path
 * answer    the place of the refusal or, where no start follows the path, the first position in it, from 0, where
 *           none can go on, else 0; 1 where some start follows the path, else 0; and the location reached, 0 where none
 *           is; in this order
 *
 * Accepted (0), in two cases. Some start within the ranges can follow the path, taking each of its edges in turn:
 * then `ranges` gets the ranges of the final counters, laid out as before, 0 past the last; a fault has no counters.
 * Exactly the combinations of values within them are reached by starts. A final counter may be above 65,535. Or none
 * can: then `ranges` is left as it is. An empty path is followed by every start.
 * Refused (23, 22, looked at in this order): `ranges` is left as it is, and of the answer all but the place is 0.
 *   - 23 with place 0, where the tables break the layout as in currantplane_move, the start is not below
 *     location_count, or the path is longer than 4,096;
 *   - 23 with the position of the first edge that is not below edge_count or does not leave the location that the edges
 *     before it lead to, whether or not its guards or theirs could hold;
 *   - 22 with the first counter of which an end is outside 1 to 65,535 or the lowest value is above the highest.
 * Of `ranges` as many numbers are written as it has, at most 24, and of `answer` at most three; the rest of them is
 * left. */
uint8_t currantplane_ranges(const uint8_t *locations, size_t locations_length,
                            const uint8_t *edges, size_t edges_length,
                            size_t location_count, size_t edge_count, size_t start,
                            const uint32_t *path, size_t path_length,
                            uint32_t *ranges, size_t ranges_length,
                            size_t *answer, size_t answer_length);

/* The places of the numbers in the answer, after CURRANTPLANE_PLACE. In ranges the lowest value of counter n is at n,
 * and its highest at CURRANTPLANE_HIGHEST + n. */
enum { CURRANTPLANE_FOLLOWS = 1, CURRANTPLANE_REACHED = 2 };
enum { CURRANTPLANE_LOWEST = 0, CURRANTPLANE_HIGHEST = 12 };

/* ---- reading records
 *
 * L and H records: byte 1 is the statement, 2 the fault, 3 the number of nodes k, 4 to 9 the pointers, 10 to 21 the
 * successors, zero from k on, the rest zero; of a fault, 3 to 31 are zero. H has statement 0 and fault 0.
 * E records: byte 1 is the branch and the second guard, 2 and 3 from, 4 and 5 to, 6 the first guard, 7 its node, then
 * twelve updates of two bytes, zero for absent nodes and on an edge to a fault.
 *
 * Each of these is given all 32 bytes of a record of the kind that is named. */

/* record `number` of a table; the caller knows that it is there */
static inline const uint8_t *currantplane_at(const uint8_t *table, size_t number)
{
    return table + CURRANTPLANE_RECORD * number;
}

/* two bytes as a number, the low byte first */
static inline uint16_t currantplane_word(const uint8_t *bytes)
{
    return (uint16_t)(bytes[0] | (unsigned)bytes[1] << 8);
}

/* L, H: the statement; the fault (0 none); the number of nodes k */
static inline uint8_t currantplane_statement(const uint8_t *location) { return location[1]; }
static inline uint8_t currantplane_fault(const uint8_t *location) { return location[2]; }
static inline uint8_t currantplane_nodes(const uint8_t *location) { return location[3]; }

/* L, H, but not of a fault: what pointer 0 to 5 holds, and where the segment of a node below k leads: a node, 0xfe or
 * 0xff */
static inline uint8_t currantplane_pointer(const uint8_t *location, size_t pointer) { return location[4 + pointer]; }
static inline uint8_t currantplane_successor(const uint8_t *location, size_t node) { return location[10 + node]; }

/* E: the branch, 0 or 1; the numbers of the locations that it leaves and leads to */
static inline uint8_t currantplane_branch(const uint8_t *edge) { return (uint8_t)(edge[1] & 1); }
static inline uint16_t currantplane_from(const uint8_t *edge) { return currantplane_word(edge + 2); }
static inline uint16_t currantplane_to(const uint8_t *edge) { return currantplane_word(edge + 4); }

/* E: the first or the second guard, and the node whose counter it asks about, 0 where there is no guard. The edge is
 * enabled when both hold. */
enum { CURRANTPLANE_NO_GUARD = 0, CURRANTPLANE_IS_ONE = 1, CURRANTPLANE_IS_MORE = 2 };
static inline uint8_t currantplane_guard(const uint8_t *edge, int second)
{
    return second ? (uint8_t)(edge[1] >> 1 & 3) : edge[6];
}
static inline uint8_t currantplane_guarded(const uint8_t *edge, int second)
{
    return second ? (uint8_t)(edge[1] >> 3 & 15) : edge[7];
}

/* E, but not to a fault: the update of a node below the target's k. Its new counter is the constant plus the old
 * counters that are added. An old counter is added in one update at most: in none where its cells are gone, by FREE or
 * DROP. */
static inline uint16_t currantplane_update(const uint8_t *edge, size_t node)
{
    return currantplane_word(edge + 8 + 2 * node);
}
/* of an update: the old counters added, bit n for counter n; the constant, -1, 0 or 1 */
static inline uint16_t currantplane_added(uint16_t update) { return (uint16_t)(update & 0x0fff); }
static inline int currantplane_constant(uint16_t update) { return (update >> 12 & 3) - 1; }

#ifdef __cplusplus
}
#endif

#endif
