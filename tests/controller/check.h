/* What the parts of the check share: looks that are counted and reported, the stream of trials, and what was met. */
#ifndef CHECK_H
#define CHECK_H

#include "lent.h"

/* Each kind of look is one test. */
enum kind {
    TRANSLATIONS, RULE, READERS, DROP_EDGES, PARTS, FOLDS, UNFOLDINGS, STEPS, RECORDS, MOVES, WALKS, BY_MOVES, CUT,
    SEARCHES, LISTED, RANGED, BY_WALKS, GUARDS, ONLY_READ, SHELF, KINDS
};

/* A trial or a case begins: what is given is forgotten, and buffers are arranged by its number. */
void begin(const char *name, uint64_t number);

/* Counts a look. A bad one is reported with the trial's number and what was given. Answers whether it was good. */
int look(enum kind kind, int good, const char *what);
uint64_t all_failed(void);

/* After a call: every guard, every buffer that is only read, and every buffer that is written, against what is
 * expected. */
void compare(enum call which, enum kind kind);

/* One test more, which passed or failed. */
void test(int good, const char *name);

/* What is told of a call; the counts are those of a translation. */
struct told {
    uint8_t refusal;
    size_t place, locations, edges;
    uint8_t node;
};

/* The stream. What is given is kept for reports, so its bytes stay where they are until the next trial. */
uint64_t given_number(const char *name);
size_t given_bytes(const char *name, uint8_t *into, size_t most);
uint64_t told_number(void);
size_t told_bytes(uint8_t *into, size_t most);
/* Number, place and node of a refusal, 0 for none; the counts are 0. */
struct told told_refusal(void);
/* Ends the program where a stream is not one that `trials` writes. */
void sound(int good);

/* Refusals are counted by where they came, those about a node also by the node, and each with a floor must have come so
 * often. */
enum group { AT_BENCH, ELSEWHERE, OF_FOLD, OF_UNFOLD, OF_STEP, OF_RECORD, OF_MOVE, OF_WALK, OF_RANGES, GROUPS };
void met_refusal(enum group group, const struct told *told);

/* Other things that must have come so often. */
enum met {
    /* at the bench's sizes */
    BENCH_TRIALS, BENCH_128, BENCH_129, BENCH_256, BENCH_257, BENCH_FULL,
    /* in other tables */
    JUST_FIT, RECORD_SHORT, BYTE_SHORT, NO_BYTES, ODD_LENGTH,
    /* in any */
    PAST_FULL, RECORDS_READ, TWELVE_NODES, DROP_LISTINGS, DROP_LOCATIONS, NODES_VANISH, OP_14_LISTED,
    FOLD_TRIALS, TWELVE_FOLDED, UNFOLD_TRIALS,
    STEP_TRIALS, FAULT_1, FAULT_2, FAULT_3, STOPS, SECOND_BRANCHES, COLLECTING, NOT_COLLECTING, OP_14_STEPPED,
    RECORD_TRIALS,
    /* moves and walks */
    MOVE_TRIALS, WALK_TRIALS, MOVES_MADE, LONGEST_WALKS, TOO_LONG, EMPTY_WALKS, EMPTY_REFUSED, STOPPED_LATE,
    LARGE_COUNTERS, ABOVE_PLACES, BYTES_SHORT, NULL_EDGES, SINGLE_MOVES, CUT_WALKS,
    /* searches */
    SEARCH_TRIALS, FOUND_OF_SEVERAL, FOUND_NEWEST, FOUND_OLDEST, NONE_FOUND, PAST_COUNT, PAST_1024, COUNT_CUT,
    OTHER_LENGTH, PART_OF_PLACE, LONG_TABLES, NULL_TABLE, NULL_RECORD, LOCATIONS_FOUND, EDGES_SOUGHT,
    /* paths from ranges */
    RANGES_TRIALS, FOLLOWED, TO_A_FAULT, ABOVE_65535, LONGEST_PATHS, ENDED, ENDED_LATER, SHORT_WRITTEN, LONGER_LEFT,
    STARTS_WALKED,
    /* damaged H records, by call and in all */
    DAMAGED_TRANSLATED, DAMAGED_UNFOLDED, DAMAGED,
    /* buffers, of all calls */
    NULLS, ANSWERS, ODD_ADDRESSES, AT_PAGES, METS
};
void met(enum met what, uint64_t times);

/* Prints what was met; each floor is a test. */
void test_floors(void);

void translation_trial(void);
void record_trial(void);
void fold_trial(void);
void unfold_trial(void);
void step_trial(void);
void move_trial(void);
void walk_trial(void);
void search_trial(void);
void ranges_trial(void);

struct heap {
    size_t pointers_length, cells_length;
    uint8_t pointers[16], cells[300];
};

struct translation {
    const uint8_t *input;
    size_t input_length, locations_length, edges_length;
    struct told told;
    const uint8_t *locations, *edges; /* the records told of */
};

/* One call each, with every byte afterwards compared with what is told. That of a translation answers the refusal that
 * came. A refused unfolding leaves the heap, of which the lengths are read alone. A step's pick and cell are those in
 * `given`. */
uint8_t try_translation(enum kind kind, const struct translation *t);
void try_fold(enum kind kind, const struct heap *heap, const struct told *told, const uint8_t shape[32],
              const uint32_t counters[12]);
void try_unfold(enum kind kind, const uint8_t *shape, size_t shape_length, const uint32_t *counters, size_t count,
                const struct heap *heap, const struct told *told);
void try_step(enum kind kind, const struct heap *before, const uint8_t *statement, size_t statement_length,
              const struct heap *after, const struct told *told, const uint8_t answer[4]);

/* Of an accepted translation whose tables stand there: every record is put together again from what the header's
 * functions read, the edges of drops are looked at, and some records are asked for. */
void read_listing(const struct translation *t);
/* Of the same: some locations and edges are looked for among the locations. */
void search_listing(const struct translation *t);

/* What moves, walks and paths from ranges are given: both tables, lent with their counts; and a path, as the bytes of
 * its numbers, the low byte first, which is how they lie here. Gives how many they are. */
extern uint32_t path[MOST / sizeof(uint32_t)];
void given_tables(void);
size_t given_path(void);

/* Tables written out: a location; an edge with at most one guard, of node 0, and at most one update. */
void set_location(size_t number, uint8_t fault, uint8_t nodes);
void set_edge(size_t number, const size_t ends[2], uint8_t guard, size_t update);
void lend_tables(size_t location_count, size_t edge_count);

/* Shelf cases of walks. */
void p1_walked(void);
void walks_of_4096(void);
void counters_of_32_bits(void);

/* Of paths from ranges. */
void p1_from_ranges(void);
void paths_of_4096(void);
void refusals_22_and_23(void);

/* Of searches. */
void newest_of_equal(void);
void search_of_1024(void);

/* The shelf cases: how many passed; those that failed are added to `failed`. */
unsigned shelf_cases(unsigned *failed);

#endif
