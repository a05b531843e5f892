/* The request's shelf cases that are executed, with what must come written out. */
#include "check.h"

#include <stdio.h>
#include <string.h>

enum { N = CURRANTPLANE_NULL, U = CURRANTPLANE_UNDEFINED, F = CURRANTPLANE_UNUSED };

static const struct told accepted = {0, 0, 0, 0, 0};

/* A table of records, each given by its first bytes. */
static void put_record(uint8_t *table, size_t number, const uint8_t *first, size_t length)
{
    memset(table + 32 * number, 0, 32);
    memcpy(table + 32 * number, first, length);
}

static void put_statement(uint8_t *table, size_t number, enum currantplane_op op, uint8_t u, size_t first)
{
    uint8_t record[5] = {CURRANTPLANE_RECORD_S, (uint8_t)op, u, 0, (uint8_t)first};
    put_record(table, number, record, sizeof record);
}

/* P1: statement 0 frees pointer 0 and goes to 1, which stops; pointer 0 at a list. */
static void try_p1(size_t locations_length, size_t edges_length, uint8_t refusal)
{
    static const uint8_t shape[11] = {CURRANTPLANE_RECORD_H, 0, 0, 1, 0, N, N, N, N, N, N};
    static const uint8_t start[11] = {CURRANTPLANE_RECORD_L, 0, 0, 1, 0, N, N, N, N, N, N};
    static const uint8_t freed[10] = {CURRANTPLANE_RECORD_L, 1, 0, 0, U, N, N, N, N, N};
    static const uint8_t fault[4] = {CURRANTPLANE_RECORD_L, 0, CURRANTPLANE_LEAK, 0};
    static const uint8_t one[8] = {CURRANTPLANE_RECORD_E, 0, 0, 0, 1, 0, CURRANTPLANE_IS_ONE, 0};
    static const uint8_t more[8] = {CURRANTPLANE_RECORD_E, 0, 0, 0, 2, 0, CURRANTPLANE_IS_MORE, 0};
    uint8_t input[96], locations[96], edges[64];
    put_statement(input, 0, CURRANTPLANE_FREE, 0, 1);
    put_statement(input, 1, CURRANTPLANE_STOP, 0, 0);
    put_record(input, 2, shape, sizeof shape);
    put_record(locations, 0, start, sizeof start);
    put_record(locations, 1, freed, sizeof freed);
    put_record(locations, 2, fault, sizeof fault);
    put_record(edges, 0, one, sizeof one);
    put_record(edges, 1, more, sizeof more);
    struct told told = {refusal, 0, refusal ? 0 : 3, refusal ? 0 : 2, 0};
    struct translation t = {input, sizeof input, locations_length, edges_length, told, locations, edges};
    try_translation(SHELF, &t);
}

static void p1_three_locations(void) { try_p1(96, 64, 0); }
static void p1_two_locations(void) { try_p1(64, 64, CURRANTPLANE_NO_LOCATION); }
static void p1_one_edge(void) { try_p1(96, 32, CURRANTPLANE_NO_EDGE); }
static void p1_bench(void) { try_p1(4096, 8192, 0); }

/* Skips to a stop, over shapes without nodes: shape n has undefined pointers where n has ones. No edge splits, so each
 * shape comes by each statement, and the locations stand shape by shape at each. */
static void try_skips(size_t statements, size_t shapes, uint8_t refusal)
{
    static uint8_t input[32 * 100], locations[32 * 1024], edges[32 * 1024];
    for (size_t s = 0; s < statements; s++)
        put_statement(input, s, s + 1 < statements ? CURRANTPLANE_SKIP : CURRANTPLANE_STOP, 0,
                      s + 1 < statements ? s + 1 : 0);
    for (size_t h = 0; h < shapes; h++) {
        uint8_t record[10] = {CURRANTPLANE_RECORD_H, 0, 0, 0};
        for (size_t p = 0; p < 6; p++) record[4 + p] = h >> p & 1 ? U : N;
        put_record(input, statements + h, record, sizeof record);
        record[0] = CURRANTPLANE_RECORD_L;
        for (size_t s = 0; s < statements; s++) {
            record[1] = (uint8_t)s;
            put_record(locations, s * shapes + h, record, sizeof record);
        }
    }
    for (size_t from = 0; from < (statements - 1) * shapes; from++) {
        size_t to = from + shapes;
        uint8_t record[6] = {CURRANTPLANE_RECORD_E};
        for (size_t i = 0; i < 2; i++) {
            record[2 + i] = (uint8_t)(from >> 8 * i);
            record[4 + i] = (uint8_t)(to >> 8 * i);
        }
        put_record(edges, from, record, sizeof record);
    }
    struct told told = {refusal, 0, refusal ? 0 : statements * shapes, refusal ? 0 : (statements - 1) * shapes, 0};
    struct translation t = {input, 32 * (statements + shapes), sizeof locations, sizeof edges, told, locations, edges};
    try_translation(SHELF, &t);
}

static void statements_64(void) { try_skips(64, 2, 0); }
static void statements_65(void) { try_skips(65, 2, CURRANTPLANE_BAD_STATEMENTS); }
static void shapes_16(void) { try_skips(3, 16, 0); }
static void shapes_17(void) { try_skips(3, 17, CURRANTPLANE_BAD_SHAPES); }

/* Two lists, one that ends in null and one with an undefined end. */
static const uint8_t two_lists[32] = {CURRANTPLANE_RECORD_H, 0, 0, 2, 0, 1, N, N, N, N, N, U};

static void lists_of(struct heap *heap, size_t first, size_t second, size_t cells)
{
    static const uint8_t pointers[6] = {0, 0, N, N, N, N};
    memset(heap, 0, sizeof *heap);
    heap->pointers_length = 6;
    heap->cells_length = cells;
    memcpy(heap->pointers, pointers, 6);
    heap->pointers[1] = (uint8_t)first;
    for (size_t c = 0; c < cells; c++) heap->cells[c] = c < first + second ? (uint8_t)(c + 1) : F;
    heap->cells[first - 1] = N;
    heap->cells[first + second - 1] = U;
}

static void sum_240(void)
{
    static struct heap heap;
    static const uint32_t counters[12] = {200, 40};
    lists_of(&heap, 200, 40, 240);
    try_unfold(SHELF, two_lists, 32, counters, 12, &heap, &accepted);
    try_fold(SHELF, &heap, &accepted, two_lists, counters);
}

static void sum_241(void)
{
    static struct heap heap;
    static const uint32_t counters[12] = {200, 41};
    static const struct told told = {CURRANTPLANE_BAD_COUNTERS, 0, 0, 0, 0};
    lists_of(&heap, 200, 40, 240);
    try_unfold(SHELF, two_lists, 32, counters, 12, &heap, &told);
}

static void cells_240(void)
{
    static struct heap heap;
    static const uint32_t counters[12] = {100, 39};
    lists_of(&heap, 100, 39, 240);
    try_fold(SHELF, &heap, &accepted, two_lists, counters);
    try_unfold(SHELF, two_lists, 32, counters, 12, &heap, &accepted);
}

static void cells_241(void)
{
    static struct heap heap;
    static const uint8_t nothing[32];
    static const uint32_t none[12];
    static const struct told told = {CURRANTPLANE_BAD_HEAP, 0, 0, 0, 0};
    lists_of(&heap, 100, 39, 241);
    try_fold(SHELF, &heap, &told, nothing, none);
}

/* Each op on a small heap: pointer 0 at cells 0 and 1, pointer 1 at cell 2 with an undefined next, cell 3 not in use.
 * The pointer and the cell that the step may change, with what they then hold, and what it answers. */
static void each_op(void)
{
    static const struct heap small = {6, 4, {0, 2, N, U, 0, N}, {1, N, U, F}};
    static const struct {
        uint8_t op, u, w, second, pointer, pointer_after, cell, cell_after, answer[4];
    } rows[14] = {
        {CURRANTPLANE_STOP, 0, 0, 0, 0, 0, 0, 1, {0, 1, 0, 0}},
        {CURRANTPLANE_SET_NULL, 4, 0, 0, 4, N, 0, 1, {0, 0, 0, 7}},
        {CURRANTPLANE_COPY, 2, 1, 0, 2, 2, 0, 1, {0, 0, 0, 7}},
        {CURRANTPLANE_LOAD, 2, 0, 0, 2, 1, 0, 1, {0, 0, 0, 7}},
        {CURRANTPLANE_CLEAR, 1, 0, 0, 0, 0, 2, N, {0, 0, 0, 7}},
        {CURRANTPLANE_STORE, 1, 0, 0, 0, 0, 2, 0, {0, 0, 0, 7}},
        {CURRANTPLANE_NEW, 5, 0, 0, 5, 3, 3, U, {0, 0, 0, 7}},
        {CURRANTPLANE_FREE, 1, 0, 0, 1, U, 2, F, {0, 0, 0, 7}},
        {CURRANTPLANE_TEST_NULL, 2, 0, 9, 0, 0, 0, 1, {0, 0, 0, 7}},
        {CURRANTPLANE_TEST_SAME, 0, 1, 9, 0, 0, 0, 1, {0, 0, 1, 9}},
        {CURRANTPLANE_CHOOSE, 0, 0, 9, 0, 0, 0, 1, {0, 0, 1, 9}},
        {CURRANTPLANE_SKIP, 0, 0, 0, 0, 0, 0, 1, {0, 0, 0, 7}},
        {CURRANTPLANE_RELINK, 1, 0, 0, 0, 0, 2, 1, {0, 0, 0, 7}},
        {CURRANTPLANE_DROP, 1, 0, 0, 1, N, 2, F, {0, 0, 0, 7}},
    };
    given.pick = 1;
    given.cell = 3;
    for (size_t i = 0; i < 14; i++) {
        uint8_t target = rows[i].op == CURRANTPLANE_STOP ? 0 : 7;
        uint8_t record[32] = {CURRANTPLANE_RECORD_S, rows[i].op, rows[i].u, rows[i].w, target, rows[i].second};
        struct heap after = small;
        after.pointers[rows[i].pointer] = rows[i].pointer_after;
        after.cells[rows[i].cell] = rows[i].cell_after;
        try_step(SHELF, &small, record, 32, &after, &accepted, rows[i].answer);
    }
}

/* Statement 0 drops pointer 0 and goes to 1, which stops. Pointers 0 and 1 hold lists that come together in node 1:
 * node 0 vanishes, and node 1, which only node 2 then leads to, is merged into that. */
static void try_drop(size_t locations_length, size_t edges_length, uint8_t refusal)
{
    static const uint8_t shape[13] = {CURRANTPLANE_RECORD_H, 0, 0, 3, 0, 2, N, N, N, N, 1, N, 1};
    static const uint8_t start[13] = {CURRANTPLANE_RECORD_L, 0, 0, 3, 0, 2, N, N, N, N, 1, N, 1};
    static const uint8_t left[11] = {CURRANTPLANE_RECORD_L, 1, 0, 1, N, 0, N, N, N, N, N};
    static const uint8_t edge[10] = {CURRANTPLANE_RECORD_E, 0, 0, 0, 1, 0, CURRANTPLANE_NO_GUARD, 0, 0x06, 0x10};
    uint8_t input[96], locations[64], edges[32];
    put_statement(input, 0, CURRANTPLANE_DROP, 0, 1);
    put_statement(input, 1, CURRANTPLANE_STOP, 0, 0);
    put_record(input, 2, shape, sizeof shape);
    put_record(locations, 0, start, sizeof start);
    put_record(locations, 1, left, sizeof left);
    put_record(edges, 0, edge, sizeof edge);
    struct told told = {refusal, 0, refusal ? 0 : 2, refusal ? 0 : 1, 0};
    struct translation t = {input, sizeof input, locations_length, edges_length, told, locations, edges};
    try_translation(SHELF, &t);
    if (refusal == 0) read_listing(&t);
}

static void drop_listed(void)
{
    try_drop(64, 32, 0);
    try_drop(4096, 8192, 0);
    try_drop(63, 32, CURRANTPLANE_NO_LOCATION);
    try_drop(64, 31, CURRANTPLANE_NO_EDGE);
}

/* One pointer after the other is dropped: a list that another one leads into, a pointer beside another, a ring with its
 * stem, and pointers that are null and undefined. In place of a drop that collects, u := null is a leak. */
static void drops_in_turn(void)
{
    static const struct heap start = {6, 8, {0, 5, N, U, 5, 6}, {1, 2, N, 4, 3, 1, 3, F}};
    static const struct {
        uint8_t u, count, gone[3], fault;
    } rows[7] = {{0, 1, {0}, CURRANTPLANE_LEAK}, {1, 0, {0}, 0}, {2, 0, {0}, 0}, {3, 0, {0}, 0},
                 {5, 3, {3, 4, 6}, CURRANTPLANE_LEAK}, {4, 3, {1, 2, 5}, CURRANTPLANE_LEAK}, {0, 0, {0}, 0}};
    struct heap before = start, after;
    for (size_t i = 0; i < 7; i++) {
        const uint8_t set_null[32] = {CURRANTPLANE_RECORD_S, CURRANTPLANE_SET_NULL, rows[i].u, 0, 63};
        const uint8_t drop[32] = {CURRANTPLANE_RECORD_S, CURRANTPLANE_DROP, rows[i].u, 0, 63};
        const uint8_t fault[4] = {rows[i].fault, 0, 0, rows[i].fault ? 0 : 63}, goes[4] = {0, 0, 0, 63};
        after = before;
        after.pointers[rows[i].u] = N;
        for (size_t j = 0; j < rows[i].count; j++) after.cells[rows[i].gone[j]] = F;
        try_step(SHELF, &before, set_null, 32, rows[i].fault ? &before : &after, &accepted, fault);
        try_step(SHELF, &before, drop, 32, &after, &accepted, goes);
        before = after;
    }
}

/* The first op that there is not, in a routine and in a step. */
static void op_14(void)
{
    static const uint8_t shape[10] = {CURRANTPLANE_RECORD_H, 0, 0, 0, N, N, N, N, N, N};
    static const uint8_t statement[32] = {CURRANTPLANE_RECORD_S, CURRANTPLANE_DROP + 1};
    static const struct heap empty = {6, 0, {N, N, N, N, N, N}, {0}};
    static const uint8_t nothing[4];
    struct told told = {CURRANTPLANE_BAD_OP, 1, 0, 0, 0};
    uint8_t input[96];
    put_statement(input, 0, CURRANTPLANE_STOP, 0, 0);
    put_record(input, 1, statement, 32);
    put_record(input, 2, shape, sizeof shape);
    struct translation t = {input, sizeof input, 320, 320, told, NULL, NULL};
    try_translation(SHELF, &t);
    told.place = 0;
    try_step(SHELF, &empty, statement, 32, &empty, &told, nothing);
}

/* A record as the third starting shape, and again as the fourth, in tables for ten locations and edges. */
static void try_shape(const uint8_t *shape, const struct told *told)
{
    static const uint8_t first[10] = {CURRANTPLANE_RECORD_H, 0, 0, 0, U, N, N, N, N, N};
    uint8_t input[32 * 5];
    put_statement(input, 0, CURRANTPLANE_STOP, 0, 0);
    put_record(input, 1, first, sizeof first);
    put_record(input, 2, two_lists, 32);
    put_record(input, 3, shape, 32);
    put_record(input, 4, shape, 32);
    struct translation t = {input, sizeof input, 320, 320, *told, NULL, NULL};
    try_translation(SHELF, &t);
}

/* Records that are no shapes: which refusal comes, at which node, before 10 and 15 and after 13. */
static void each_node(void)
{
    static const struct {
        uint8_t refusal, node, record[32];
    } rows[11] = {
        /* nothing leads to node 1; nothing to node 0; nodes 1 and 2 lead to each other only */
        {CURRANTPLANE_UNREACHABLE, 1, {CURRANTPLANE_RECORD_H, 0, 0, 2, 0, N, N, N, N, N, N, N}},
        {CURRANTPLANE_UNREACHABLE, 0, {CURRANTPLANE_RECORD_H, 0, 0, 2, 1, N, N, N, N, N, 1, N}},
        {CURRANTPLANE_UNREACHABLE, 1, {CURRANTPLANE_RECORD_H, 0, 0, 3, 0, N, N, N, N, N, N, 2, 1}},
        /* node 1 behind node 0; node 0 behind node 1; node 2 behind node 1 on a ring */
        {CURRANTPLANE_NOT_CORE, 1, {CURRANTPLANE_RECORD_H, 0, 0, 2, 0, N, N, N, N, N, 1, N}},
        {CURRANTPLANE_NOT_CORE, 0, {CURRANTPLANE_RECORD_H, 0, 0, 2, 1, N, N, N, N, N, N, 0}},
        {CURRANTPLANE_NOT_CORE, 2, {CURRANTPLANE_RECORD_H, 0, 0, 3, 0, 1, N, N, N, N, 1, 2, 0}},
        /* two lists swapped; two lists that meet in node 2, which the walk finds before node 1 */
        {CURRANTPLANE_BAD_NUMBERING, 0, {CURRANTPLANE_RECORD_H, 0, 0, 2, 1, 0, N, N, N, N, N, N}},
        {CURRANTPLANE_BAD_NUMBERING, 1, {CURRANTPLANE_RECORD_H, 0, 0, 3, 0, 1, N, N, N, N, 2, 2, N}},
        /* nodes 0 and 1 swapped, 2 not core, 3 unreachable; the same without node 3 */
        {CURRANTPLANE_UNREACHABLE, 3, {CURRANTPLANE_RECORD_H, 0, 0, 4, 1, 0, N, N, N, N, 2, N, N, N}},
        {CURRANTPLANE_NOT_CORE, 2, {CURRANTPLANE_RECORD_H, 0, 0, 3, 1, 0, N, N, N, N, 2, N, N}},
        /* a byte past the nodes breaks the layout */
        {CURRANTPLANE_BAD_LAYOUT, 0, {CURRANTPLANE_RECORD_H, 0, 0, 2, 1, 0, N, N, N, N, 1, N, 1}},
    };
    static const struct heap four = {6, 4, {0}, {0}}, too_many = {6, 241, {0}, {0}};
    static const struct told too_long = {CURRANTPLANE_BAD_HEAP, 0, 0, 0, 0};
    static const uint32_t none[12];
    for (size_t i = 0; i < 11; i++) {
        struct told told = {rows[i].refusal, 3, 0, 0, rows[i].node};
        try_shape(rows[i].record, &told);
        told.place = 0;
        try_unfold(SHELF, rows[i].record, 32, none, 12, &four, &told);
        try_unfold(SHELF, rows[i].record, 32, none, 12, &too_many, &too_long);
    }
}

/* What is only read may overlap: one table for both; a record that stands in the table; and a ring of six cells whose
 * bytes are the pointers too. */
static void overlaps(void)
{
    static const uint8_t table[96], ring[6] = {1, 2, 3, 4, 5, 0};
    static const uint8_t six_nodes[32] = {CURRANTPLANE_RECORD_H, 0, 0, 6, 0, 1, 2, 3, 4, 5, 1, 2, 3, 4, 5, 0};
    static const uint32_t ones[12] = {1, 1, 1, 1, 1, 1};
    size_t answer[3], place;
    uint8_t shape[32], last = currantplane_record(table, 96, table, 96, 3, 3, CURRANTPLANE_EDGES, 2, answer, 3);
    uint32_t counters[12];
    look(SHELF, last == 0 && answer[0] == 0 && answer[1] == 64 && answer[2] == 32, "the last record");
    look(SHELF, currantplane_search(table, 96, 3, table + 31, 32, &place) == 1 && place == 2, "bytes of the table");
    look(SHELF, currantplane_fold(ring, 6, ring, 6, shape, 32, counters, 12, &place) == 0 && place == 0, "the ring");
    look(SHELF, memcmp(shape, six_nodes, 32) == 0 && memcmp(counters, ones, sizeof ones) == 0, "its six nodes");
    static const uint8_t stop[32] = {CURRANTPLANE_RECORD_L, 0, 0, 0, N, N, N, N, N, N};
    struct currantplane_configuration at = {0, {0}};
    look(SHELF, currantplane_walk(&at, stop, 32, stop, 32, 1, 0, NULL, 0, &place) == 0 && place == 0, "one table");
}

unsigned shelf_cases(unsigned *failed)
{
    static const struct {
        const char *name;
        void (*run)(void);
    } cases[] = {
        {"P1 in three L places", p1_three_locations}, {"P1 in two L places: 11", p1_two_locations},
        {"P1 in one E place: 12", p1_one_edge},       {"P1 in the bench's tables", p1_bench},
        {"64 S", statements_64},                      {"65 S: 2", statements_65},
        {"16 H", shapes_16},                          {"17 H: 3", shapes_17},
        {"counters of 240 unfold", sum_240},          {"counters of 241: 15", sum_241},
        {"240 cells fold", cells_240},                {"241 cells: 13", cells_241},
        {"a step of each op", each_op},               {"9, 18 and 19 with their node", each_node},
        {"a drop listed", drop_listed},               {"drops in turn, and leaks", drops_in_turn},
        {"op 14: 5", op_14},                          {"what is read may overlap", overlaps},
        {"P1 walked", p1_walked},                     {"4,096 moves, 4,097: 20", walks_of_4096},
        {"counters past 32 bits: 21", counters_of_32_bits}, {"the newest of equal records", newest_of_equal},
        {"a search of 1,024 places", search_of_1024}, {"P1 from ranges", p1_from_ranges},
        {"a path of 4,096, 4,097: 23", paths_of_4096}, {"22, 23 and their order", refusals_22_and_23},
    };
    unsigned passed = 0;
    for (size_t i = 0; i < sizeof cases / sizeof cases[0]; i++) {
        uint64_t before = all_failed();
        /* each case several times, as buffers stand otherwise each time */
        for (unsigned turn = 0; turn < 40; turn++) {
            begin(cases[i].name, turn);
            cases[i].run();
        }
        int good = all_failed() == before;
        passed += (unsigned)good;
        *failed += (unsigned)!good;
        printf("  %-28s %s\n", cases[i].name, good ? "as it must be" : "FAILED");
    }
    return passed;
}
