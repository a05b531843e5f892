/* Moves and walks: against what the second translator told, against the single moves of a walk, and cut in two. The
 * configuration is lent once for all the moves of a walk, and is advanced where it lies. */
#include "check.h"

#include <string.h>

enum { SINGLE = 64 }; /* the longest path that is gone in single moves too */

static uint8_t locations[MOST], edges[MOST];
uint32_t path[MOST / sizeof(uint32_t)];

/* A walk in the tables that are lent, with the counts in `given`, and what is told of it. */
struct walk {
    struct currantplane_configuration before, after;
    const uint32_t *path;
    size_t length, made;
    uint8_t refusal;
};

static void lend_configuration(const struct currantplane_configuration *configuration)
{
    lend_filled(CONFIGURATION, configuration, sizeof *configuration, sizeof(uint32_t));
}

static void expect_configuration(const struct currantplane_configuration *configuration)
{
    expect(CONFIGURATION, 0, configuration, sizeof *configuration);
}

static void lend_path(const uint32_t *numbers, size_t length, const size_t *made)
{
    lend_filled(PATH, numbers, length * sizeof *numbers, sizeof *numbers);
    lend(MADE, sizeof(size_t), sizeof(size_t));
    expect(MADE, 0, made, sizeof *made);
}

static void go_in_one(enum kind kind, const struct walk *walk)
{
    lend_configuration(&walk->before);
    lend_path(walk->path, walk->length, &walk->made);
    look(kind, call(WALK) == walk->refusal, "refusal");
    expect_configuration(&walk->after);
    compare(WALK, kind);
}

/* One move after the other, the refused one last: it changes nothing. */
static void go_by_moves(enum kind kind, const struct walk *walk)
{
    lend_configuration(&walk->before);
    for (size_t i = 0; i < walk->length && i <= walk->made; i++) {
        given.number = walk->path[i];
        look(kind, call(MOVE) == (i < walk->made ? 0 : walk->refusal), "refusal");
        met(SINGLE_MOVES, kind == BY_MOVES);
    }
    expect_configuration(&walk->after);
    compare(MOVE, kind);
}

/* One part of a walk, from where the configuration is. Answers whether it was accepted. */
static int go_part(enum kind kind, const uint32_t *numbers, size_t length, size_t made, uint8_t refusal)
{
    uint8_t due = made < length ? refusal : 0;
    size_t here = made < length ? made : length;
    lend_path(numbers, length, &here);
    look(kind, call(WALK) == due, "refusal of a part");
    look(kind, holds_expected(MADE), "moves of a part");
    return due == 0;
}

/* The first part has a move at least, so that it is refused where the whole is at its first. */
static void go_in_two(enum kind kind, const struct walk *walk)
{
    size_t cut = 1 + drawn(walk->length);
    lend_configuration(&walk->before);
    if (go_part(kind, walk->path, cut, walk->made, walk->refusal))
        go_part(kind, walk->path + cut, walk->length - cut, walk->made - cut, walk->refusal);
    expect_configuration(&walk->after);
    compare(WALK, kind);
    met(CUT_WALKS, kind == CUT);
}

void given_tables(void)
{
    size_t lengths[2];
    lengths[0] = given_bytes("locations", locations, sizeof locations);
    lengths[1] = given_bytes("edges", edges, sizeof edges);
    given.location_count = (size_t)given_number("count of locations");
    given.edge_count = (size_t)given_number("count of edges");
    lend_filled(LOCATIONS, locations, lengths[0], 1);
    lend_filled(EDGES, edges, lengths[1], 1);
}

static struct currantplane_configuration given_configuration(void)
{
    struct currantplane_configuration at;
    at.location = (uint32_t)given_number("location");
    for (size_t i = 0; i < CURRANTPLANE_MOST_NODES; i++) at.counters[i] = (uint32_t)given_number("counter");
    return at;
}

static struct currantplane_configuration told_configuration(void)
{
    struct currantplane_configuration at;
    at.location = (uint32_t)told_number();
    for (size_t i = 0; i < CURRANTPLANE_MOST_NODES; i++) at.counters[i] = (uint32_t)told_number();
    return at;
}

size_t given_path(void)
{
    size_t length = given_bytes("path", (uint8_t *)path, sizeof path);
    sound(length % sizeof *path == 0);
    return length / sizeof *path;
}

void move_trial(void)
{
    given_tables();
    struct currantplane_configuration before = given_configuration();
    given.number = (size_t)given_number("edge");
    struct told told = told_refusal();
    struct currantplane_configuration after = told_configuration();
    lend_configuration(&before);
    look(MOVES, call(MOVE) == told.refusal, "refusal");
    expect_configuration(&after);
    compare(MOVE, MOVES);
    met(MOVE_TRIALS, 1);
    met_refusal(OF_MOVE, &told);
}

static int is_large(const struct currantplane_configuration *at)
{
    for (size_t i = 0; i < CURRANTPLANE_MOST_NODES; i++)
        if (at->counters[i] == UINT32_MAX) return 1;
    return 0;
}

static void count_tables(uint8_t refusal)
{
    size_t l = loans[LOCATIONS].length, e = loans[EDGES].length, lc = given.location_count, ec = given.edge_count;
    met(ABOVE_PLACES, lc > l / 32 || lc > CURRANTPLANE_MOST_LOCATIONS || ec > e / 32 || ec > CURRANTPLANE_MOST_EDGES);
    met(BYTES_SHORT, l + 1 == 32 * lc || e + 1 == 32 * ec);
    met(NULL_EDGES, refusal == 0 && !loans[EDGES].at);
}

static void count_walk(const struct walk *walk, const struct told *told)
{
    int empty = walk->length == 0;
    met(WALK_TRIALS, 1);
    met_refusal(OF_WALK, told);
    met(MOVES_MADE, walk->made);
    met(LONGEST_WALKS, walk->made == CURRANTPLANE_MOST_MOVES);
    met(TOO_LONG, walk->length > CURRANTPLANE_MOST_MOVES);
    met(EMPTY_WALKS, empty && walk->refusal == 0);
    met(EMPTY_REFUSED, empty && walk->refusal != 0);
    met(STOPPED_LATE, walk->refusal != 0 && walk->made > 0);
    met(LARGE_COUNTERS, walk->made > 0 && is_large(&walk->after));
    count_tables(walk->refusal);
}

void walk_trial(void)
{
    given_tables();
    struct walk walk = {given_configuration(), {0, {0}}, path, 0, 0, 0};
    walk.length = given_path();
    struct told told = told_refusal();
    walk.refusal = told.refusal;
    walk.made = (size_t)told_number();
    walk.after = told_configuration();
    sound(walk.made <= walk.length);
    go_in_one(WALKS, &walk);
    count_walk(&walk, &told);
    if (walk.length == 0 || walk.length > CURRANTPLANE_MOST_MOVES) return;
    go_in_two(CUT, &walk);
    if (walk.length <= SINGLE) go_by_moves(BY_MOVES, &walk);
}

/* ---- shelf cases */

static void put_word(uint8_t *at, size_t word)
{
    at[0] = (uint8_t)(word & 255);
    at[1] = (uint8_t)(word >> 8);
}

void set_location(size_t number, uint8_t fault, uint8_t nodes)
{
    uint8_t *record = locations + 32 * number;
    memset(record, 0, 32);
    record[0] = CURRANTPLANE_RECORD_L;
    record[2] = fault;
    record[3] = nodes;
    if (fault == 0) memset(record + 4, CURRANTPLANE_NULL, 6 + (size_t)nodes);
}

void set_edge(size_t number, const size_t ends[2], uint8_t guard, size_t update)
{
    uint8_t *record = edges + 32 * number;
    memset(record, 0, 32);
    record[0] = CURRANTPLANE_RECORD_E;
    put_word(record + 2, ends[0]);
    put_word(record + 4, ends[1]);
    record[6] = guard;
    put_word(record + 8, update);
}

void lend_tables(size_t location_count, size_t edge_count)
{
    given.location_count = location_count;
    given.edge_count = edge_count;
    lend_filled(LOCATIONS, locations, 32 * location_count + drawn(32), 1);
    lend_filled(EDGES, edges, 32 * edge_count + drawn(32), 1);
}

/* A walk along these edges in the three ways, from and to a location with two counters. */
static void go(const uint32_t from[3], size_t length, uint8_t refusal, size_t made, const uint32_t to[3])
{
    struct walk walk = {{from[0], {from[1], from[2]}}, {to[0], {to[1], to[2]}}, path, length, made, refusal};
    go_in_one(SHELF, &walk);
    if (length == 0 || length > CURRANTPLANE_MOST_MOVES) return;
    go_in_two(SHELF, &walk);
    go_by_moves(SHELF, &walk);
}

/* The listing of P1: a list of one cell is freed, a longer one leaks. */
void p1_walked(void)
{
    static const size_t frees[2] = {0, 1}, leaks[2] = {0, 2};
    static const uint32_t freed[3] = {1, 0, 0}, leaked[3] = {2, 0, 0}, one[3] = {0, 1, 0}, most[3] = {0, UINT32_MAX, 0};
    static const uint32_t wrong[3] = {0, 1, 1}, none[3] = {0, 0, 0}, past[3] = {3, 0, 0};
    set_location(0, 0, 1);
    set_location(1, 0, 0);
    set_location(2, CURRANTPLANE_LEAK, 0);
    set_edge(0, frees, CURRANTPLANE_IS_ONE, 0);
    set_edge(1, leaks, CURRANTPLANE_IS_MORE, 0);
    lend_tables(3, 2);
    path[0] = path[1] = 0;
    go(one, 1, 0, 1, freed);
    go(one, 2, 20, 1, freed);
    go(most, 1, 20, 0, most);
    go(one, 0, 0, 0, one);
    go(leaked, 0, 0, 0, leaked);
    go(wrong, 0, 20, 0, wrong);
    go(none, 1, 20, 0, none);
    go(past, 0, 20, 0, past);
    path[0] = 1;
    go(most, 1, 0, 1, leaked);
    go(one, 2, 20, 0, one);
    path[0] = 2;
    go(one, 1, 20, 0, one);
    /* one location more is a place of zeros */
    memset(locations + 96, 0, 32);
    lend_tables(4, 2);
    go(one, 0, 20, 0, one);
}

/* One node with a loop that counts up. */
void walks_of_4096(void)
{
    static const size_t loop[2] = {0, 0};
    static const uint32_t from[3] = {0, 7, 0}, to[3] = {0, 4103, 0}, before[3] = {0, 4102, 0};
    set_location(0, 0, 1);
    set_edge(0, loop, CURRANTPLANE_NO_GUARD, 0x2001);
    lend_tables(1, 1);
    memset(path, 0, sizeof path);
    go(from, 4095, 0, 4095, before);
    go(from, 4096, 0, 4096, to);
    go(from, 4097, 20, 0, from);
    go(from, 16384, 20, 0, from);
    path[4095] = 1;
    go(from, 4096, 20, 4095, before);
}

/* Two nodes become one, by edges for their sum, one less, one more, and the sum where the first is 1. */
void counters_of_32_bits(void)
{
    enum { SUM, LESS, MORE, GUARDED };
    static const size_t joins[2] = {0, 1};
    const uint32_t most = UINT32_MAX, half = (uint32_t)1 << 31;
    const struct {
        uint32_t edge, first, second;
        uint8_t refusal;
    } rows[13] = {
        {SUM, most - 1, 1, 0},   {SUM, most, 1, 21},      {SUM, half, half - 1, 0}, {SUM, half, half, 21},
        {SUM, most, most, 21},   {LESS, most, 1, 0},      {LESS, half, half, 0},    {LESS, most, 2, 21},
        {MORE, most - 2, 1, 0},  {MORE, most - 1, 1, 21}, {GUARDED, 1, most - 1, 0}, {GUARDED, 1, most, 21},
        {GUARDED, most, 1, 20}, /* 20 is looked at first */
    };
    const uint32_t all[3] = {1, most, 0};
    set_location(0, 0, 2);
    set_location(1, 0, 1);
    set_edge(SUM, joins, CURRANTPLANE_NO_GUARD, 0x1003);
    set_edge(LESS, joins, CURRANTPLANE_NO_GUARD, 0x0003);
    set_edge(MORE, joins, CURRANTPLANE_NO_GUARD, 0x2003);
    set_edge(GUARDED, joins, CURRANTPLANE_IS_ONE, 0x1003);
    lend_tables(2, 4);
    for (size_t i = 0; i < sizeof rows / sizeof rows[0]; i++) {
        const uint32_t from[3] = {0, rows[i].first, rows[i].second};
        path[0] = rows[i].edge;
        go(from, 1, rows[i].refusal, rows[i].refusal == 0, rows[i].refusal ? from : all);
    }
}
