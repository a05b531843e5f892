/* Paths from ranges: against what the second translator told, and, where few starts are within the ranges, against a
 * walk of each: how far the farthest goes, and that each ends within the final ranges and all of these are reached. */
#include "check.h"

#include <string.h>

enum { NODES = CURRANTPLANE_MOST_NODES, ENDS = CURRANTPLANE_RANGES, LONGEST_GIVEN = 32, FEW = 64 };

/* Ranges as they are lent, 24 numbers or others. */
struct bounds {
    size_t length;
    uint32_t ends[LONGEST_GIVEN];
};

/* What is told of a path: the numbers of the answer, and the ranges that are written where some start follows. */
struct ranged {
    uint8_t refusal;
    size_t answer[CURRANTPLANE_RANGES_ANSWER];
    uint32_t ends[ENDS];
};

/* Along so many edges of `path`, in the tables that are lent, from the start in `given`. */
static void try_ranges(enum kind kind, const struct bounds *bounds, size_t length, const struct ranged *told)
{
    size_t written = bounds->length < ENDS ? bounds->length : ENDS;
    lend_filled(PATH, path, length * sizeof *path, sizeof *path);
    lend_filled(BOUNDS, bounds->ends, bounds->length * sizeof(uint32_t), sizeof(uint32_t));
    if (told->answer[CURRANTPLANE_FOLLOWS]) expect(BOUNDS, 0, told->ends, written * sizeof(uint32_t));
    lend_answer(RANGES, answer_length(CURRANTPLANE_RANGES_ANSWER), told->answer, CURRANTPLANE_RANGES_ANSWER,
                sizeof(size_t));
    look(kind, call(RANGES) == told->refusal, "refusal");
    compare(RANGES, kind);
}

/* ---- every start, walked */

static size_t nodes_of(size_t location)
{
    return currantplane_nodes(currantplane_at(loans[LOCATIONS].at, location));
}

/* How many combinations of values are within the ranges of so many counters, or more than FEW. */
static size_t combinations(const uint32_t *ends, size_t counters)
{
    size_t all = 1;
    for (size_t i = 0; i < counters && all <= FEW; i++)
        all *= ends[CURRANTPLANE_HIGHEST + i] - ends[CURRANTPLANE_LOWEST + i] + (size_t)1;
    return all;
}

/* The combination with this number, from the lowest values on. */
static struct currantplane_configuration combination(const uint32_t *ends, size_t location, size_t number)
{
    struct currantplane_configuration at = {(uint32_t)location, {0}};
    for (size_t i = 0; i < nodes_of(location); i++) {
        size_t values = ends[CURRANTPLANE_HIGHEST + i] - ends[CURRANTPLANE_LOWEST + i] + (size_t)1;
        at.counters[i] = ends[CURRANTPLANE_LOWEST + i] + (uint32_t)(number % values);
        number /= values;
    }
    return at;
}

/* The number of the combination that this is, or the number of all where it is none. */
static size_t numbered(const uint32_t *ends, const struct currantplane_configuration *at, size_t all)
{
    size_t number = 0, times = 1;
    for (size_t i = 0; i < nodes_of(at->location); i++) {
        uint32_t lowest = ends[CURRANTPLANE_LOWEST + i], highest = ends[CURRANTPLANE_HIGHEST + i];
        if (at->counters[i] < lowest || at->counters[i] > highest) return all;
        number += times * (at->counters[i] - lowest);
        times *= highest - lowest + (size_t)1;
    }
    return number;
}

static void walk_all(const struct bounds *bounds, size_t starts, size_t length, const struct ranged *told)
{
    uint8_t reached[FEW] = {0};
    size_t farthest = 0, count = 0, follows = told->answer[CURRANTPLANE_FOLLOWS];
    size_t all = follows ? combinations(told->ends, nodes_of(told->answer[CURRANTPLANE_REACHED])) : 0;
    for (size_t i = 0; i < starts; i++) {
        struct currantplane_configuration at = combination(bounds->ends, given.start, i);
        size_t made;
        uint8_t refusal = currantplane_walk(&at, loans[LOCATIONS].at, loans[LOCATIONS].length, loans[EDGES].at,
                                            loans[EDGES].length, given.location_count, given.edge_count, path, length,
                                            &made);
        farthest = made > farthest ? made : farthest;
        if (refusal != CURRANTPLANE_ACCEPTED) continue;
        int there = follows && at.location == told->answer[CURRANTPLANE_REACHED];
        size_t number = there ? numbered(told->ends, &at, all) : all;
        if (!look(BY_WALKS, number < all && number < FEW, "a start that ends outside the ranges")) return;
        count += !reached[number];
        reached[number] = 1;
    }
    look(BY_WALKS, farthest == (follows ? length : told->answer[CURRANTPLANE_PLACE]), "how far the farthest goes");
    look(BY_WALKS, count == all, "values within the ranges that no start reaches");
    met(STARTS_WALKED, starts);
}

/* ---- trials */

static struct bounds given_bounds(void)
{
    struct bounds bounds = {(size_t)given_number("number of ends"), {0}};
    sound(bounds.length <= LONGEST_GIVEN);
    for (size_t i = 0; i < bounds.length; i++) bounds.ends[i] = (uint32_t)given_number("end");
    return bounds;
}

static void count_ranges(const struct bounds *bounds, size_t length, const struct ranged *told)
{
    uint64_t follows = told->answer[CURRANTPLANE_FOLLOWS], ended = told->refusal == 0 && !follows, above = 0;
    for (size_t i = 0; i < ENDS; i++) above |= told->ends[i] > CURRANTPLANE_MOST_VALUE;
    const uint8_t *reached = follows ? currantplane_at(loans[LOCATIONS].at, told->answer[CURRANTPLANE_REACHED]) : NULL;
    met(RANGES_TRIALS, 1);
    met(FOLLOWED, follows);
    met(TO_A_FAULT, reached && currantplane_fault(reached) != CURRANTPLANE_NO_FAULT);
    met(ABOVE_65535, above);
    met(LONGEST_PATHS, follows && length == CURRANTPLANE_MOST_MOVES);
    met(ENDED, ended);
    met(ENDED_LATER, ended && told->answer[CURRANTPLANE_PLACE] > 0);
    met(SHORT_WRITTEN, follows && bounds->length < ENDS);
    met(LONGER_LEFT, follows && bounds->length > ENDS);
}

void ranges_trial(void)
{
    given_tables();
    given.start = (size_t)given_number("start");
    size_t length = given_path();
    struct bounds bounds = given_bounds();
    struct told refused = told_refusal();
    struct ranged told = {refused.refusal, {refused.place, 0, 0}, {0}};
    told.answer[CURRANTPLANE_FOLLOWS] = (size_t)told_number();
    told.answer[CURRANTPLANE_REACHED] = (size_t)told_number();
    for (size_t i = 0; i < ENDS; i++) told.ends[i] = (uint32_t)told_number();
    try_ranges(RANGED, &bounds, length, &told);
    met_refusal(OF_RANGES, &refused);
    count_ranges(&bounds, length, &told);
    if (told.refusal != 0) return;
    size_t starts = combinations(bounds.ends, nodes_of(given.start));
    if (starts <= FEW && length <= FEW) walk_all(&bounds, starts, length, &told);
}

/* ---- shelf cases */

/* From ranges of one counter along so many edges. Where some start follows, to ranges of one counter, or to none where
 * the lowest value is 0. */
static void from_to(const uint32_t from[2], size_t length, size_t reached, const uint32_t to[2])
{
    struct bounds bounds = {ENDS, {[CURRANTPLANE_LOWEST] = from[0], [CURRANTPLANE_HIGHEST] = from[1]}};
    struct ranged told = {0, {0, 1, reached}, {[CURRANTPLANE_LOWEST] = to[0], [CURRANTPLANE_HIGHEST] = to[1]}};
    /* what is past the counters is not looked at */
    for (size_t i = 1; i < NODES; i++) bounds.ends[CURRANTPLANE_HIGHEST + i] = (uint32_t)drawn(UINT32_MAX);
    try_ranges(SHELF, &bounds, length, &told);
}

static void from_none(const uint32_t from[2], size_t length, uint8_t refusal, size_t place)
{
    struct bounds bounds = {ENDS, {[CURRANTPLANE_LOWEST] = from[0], [CURRANTPLANE_HIGHEST] = from[1]}};
    struct ranged told = {refusal, {place, 0, 0}, {0}};
    try_ranges(SHELF, &bounds, length, &told);
}

/* The listing of P1: a list of one cell is freed, a longer one leaks. */
static void put_p1(void)
{
    static const size_t frees[2] = {0, 1}, leaks[2] = {0, 2};
    set_location(0, 0, 1);
    set_location(1, 0, 0);
    set_location(2, CURRANTPLANE_LEAK, 0);
    set_edge(0, frees, CURRANTPLANE_IS_ONE, 0);
    set_edge(1, leaks, CURRANTPLANE_IS_MORE, 0);
    lend_tables(3, 2);
    given.start = 0;
}

void p1_from_ranges(void)
{
    static const uint32_t few[2] = {1, 12}, one[2] = {1, 1}, more[2] = {2, 12}, most[2] = {1, 65535}, none[2] = {0, 0};
    put_p1();
    from_to(few, 0, 0, few);
    from_to(most, 0, 0, most);
    path[0] = 0;
    from_to(few, 1, 1, none);
    from_none(more, 1, 0, 0);
    path[0] = 1;
    from_to(most, 1, 2, none);
    from_none(one, 1, 0, 0);
    given.start = 2;
    from_to(none, 0, 2, none);
    from_none(none, 1, 23, 0);
}

/* One node with a loop that counts up. */
void paths_of_4096(void)
{
    static const size_t loop[2] = {0, 0};
    static const uint32_t from[2] = {7, 65535}, to[2] = {7 + 4096, 65535 + 4096};
    set_location(0, 0, 1);
    set_edge(0, loop, CURRANTPLANE_NO_GUARD, 0x2001);
    lend_tables(1, 1);
    given.start = 0;
    memset(path, 0, 4097 * sizeof *path);
    from_to(from, 4096, 0, to);
    from_none(from, 4097, 23, 0);
    path[4095] = 1;
    from_none(from, 4096, 23, 4095);
    from_none(from, 4097, 23, 0);
}

/* Each with all that comes after it wrong as well. */
void refusals_22_and_23(void)
{
    static const uint32_t zero[2] = {0, 5}, swapped[2] = {6, 5}, above[2] = {1, 65536}, right[2] = {1, 5};
    put_p1();
    path[0] = 1;
    path[1] = 2;
    from_none(zero, 0, 22, 0);
    from_none(swapped, 1, 22, 0);
    from_none(above, 1, 22, 0);
    from_none(right, 2, 23, 1);
    from_none(zero, 2, 23, 1);
    given.start = 3;
    from_none(zero, 2, 23, 0);
    given.start = SIZE_MAX;
    from_none(right, 0, 23, 0);
    given.start = 0;
    given.edge_count = 9;
    from_none(right, 0, 23, 0);
}
