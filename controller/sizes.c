/* What the bench takes: code and data as they were measured when it was built, and the deepest stack of each call. */
#include "bench.h"
#include "stack.h"

#include <stdio.h>
#include <string.h>

/* measured by `size` and given by the build, without this file and the painted stack */
#if !defined LIBRARY_CODE || !defined LIBRARY_DATA || !defined BENCH_CODE || !defined BENCH_DATA
#error "controller/build measures code and data and gives them"
#endif

enum { TRANSLATE, RECORD, SEARCH, FOLD, UNFOLD, STEP, MOVE, WALK, RANGES, CALLS };
static const char *const names_of[CALLS] = {"translate", "record", "search", "fold",  "unfold",
                                            "step",      "move",   "walk",   "ranges"};

/* a call with all that it is given */
struct measured {
    struct bench *bench;
    struct heap heap;
    const uint8_t *statement, *sought; /* a record that is looked for */
    uint8_t shape[CURRANTPLANE_RECORD];
    uint32_t counters[CURRANTPLANE_MOST_NODES];
    size_t number, start; /* of an edge, and of the location that it leaves */
    size_t routines, locations;
};

/* one for each call, so that the deepest of all its calls is found at the end */
static struct stack stacks[CALLS];

static void call_translate(void *m)
{
    translate(((struct measured *)m)->bench);
}

static void call_record(void *m)
{
    struct bench *b = ((struct measured *)m)->bench;
    size_t part[CURRANTPLANE_RECORD_ANSWER];
    currantplane_record(b->locations, sizeof b->locations, b->edges, sizeof b->edges,
                        b->answer[CURRANTPLANE_LOCATION_COUNT], b->answer[CURRANTPLANE_EDGE_COUNT], CURRANTPLANE_EDGES,
                        0, part, CURRANTPLANE_RECORD_ANSWER);
}

static void call_search(void *m)
{
    struct measured *c = m;
    size_t number;
    search(c->bench, c->sought, CURRANTPLANE_RECORD, &number);
}

static void call_fold(void *m)
{
    struct measured *c = m;
    size_t place;
    currantplane_fold(c->heap.pointers, c->heap.pointer_count, c->heap.cells, c->heap.cell_count, c->shape,
                      sizeof c->shape, c->counters, CURRANTPLANE_MOST_NODES, &place);
}

static void call_unfold(void *m)
{
    struct measured *c = m;
    size_t place;
    uint8_t node;
    currantplane_unfold(c->shape, sizeof c->shape, c->counters, CURRANTPLANE_MOST_NODES, c->heap.pointers,
                        c->heap.pointer_count, c->heap.cells, c->heap.cell_count, &place, &node);
}

static void call_step(void *m)
{
    struct measured *c = m;
    uint8_t answer[CURRANTPLANE_STEP_ANSWER];
    size_t place;
    currantplane_step(c->heap.pointers, c->heap.pointer_count, c->heap.cells, c->heap.cell_count, c->statement,
                      CURRANTPLANE_RECORD, 1, free_cell(&c->heap), answer, sizeof answer, &place);
}

static void call_move(void *m)
{
    struct measured *c = m;
    move(c->bench, c->number);
}

static void call_walk(void *m)
{
    size_t made;
    walk(((struct measured *)m)->bench, &made);
}

static void call_ranges(void *m)
{
    struct measured *c = m;
    size_t told[CURRANTPLANE_RANGES_ANSWER];
    ranges(c->bench, c->start, told);
}

/* the configuration at a location with all its counters so large */
static struct currantplane_configuration stand(const struct bench *b, size_t number, uint32_t counter)
{
    struct currantplane_configuration at = {(uint32_t)number, {0}};
    size_t nodes = currantplane_nodes(currantplane_at(b->locations, number));
    for (size_t i = 0; i < nodes; i++) at.counters[i] = counter;
    return at;
}

/* along the path, from counters of 1 to the most that may be given */
static void measure_ranges(struct measured *m)
{
    for (size_t i = 0; i < CURRANTPLANE_MOST_NODES; i++) {
        m->bench->ranges[CURRANTPLANE_LOWEST + i] = 1;
        m->bench->ranges[CURRANTPLANE_HIGHEST + i] = CURRANTPLANE_MOST_VALUE;
    }
    call_on(&stacks[RANGES], call_ranges, m);
}

/* every edge of the location is tried in a move and as a path from ranges, and as the first of a walk along all edges */
static void measure_moves(struct measured *m, size_t number, uint32_t counter)
{
    struct bench *b = m->bench;
    size_t edges = b->answer[CURRANTPLANE_EDGE_COUNT];
    for (m->number = 0; m->number < edges; m->number++) {
        if (currantplane_from(currantplane_at(b->edges, m->number)) != number) continue;
        b->configuration = stand(b, number, counter);
        call_on(&stacks[MOVE], call_move, m);
        b->path_length = edges - m->number;
        for (size_t i = 0; i < b->path_length; i++) b->path[i] = (uint32_t)(m->number + i);
        b->configuration = stand(b, number, counter);
        call_on(&stacks[WALK], call_walk, m);
        m->start = number;
        measure_ranges(m);
        b->path_length = 1;
        measure_ranges(m);
    }
}

/* the location is looked for, and the routine's first record, which is no location */
static void measure_search(struct measured *m, const uint8_t *location)
{
    m->sought = location;
    call_on(&stacks[SEARCH], call_search, m);
    m->sought = m->bench->input;
    call_on(&stacks[SEARCH], call_search, m);
}

/* a heap of the location's shape, with segments of so many cells, is unfolded, folded and stepped */
static void measure_heap(struct measured *m, const uint8_t *location, uint32_t cells)
{
    memcpy(m->shape, location, sizeof m->shape);
    m->shape[0] = CURRANTPLANE_RECORD_H;
    m->shape[1] = 0;
    for (size_t i = 0; i < CURRANTPLANE_MOST_NODES; i++) m->counters[i] = i < currantplane_nodes(location) ? cells : 0;
    m->statement = currantplane_at(m->bench->input, currantplane_statement(location));
    call_on(&stacks[UNFOLD], call_unfold, m);
    call_on(&stacks[FOLD], call_fold, m);
    call_on(&stacks[STEP], call_step, m);
}

static void measure_routine(struct measured *m)
{
    call_on(&stacks[TRANSLATE], call_translate, m);
    call_on(&stacks[RECORD], call_record, m);
    m->routines++;
    for (size_t i = 0; i < m->bench->answer[CURRANTPLANE_LOCATION_COUNT]; i++) {
        const uint8_t *location = currantplane_at(m->bench->locations, i);
        measure_search(m, location);
        if (currantplane_fault(location) != CURRANTPLANE_NO_FAULT) continue;
        measure_heap(m, location, 1);
        measure_heap(m, location, 16);
        measure_moves(m, i, 1);
        measure_moves(m, i, UINT32_MAX);
        m->locations++;
    }
}

static void print_all(const struct measured *m)
{
    int deepest = 0;
    size_t depth[CALLS];
    const struct bench *b = m->bench;
    for (int i = 0; i < CALLS; i++) depth[i] = stack_used(&stacks[i]);
    for (int i = 0; i < CALLS; i++)
        if (depth[i] > depth[deepest]) deepest = i;
    printf("code   %6d bytes: the library %d, the bench %d\n", LIBRARY_CODE + BENCH_CODE, LIBRARY_CODE, BENCH_CODE);
    printf("data   %6d bytes: the library %d, the bench %d, of which %zu for %d locations, %zu for %d edges, "
           "%zu for a path\n",
           LIBRARY_DATA + BENCH_DATA, LIBRARY_DATA, BENCH_DATA, sizeof b->locations, BENCH_LOCATIONS, sizeof b->edges,
           BENCH_EDGES, sizeof b->path);
    printf("stack  %6zu bytes in the deepest call, %s:", depth[deepest], names_of[deepest]);
    for (int i = 0; i < CALLS; i++) printf(" %s %zu%s", names_of[i], depth[i], i + 1 < CALLS ? "," : "\n");
    printf("       measured over %zu routines and %zu locations\n", m->routines, m->locations);
}

int print_sizes(struct bench *bench, int count, char **names)
{
    struct measured m = {.bench = bench, .heap = {{0}, {0}, CURRANTPLANE_POINTERS, CURRANTPLANE_MOST_CELLS}};
    for (int i = 0; i < count; i++) {
        if (!read_routine(bench, names[i])) return 0;
        measure_routine(&m);
    }
    print_all(&m);
    return 1;
}
