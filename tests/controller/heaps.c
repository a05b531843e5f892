/* Folds, unfoldings and steps: against what the second translator told. */
#include "check.h"

#include <string.h>

static size_t least(size_t a, size_t b) { return a < b ? a : b; }

static void lend_heap(const struct heap *heap)
{
    lend_filled(POINTERS, heap->pointers, heap->pointers_length, 1);
    lend_filled(CELLS, heap->cells, heap->cells_length, 1);
}

static void lend_place(const struct told *told)
{
    lend(PLACE, sizeof(size_t), sizeof(size_t));
    expect(PLACE, 0, &told->place, sizeof(size_t));
}

static void lend_node(const struct told *told)
{
    lend(NODE, 1, 1);
    expect(NODE, 0, &told->node, 1);
}

/* Shapes of 0 to 40 bytes and 0 to 14 counters are lent, most often 32 and twelve. */
void try_fold(enum kind kind, const struct heap *heap, const struct told *told, const uint8_t shape[32],
              const uint32_t counters[12])
{
    size_t bytes = drawn(2) ? 32 : drawn(41), numbers = drawn(2) ? 12 : drawn(15);
    lend_heap(heap);
    lend(SHAPE, bytes, 1);
    lend(COUNTERS, numbers * sizeof(uint32_t), sizeof(uint32_t));
    lend_place(told);
    look(kind, call(FOLD) == told->refusal, "refusal");
    expect(SHAPE, 0, shape, least(bytes, 32));
    expect(COUNTERS, 0, counters, least(numbers, 12) * sizeof(uint32_t));
    compare(FOLD, kind);
}

void try_unfold(enum kind kind, const uint8_t *shape, size_t shape_length, const uint32_t *counters, size_t count,
                const struct heap *heap, const struct told *told)
{
    lend_filled(SHAPE, shape, shape_length, 1);
    lend_filled(COUNTERS, counters, count * sizeof(uint32_t), sizeof(uint32_t));
    lend(POINTERS, heap->pointers_length, 1);
    lend(CELLS, heap->cells_length, 1);
    lend_place(told);
    lend_node(told);
    look(kind, call(UNFOLD) == told->refusal, "refusal");
    if (told->refusal == 0) {
        expect(POINTERS, 0, heap->pointers, heap->pointers_length);
        expect(CELLS, 0, heap->cells, heap->cells_length);
    }
    compare(UNFOLD, kind);
}

void try_step(enum kind kind, const struct heap *before, const uint8_t *statement, size_t statement_length,
              const struct heap *after, const struct told *told, const uint8_t answer[4])
{
    lend_heap(before);
    lend_filled(STATEMENT, statement, statement_length, 1);
    lend_answer(STEP, answer_length(CURRANTPLANE_STEP_ANSWER), answer, CURRANTPLANE_STEP_ANSWER, 1);
    lend_place(told);
    look(kind, call(STEP) == told->refusal, "refusal");
    expect(POINTERS, 0, after->pointers, after->pointers_length);
    expect(CELLS, 0, after->cells, after->cells_length);
    compare(STEP, kind);
}

static void given_heap(struct heap *heap)
{
    heap->pointers_length = given_bytes("pointers", heap->pointers, sizeof heap->pointers);
    heap->cells_length = given_bytes("cells", heap->cells, sizeof heap->cells);
}

static void told_heap(struct heap *heap)
{
    heap->pointers_length = told_bytes(heap->pointers, sizeof heap->pointers);
    heap->cells_length = told_bytes(heap->cells, sizeof heap->cells);
}

void fold_trial(void)
{
    static struct heap heap;
    uint8_t shape[32];
    uint32_t counters[12];
    given_heap(&heap);
    struct told told = told_refusal();
    sound(told_bytes(shape, sizeof shape) == 32);
    for (size_t i = 0; i < 12; i++) counters[i] = (uint32_t)told_number();
    try_fold(FOLDS, &heap, &told, shape, counters);
    met(FOLD_TRIALS, 1);
    met(TWELVE_FOLDED, currantplane_nodes(shape) == CURRANTPLANE_MOST_NODES);
    met_refusal(OF_FOLD, &told);
}

void unfold_trial(void)
{
    static struct heap heap;
    static uint8_t shape[64];
    uint32_t counters[16];
    size_t shape_length = given_bytes("record", shape, sizeof shape);
    size_t count = (size_t)given_number("counters");
    sound(count <= 16);
    for (size_t i = 0; i < count; i++) counters[i] = (uint32_t)given_number("counter");
    size_t pointers_length = (size_t)given_number("length of the pointers");
    size_t cells_length = (size_t)given_number("length of the cells");
    struct told told = told_refusal();
    told_heap(&heap);
    sound(told.refusal || (heap.pointers_length == pointers_length && heap.cells_length == cells_length));
    heap.pointers_length = pointers_length;
    heap.cells_length = cells_length;
    try_unfold(UNFOLDINGS, shape, shape_length, counters, count, &heap, &told);
    /* what was unfolded folds to what it came from */
    if (told.refusal == 0) try_fold(UNFOLDINGS, &heap, &told, shape, counters);
    met(UNFOLD_TRIALS, 1);
    met_refusal(OF_UNFOLD, &told);
}

static size_t in_use(const struct heap *heap)
{
    size_t used = 0;
    for (size_t cell = 0; cell < heap->cells_length; cell++) used += heap->cells[cell] != CURRANTPLANE_UNUSED;
    return used;
}

/* Drops by whether they collect, and the first op that there is not. */
static void count_op(uint8_t op, uint8_t refusal, size_t before, size_t after)
{
    int drops = op == CURRANTPLANE_DROP && refusal == CURRANTPLANE_ACCEPTED;
    met(COLLECTING, drops && after < before);
    met(NOT_COLLECTING, drops && after == before);
    met(OP_14_STEPPED, op == CURRANTPLANE_DROP + 1 && refusal == CURRANTPLANE_BAD_OP);
}

void step_trial(void)
{
    static struct heap before, after;
    static uint8_t statement[64];
    uint8_t answer[4];
    given_heap(&before);
    size_t statement_length = given_bytes("statement", statement, sizeof statement);
    given.pick = (uint8_t)given_number("pick");
    given.cell = (size_t)given_number("cell");
    struct told told = told_refusal();
    sound(told_bytes(answer, sizeof answer) == 4);
    told_heap(&after);
    sound(after.pointers_length == before.pointers_length && after.cells_length == before.cells_length);
    try_step(STEPS, &before, statement, statement_length, &after, &told, answer);
    met(STEP_TRIALS, 1);
    met_refusal(OF_STEP, &told);
    if (answer[CURRANTPLANE_FAULT]) met((enum met)(FAULT_1 + answer[CURRANTPLANE_FAULT] - 1), 1);
    met(STOPS, answer[CURRANTPLANE_STOPPED]);
    met(SECOND_BRANCHES, answer[CURRANTPLANE_BRANCH]);
    if (statement_length == 32) count_op(statement[1], told.refusal, in_use(&before), in_use(&after));
}
