/* The calls, on what is lent. Without the sanitizers, each has a stack of its own that was painted before, so that
 * the deepest byte that any of its calls wrote is found at the end. */
#include "lent.h"

#include "../../controller/stack.h"

const char *const call_names[CALLS] = {"translate", "record", "fold",   "unfold", "step",
                                       "move",      "walk",   "search", "ranges"};

const enum slot lent_to[CALLS][7] = {
    {INPUT, LOCATIONS, EDGES, ANSWER, SLOTS},
    {LOCATIONS, EDGES, ANSWER, SLOTS},
    {POINTERS, CELLS, SHAPE, COUNTERS, PLACE, SLOTS},
    {SHAPE, COUNTERS, POINTERS, CELLS, PLACE, NODE, SLOTS},
    {POINTERS, CELLS, STATEMENT, ANSWER, PLACE, SLOTS},
    {CONFIGURATION, LOCATIONS, EDGES, SLOTS},
    {CONFIGURATION, LOCATIONS, EDGES, PATH, MADE, SLOTS},
    {LOCATIONS, SOUGHT, NUMBER, SLOTS},
    {LOCATIONS, EDGES, PATH, BOUNDS, ANSWER, SLOTS},
};

struct given given;
static uint8_t refusal; /* of a search, whether there is such a record */

static size_t *sizes(enum slot slot) { return (size_t *)(void *)loans[slot].at; }
static uint32_t *words(enum slot slot) { return (uint32_t *)(void *)loans[slot].at; }
static struct currantplane_configuration *lent_configuration(void) { return (void *)loans[CONFIGURATION].at; }

int writes(enum call which, enum slot slot)
{
    switch (which) {
    case TRANSLATE: return slot != INPUT;
    case RECORD: return slot == ANSWER;
    case FOLD: return slot != POINTERS && slot != CELLS;
    case UNFOLD: return slot != SHAPE && slot != COUNTERS;
    case MOVE:
    case WALK: return slot == CONFIGURATION || slot == MADE;
    case SEARCH: return slot == NUMBER;
    case RANGES: return slot == BOUNDS || slot == ANSWER;
    default: return slot != STATEMENT;
    }
}

static void call_translate(void *nothing)
{
    (void)nothing;
    refusal = currantplane_translate(loans[INPUT].at, loans[INPUT].length, loans[LOCATIONS].at, loans[LOCATIONS].length,
                                     loans[EDGES].at, loans[EDGES].length, sizes(ANSWER),
                                     loans[ANSWER].length / sizeof(size_t));
}

static void call_record(void *nothing)
{
    (void)nothing;
    refusal = currantplane_record(loans[LOCATIONS].at, loans[LOCATIONS].length, loans[EDGES].at, loans[EDGES].length,
                                  given.location_count, given.edge_count, given.table, given.number, sizes(ANSWER),
                                  loans[ANSWER].length / sizeof(size_t));
}

static void call_fold(void *nothing)
{
    (void)nothing;
    refusal = currantplane_fold(loans[POINTERS].at, loans[POINTERS].length, loans[CELLS].at, loans[CELLS].length,
                                loans[SHAPE].at, loans[SHAPE].length, words(COUNTERS),
                                loans[COUNTERS].length / sizeof(uint32_t), sizes(PLACE));
}

static void call_unfold(void *nothing)
{
    (void)nothing;
    refusal = currantplane_unfold(loans[SHAPE].at, loans[SHAPE].length, words(COUNTERS),
                                  loans[COUNTERS].length / sizeof(uint32_t), loans[POINTERS].at, loans[POINTERS].length,
                                  loans[CELLS].at, loans[CELLS].length, sizes(PLACE), loans[NODE].at);
}

static void call_step(void *nothing)
{
    (void)nothing;
    refusal = currantplane_step(loans[POINTERS].at, loans[POINTERS].length, loans[CELLS].at, loans[CELLS].length,
                                loans[STATEMENT].at, loans[STATEMENT].length, given.pick, given.cell, loans[ANSWER].at,
                                loans[ANSWER].length, sizes(PLACE));
}

static void call_move(void *nothing)
{
    (void)nothing;
    refusal = currantplane_move(lent_configuration(), loans[LOCATIONS].at, loans[LOCATIONS].length, loans[EDGES].at,
                                loans[EDGES].length, given.location_count, given.edge_count, given.number);
}

static void call_walk(void *nothing)
{
    (void)nothing;
    refusal = currantplane_walk(lent_configuration(), loans[LOCATIONS].at, loans[LOCATIONS].length, loans[EDGES].at,
                                loans[EDGES].length, given.location_count, given.edge_count, words(PATH),
                                loans[PATH].length / sizeof(uint32_t), sizes(MADE));
}

static void call_search(void *nothing)
{
    (void)nothing;
    refusal = currantplane_search(loans[LOCATIONS].at, loans[LOCATIONS].length, given.location_count, loans[SOUGHT].at,
                                  loans[SOUGHT].length, sizes(NUMBER));
}

static void call_ranges(void *nothing)
{
    (void)nothing;
    refusal = currantplane_ranges(loans[LOCATIONS].at, loans[LOCATIONS].length, loans[EDGES].at, loans[EDGES].length,
                                  given.location_count, given.edge_count, given.start, words(PATH),
                                  loans[PATH].length / sizeof(uint32_t), words(BOUNDS),
                                  loans[BOUNDS].length / sizeof(uint32_t), sizes(ANSWER),
                                  loans[ANSWER].length / sizeof(size_t));
}

static void (*const made[CALLS])(void *) = {call_translate, call_record, call_fold,   call_unfold, call_step,
                                            call_move,      call_walk,   call_search, call_ranges};

static struct stack stacks[CALLS];

uint8_t call(enum call which)
{
#ifdef __SANITIZE_ADDRESS__
    made[which](NULL); /* the sanitizers follow one stack */
#else
    call_on(&stacks[which], made[which], NULL);
#endif
    return refusal;
}

size_t deepest(enum call which) { return stack_used(&stacks[which]); }
