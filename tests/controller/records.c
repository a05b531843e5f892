/* Records: those of a listing, read where they stand, put together again and asked for; and those of any tables. */
#include "check.h"

#include <stdlib.h>
#include <string.h>

static void put_word(uint8_t *at, unsigned word)
{
    at[0] = (uint8_t)(word & 255);
    at[1] = (uint8_t)(word >> 8);
}

static void put_location(uint8_t made[32], const uint8_t *location)
{
    made[0] = CURRANTPLANE_RECORD_L;
    made[1] = currantplane_statement(location);
    made[2] = currantplane_fault(location);
    made[3] = currantplane_nodes(location);
    for (size_t i = 0; i < CURRANTPLANE_POINTERS; i++) made[4 + i] = currantplane_pointer(location, i);
    for (size_t i = 0; i < made[3]; i++) made[10 + i] = currantplane_successor(location, i);
}

/* Parts are added, not joined by bits, so that a part that is too large shows. */
static void put_edge(uint8_t made[32], const uint8_t *edge)
{
    made[0] = CURRANTPLANE_RECORD_E;
    made[1] = (uint8_t)(currantplane_branch(edge) + 2 * currantplane_guard(edge, 1) +
                        8 * currantplane_guarded(edge, 1));
    put_word(made + 2, currantplane_from(edge));
    put_word(made + 4, currantplane_to(edge));
    made[6] = currantplane_guard(edge, 0);
    made[7] = currantplane_guarded(edge, 0);
    for (size_t i = 0; i < CURRANTPLANE_MOST_NODES; i++) {
        uint16_t update = currantplane_update(edge, i);
        unsigned constant = (unsigned)(currantplane_constant(update) + 1);
        put_word(made + 8 + 2 * i, currantplane_added(update) + 4096 * constant);
    }
}

/* Every record put together again from what the header's functions read. They read a block of 32 bytes of its own, so
 * that the sanitizers see a read beside it. */
static void read_records(const struct told *told)
{
    static uint8_t *block;
    if (!block && !(block = malloc(32))) abort();
    for (size_t number = 0; number < told->locations + told->edges; number++) {
        int location = number < told->locations;
        const uint8_t *record = location ? currantplane_at(loans[LOCATIONS].at, number)
                                         : currantplane_at(loans[EDGES].at, number - told->locations);
        uint8_t made[32] = {0};
        memcpy(block, record, 32);
        (location ? put_location : put_edge)(made, block);
        look(READERS, memcmp(made, record, 32) == 0, location ? "location" : "edge");
        met(TWELVE_NODES, location && currantplane_nodes(record) == CURRANTPLANE_MOST_NODES);
    }
    met(RECORDS_READ, told->locations + told->edges);
}

/* The old counters that an edge adds in some update; all of them where a constant is not 0 or one is added twice. */
static unsigned carried(const uint8_t *edge, size_t nodes)
{
    unsigned all = 0;
    for (size_t node = 0; node < nodes; node++) {
        uint16_t update = currantplane_update(edge, node), added = currantplane_added(update);
        if (currantplane_constant(update) != 0 || (all & added)) return ~0u;
        all |= added;
    }
    return all;
}

/* The edge of a location at a drop: branch 0, no guard, no fault, u null. The counters that are not carried are those
 * of nodes that are gone, so that nothing is gone where u holds no node. */
static void look_at_drop(const uint8_t *edge, const uint8_t *from, const uint8_t *to, const uint8_t *statement)
{
    size_t u = statement[2], nodes = currantplane_nodes(from);
    unsigned all = (1u << nodes) - 1, kept = carried(edge, currantplane_nodes(to));
    int plain = currantplane_branch(edge) == 0 && currantplane_guard(edge, 0) == CURRANTPLANE_NO_GUARD &&
                currantplane_guard(edge, 1) == CURRANTPLANE_NO_GUARD;
    look(DROP_EDGES, plain, "branch and guards");
    look(DROP_EDGES, currantplane_fault(to) == CURRANTPLANE_NO_FAULT && currantplane_statement(to) == statement[4],
         "target");
    look(DROP_EDGES, currantplane_pointer(to, u) == CURRANTPLANE_NULL, "u");
    look(DROP_EDGES, (kept & ~all) == 0 && (kept == all || currantplane_pointer(from, u) < nodes), "counters");
    met(NODES_VANISH, kept != all);
}

/* Each location at a drop has one edge. */
static void look_at_drops(const struct translation *t)
{
    size_t locations = 0, edges = 0;
    for (size_t number = 0; number < t->told.locations; number++) {
        const uint8_t *location = currantplane_at(loans[LOCATIONS].at, number);
        locations += currantplane_at(t->input, currantplane_statement(location))[1] == CURRANTPLANE_DROP;
    }
    for (size_t number = 0; number < t->told.edges; number++) {
        const uint8_t *edge = currantplane_at(loans[EDGES].at, number);
        const uint8_t *from = currantplane_at(loans[LOCATIONS].at, currantplane_from(edge));
        const uint8_t *statement = currantplane_at(t->input, currantplane_statement(from));
        if (statement[1] != CURRANTPLANE_DROP) continue;
        look_at_drop(edge, from, currantplane_at(loans[LOCATIONS].at, currantplane_to(edge)), statement);
        edges++;
    }
    look(DROP_EDGES, locations == edges, "one edge for each location");
    met(DROP_LISTINGS, locations > 0);
    met(DROP_LOCATIONS, locations);
}

/* What a call for a record tells: the place, where the record begins and its length. */
static void lend_part(size_t place, size_t begins, size_t length)
{
    size_t told[CURRANTPLANE_RECORD_ANSWER];
    told[CURRANTPLANE_PLACE] = place;
    told[CURRANTPLANE_BEGINS] = begins;
    told[CURRANTPLANE_LENGTH] = length;
    lend_answer(RECORD, answer_length(CURRANTPLANE_RECORD_ANSWER), told, CURRANTPLANE_RECORD_ANSWER, sizeof(size_t));
}

/* Asks for one record of the tables that stand there. */
static void ask_for(const struct translation *t, size_t table, size_t number)
{
    size_t count = table == CURRANTPLANE_LOCATIONS ? t->told.locations : t->told.edges;
    int there = table <= CURRANTPLANE_EDGES && number < count;
    given.location_count = t->told.locations;
    given.edge_count = t->told.edges;
    given.table = table;
    given.number = number;
    lend_part(0, there ? 32 * number : 0, there ? 32 : 0);
    look(PARTS, call(RECORD) == (there ? 0 : CURRANTPLANE_NO_RECORD), "refusal");
    compare(RECORD, PARTS);
    if (!there || loans[ANSWER].length < 2 * sizeof(size_t)) return;
    size_t begins;
    memcpy(&begins, loans[ANSWER].at + sizeof(size_t), sizeof begins);
    const uint8_t *records = table == CURRANTPLANE_LOCATIONS ? t->locations : t->edges;
    enum slot slot = table == CURRANTPLANE_LOCATIONS ? LOCATIONS : EDGES;
    int inside = begins <= loans[slot].length && loans[slot].length - begins >= 32;
    look(PARTS, inside && memcmp(loans[slot].at + begins, currantplane_at(records, number), 32) == 0, "bytes");
}

void read_listing(const struct translation *t)
{
    size_t counts[2] = {t->told.locations, t->told.edges};
    read_records(&t->told);
    look_at_drops(t);
    for (size_t table = 0; table < 2; table++) {
        if (counts[table]) {
            ask_for(t, table, drawn(counts[table]));
            ask_for(t, table, counts[table] - 1);
        }
        ask_for(t, table, counts[table] + drawn(3));
        ask_for(t, table, (size_t)-1 / (drawn(2) ? 1 : 32));
    }
    ask_for(t, 2 + drawn(300), 0);
}

void record_trial(void)
{
    lend(LOCATIONS, (size_t)given_number("length of the locations"), 1);
    lend(EDGES, (size_t)given_number("length of the edges"), 1);
    given.location_count = (size_t)given_number("count of locations");
    given.edge_count = (size_t)given_number("count of edges");
    given.table = (size_t)given_number("table");
    given.number = (size_t)given_number("number");
    struct told told = told_refusal();
    size_t begins = (size_t)told_number(), length = (size_t)told_number();
    lend_part(told.place, begins, length);
    look(RECORDS, call(RECORD) == told.refusal, "refusal");
    compare(RECORD, RECORDS);
    met(RECORD_TRIALS, 1);
    met_refusal(OF_RECORD, &told);
}
