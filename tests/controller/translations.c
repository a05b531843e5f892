/* Translations: against what the second translator told, and against the rule for tables of other sizes, which is
 * computed here from the full tables alone. */
#include "check.h"

#include <string.h>

enum { FULL_LOCATIONS = 32 * 1024, FULL_EDGES = 32 * 2048, BENCH_LOCATIONS = 32 * 128, BENCH_EDGES = 32 * 256 };

static uint8_t input[16 * 1024], told_locations[MOST], told_edges[MOST];
static uint8_t full_locations[FULL_LOCATIONS], full_edges[FULL_EDGES];

static size_t least(size_t a, size_t b) { return a < b ? a : b; }
static size_t location_places(size_t length) { return least(length / 32, CURRANTPLANE_MOST_LOCATIONS); }
static size_t edge_places(size_t length) { return least(length / 32, CURRANTPLANE_MOST_EDGES); }

/* the numbers that a translation tells, in their order */
struct numbers {
    size_t at[CURRANTPLANE_ANSWER];
};

static struct numbers numbers_of(const struct told *told)
{
    struct numbers numbers;
    numbers.at[CURRANTPLANE_PLACE] = told->place;
    numbers.at[CURRANTPLANE_LOCATION_COUNT] = told->locations;
    numbers.at[CURRANTPLANE_EDGE_COUNT] = told->edges;
    numbers.at[CURRANTPLANE_NODE] = told->node;
    return numbers;
}

static int no_place(uint8_t refusal) { return refusal == CURRANTPLANE_NO_LOCATION || refusal == CURRANTPLANE_NO_EDGE; }

static void expect_table(enum slot slot, const uint8_t *records, size_t count)
{
    expect(slot, 0, records, 32 * count);
    expect_zeros(slot, 32 * count, loans[slot].length - 32 * count);
}

/* Makes the call. The tables are compared later, since what they hold is not always told. */
static uint8_t translate(const struct translation *t, size_t answer)
{
    lend_filled(INPUT, t->input, t->input_length, 1);
    lend(LOCATIONS, t->locations_length, 1);
    lend(EDGES, t->edges_length, 1);
    struct numbers told = numbers_of(&t->told);
    lend_answer(TRANSLATE, answer, told.at, CURRANTPLANE_ANSWER, sizeof(size_t));
    return call(TRANSLATE);
}

uint8_t try_translation(enum kind kind, const struct translation *t)
{
    uint8_t refusal = translate(t, answer_length(CURRANTPLANE_ANSWER));
    look(kind, refusal == t->told.refusal, "refusal");
    expect_table(LOCATIONS, t->locations, t->told.locations);
    expect_table(EDGES, t->edges, t->told.edges);
    compare(TRANSLATE, kind);
    return refusal;
}

/* Full tables, which are kept, with the answer that came. Where the records are told, they are the same here; where the
 * listing fits here alone, they are taken as they come, and zeros must follow. */
static struct told translate_in_full(const struct translation *t, const struct told *told)
{
    struct translation full = *t;
    full.locations_length = FULL_LOCATIONS;
    full.edges_length = FULL_EDGES;
    full.told = *told;
    uint8_t refusal = translate(&full, CURRANTPLANE_ANSWER);
    look(TRANSLATIONS, refusal == told->refusal, "refusal with full tables");
    if (t->told.refusal != 0) {
        full.locations = loans[LOCATIONS].at;
        full.edges = loans[EDGES].at;
    }
    expect_table(LOCATIONS, full.locations, told->locations);
    expect_table(EDGES, full.edges, told->edges);
    compare(TRANSLATE, TRANSLATIONS);
    memcpy(full_locations, loans[LOCATIONS].at, sizeof full_locations);
    memcpy(full_edges, loans[EDGES].at, sizeof full_edges);
    size_t at[CURRANTPLANE_ANSWER];
    memcpy(at, loans[ANSWER].at, sizeof at);
    struct told came = {refusal, at[CURRANTPLANE_PLACE], least(at[CURRANTPLANE_LOCATION_COUNT], 1024),
                        least(at[CURRANTPLANE_EDGE_COUNT], 2048), (uint8_t)least(at[CURRANTPLANE_NODE], 255)};
    return came;
}

static size_t starting_shapes(const struct translation *t)
{
    size_t shapes = 0;
    for (size_t at = 0; at < t->input_length; at += 32) shapes += t->input[at] == CURRANTPLANE_RECORD_H;
    return shapes;
}

/* The rule, for a listing that the full tables hold: the starting shapes find their places first; then, for each edge
 * in order, its target's place comes before its own. */
static struct told predict(const struct translation *t, const struct told *full)
{
    size_t locations = location_places(t->locations_length), edges = edge_places(t->edges_length);
    struct told refused = {CURRANTPLANE_NO_LOCATION, locations, 0, 0, 0};
    if (starting_shapes(t) > locations) return refused;
    for (size_t number = 0; number < full->edges; number++) {
        const uint8_t *edge = currantplane_at(full_edges, number);
        int no_location = currantplane_to(edge) >= locations;
        refused.refusal = no_location ? CURRANTPLANE_NO_LOCATION : CURRANTPLANE_NO_EDGE;
        refused.place = currantplane_from(edge);
        if (no_location || number >= edges) return refused;
    }
    return *full;
}

static int answers(uint8_t refusal, const struct told *told)
{
    struct numbers numbers = numbers_of(told);
    size_t length = least(loans[ANSWER].length, sizeof numbers.at);
    return refusal == told->refusal && (length == 0 || memcmp(loans[ANSWER].at, numbers.at, length) == 0);
}

/* What the call has just answered and left, against the full tables. */
static void look_at_rule(const struct translation *t, const struct told *full, uint8_t refusal)
{
    if (no_place(full->refusal)) {
        /* not even full tables suffice: then smaller ones do not, and are full no later */
        size_t place;
        look(RULE, no_place(refusal), "past full tables");
        if (loans[ANSWER].length == 0) return;
        memcpy(&place, loans[ANSWER].at, sizeof place);
        look(RULE, place <= full->place, "place past full tables");
        return;
    }
    struct told predicted = full->refusal ? *full : predict(t, full);
    int fits = full->locations <= location_places(t->locations_length) && full->edges <= edge_places(t->edges_length);
    look(RULE, answers(refusal, &predicted), "answer");
    look(RULE, full->refusal || (predicted.refusal == 0) == fits, "accepted exactly if it fits");
    if (predicted.refusal || !fits) return;
    look(RULE, full->locations == 0 || memcmp(loans[LOCATIONS].at, full_locations, 32 * full->locations) == 0,
         "locations");
    look(RULE, full->edges == 0 || memcmp(loans[EDGES].at, full_edges, 32 * full->edges) == 0, "edges");
}

static void count_bench(const struct told *told, const struct told *full)
{
    int accepted = full->refusal == 0;
    met(BENCH_TRIALS, 1);
    met_refusal(AT_BENCH, told);
    met(BENCH_128, accepted && full->locations == 128 && full->edges <= 256);
    met(BENCH_129, accepted && full->locations == 129 && full->edges <= 256);
    met(BENCH_256, accepted && full->locations <= 128 && full->edges == 256);
    met(BENCH_257, accepted && full->locations <= 128 && full->edges == 257);
    met(BENCH_FULL, accepted && full->locations == 128 && full->edges == 256);
}

static void count_other(const struct translation *t, const struct told *full)
{
    size_t l = t->locations_length, e = t->edges_length;
    size_t locations = location_places(l), edges = edge_places(e);
    met_refusal(ELSEWHERE, &t->told);
    met(NO_BYTES, l == 0 || e == 0);
    met(ODD_LENGTH, l % 32 != 0 || e % 32 != 0);
    if (full->refusal != 0 || full->edges == 0) return;
    met(JUST_FIT, locations == full->locations && edges == full->edges);
    met(RECORD_SHORT, l + 32 == 32 * full->locations || e + 32 == 32 * full->edges);
    met(BYTE_SHORT, l + 1 == 32 * full->locations || e + 1 == 32 * full->edges);
}

static struct told told_answer(void)
{
    struct told told = told_refusal();
    told.locations = (size_t)told_number();
    told.edges = (size_t)told_number();
    return told;
}

void translation_trial(void)
{
    struct translation t = {input, 0, 0, 0, {0, 0, 0, 0, 0}, told_locations, told_edges};
    t.input_length = given_bytes("input", input, sizeof input);
    t.locations_length = (size_t)given_number("length of the locations");
    t.edges_length = (size_t)given_number("length of the edges");
    t.told = told_answer();
    size_t lengths[2] = {told_bytes(told_locations, sizeof told_locations), told_bytes(told_edges, sizeof told_edges)};
    struct told full = told_answer();
    sound(lengths[0] == 32 * t.told.locations && lengths[0] <= t.locations_length && full.locations <= 1024 &&
          lengths[1] == 32 * t.told.edges && lengths[1] <= t.edges_length && full.edges <= 2048);
    struct told came = translate_in_full(&t, &full);
    look_at_rule(&t, &came, try_translation(TRANSLATIONS, &t));
    if (t.told.refusal == 0) {
        read_listing(&t);
        search_listing(&t);
    }
    if (t.locations_length == BENCH_LOCATIONS && t.edges_length == BENCH_EDGES) count_bench(&t.told, &full);
    else count_other(&t, &full);
    met(PAST_FULL, no_place(full.refusal) != 0);
    met(OP_14_LISTED, t.told.refusal == CURRANTPLANE_BAD_OP && input[32 * t.told.place + 1] == CURRANTPLANE_DROP + 1);
}
