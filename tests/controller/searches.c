/* Searches: against what the second translator told, and against a scan of the whole table; and in listings, where each
 * location is found at its own number. */
#include "check.h"

#include <string.h>

enum { PLACES = CURRANTPLANE_MOST_LOCATIONS };

/* What is told of a search; the number is 0 where there is none. */
struct found {
    uint8_t answer;
    size_t number;
};

static const struct found nowhere = {CURRANTPLANE_NOT_FOUND, 0};

static struct found at(size_t number)
{
    struct found found = {CURRANTPLANE_FOUND, number};
    return found;
}

static uint8_t table[MOST], record[64];
static size_t table_length, record_length;

static int equal_at(size_t number)
{
    return record_length == 32 && memcmp(currantplane_at(table, number), record, 32) == 0;
}

/* Below so many records every one is looked at, from the first on, and the last that is equal is kept. */
static struct found scan(size_t count, size_t *equal)
{
    struct found found = nowhere;
    for (size_t number = *equal = 0; number < count; number++) {
        if (!equal_at(number)) continue;
        found = at(number);
        ++*equal;
    }
    return found;
}

/* In the locations that are lent, with the count in `given`. */
static void try_search(enum kind kind, const uint8_t *sought, size_t length, struct found told)
{
    lend_filled(SOUGHT, sought, length, 1);
    lend(NUMBER, sizeof told.number, sizeof told.number);
    expect(NUMBER, 0, &told.number, sizeof told.number);
    look(kind, call(SEARCH) == told.answer, "answer");
    compare(SEARCH, kind);
}

static void count_search(size_t cut, const struct found *told, size_t equal)
{
    int found = told->answer == CURRANTPLANE_FOUND, past = 0;
    for (size_t number = PLACES; number < table_length / 32; number++) past |= equal_at(number);
    met(SEARCH_TRIALS, 1);
    met(FOUND_OF_SEVERAL, equal > 1);
    met(FOUND_NEWEST, found && told->number + 1 == cut);
    met(FOUND_OLDEST, found && told->number == 0 && cut > 1);
    met(NONE_FOUND, !found);
    met(PAST_COUNT, !found && cut < table_length / 32 && equal_at(cut));
    met(PAST_1024, !found && cut == PLACES && past);
    met(COUNT_CUT, given.location_count > cut);
    met(OTHER_LENGTH, record_length != 32);
    met(PART_OF_PLACE, table_length % 32 != 0);
    met(LONG_TABLES, table_length / 32 > PLACES);
    met(NULL_TABLE, !loans[LOCATIONS].at);
    met(NULL_RECORD, !loans[SOUGHT].at);
}

void search_trial(void)
{
    table_length = given_bytes("table", table, sizeof table);
    given.location_count = (size_t)given_number("count");
    record_length = given_bytes("record", record, sizeof record);
    struct found told;
    told.answer = (uint8_t)told_number();
    told.number = (size_t)told_number();
    size_t places = table_length / 32 < PLACES ? table_length / 32 : PLACES, equal;
    size_t cut = given.location_count < places ? given.location_count : places;
    struct found scanned = scan(cut, &equal);
    look(SEARCHES, scanned.answer == told.answer && scanned.number == told.number, "what is told, beside the scan");
    lend_filled(LOCATIONS, table, table_length, 1);
    try_search(SEARCHES, record, record_length, told);
    count_search(cut, &told, equal);
}

/* A location is found at its own number, and is not there before it is entered. An edge is not found. */
void search_listing(const struct translation *t)
{
    size_t count = t->told.locations, numbers[2] = {drawn(count), count - 1};
    for (size_t i = 0; i < 2; i++) {
        const uint8_t *location = currantplane_at(t->locations, numbers[i]);
        given.location_count = drawn(2) ? count : SIZE_MAX;
        try_search(LISTED, location, 32, at(numbers[i]));
        given.location_count = numbers[i];
        try_search(LISTED, location, 32, nowhere);
    }
    met(LOCATIONS_FOUND, 2);
    if (t->told.edges == 0) return;
    given.location_count = count;
    try_search(LISTED, currantplane_at(t->edges, drawn(t->told.edges)), 32, nowhere);
    met(EDGES_SOUGHT, 1);
}

/* ---- shelf cases */

/* Three records that are equal, one that differs in the last byte, and a part of a place. */
void newest_of_equal(void)
{
    static const uint8_t letters[4] = {'a', 'b', 'a', 'a'};
    uint8_t near[32];
    memset(near, 'a', 32);
    near[31] = 'A';
    for (size_t i = 0; i < 4; i++) memset(table + 32 * i, letters[i], 32);
    memcpy(table + 32 * 4, near, 32);
    memset(table + 32 * 5, 'c', 31);
    lend_filled(LOCATIONS, table, 32 * 5 + 31, 1);
    const struct {
        size_t count;
        struct found a, b, near;
    } rows[7] = {{0, nowhere, nowhere, nowhere}, {1, at(0), nowhere, nowhere}, {2, at(0), at(1), nowhere},
                 {3, at(2), at(1), nowhere},     {4, at(3), at(1), nowhere},   {5, at(3), at(1), at(4)},
                 {SIZE_MAX, at(3), at(1), at(4)}};
    for (size_t i = 0; i < sizeof rows / sizeof rows[0]; i++) {
        given.location_count = rows[i].count;
        try_search(SHELF, table, 32, rows[i].a);
        try_search(SHELF, table + 32, 32, rows[i].b);
        try_search(SHELF, near, 32, rows[i].near);
        try_search(SHELF, table + 32 * 5, 31, nowhere);
        try_search(SHELF, table + 16, 32, nowhere);
        for (size_t length = 0; length <= 64; length += length == 31 ? 2 : 1)
            try_search(SHELF, table + 64, length, nowhere);
    }
}

/* One record twice, at number 1,023 and past it, then past it alone. */
void search_of_1024(void)
{
    static const size_t counts[5] = {1023, 1024, 1025, 1026, SIZE_MAX};
    memset(record, 'a', 32);
    memset(table, 0, 32 * 1026);
    memcpy(table + 32 * 1023, record, 32);
    memcpy(table + 32 * 1024, record, 32);
    for (size_t turn = 0; turn < 2; turn++) {
        lend_filled(LOCATIONS, table, 32 * 1026, 1);
        for (size_t i = 0; i < 5; i++) {
            given.location_count = counts[i];
            try_search(SHELF, record, 32, turn == 0 && counts[i] > 1023 ? at(1023) : nowhere);
            try_search(SHELF, table, 32, at(turn == 1 && counts[i] > 1023 ? 1023 : 1022));
        }
        memset(table + 32 * 1023, 0, 32);
    }
}
