#define _DEFAULT_SOURCE /* MAP_ANONYMOUS */
#include "lent.h"

#include <stdio.h>
#include <stdlib.h>
#include <string.h>
#include <sys/mman.h>

enum { PAGE = 4096, GUARD = 96, HOME = (MOST + PAGE - 1) / PAGE * PAGE + PAGE, OFFSETS = 64, SHIFTS = 4096 };

const char *const slot_names[SLOTS] = {"input",    "locations", "edges",  "pointers", "cells", "shape",
                                       "counters", "statement", "answer", "place",    "node",  "configuration",
                                       "path",     "made",      "record", "number",   "ranges"};

struct home {
    uint8_t *pages;       /* HOME bytes, then an inaccessible page */
    size_t before, after; /* the guard bytes on both sides */
    const uint8_t *noise; /* what stood in the guard before, the buffer and the guard after */
    uint8_t expected[MOST];
};
static struct home homes[SLOTS];
struct loan loans[SLOTS];
static uint8_t noise[GUARD + MOST + GUARD + SHIFTS];
static uint64_t state;
uint64_t lent_null[SLOTS], lent_answers[CALLS][LONGEST_ANSWER + 1], lent_odd, lent_at_page;

size_t drawn(size_t below)
{
    state ^= state >> 12;
    state ^= state << 25;
    state ^= state >> 27;
    return (size_t)((state * 0x2545f4914f6cdd1d) >> 33) % below;
}

void arrange(uint64_t number)
{
    state = (number + 1) * 0x9e3779b97f4a7c15;
    drawn(1);
}

void open_homes(void)
{
    arrange(0);
    for (size_t i = 0; i < sizeof noise; i++) noise[i] = (uint8_t)(1 + drawn(255));
    for (int slot = 0; slot < SLOTS; slot++) {
        uint8_t *pages = mmap(NULL, HOME + PAGE, PROT_READ | PROT_WRITE, MAP_PRIVATE | MAP_ANONYMOUS, -1, 0);
        if (pages == MAP_FAILED || mprotect(pages + HOME, PAGE, PROT_NONE)) {
            perror("pages");
            exit(2);
        }
        homes[slot].pages = pages;
    }
}

void lend(enum slot slot, size_t length, size_t alignment)
{
    struct home *home = &homes[slot];
    if (length > MOST) abort();
    int at_page = drawn(4) == 0;
    size_t offset = drawn(OFFSETS) / alignment * alignment;
    uint8_t *at = at_page ? home->pages + HOME - length : home->pages + GUARD + offset;
    home->noise = noise + drawn(SHIFTS);
    home->before = GUARD;
    home->after = at_page ? 0 : GUARD;
    memcpy(at - GUARD, home->noise, GUARD + length + home->after);
    memcpy(home->expected, home->noise + GUARD, length);
    if (length == 0 && !at_page) at = NULL;
    loans[slot].at = at;
    loans[slot].length = length;
    lent_null[slot] += at == NULL;
    lent_odd += (uintptr_t)at & 1;
    lent_at_page += (uint64_t)at_page;
}

void lend_filled(enum slot slot, const void *bytes, size_t length, size_t alignment)
{
    lend(slot, length, alignment);
    if (length) memcpy(loans[slot].at, bytes, length);
    expect(slot, 0, bytes, length);
}

void expect(enum slot slot, size_t from, const void *bytes, size_t length)
{
    if (length) memcpy(homes[slot].expected + from, bytes, length);
}

void expect_zeros(enum slot slot, size_t from, size_t length)
{
    memset(homes[slot].expected + from, 0, length);
}

size_t answer_length(size_t count) { return drawn(3) ? count + drawn(2) : drawn(count + 3); }

void lend_answer(enum call which, size_t length, const void *told, size_t count, size_t size)
{
    if (length > LONGEST_ANSWER) abort();
    lend(ANSWER, length * size, size);
    expect(ANSWER, 0, told, (length < count ? length : count) * size);
    lent_answers[which][length]++;
}

int holds_expected(enum slot slot)
{
    struct loan loan = loans[slot];
    return loan.length == 0 || memcmp(loan.at, homes[slot].expected, loan.length) == 0;
}

void describe_difference(enum slot slot, char *words, size_t room)
{
    const uint8_t *is = loans[slot].at, *wanted = homes[slot].expected;
    size_t at = 0;
    while (at < loans[slot].length && is[at] == wanted[at]) at++;
    snprintf(words, room, "%s, %02x for %02x at byte %zu", slot_names[slot], is[at], wanted[at], at);
}

int guards_hold(enum slot slot)
{
    const struct home *home = &homes[slot];
    struct loan loan = loans[slot];
    if (!loan.at) return 1;
    return memcmp(loan.at - home->before, home->noise, home->before) == 0 &&
           memcmp(loan.at + loan.length, home->noise + home->before + loan.length, home->after) == 0;
}
