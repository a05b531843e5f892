/* What is lent to the calls: each buffer in a home of its own, either between guard bytes at any address, or with its
 * end right before an inaccessible page. All of it holds noise before a call, never zero, so that what is left and what
 * is written are told apart. */
#ifndef LENT_H
#define LENT_H

#include "currantplane.h"

enum slot {
    INPUT, LOCATIONS, EDGES, POINTERS, CELLS, SHAPE, COUNTERS, STATEMENT, ANSWER, PLACE, NODE, CONFIGURATION, PATH,
    MADE, SOUGHT, NUMBER, BOUNDS, SLOTS
};
enum call { TRANSLATE, RECORD, FOLD, UNFOLD, STEP, MOVE, WALK, SEARCH, RANGES, CALLS };

enum { MOST = 70 * 1024 }; /* the bytes of the longest buffer */

extern const char *const slot_names[SLOTS];
extern const char *const call_names[CALLS];

/* what is lent now; the length is in bytes */
struct loan {
    uint8_t *at;
    size_t length;
};
extern struct loan loans[SLOTS];

/* the arguments that are no buffers */
struct given {
    size_t location_count, edge_count, table, number, cell, start;
    uint8_t pick;
};
extern struct given given;

/* how often each buffer was lent as null, and an answer of each length; how often a buffer was at an odd address, and
 * right before an inaccessible page */
enum { LONGEST_ANSWER = 6 };
extern uint64_t lent_null[SLOTS], lent_answers[CALLS][LONGEST_ANSWER + 1], lent_odd, lent_at_page;

void open_homes(void);

/* What is drawn from here on depends on the number alone. */
void arrange(uint64_t number);
size_t drawn(size_t below);

/* Lends so many bytes, a multiple of the alignment, with noise in them. With none, most often a null pointer. */
void lend(enum slot slot, size_t length, size_t alignment);
/* The same, and the bytes stand in it. */
void lend_filled(enum slot slot, const void *bytes, size_t length, size_t alignment);
/* From here on, so many bytes are to hold this after the call. The others are to hold what they held before. */
void expect(enum slot slot, size_t from, const void *bytes, size_t length);
void expect_zeros(enum slot slot, size_t from, size_t length);

/* A length for the answer of a call that tells so many numbers: none to two more, most often all or one more. */
size_t answer_length(size_t count);
/* Lends an answer of so many numbers, of so many bytes each. As many of those told as it has are to stand in it. */
void lend_answer(enum call which, size_t length, const void *told, size_t count, size_t size);

int guards_hold(enum slot slot);
int holds_expected(enum slot slot);
/* Where it does not hold what is expected: the first such byte, and in words. */
void describe_difference(enum slot slot, char *words, size_t room);

/* Makes the call on what was lent. Answers what the call does. */
uint8_t call(enum call which);

/* The slots that a call is lent, and which of these it may write; both end with SLOTS. */
extern const enum slot lent_to[CALLS][7];
int writes(enum call which, enum slot slot);

/* The most stack that a call was seen to use, with its arguments there and its return address; 0 where it is not
 * measured, which is with the sanitizers. */
size_t deepest(enum call which);

#endif
