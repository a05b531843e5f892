/* check: reads trials from standard input (tests/native/src/bin/trials.rs says how they are written), makes each call
 * through the header, and compares what it answers and every byte that it leaves. The last line is 'N passed, M
 * failed': a test is a kind of look, a shelf case, a number that must have been met, and the stack of a call. */
#define _POSIX_C_SOURCE 200809L
#include "check.h"

#include <inttypes.h>
#include <signal.h>
#include <stdio.h>
#include <stdlib.h>
#include <string.h>

enum { REPORTS = 10, FIELDS = 32 };

/* the stack that a call may use: a translation has an index of its locations there */
enum { OF_A_TRANSLATION = 4096, OF_ANOTHER = 1536 };

static struct tally {
    const char *name;
    uint64_t looked, failed;
} tallies[KINDS] = {
    {"translations", 0, 0},   {"the rule for other tables", 0, 0}, {"records put together again", 0, 0},
    {"edges of drops", 0, 0}, {"records of a listing", 0, 0},      {"folds", 0, 0},
    {"unfoldings", 0, 0},     {"steps", 0, 0},                     {"records of any tables", 0, 0},
    {"moves", 0, 0},          {"walks", 0, 0},                     {"walks by single moves", 0, 0},
    {"walks cut in two", 0, 0}, {"searches", 0, 0},                {"searches in a listing", 0, 0},
    {"paths from ranges", 0, 0}, {"paths from ranges, by walks", 0, 0},
    {"bytes beside what is lent", 0, 0}, {"what is only read", 0, 0}, {"shelf cases", 0, 0},
};

/* the trial at hand, with what it is given, for reports */
static const char *trial_name;
static uint64_t trial_number;
static struct {
    const char *name;
    const uint8_t *bytes;
    uint64_t number;
} fields[FIELDS];
static size_t field_count;

void begin(const char *name, uint64_t number)
{
    trial_name = name;
    trial_number = number;
    field_count = 0;
    arrange(number);
}

uint64_t all_failed(void)
{
    uint64_t failed = 0;
    for (int kind = 0; kind < KINDS; kind++) failed += tallies[kind].failed;
    return failed;
}

static void report(enum kind kind, const char *what)
{
    printf("FAILED: %s, trial %" PRIu64 ": %s: %s\n", trial_name, trial_number, tallies[kind].name, what);
    for (size_t i = 0; i < field_count; i++) {
        printf("    %s: %" PRIu64, fields[i].name, fields[i].number);
        for (size_t at = 0; fields[i].bytes && at < fields[i].number; at++)
            printf("%s%02x", at == 0 ? " bytes " : "", fields[i].bytes[at]);
        printf("\n");
    }
    fflush(stdout);
}

int look(enum kind kind, int good, const char *what)
{
    tallies[kind].looked++;
    if (good) return 1;
    if (all_failed() < REPORTS) report(kind, what);
    tallies[kind].failed++;
    return 0;
}

void compare(enum call which, enum kind kind)
{
    for (const enum slot *slot = lent_to[which]; *slot != SLOTS; slot++) {
        char words[80] = "";
        look(GUARDS, guards_hold(*slot), slot_names[*slot]);
        int good = holds_expected(*slot);
        if (!good) describe_difference(*slot, words, sizeof words);
        look(writes(which, *slot) ? kind : ONLY_READ, good, words);
    }
}

void sound(int good)
{
    if (good) return;
    printf("the stream is broken at trial %" PRIu64 "\n0 passed, 1 failed\n", trial_number);
    exit(2);
}

uint64_t told_number(void)
{
    uint8_t bytes[8];
    uint64_t number = 0;
    sound(fread(bytes, 1, 8, stdin) == 8);
    for (int i = 0; i < 8; i++) number |= (uint64_t)bytes[i] << 8 * i;
    return number;
}

size_t told_bytes(uint8_t *into, size_t most)
{
    uint64_t length = told_number();
    sound(length <= most && fread(into, 1, (size_t)length, stdin) == length);
    return (size_t)length;
}

struct told told_refusal(void)
{
    struct told told = {0, 0, 0, 0, 0};
    told.refusal = (uint8_t)told_number();
    told.place = (size_t)told_number();
    told.node = (uint8_t)told_number();
    return told;
}

static void keep(const char *name, const uint8_t *bytes, uint64_t number)
{
    if (field_count == FIELDS) return;
    fields[field_count].name = name;
    fields[field_count].bytes = bytes;
    fields[field_count++].number = number;
}

uint64_t given_number(const char *name)
{
    uint64_t number = told_number();
    keep(name, NULL, number);
    return number;
}

size_t given_bytes(const char *name, uint8_t *into, size_t most)
{
    size_t length = told_bytes(into, most);
    keep(name, into, length);
    return length;
}

static unsigned passed, failed;

void test(int good, const char *name)
{
    passed += (unsigned)(good != 0);
    failed += (unsigned)(good == 0);
    if (!good) printf("FAILED: %s\n", name);
}

static void read_trials(void)
{
    static const struct {
        int letter;
        const char *name;
        void (*run)(void);
    } trials[] = {{'T', "translation", translation_trial},
                  {'F', "fold", fold_trial},
                  {'U', "unfolding", unfold_trial},
                  {'S', "step", step_trial},
                  {'R', "record", record_trial},
                  {'M', "move", move_trial},
                  {'W', "walk", walk_trial},
                  {'N', "search", search_trial},
                  {'G', "ranges", ranges_trial}};
    const size_t kinds = sizeof trials / sizeof trials[0];
    int letter;
    for (uint64_t number = 0; (letter = getchar()) != 'Z'; number++) {
        size_t kind = 0;
        while (kind < kinds && trials[kind].letter != letter) kind++;
        sound(kind < kinds);
        begin(trials[kind].name, number);
        trials[kind].run();
    }
    sound(told_number() == trial_number + 1 && getchar() == EOF);
}

/* A call that reads or writes past an end may meet an inaccessible page: which trial it was. */
static void crashed(int number)
{
    report(GUARDS, number == SIGSEGV ? "memory that is no one's" : "a crash");
    printf("0 passed, 1 failed\n");
    fflush(stdout);
    _Exit(3);
}

static void catch_crashes(void)
{
#ifndef __SANITIZE_ADDRESS__
    struct sigaction action = {0};
    action.sa_handler = crashed;
    sigaction(SIGSEGV, &action, NULL);
    sigaction(SIGBUS, &action, NULL);
#else
    (void)crashed;
#endif
}

static void test_stacks(void)
{
    for (int which = 0; which < CALLS; which++) {
        size_t stack = deepest((enum call)which);
        if (stack == 0) continue;
        printf("stack of %-10s %5zu bytes\n", call_names[which], stack);
        test(stack < (which == TRANSLATE ? OF_A_TRANSLATION : OF_ANOTHER), "a call that uses too much stack");
    }
}

int main(void)
{
    static char room[1 << 20];
    setvbuf(stdin, room, _IOFBF, sizeof room);
    catch_crashes();
    open_homes();
    read_trials();
    printf("shelf cases\n");
    passed += shelf_cases(&failed);
    for (int kind = 0; kind < SHELF; kind++) {
        printf("looked at %-28s %9" PRIu64 " times, %" PRIu64 " differ\n", tallies[kind].name, tallies[kind].looked,
               tallies[kind].failed);
        test(tallies[kind].looked && tallies[kind].failed == 0, tallies[kind].name);
    }
    test_floors();
    test_stacks();
    printf("%u passed, %u failed\n", passed, failed);
    return failed != 0;
}
