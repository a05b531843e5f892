/* The tables of the controller bench. */
#ifndef BENCH_H
#define BENCH_H

#include <currantplane.h>

enum {
    BENCH_LOCATIONS = 128,
    BENCH_EDGES = 256,
    BENCH_INPUT = 4096, /* what is read of a routine, as the program `translate` reads it */
    BENCH_PATH = CURRANTPLANE_MOST_MOVES + 1 /* one more than a walk may have, which the library is to refuse */
};

/* The bench has one routine and one listing at a time, in memory that is set aside once. */
struct bench {
    uint8_t input[BENCH_INPUT];
    uint8_t locations[CURRANTPLANE_RECORD * BENCH_LOCATIONS];
    uint8_t edges[CURRANTPLANE_RECORD * BENCH_EDGES];
    uint32_t path[BENCH_PATH];
    size_t input_length, path_length;
    size_t answer[CURRANTPLANE_ANSWER];
    struct currantplane_configuration configuration; /* where the automaton of the listing stands */
    uint32_t ranges[CURRANTPLANE_RANGES];            /* where it may stand: the lowest counters, then the highest */
};

struct heap {
    uint8_t pointers[CURRANTPLANE_POINTERS];
    uint8_t cells[CURRANTPLANE_MOST_CELLS];
    size_t pointer_count, cell_count;
};

/* Reads a routine from a file, `-` for standard input, and gives whether it could. */
int read_routine(struct bench *bench, const char *name);

/* Translates it into the bench's tables; the refusal's number. */
uint8_t translate(struct bench *bench);

/* Looks for a record among the locations of the listing: whether there is one, and its number. */
uint8_t search(const struct bench *bench, const uint8_t *record, size_t length, size_t *number);

/* Advances the configuration along one edge of the listing; the refusal's number. */
uint8_t move(struct bench *bench, size_t number);

/* The same along the path, and how many moves were made. */
uint8_t walk(struct bench *bench, size_t *made);

/* Follows the path from a location with these ranges, and tells three numbers; the refusal's number. */
uint8_t ranges(struct bench *bench, size_t start, size_t *told);

/* The lowest cell that is not in use, the number of cells if there is none. */
size_t free_cell(const struct heap *heap);

/* Prints what the program takes: code, data, and the deepest stack over these routines. */
int print_sizes(struct bench *bench, int count, char **names);

#endif
