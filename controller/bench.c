/* The controller bench: translates routines into tables for 128 locations and 256 edges, searches these, walks in them
 * and follows paths in them from ranges, folds and unfolds heaps, and steps them. All that it answers comes from the library; it decides only what it
 * can read. Nothing is allocated. */
#include "bench.h"
#include "digits.h"

#include <stdio.h>
#include <string.h>

enum { BAD_USE = 2, MOST_STEPS = 4096 };

static struct bench bench;

static const char usage[] =
    "usage: bench translate [FILE]                       the listing of a routine in records, or its refusal\n"
    "       bench search FILE RECORD                     which location of the listing has this record, or none\n"
    "       bench walk FILE LOCATION COUNTERS [PATH]     a walk along edges of the listing, from a location with\n"
    "                                                    these counters: moves made, location and counters then\n"
    "       bench move FILE LOCATION COUNTERS [PATH]     the same edges in single moves, with each configuration\n"
    "       bench ranges FILE LOCATION LOWEST HIGHEST [PATH]\n"
    "                                                    a path along edges of the listing, from a location with\n"
    "                                                    counters from these lowest to these highest values: the\n"
    "                                                    location reached with its lowest and its highest values,\n"
    "                                                    or at which position, from 0, no start can go on\n"
    "       bench fold POINTERS CELLS                    the shape of a heap, and its counters\n"
    "       bench unfold SHAPE COUNTERS CELLS            the heap of a shape, in so many cells\n"
    "       bench step POINTERS CELLS STATEMENT [PICK [CELL]]\n"
    "                                                    one statement on a heap, and the heap after it\n"
    "       bench run FILE POINTERS CELLS [PICKS]        a routine on a heap, step by step\n"
    "       bench size FILE..                            code, data, and the deepest stack over these routines\n"
    "\n"
    "FILE holds records of 32 bytes; without it, or as -, it is standard input; 4,096 bytes are read of it.\n"
    "POINTERS, CELLS, SHAPE, STATEMENT and RECORD are hex digits, two for a byte, - for none: six pointers; a\n"
    "byte for each cell, the next cell's number, fe null, ff undefined, fd for a cell that is not in use; records\n"
    "of 32 bytes. COUNTERS, LOWEST, HIGHEST, PATH and PICKS are numbers with commas between; counters that are\n"
    "left out are 0. A refusal is printed as 'refused', its number and its place, and for 9, 18 and 19 the node.\n"
    "Exit status: 0 for an answer, a refusal too; 2 for bad use.\n";

static int bad_use(const char *what)
{
    fprintf(stderr, "bench: %s\n\n%s", what, usage);
    return BAD_USE;
}

static int print_refusal(uint8_t number, size_t place, size_t node)
{
    printf("refused %u %zu", (unsigned)number, place);
    if (currantplane_tells_node(number)) printf(" %zu", node);
    putchar('\n');
    return 0;
}

/* ---- routines */

int read_routine(struct bench *b, const char *name)
{
    int standard = strcmp(name, "-") == 0;
    FILE *file = standard ? stdin : fopen(name, "rb");
    if (!file) return 0;
    b->input_length = fread(b->input, 1, sizeof b->input, file);
    int good = !ferror(file);
    if (!standard) fclose(file);
    return good;
}

uint8_t translate(struct bench *b)
{
    return currantplane_translate(b->input, b->input_length, b->locations, sizeof b->locations, b->edges,
                                  sizeof b->edges, b->answer, CURRANTPLANE_ANSWER);
}

/* each record of a table that is in use, read where it stands */
static void print_table(const struct bench *b, size_t table)
{
    size_t counts[] = {b->answer[CURRANTPLANE_LOCATION_COUNT], b->answer[CURRANTPLANE_EDGE_COUNT]};
    const uint8_t *meant = table == CURRANTPLANE_LOCATIONS ? b->locations : b->edges;
    for (size_t i = 0; i < counts[table]; i++) {
        size_t part[CURRANTPLANE_RECORD_ANSWER];
        currantplane_record(b->locations, sizeof b->locations, b->edges, sizeof b->edges, counts[0], counts[1], table,
                            i, part, CURRANTPLANE_RECORD_ANSWER);
        print_digits(meant + part[CURRANTPLANE_BEGINS], part[CURRANTPLANE_LENGTH], 0);
    }
}

static int print_translation_refusal(const struct bench *b, uint8_t number)
{
    return print_refusal(number, b->answer[CURRANTPLANE_PLACE], b->answer[CURRANTPLANE_NODE]);
}

static int translate_command(int count, char **words)
{
    if (count > 1) return bad_use("translate takes one file");
    if (!read_routine(&bench, count == 1 ? words[0] : "-")) return bad_use("the routine cannot be read");
    uint8_t refusal = translate(&bench);
    if (refusal != CURRANTPLANE_ACCEPTED) return print_translation_refusal(&bench, refusal);
    print_table(&bench, CURRANTPLANE_LOCATIONS);
    print_table(&bench, CURRANTPLANE_EDGES);
    return 0;
}

uint8_t search(const struct bench *b, const uint8_t *record, size_t length, size_t *number)
{
    return currantplane_search(b->locations, sizeof b->locations, b->answer[CURRANTPLANE_LOCATION_COUNT], record,
                               length, number);
}

static int search_command(int count, char **words)
{
    uint8_t record[CURRANTPLANE_RECORD];
    size_t length = count == 2 ? read_digits(words[1], record, sizeof record) : SIZE_MAX, number;
    if (length == SIZE_MAX) return bad_use("search takes a file and a record of 32 bytes");
    if (!read_routine(&bench, words[0])) return bad_use("the routine cannot be read");
    uint8_t refusal = translate(&bench);
    if (refusal != CURRANTPLANE_ACCEPTED) return print_translation_refusal(&bench, refusal);
    if (search(&bench, record, length, &number) == CURRANTPLANE_FOUND) printf("found %zu\n", number);
    else puts("none");
    return 0;
}

/* ---- the automaton of a listing */

/* Twelve counters from a list of at most as many, zeros after it. */
static int read_counters(const char *list, uint32_t *counters)
{
    size_t number;
    for (size_t i = 0; i < CURRANTPLANE_MOST_NODES; i++) {
        int next = next_number(&list, UINT32_MAX, &number);
        if (next < 0) return 0;
        counters[i] = next ? (uint32_t)number : 0;
    }
    return *list == 0;
}

static void print_counters(const uint32_t *counters)
{
    for (size_t i = 0; i < CURRANTPLANE_MOST_NODES; i++)
        printf("%lu%c", (unsigned long)counters[i], i + 1 < CURRANTPLANE_MOST_NODES ? ' ' : '\n');
}

static int read_path(struct bench *b, const char *list)
{
    size_t number;
    int next;
    for (b->path_length = 0; (next = next_number(&list, UINT32_MAX, &number)) == 1; b->path_length++) {
        if (b->path_length == BENCH_PATH) return 0;
        b->path[b->path_length] = (uint32_t)number;
    }
    return next == 0;
}

static int read_configuration(char **words, struct currantplane_configuration *configuration)
{
    size_t location;
    if (!read_number(words[0], UINT32_MAX, &location)) return 0;
    configuration->location = (uint32_t)location;
    return read_counters(words[1], configuration->counters);
}

static void print_configuration(const struct currantplane_configuration *configuration)
{
    printf("location %lu\n", (unsigned long)configuration->location);
    print_counters(configuration->counters);
}

uint8_t move(struct bench *b, size_t number)
{
    return currantplane_move(&b->configuration, b->locations, sizeof b->locations, b->edges, sizeof b->edges,
                             b->answer[CURRANTPLANE_LOCATION_COUNT], b->answer[CURRANTPLANE_EDGE_COUNT], number);
}

uint8_t walk(struct bench *b, size_t *made)
{
    return currantplane_walk(&b->configuration, b->locations, sizeof b->locations, b->edges, sizeof b->edges,
                             b->answer[CURRANTPLANE_LOCATION_COUNT], b->answer[CURRANTPLANE_EDGE_COUNT], b->path,
                             b->path_length, made);
}

/* In one call: where the moves lead that are made, after a refusal too. */
static int go_in_one(struct bench *b)
{
    size_t made;
    uint8_t refusal = walk(b, &made);
    if (refusal != CURRANTPLANE_ACCEPTED) print_refusal(refusal, 0, 0);
    printf("made %zu\n", made);
    print_configuration(&b->configuration);
    return 0;
}

static int go_by_moves(struct bench *b)
{
    for (size_t i = 0; i < b->path_length; i++) {
        printf("edge %lu: ", (unsigned long)b->path[i]);
        uint8_t refusal = move(b, b->path[i]);
        if (refusal != CURRANTPLANE_ACCEPTED) return print_refusal(refusal, 0, 0);
        print_configuration(&b->configuration);
    }
    return 0;
}

static int go(int count, char **words, int (*along)(struct bench *))
{
    if (count < 3 || count > 4 || !read_configuration(words + 1, &bench.configuration)
        || !read_path(&bench, count == 4 ? words[3] : ""))
        return bad_use("walk and move take a file, a location, at most twelve counters and at most 4,097 edges");
    if (!read_routine(&bench, words[0])) return bad_use("the routine cannot be read");
    uint8_t refusal = translate(&bench);
    return refusal == CURRANTPLANE_ACCEPTED ? along(&bench) : print_translation_refusal(&bench, refusal);
}

uint8_t ranges(struct bench *b, size_t start, size_t *told)
{
    return currantplane_ranges(b->locations, sizeof b->locations, b->edges, sizeof b->edges,
                               b->answer[CURRANTPLANE_LOCATION_COUNT], b->answer[CURRANTPLANE_EDGE_COUNT], start,
                               b->path, b->path_length, b->ranges, CURRANTPLANE_RANGES, told,
                               CURRANTPLANE_RANGES_ANSWER);
}

static int print_ranges(struct bench *b, size_t start)
{
    size_t told[CURRANTPLANE_RANGES_ANSWER];
    uint8_t refusal = ranges(b, start, told);
    if (refusal != CURRANTPLANE_ACCEPTED) return print_refusal(refusal, told[CURRANTPLANE_PLACE], 0);
    if (!told[CURRANTPLANE_FOLLOWS]) return printf("none at %zu\n", told[CURRANTPLANE_PLACE]) < 0;
    printf("location %zu\n", told[CURRANTPLANE_REACHED]);
    print_counters(b->ranges + CURRANTPLANE_LOWEST);
    print_counters(b->ranges + CURRANTPLANE_HIGHEST);
    return 0;
}

static int ranges_command(int count, char **words)
{
    size_t start;
    if (count < 4 || count > 5 || !read_number(words[1], SIZE_MAX, &start)
        || !read_counters(words[2], bench.ranges + CURRANTPLANE_LOWEST)
        || !read_counters(words[3], bench.ranges + CURRANTPLANE_HIGHEST)
        || !read_path(&bench, count == 5 ? words[4] : ""))
        return bad_use("ranges takes a file, a location, at most twelve lowest and twelve highest values and at most "
                       "4,097 edges");
    if (!read_routine(&bench, words[0])) return bad_use("the routine cannot be read");
    uint8_t refusal = translate(&bench);
    return refusal == CURRANTPLANE_ACCEPTED ? print_ranges(&bench, start) : print_translation_refusal(&bench, refusal);
}

static int walk_command(int count, char **words) { return go(count, words, go_in_one); }
static int move_command(int count, char **words) { return go(count, words, go_by_moves); }

/* ---- heaps */

/* Pointers and cells from two words. More than the heap has room for are bad use, not a refusal. */
static int read_heap(char **words, struct heap *heap)
{
    heap->pointer_count = read_digits(words[0], heap->pointers, sizeof heap->pointers);
    heap->cell_count = read_digits(words[1], heap->cells, sizeof heap->cells);
    return heap->pointer_count != SIZE_MAX && heap->cell_count != SIZE_MAX;
}

static void print_heap(const struct heap *heap)
{
    print_digits(heap->pointers, heap->pointer_count, 1);
    print_digits(heap->cells, heap->cell_count, 1);
}

size_t free_cell(const struct heap *heap)
{
    size_t cell = 0;
    while (cell < heap->cell_count && heap->cells[cell] != CURRANTPLANE_UNUSED) cell++;
    return cell;
}

static int print_fold(const struct heap *heap)
{
    uint8_t shape[CURRANTPLANE_RECORD];
    uint32_t counters[CURRANTPLANE_MOST_NODES];
    size_t place;
    uint8_t refusal = currantplane_fold(heap->pointers, heap->pointer_count, heap->cells, heap->cell_count, shape,
                                        sizeof shape, counters, CURRANTPLANE_MOST_NODES, &place);
    if (refusal != CURRANTPLANE_ACCEPTED) return print_refusal(refusal, place, 0);
    print_digits(shape, sizeof shape, 0);
    print_counters(counters);
    return 0;
}

static int fold_command(int count, char **words)
{
    struct heap heap;
    if (count != 2 || !read_heap(words, &heap)) return bad_use("fold takes six pointers and at most 240 cells");
    return print_fold(&heap);
}

static int unfold_command(int count, char **words)
{
    struct heap heap = {{0}, {0}, CURRANTPLANE_POINTERS, 0};
    uint8_t shape[CURRANTPLANE_RECORD], node;
    size_t place;
    uint32_t counters[CURRANTPLANE_MOST_NODES];
    if (count != 3) return bad_use("unfold takes a shape, counters and a number of cells");
    size_t length = read_digits(words[0], shape, sizeof shape);
    if (length == SIZE_MAX || !read_counters(words[1], counters)
        || !read_number(words[2], sizeof heap.cells, &heap.cell_count))
        return bad_use("unfold takes a shape of 32 bytes, at most twelve counters, and at most 240 cells");
    uint8_t refusal = currantplane_unfold(shape, length, counters, CURRANTPLANE_MOST_NODES, heap.pointers,
                                          heap.pointer_count, heap.cells, heap.cell_count, &place, &node);
    if (refusal != CURRANTPLANE_ACCEPTED) return print_refusal(refusal, place, node);
    print_heap(&heap);
    return 0;
}

/* ---- steps */

/* What a step answered: where it goes on, its fault, or a stop. Gives whether it goes on. */
static int print_step(const uint8_t *answer)
{
    if (answer[CURRANTPLANE_FAULT] != CURRANTPLANE_NO_FAULT) printf("fault %u\n", (unsigned)answer[CURRANTPLANE_FAULT]);
    else if (answer[CURRANTPLANE_STOPPED]) puts("stop");
    else {
        printf("branch %u next %u\n", (unsigned)answer[CURRANTPLANE_BRANCH], (unsigned)answer[CURRANTPLANE_NEXT]);
        return 1;
    }
    return 0;
}

static int step_command(int count, char **words)
{
    struct heap heap;
    uint8_t statement[CURRANTPLANE_RECORD], answer[CURRANTPLANE_STEP_ANSWER];
    size_t pick = 0, place;
    if (count < 3 || count > 5 || !read_heap(words, &heap)) return bad_use("step takes a heap and a statement");
    size_t cell = free_cell(&heap), length = read_digits(words[2], statement, sizeof statement);
    if (length == SIZE_MAX || (count > 3 && !read_number(words[3], UINT8_MAX, &pick))
        || (count > 4 && !read_number(words[4], SIZE_MAX, &cell)))
        return bad_use("step takes a statement of 32 bytes, a pick below 256 and a cell");
    uint8_t refusal = currantplane_step(heap.pointers, heap.pointer_count, heap.cells, heap.cell_count, statement,
                                        length, (uint8_t)pick, cell, answer, sizeof answer, &place);
    if (refusal != CURRANTPLANE_ACCEPTED) return print_refusal(refusal, place, 0);
    print_step(answer);
    print_heap(&heap);
    return 0;
}

/* The routine's statements one after the other, a pick at each choose. */
static int run_routine(struct heap *heap, const char *picks)
{
    size_t at = 0, place;
    for (int steps = 0; steps < MOST_STEPS; steps++) {
        const uint8_t *statement = currantplane_at(bench.input, at);
        uint8_t answer[CURRANTPLANE_STEP_ANSWER];
        size_t pick = 0;
        if (statement[1] == CURRANTPLANE_CHOOSE && next_number(&picks, UINT8_MAX, &pick) != 1)
            return puts("no pick is left") < 0;
        printf("statement %zu: ", at);
        uint8_t refusal = currantplane_step(heap->pointers, heap->pointer_count, heap->cells, heap->cell_count, statement,
                                            CURRANTPLANE_RECORD, (uint8_t)pick, free_cell(heap), answer,
                                            sizeof answer, &place);
        if (refusal != CURRANTPLANE_ACCEPTED) return print_refusal(refusal, place, 0);
        if (!print_step(answer)) return print_fold(heap);
        at = answer[CURRANTPLANE_NEXT];
        print_heap(heap);
    }
    printf("no end after %d steps\n", MOST_STEPS);
    return 0;
}

static int run_command(int count, char **words)
{
    struct heap heap;
    const char *picks = count == 4 ? words[3] : "";
    if (count < 3 || count > 4 || !read_heap(words + 1, &heap)) return bad_use("run takes a file, a heap and picks");
    if (!is_list(picks, UINT8_MAX)) return bad_use("picks are numbers below 256 with commas between");
    if (!read_routine(&bench, words[0])) return bad_use("the routine cannot be read");
    /* only a routine that passes the checks has a statement at every target; its listing need not fit */
    uint8_t refusal = translate(&bench);
    if (refusal != CURRANTPLANE_ACCEPTED && refusal != CURRANTPLANE_NO_LOCATION && refusal != CURRANTPLANE_NO_EDGE)
        return print_translation_refusal(&bench, refusal);
    return run_routine(&heap, picks);
}

static int size_command(int count, char **words)
{
    if (count == 0) return bad_use("size takes routines to measure the stack with");
    return print_sizes(&bench, count, words) ? 0 : bad_use("a routine cannot be read");
}

int main(int count, char **words)
{
    static const struct {
        const char *name;
        int (*command)(int, char **);
    } commands[] = {{"translate", translate_command}, {"search", search_command}, {"walk", walk_command},
                    {"move", move_command},           {"ranges", ranges_command}, {"fold", fold_command},
                    {"unfold", unfold_command},       {"step", step_command},     {"run", run_command},
                    {"size", size_command}};
    if (count < 2) return bad_use("it is told what to do by a word");
    for (size_t i = 0; i < sizeof commands / sizeof commands[0]; i++)
        if (strcmp(words[1], commands[i].name) == 0) return commands[i].command(count - 2, words + 2);
    if (strcmp(words[1], "help") == 0 || strcmp(words[1], "--help") == 0) return fputs(usage, stdout) < 0;
    return bad_use("there is no such command");
}
