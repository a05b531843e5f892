// positions INPUT: how long a translation takes, and how long in the translator in C. Linked behind some bytes of padding by ./speed, since
// times depend on where the code lies in the program. One line: proved and C (both us), and the ratio.
//
// Both take turns, and the least time of each counts, as in src/bin/speed/turns.rs.
#include <currantplane.h>
#include <stdio.h>
#include <time.h>

int peer_translate5(const uint8_t *input, size_t input_len, uint8_t *locations, size_t locations_len, uint8_t *edges, size_t edges_len,
                    uint32_t *a, uint32_t *b, uint32_t *number, uint32_t *place, uint32_t *node);

enum { ROUNDS = 25, TURN = 10000000, SPAN = 200000 };
static uint8_t input[8192], locations[32768], edges[65536];
static size_t length;

static double now(void) {
    struct timespec t;
    clock_gettime(CLOCK_MONOTONIC, &t);
    return (double)t.tv_sec * 1e9 + (double)t.tv_nsec;
}

static void ours(void) {
    size_t answer[CURRANTPLANE_ANSWER];
    currantplane_translate(input, length, locations, sizeof locations, edges, sizeof edges, answer, CURRANTPLANE_ANSWER);
}

static void peers(void) {
    uint32_t n[5];
    peer_translate5(input, length, locations, sizeof locations, edges, sizeof edges, n, n + 1, n + 2, n + 3, n + 4);
}

// one span: calls one after the other, and the time of one
static double span(void (*run)(void)) {
    double began = now();
    int calls = 0;
    do run(), calls++;
    while (now() - began < SPAN);
    return (now() - began) / calls;
}

// one turn: the least time of its spans, and of those before
static double turn(void (*run)(void), double least) {
    for (double began = now(); now() - began < TURN;) {
        double time = span(run);
        if (time < least) least = time;
    }
    return least;
}

int main(int argc, char **argv) {
    FILE *file = argc == 2 ? fopen(argv[1], "rb") : NULL;
    if (!file) return 2;
    length = fread(input, 1, sizeof input, file);
    double proved = 1e18, c = 1e18;
    for (int round = 0; round < ROUNDS; round++) {
        proved = turn(ours, proved);
        c = turn(peers, c);
    }
    printf("%8.1f %8.1f %8.2f\n", proved / 1000, c / 1000, proved / c);
    return 0;
}
