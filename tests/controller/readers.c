/* Nothing but the header, as C99 and as C++17: it needs no other, each of its functions reads what the request says of
 * the record, and the calls are found. Answers 0 where all of this holds, else the number of what does not. */
#include "currantplane.h"

static const uint8_t location[32] = {0x4c, 7, 3, 2, 0, 1, 0xfe, 0xff, 1, 0xfe, 1, 0xff};
/* branch 1, the second guard is >= 2 of node 11, from 0x0234 to 0x03ff, the first guard is = 1 of node 9 */
static const uint8_t edge[64] = {0x45, 1 | 2 << 1 | 11 << 3, 0x34, 0x02, 0xff, 0x03, 1, 9, 0x03, 0x10, 0x00, 0x20, 0xff,
                                 0x0f};

static int reads_locations(void)
{
    static const uint8_t pointers[6] = {0, 1, 0xfe, 0xff, 1, 0xfe};
    int good = currantplane_statement(location) == 7 && currantplane_fault(location) == CURRANTPLANE_LEAK;
    for (size_t i = 0; i < 6; i++) good = good && currantplane_pointer(location, i) == pointers[i];
    good = good && currantplane_successor(location, 0) == 1 && currantplane_successor(location, 1) == 0xff;
    return good && currantplane_nodes(location) == 2;
}

static int reads_edges(void)
{
    int ends = currantplane_from(edge) == 0x0234 && currantplane_to(edge) == 0x03ff;
    int first = currantplane_guard(edge, 0) == CURRANTPLANE_IS_ONE && currantplane_guarded(edge, 0) == 9;
    int second = currantplane_guard(edge, 1) == CURRANTPLANE_IS_MORE && currantplane_guarded(edge, 1) == 11;
    int next = currantplane_at(edge, 1) == edge + 32 && currantplane_guard(currantplane_at(edge, 1), 1) == 0;
    return currantplane_branch(edge) == 1 && currantplane_word(edge + 2) == 0x0234 && ends && first && second && next;
}

static int reads_updates(void)
{
    static const uint16_t updates[4] = {0x1003, 0x2000, 0x0fff, 0}, added[4] = {3, 0, 0x0fff, 0};
    static const int constants[4] = {0, 1, -1, -1};
    int good = 1;
    for (size_t i = 0; i < 4; i++) {
        uint16_t update = currantplane_update(edge, i);
        good = good && update == updates[i] && currantplane_added(update) == added[i];
        good = good && currantplane_constant(update) == constants[i];
    }
    return good;
}

/* where a configuration's parts lie */
static int lies(void)
{
    struct currantplane_configuration at = {1, {2, 3, 4, 5, 6, 7, 8, 9, 10, 11, 12, 13}};
    const uint8_t *bytes = (const uint8_t *)&at;
    int good = sizeof at == 52;
    for (size_t i = 0; i < 13; i++) good = good && bytes[4 * i] == i + 1 && bytes[4 * i + 1] == 0;
    return good;
}

/* each call with nothing lent to it but what must be, of which a refused move and walk leave the configuration */
static int answers(void)
{
    struct currantplane_configuration at = {7, {9}};
    size_t places[3] = {9, 9, 9}, made = 9, number = 9;
    uint8_t node = 9;
    int good = currantplane_translate(NULL, 0, NULL, 0, NULL, 0, NULL, 0) == CURRANTPLANE_BAD_LENGTH;
    good = good && currantplane_record(NULL, 0, NULL, 0, 0, 0, 0, 0, NULL, 0) == CURRANTPLANE_NO_RECORD;
    good = good && currantplane_fold(NULL, 0, NULL, 0, NULL, 0, NULL, 0, &places[0]) == CURRANTPLANE_BAD_HEAP;
    good = good && currantplane_unfold(NULL, 0, NULL, 0, NULL, 0, NULL, 0, &places[1], &node) == CURRANTPLANE_BAD_HEAP;
    good = good && currantplane_step(NULL, 0, NULL, 0, NULL, 0, 0, 0, NULL, 0, &places[2]) == CURRANTPLANE_BAD_HEAP;
    good = good && currantplane_move(&at, NULL, 0, NULL, 0, 0, 0, 0) == CURRANTPLANE_NO_MOVE;
    good = good && currantplane_walk(&at, NULL, 0, NULL, 0, 0, 0, NULL, 0, &made) == CURRANTPLANE_NO_MOVE && made == 0;
    good = good && currantplane_ranges(NULL, 0, NULL, 0, 0, 0, 0, NULL, 0, NULL, 0, NULL, 0) == CURRANTPLANE_BAD_PATH;
    good = good && currantplane_search(NULL, 0, 9, NULL, 0, &number) == CURRANTPLANE_NOT_FOUND && number == 0;
    good = good && currantplane_search(edge, 64, 9, edge, 32, &number) == CURRANTPLANE_FOUND && number == 0;
    good = good && currantplane_search(edge, 64, 9, edge + 32, 32, &number) == CURRANTPLANE_FOUND && number == 1;
    good = good && at.location == 7 && at.counters[0] == 9 && at.counters[11] == 0;
    return good && places[0] == 0 && places[1] == 0 && places[2] == 0 && node == 0;
}

/* a stop, and a shape whose node 1 only node 0 leads to: both calls that tell a node tell it */
static int tells_nodes(void)
{
    static const uint8_t shape[12] = {0x48, 0, 0, 2, 0, 0xfe, 0xfe, 0xfe, 0xfe, 0xfe, 1, 0xfe};
    static const uint32_t counters[12] = {1, 1};
    static const size_t wanted[CURRANTPLANE_ANSWER] = {1, 0, 0, 1};
    uint8_t routine[64] = {0x53}, pointers[6], cells[2], node = 9;
    size_t told[CURRANTPLANE_ANSWER] = {9, 9, 9, 9}, place = 9;
    for (size_t i = 0; i < sizeof shape; i++) routine[32 + i] = shape[i];
    uint8_t translated = currantplane_translate(routine, 64, NULL, 0, NULL, 0, told, CURRANTPLANE_ANSWER);
    uint8_t unfolded = currantplane_unfold(routine + 32, 32, counters, 12, pointers, 6, cells, 2, &place, &node);
    int good = translated == CURRANTPLANE_NOT_CORE && unfolded == CURRANTPLANE_NOT_CORE && place == 0 && node == 1;
    for (size_t i = 0; i < CURRANTPLANE_ANSWER; i++) good = good && told[i] == wanted[i];
    for (unsigned n = 0; n < 256; n++)
        good = good && !currantplane_tells_node((uint8_t)n) == !(n == 9 || n == 18 || n == 19);
    return good;
}

int main(void)
{
    if (!reads_locations()) return 1;
    if (!reads_edges()) return 2;
    if (!reads_updates()) return 3;
    if (!answers()) return 4;
    if (!tells_nodes()) return 5;
    return lies() ? 0 : 6;
}
