/* What was met, counted, and how often each must have come. */
#include "check.h"

#include <inttypes.h>
#include <stdio.h>

enum { REFUSALS = 24, NODES = CURRANTPLANE_MOST_NODES, ENOUGH = 20 };

static const char *const group_names[GROUPS] = {"translations at the bench's sizes", "translations in other tables",
                                                "folds", "unfoldings", "steps", "records", "moves", "walks",
                                                "paths from ranges"};
static uint64_t refusals[GROUPS][REFUSALS];
/* how often each refusal must have come */
static const uint64_t refusal_floors[GROUPS][REFUSALS] = {
    {3000, 100, 100, 100, 100, 100, 100, 100, 100, 1000, 100, 300, 300, [18] = 1000, [19] = 1000},
    {1000, 20, 20, 20, 20, 20, 20, 20, 20, 300, 20, 300, 300, [18] = 300, [19] = 300},
    {[0] = 10000, [13] = 300, [14] = 300},
    {[0] = 2000, [8] = 50, [9] = 1000, [13] = 50, [15] = 50, [18] = 1000, [19] = 1000},
    {[0] = 10000, [4] = 50, [5] = 50, [6] = 50, [7] = 50, [13] = 100, [14] = 100, [16] = 100},
    {[0] = 1000, [17] = 1000},
    {[0] = 2000, [20] = 3000, [21] = 200},
    {[0] = 2000, [20] = 3000, [21] = 300},
    {[0] = 2500, [22] = 500, [23] = 1500},
};

/* The refusals about a node: how often each came at each, in translations and in unfoldings. 19 cannot come at the last
 * node of a shape, since the numbers that the walk gives are all different: the last one that is left is its own. */
static const struct {
    uint8_t refusal;
    size_t nodes;
} at_nodes[3] = {{CURRANTPLANE_UNREACHABLE, NODES},
                 {CURRANTPLANE_NOT_CORE, NODES},
                 {CURRANTPLANE_BAD_NUMBERING, NODES - 1}};
static const char *const damaged_names[2] = {"in translations", "in unfoldings"};
static uint64_t damaged[2][3][NODES];
enum { NODE_FLOOR = 150 };

static struct {
    const char *name;
    uint64_t floor, times;
} mets[METS] = {
    [BENCH_TRIALS] = {"translations at the bench's sizes", 20000, 0},
    [BENCH_128] = {"  exactly 128 locations", 40, 0},
    [BENCH_129] = {"  exactly 129 locations", 40, 0},
    [BENCH_256] = {"  exactly 256 edges", 40, 0},
    [BENCH_257] = {"  exactly 257 edges", 40, 0},
    [BENCH_FULL] = {"  both 128 locations and 256 edges", 40, 0},
    [JUST_FIT] = {"tables that the listing just fits", 300, 0},
    [RECORD_SHORT] = {"tables one record too short", 300, 0},
    [BYTE_SHORT] = {"tables one byte too short", 300, 0},
    [NO_BYTES] = {"tables without a byte", 100, 0},
    [ODD_LENGTH] = {"tables with bytes after the last place", 500, 0},
    [PAST_FULL] = {"listings that full tables do not hold", 20, 0},
    [RECORDS_READ] = {"records put together again", 500000, 0},
    [TWELVE_NODES] = {"  locations of twelve nodes", 300, 0},
    [DROP_LISTINGS] = {"listings with a location at a drop", 2000, 0},
    [DROP_LOCATIONS] = {"  such locations", 5000, 0},
    [NODES_VANISH] = {"  of which a node vanishes", 2000, 0},
    [OP_14_LISTED] = {"translations refused for op 14", 20, 0},
    [FOLD_TRIALS] = {"folds", 20000, 0},
    [TWELVE_FOLDED] = {"  to shapes of twelve nodes", 20, 0},
    [UNFOLD_TRIALS] = {"unfoldings", 5000, 0},
    [STEP_TRIALS] = {"steps", 20000, 0},
    [FAULT_1] = {"  fault 1", 100, 0},
    [FAULT_2] = {"  fault 2", 100, 0},
    [FAULT_3] = {"  fault 3", 100, 0},
    [STOPS] = {"  stops", 100, 0},
    [SECOND_BRANCHES] = {"  branch 1", 100, 0},
    [COLLECTING] = {"  drops that collect cells", 2000, 0},
    [NOT_COLLECTING] = {"  drops that collect none", 1000, 0},
    [OP_14_STEPPED] = {"  refused for op 14", 100, 0},
    [RECORD_TRIALS] = {"records of any tables", 5000, 0},
    [MOVE_TRIALS] = {"moves", 10000, 0},
    [WALK_TRIALS] = {"walks", 10000, 0},
    [MOVES_MADE] = {"  moves made in them", 300000, 0},
    [LONGEST_WALKS] = {"  of 4,096 moves", 50, 0},
    [TOO_LONG] = {"  longer than 4,096", 80, 0},
    [EMPTY_WALKS] = {"  without a move, accepted", 300, 0},
    [EMPTY_REFUSED] = {"  without a move, refused", 300, 0},
    [STOPPED_LATE] = {"  refused after a move", 800, 0},
    [LARGE_COUNTERS] = {"  to a counter of 2^32 - 1", 200, 0},
    [ABOVE_PLACES] = {"  with a count above the places", 500, 0},
    [BYTES_SHORT] = {"    by one byte", 100, 0},
    [NULL_EDGES] = {"  accepted, and the edges null", 50, 0},
    [SINGLE_MOVES] = {"moves one by one", 10000, 0},
    [CUT_WALKS] = {"walks cut in two", 5000, 0},
    [SEARCH_TRIALS] = {"searches", 10000, 0},
    [FOUND_OF_SEVERAL] = {"  the newest of several", 1500, 0},
    [FOUND_NEWEST] = {"  right before the count", 1400, 0},
    [FOUND_OLDEST] = {"  number 0, of a count above 1", 400, 0},
    [NONE_FOUND] = {"  none", 3000, 0},
    [PAST_COUNT] = {"    but right past the count", 400, 0},
    [PAST_1024] = {"    but from 1,024 on", 30, 0},
    [COUNT_CUT] = {"  with a count above the places", 2400, 0},
    [OTHER_LENGTH] = {"  for a record not of 32 bytes", 1200, 0},
    [PART_OF_PLACE] = {"  with bytes after the last place", 2000, 0},
    [LONG_TABLES] = {"  with more than 1,024 places", 500, 0},
    [NULL_TABLE] = {"  in a null table", 100, 0},
    [NULL_RECORD] = {"  for a null record", 150, 0},
    [LOCATIONS_FOUND] = {"locations of a listing found", 10000, 0},
    [EDGES_SOUGHT] = {"edges of a listing not found", 5000, 0},
    [RANGES_TRIALS] = {"paths from ranges", 6000, 0},
    [FOLLOWED] = {"  followed by some start", 2000, 0},
    [TO_A_FAULT] = {"    to a fault", 500, 0},
    [ABOVE_65535] = {"    to a counter above 65,535", 80, 0},
    [LONGEST_PATHS] = {"    along 4,096 edges", 60, 0},
    [ENDED] = {"  followed by none", 500, 0},
    [ENDED_LATER] = {"    after an edge", 300, 0},
    [SHORT_WRITTEN] = {"  fewer than 24 numbers, written", 500, 0},
    [LONGER_LEFT] = {"  more than 24 numbers, the rest left", 80, 0},
    [STARTS_WALKED] = {"starts walked along such paths", 15000, 0},
    [DAMAGED_TRANSLATED] = {"damaged H records, in translations", 7000, 0},
    [DAMAGED_UNFOLDED] = {"damaged H records, in unfoldings", 7000, 0},
    [DAMAGED] = {"  in all", 14000, 0},
    [NULLS] = {"kinds of buffers often lent as null", SLOTS - 5, 0},
    /* up to two more than the call tells: 0 to 6 for a translation and a step, 0 to 5 for a record and for ranges */
    [ANSWERS] = {"lengths of answers often lent", 7 + 7 + 6 + 6, 0},
    [ODD_ADDRESSES] = {"buffers at odd addresses", 10000, 0},
    [AT_PAGES] = {"buffers before an inaccessible page", 10000, 0},
};

void met(enum met what, uint64_t times) { mets[what].times += times; }

void met_refusal(enum group group, const struct told *told)
{
    int unfolded = group == OF_UNFOLD, about_node = 0;
    sound(told->refusal < REFUSALS);
    refusals[group][told->refusal]++;
    for (int i = 0; i < 3; i++) {
        if (told->refusal != at_nodes[i].refusal) continue;
        about_node = 1;
        sound(told->node < at_nodes[i].nodes);
        damaged[unfolded][i][told->node]++;
        met(unfolded ? DAMAGED_UNFOLDED : DAMAGED_TRANSLATED, 1);
        met(DAMAGED, 1);
    }
    sound(about_node || told->node == 0);
}

static void test_refusals(void)
{
    for (int group = 0; group < GROUPS; group++) {
        printf("%s, by refusal:", group_names[group]);
        for (int refusal = 0; refusal < REFUSALS; refusal++) {
            if (refusals[group][refusal]) printf(" %d: %" PRIu64, refusal, refusals[group][refusal]);
        }
        printf("\n");
        for (int refusal = 0; refusal < REFUSALS; refusal++) {
            uint64_t floor = refusal_floors[group][refusal];
            if (floor) test(refusals[group][refusal] >= floor, "a refusal came too seldom");
        }
    }
}

static void test_nodes(void)
{
    for (int kind = 0; kind < 2; kind++) {
        for (int i = 0; i < 3; i++) {
            printf("%d %s, by node (floor: %d each):", at_nodes[i].refusal, damaged_names[kind], NODE_FLOOR);
            for (size_t node = 0; node < at_nodes[i].nodes; node++) printf(" %" PRIu64, damaged[kind][i][node]);
            printf("\n");
            for (size_t node = 0; node < at_nodes[i].nodes; node++)
                test(damaged[kind][i][node] >= NODE_FLOOR, "a refusal came too seldom at a node");
        }
    }
}

void test_floors(void)
{
    test_refusals();
    test_nodes();
    /* all but the place, the node, the configuration, the moves made and the number, which may not be null */
    for (int slot = 0; slot < SLOTS; slot++) met(NULLS, lent_null[slot] >= ENOUGH);
    for (int which = 0; which < CALLS; which++)
        for (int length = 0; length <= LONGEST_ANSWER; length++) met(ANSWERS, lent_answers[which][length] >= ENOUGH);
    met(ODD_ADDRESSES, lent_odd);
    met(AT_PAGES, lent_at_page);
    for (int what = 0; what < METS; what++) {
        printf("%-40s %9" PRIu64 " (floor: %" PRIu64 ")\n", mets[what].name, mets[what].times, mets[what].floor);
        test(mets[what].times >= mets[what].floor, "fewer than the floor");
    }
}
