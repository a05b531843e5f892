/* fits: whether a routine in records, on standard input, fits the controller bench, and which edges lead to a fault. */
#include <currantplane.h>

#include <stdio.h>

static uint8_t input[4096], locations[32 * 128], edges[32 * 256];

/* three refusals are about a node of a shape, which is printed too */
static void print_refusal(uint8_t number, const size_t answer[CURRANTPLANE_ANSWER])
{
    printf("refused %u %zu", (unsigned)number, answer[CURRANTPLANE_PLACE]);
    if (currantplane_tells_node(number)) printf(" %zu", answer[CURRANTPLANE_NODE]);
    printf("\n");
}

int main(void)
{
    size_t length = fread(input, 1, sizeof input, stdin), answer[CURRANTPLANE_ANSWER];
    uint8_t refusal = currantplane_translate(input, length, locations, sizeof locations, edges, sizeof edges, answer,
                                             CURRANTPLANE_ANSWER);
    if (refusal != CURRANTPLANE_ACCEPTED) {
        print_refusal(refusal, answer);
        return 1;
    }
    printf("%zu locations, %zu edges\n", answer[CURRANTPLANE_LOCATION_COUNT], answer[CURRANTPLANE_EDGE_COUNT]);
    for (size_t i = 0; i < answer[CURRANTPLANE_EDGE_COUNT]; i++) {
        const uint8_t *edge = currantplane_at(edges, i), *target = currantplane_at(locations, currantplane_to(edge));
        if (currantplane_fault(target) != CURRANTPLANE_NO_FAULT)
            printf("edge %zu leads to fault %u at statement %u\n", i, (unsigned)currantplane_fault(target),
                   (unsigned)currantplane_statement(target));
    }
    return 0;
}
