/* Opens a table, finds the heaviest run, claims it, finds the next, and aborts the claim; then another run claims the
   same and commits, and the branches tell by whom they are spent.

       run TABLE        for example: run examples/n5.rtn */
#include "hourbench.h"
#include <inttypes.h>
#include <stdio.h>

static uint8_t table[12 * 4096 + 1]; /* the largest table, and a byte more: a longer one is then refused by its size */
static uint16_t marks[4096];         /* one for each branch; all free */

static int refused(const int64_t answer[8]) {
    printf("refused %" PRId64 " row %" PRId64, answer[0], answer[1]);
    if (answer[2]) printf(" ring %" PRId64, answer[2]); /* refusal 11 alone: how many rows the ring has */
    printf("\n");
    return 1;
}

int main(int argc, char **argv) {
    int64_t answer[8];
    FILE *file = argc == 2 ? fopen(argv[1], "rb") : NULL;
    if (!file) {
        fprintf(stderr, "usage: run TABLE\n");
        return 2;
    }
    size_t size = fread(table, 1, sizeof table, file);
    fclose(file);

    if (hb_accept(table, size, answer)) return refused(answer);
    size_t branches = (size_t)answer[3] - 1;
    printf("nodes %" PRId64 " bound %" PRId64 "\n", answer[3], answer[4]);

    if (hb_heaviest(table, size, marks, branches, answer)) return refused(answer);
    uint16_t low = (uint16_t)answer[3], high = (uint16_t)answer[4];
    printf("best %u %u length %" PRId64 " weight %" PRId64 "\n", low, high, answer[5], answer[6]);

    if (hb_claim(table, size, marks, branches, 7, low, high, answer)) return refused(answer);
    printf("run 7 claims %" PRId64 "\n", answer[3]);

    if (hb_heaviest(table, size, marks, branches, answer)) return refused(answer);
    printf("next %" PRId64 " %" PRId64 " length %" PRId64 " weight %" PRId64 "\n",
           answer[3], answer[4], answer[5], answer[6]);

    if (hb_abort(table, size, marks, branches, 7, answer)) return refused(answer);
    printf("run 7 aborted, %" PRId64 " freed\n", answer[3]);

    if (hb_claim(table, size, marks, branches, 8, low, high, answer)) return refused(answer);
    if (hb_commit(table, size, marks, branches, 8, answer)) return refused(answer);
    printf("run 8 committed, %" PRId64 " spent\n", answer[3]);
    for (size_t row = 0; row < branches; row++)
        if (HB_SPENT(marks[row])) printf("row %zu spent by run %u\n", row, HB_RUN(marks[row]));
    return 0;
}
