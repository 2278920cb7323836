/* Change sets, measured (sets.h). A net's table is the changed one; the frozen table is the same, but that the rows
   which the set replaces hold rubbish, so that a set that is not read shows. */
#include "sets.h"
#include "hourbench.h"
#include "nets.h"
#include "timing.h"
#include <stdio.h>
#include <string.h>

enum { NODES = 4096, BRANCHES = NODES - 1, HEADER = 12, ROW = 12, SIZE = HEADER + ROW * BRANCHES };
enum { PAGE = 65536, TEXT = 1 << 18, RUN = 7, RUBBISH = 0xEE };
/* The operations; up to DIMACS_WRITE the short ones, of which so many calls are timed together. */
enum op { ACCEPT, PAIR, HEADS, CLAIM, COMMIT, ABORT, CONVERT, DIMACS_WRITE,
          HEAVIEST, HEAVIEST_EXACT, LISTING, LISTING_EXACT, WINDOW, WINDOW_LIST, VET, OPS };
enum { CALLS = 16 };
static const char *const op_names[OPS] = {"Acceptance", "Pair", "Heads", "Claim", "Commit", "Abort", "Convert",
                                          "Dimacs write", "Heaviest", "Heaviest exact", "Listing", "Listing exact",
                                          "Window", "Window list", "Vet"};
enum { SETS = 3 };
static const size_t entries[SETS] = {0, 1, BRANCHES};

/* What is lent to calls, beside table and set; marks for each of those that are timed together. */
typedef struct {
    uint16_t marks[CALLS][NODES], heads[NODES];
    uint8_t page[PAGE], lengths[TEXT], weights[TEXT];
    int64_t answer[8];
} memory;

/* An operation, on the changed table or, with the set, on the frozen one. */
typedef struct {
    enum op op;
    int with;
    memory *lent;
} asked;

static memory on_changed, with_set;
static uint8_t changed[SIZE], frozen[SIZE], set[6 + 14 * BRANCHES], list[PAGE];
static size_t set_len, list_len;
static int64_t floor_weight, floor_exact;
static uint16_t marks[NODES], low, high; /* the marks as a call finds them; the heaviest run */

#define ASK(name, ...) \
    (q->with ? hb_##name##_with(frozen, SIZE, set, set_len, __VA_ARGS__) : hb_##name(changed, SIZE, __VA_ARGS__))

static void call(const asked *q, uint16_t *lent_marks) {
    memory *m = q->lent;
    switch (q->op) {
    case ACCEPT: ASK(accept, m->answer); break;
    case PAIR: ASK(pair, lent_marks, BRANCHES, low, high, m->answer); break;
    case HEADS: ASK(heads, m->heads, NODES, m->answer); break;
    case CLAIM: ASK(claim, lent_marks, BRANCHES, RUN, low, high, m->answer); break;
    case COMMIT: ASK(commit, lent_marks, BRANCHES, RUN, m->answer); break;
    case ABORT: ASK(abort, lent_marks, BRANCHES, RUN, m->answer); break;
    case CONVERT: ASK(convert, lent_marks, BRANCHES, m->answer); break;
    case DIMACS_WRITE: ASK(dimacs_write, m->lengths, TEXT, m->weights, TEXT, m->answer); break;
    case HEAVIEST: ASK(heaviest, lent_marks, BRANCHES, m->answer); break;
    case HEAVIEST_EXACT: ASK(heaviest_exact, lent_marks, BRANCHES, m->answer); break;
    case LISTING: ASK(listing, lent_marks, BRANCHES, floor_weight, 0, 0, m->page, PAGE, m->answer); break;
    case LISTING_EXACT: ASK(listing_exact, lent_marks, BRANCHES, floor_exact, 0, 0, m->page, PAGE, m->answer); break;
    case WINDOW: ASK(window, lent_marks, BRANCHES, 1, UINT32_MAX, -100, 100, m->answer); break;
    case WINDOW_LIST:
        ASK(window_list, lent_marks, BRANCHES, 1, UINT32_MAX, -100, 100, 0, 0, m->page, PAGE, m->answer);
        break;
    default: ASK(vet, lent_marks, BRANCHES, floor_weight, list, list_len, m->answer);
    }
}

static int calls_of(enum op op) { return op <= DIMACS_WRITE ? CALLS : 1; }

static void prepare(void *with) {
    const asked *q = with;
    for (int i = 0; i < calls_of(q->op); i++) memcpy(q->lent->marks[i], marks, sizeof marks);
}

static void call_all(void *with) {
    const asked *q = with;
    for (int i = 0; i < calls_of(q->op); i++) call(q, q->lent->marks[i]);
}

static void mark_every_third(uint16_t mark, uint16_t other) {
    for (size_t r = 0; r < BRANCHES; r += 3) marks[r] = r % 2 ? other : mark;
}

/* A set of no entry; then the changed table's own row as one more, of which the frozen table has rubbish from then on.
   Rows rise. */
static void begin_set(void) {
    memcpy(frozen, changed, SIZE);
    memcpy(set, "RTN\1\0\1", set_len = 6);
}

static void add_entry(size_t row) {
    uint8_t *entry = set + set_len;
    entry[0] = (uint8_t)row, entry[1] = (uint8_t)(row >> 8);
    memcpy(entry + 2, changed + HEADER + ROW * row, ROW);
    memset(frozen + HEADER + ROW * row, RUBBISH, ROW);
    set_len += 14;
}

/* So many entries, spread over the table. */
static void take_set(size_t many) {
    begin_set();
    for (size_t i = 0; i < many; i++) add_entry((2 * i + 1) * BRANCHES / (2 * many));
}

/* What the operations are asked by, of the changed table, all branches free: the ends of the heaviest run; floors, 50
   below the heaviest runs or, where the listing then has more rows than the page, nearer; its rows, which vet takes.
   Gives 1 where there is no such run or page. */
static int take_net(void) {
    int64_t answer[8];
    memset(marks, 0, sizeof marks);
    if (hb_heaviest_exact(changed, SIZE, marks, BRANCHES, answer)) return 1;
    floor_exact = answer[6] - 50;
    if (hb_heaviest(changed, SIZE, marks, BRANCHES, answer)) return 1;
    low = (uint16_t)answer[3], high = (uint16_t)answer[4];
    int64_t best = answer[6], below = 100;
    do {
        floor_weight = best - (below /= 2);
        if (hb_listing(changed, SIZE, marks, BRANCHES, floor_weight, 0, 0, list, PAGE, answer)) return 1;
    } while (answer[4] && below);
    list_len = 16 * (size_t)answer[3];
    return answer[4] != 0;
}

/* Is an answer not what the net was made for, under free marks? Vet's is a yes; no text is written of version 2. */
static int is_unmeant(enum op op, int refusal, const int64_t answer[8]) {
    if (op == DIMACS_WRITE && changed[3] == 2) refusal = 3;
    return answer[0] != refusal || (op == VET && refusal == 0 && answer[3] != 1);
}

/* Equal answers and memory of every operation, with every branch free, when each gives the refusal (0: none), and with
   every third held or spent. */
static int compare(int refusal, const char *shape, const char *what) {
    int differ = 0;
    for (int marked = 0; marked < 2; marked++) {
        mark_every_third(marked ? RUN : 0, marked ? 0x8000 | 9 : 0);
        for (enum op op = 0; op < OPS; op++) {
            asked one = {op, 0, &on_changed}, other = {op, 1, &with_set};
            memset(&on_changed, 0, sizeof on_changed), memset(&with_set, 0, sizeof with_set);
            prepare(&one), prepare(&other);
            call_all(&one), call_all(&other);
            int wrong = memcmp(&on_changed, &with_set, sizeof with_set) != 0;
            if (!marked) wrong |= is_unmeant(op, refusal, with_set.answer);
            if (wrong) printf("DIFFERENT: %s of %s, %s, set of %zu bytes\n", op_names[op], shape, what, set_len);
            differ |= wrong;
        }
    }
    mark_every_third(0, 0);
    return differ;
}

/* A set of 100 entries; one whose only entry closes a ring, over the net's own table, which has none; sets over the
   table of version 2. */
static int compare_others(int shape) {
    static uint8_t table[SIZE];
    const char *name = shape_names[shape];
    take_set(100);
    int differ = compare(0, name, "100 entries");
    memcpy(table, changed, SIZE);
    close_ring(NODES, changed);
    begin_set(), add_entry(BRANCHES - 1);
    memcpy(frozen, table, SIZE);
    differ |= compare(11, name, "a ring");
    memcpy(changed, table, SIZE), weigh_by_kind(NODES, changed);
    differ |= take_net();
    for (int i = 0; i < SETS; i++) take_set(entries[i]), differ |= compare(0, name, "version 2");
    return differ;
}

static double took[OPS][SETS][SHAPES][2]; /* seconds a call: on the changed table, with a set */

/* Claim begins from free branches; commit and abort have each third branch to change. */
static void measure(enum op op, double seconds[2]) {
    asked one = {op, 0, &on_changed}, other = {op, 1, &with_set};
    void *const both[2] = {&one, &other};
    if (op == COMMIT || op == ABORT) mark_every_third(RUN, RUN);
    second_least_of_two(prepare, call_all, both, seconds);
    for (int i = 0; i < 2; i++) seconds[i] /= calls_of(op);
    mark_every_third(0, 0);
}

/* From the least to the most of the five shapes, of the ratio or of the milliseconds on the changed table. */
static void print_range(double of[SHAPES][2], int ratio) {
    double least = 1e9, most = 0;
    for (int s = 0; s < SHAPES; s++) {
        double x = ratio ? of[s][1] / of[s][0] : 1e3 * of[s][0];
        if (x < least) least = x;
        if (x > most) most = x;
    }
    printf(ratio ? " %.2f to %.2f |" : " %.3g to %.3g |", least, most);
}

static void print_sets(void) {
    printf("#### With a change set\n\n");
    printf("4,096 nodes: milliseconds on the changed table, and how many times as long the same operation takes with a "
           "set\nover the frozen one, by the set's entries; from the least to the most of the five shapes.\n\n");
    printf("| operation | changed table | no entry | 1 entry | 4,095 entries |\n|---|---|---|---|---|\n");
    for (enum op op = 0; op < OPS; op++) {
        printf("| %s |", op_names[op]);
        print_range(took[op][0], 0);
        for (int i = 0; i < SETS; i++) print_range(took[op][i], 1);
        printf("\n");
    }
    printf("\n");
}

int measure_sets(void) {
    int differ = 0;
    for (int s = 0; s < SHAPES; s++) {
        make_net(s, NODES, VARIED, changed);
        differ |= take_net();
        for (int i = 0; i < SETS; i++) {
            fprintf(stderr, "bench: %s with a change set, entries: %zu\n", shape_names[s], entries[i]);
            take_set(entries[i]);
            differ |= compare(0, shape_names[s], "version 1");
            for (enum op op = 0; op < OPS; op++) measure(op, took[op][i][s]);
        }
        differ |= compare_others(s);
    }
    print_sets();
    return differ;
}
