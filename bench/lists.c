/* The router's lists, measured (lists.h). A list is the whole listing of a net, as the plain scan gives it in one call,
   with its rows shuffled; or that with a fault. */
#include "lists.h"
#include "hourbench.h"
#include "nets.h"
#include "scan.h"
#include "timing.h"
#include <stdio.h>
#include <stdlib.h>
#include <string.h>

enum { SIZES = 3, ROW = 16, MOST_ROWS = 4096 * 4095 / 2 };
static const size_t sizes[SIZES] = {256, 1024, 4096};

/* The pairs listed: every pair, by the greatest bound and the least floor; or few, within the net's own bound, by the
   least floor that leaves no more than one pair in 84. */
enum pairs { EVERY, FEW, PAIRS };
static const char *const pairs_names[PAIRS] = {"every pair", "one pair in 84"};

/* What is done to a list: nothing; a bit turned in a row near its end; in its last row's place its first once more; its
   last row left out. */
enum fault { NONE, BIT, REPEAT, SHORT, FAULTS };

/* What is measured: a listing in one call with room for all rows, the same with room for one, vetting by the scan and
   by the library, and by the library where a row near the end is at fault. */
enum measured { ALL_ROWS, ONE_ROW, SCAN, LIBRARY, AT_FAULT, MEASURED };

static uint8_t table[12 * 4096], *listed_scan, *listed_library, *list, spare[ROW];
static uint16_t marks[4096];
static size_t n, table_len, many, list_len;
static int64_t floor_weight, answer_scan[8], answer[8];
static uint64_t seed;

static uint8_t *rows_lent(void) {
    uint8_t *rows = malloc((size_t)ROW * MOST_ROWS);
    if (!rows) {
        perror("bench: room for every pair");
        exit(2);
    }
    return rows;
}

/* The listing, by either, with room for so many rows. */
static void list_by_scan(size_t rows) {
    scan_listing(table, table_len, marks, n - 1, floor_weight, 0, 0, listed_scan, ROW * rows, answer_scan);
}

static void list_by_library(void *rows) {
    hb_listing(table, table_len, marks, n - 1, floor_weight, 0, 0, listed_library, ROW * *(size_t *)rows, answer);
}

static void vet_by_scan(void *unused) {
    (void)unused;
    scan_vet(table, table_len, marks, n - 1, floor_weight, list, list_len, answer_scan);
}

static void vet_by_library(void *unused) {
    (void)unused;
    hb_vet(table, table_len, marks, n - 1, floor_weight, list, list_len, answer);
}

/* The least floor that at most so many rows of the scan's listing reach. */
static int64_t floor_for(size_t most) {
    enum { EDGE = 100 * 4095 }; /* no path of these nets weighs more, or less than its opposite */
    static uint32_t weighs[2 * EDGE + 1];
    int64_t floor = EDGE + 1;
    memset(weighs, 0, sizeof weighs);
    for (size_t r = 0; r < (size_t)answer_scan[3]; r++) {
        int64_t weight;
        memcpy(&weight, listed_scan + ROW * r + 8, 8);
        weighs[weight + EDGE]++;
    }
    while (floor > -EDGE && weighs[floor - 1 + EDGE] <= most) most -= weighs[--floor + EDGE];
    return floor;
}

static void swap_rows(uint8_t *one, uint8_t *other) {
    uint8_t row[ROW];
    memcpy(row, one, ROW), memcpy(one, other, ROW), memcpy(other, row, ROW);
}

static void shuffle_rows(void) {
    for (size_t i = many; i > 1; i--) swap_rows(list + ROW * (i - 1), list + ROW * (next_number(&seed) % i));
}

/* The row near the list's end in which a bit is turned: a hundredth of the list before the last row. */
static size_t near_end(void) { return many - 1 - many / 100; }

/* The list of the table under the marks. With 100 rows or more the one near its end is another than its last, which the
   other faults take; a shorter list ends the bench. Gives 1 where the library's listing has not the same rows. */
static int take_list(enum pairs pairs) {
    floor_weight = INT64_MIN;
    if (pairs == EVERY) memset(table + 8, 255, 4);
    list_by_scan(MOST_ROWS);
    if (pairs == FEW) {
        floor_weight = floor_for(n * (n - 1) / 2 / 84);
        list_by_scan(MOST_ROWS);
    }
    many = (size_t)answer_scan[3];
    if (many < 100) {
        fprintf(stderr, "bench: a list of %zu nodes has %zu rows, which are too few\n", n, many);
        exit(2);
    }
    list_by_library(&many);
    memcpy(list, listed_scan, ROW * many);
    shuffle_rows();
    memcpy(spare, list, ROW);
    return memcmp(answer, answer_scan, sizeof answer) || memcmp(listed_scan, listed_library, ROW * many);
}

/* The list with a fault; once more, and its rows are as they were. */
static void spoil(enum fault fault) {
    list_len = ROW * (fault == SHORT ? many - 1 : many);
    if (fault == BIT) list[ROW * near_end() + 8] ^= 1;
    if (fault == REPEAT) swap_rows(list + ROW * (many - 1), spare);
}

/* Did both find what the list was made for? */
static int is_wrong(enum fault fault) {
    const uint8_t *last = list + ROW * (many - 1);
    int64_t made[8] = {[3] = fault == NONE ? 1 : fault == SHORT ? 3 : 2};
    if (fault == BIT) made[4] = (int64_t)near_end();
    if (fault == REPEAT) made[4] = (int64_t)(many - 1);
    if (fault == SHORT) made[5] = last[0] + 256 * last[1], made[6] = last[2] + 256 * last[3];
    return memcmp(answer, made, sizeof made) || memcmp(answer_scan, made, sizeof made);
}

/* Each fault by itself, few pairs, on the table and the marks as they stand. */
static int compare_faults(void) {
    int wrong = take_list(FEW);
    for (enum fault fault = NONE; fault < FAULTS; fault++) {
        spoil(fault);
        vet_by_scan(NULL), vet_by_library(NULL);
        wrong |= is_wrong(fault);
        spoil(fault);
    }
    list_len--; /* 32 */
    vet_by_scan(NULL), vet_by_library(NULL);
    return wrong | (answer[0] != 32 || memcmp(answer, answer_scan, sizeof answer));
}

/* The net, free and with every third branch held or spent; the same by kinds, in version 2. */
static int compare_net(int shape) {
    int wrong = 0;
    for (int version = 1; version <= 2; version++) {
        table_len = make_net(shape, n, VARIED, table);
        if (version == 2) weigh_by_kind(n, table);
        memset(marks, 0, sizeof marks);
        wrong |= compare_faults();
        for (size_t r = 0; r + 1 < n; r += 3) marks[r] = r % 2 ? 0x8000 | 7 : 9;
        wrong |= compare_faults();
    }
    return wrong;
}

/* Seconds a call, of one net and one list. */
static int measure_list(enum pairs pairs, double took[MEASURED]) {
    size_t one = 1;
    int wrong = take_list(pairs);
    took[ALL_ROWS] = second_least(NULL, list_by_library, &many);
    took[ONE_ROW] = second_least(NULL, list_by_library, &one);
    spoil(NONE);
    took[SCAN] = second_least(NULL, vet_by_scan, NULL);
    took[LIBRARY] = second_least(NULL, vet_by_library, NULL);
    wrong |= is_wrong(NONE);
    spoil(BIT);
    vet_by_scan(NULL);
    took[AT_FAULT] = second_least(NULL, vet_by_library, NULL);
    wrong |= is_wrong(BIT);
    spoil(BIT);
    return wrong;
}

static double took[SHAPES][SIZES][PAIRS][MEASURED];
static size_t rows_of[SHAPES][PAIRS]; /* at the last size */

/* What was measured beside the listing with room for all rows; of vetting by the library the scan's too. */
static void print_times(const char *what, enum pairs pairs, const char *rest, enum measured which) {
    printf("#### %s: %s%s\n\n| shape | 256 nodes | 1,024 nodes | 4,096 nodes |\n|---|---|---|---|\n", what,
           pairs_names[pairs], rest);
    for (int s = 0; s < SHAPES; s++) {
        printf("| %s |", shape_names[s]);
        for (int z = 0; z < SIZES; z++) {
            double *t = took[s][z][pairs];
            printf(" %.3g /", 1e3 * t[ALL_ROWS]);
            if (which == LIBRARY) printf(" %.3g /", 1e3 * t[SCAN]);
            printf(" %.3g (%.2f", 1e3 * t[which], t[which] / t[ALL_ROWS]);
            if (which == LIBRARY) printf(", %.3g", t[SCAN] / t[which]);
            printf(") |");
        }
        printf("\n");
    }
    printf("\n");
}

static void print_lists(void) {
    enum pairs pairs;
    printf("Of the router's lists: milliseconds, the library's listing of the same pairs in one call / plain scan's\n"
           "vet / library's vet, and in brackets the last by the first, and how many times faster than the scan it\n"
           "is. Rows of one pair in 84 at 4,096 nodes:\n");
    for (int s = 0; s < SHAPES; s++)
        printf("%s %zu%s", shape_names[s], rows_of[s][FEW], s + 1 < SHAPES ? ", " : ".\n\n");
    for (pairs = EVERY; pairs < PAIRS; pairs++) print_times("Vet", pairs, "", LIBRARY);
    printf("The same listing / library's vet of the list with a row at fault near its end, or the same listing / one\n"
           "with room for one row, and in brackets the second by the first.\n\n");
    for (pairs = EVERY; pairs < PAIRS; pairs++) print_times("Vet", pairs, ", a row at fault", AT_FAULT);
    for (pairs = EVERY; pairs < PAIRS; pairs++) print_times("Listing", pairs, ", room for one row", ONE_ROW);
}

int measure_lists(void) {
    int differ = 0;
    listed_scan = rows_lent(), listed_library = rows_lent(), list = rows_lent();
    for (int s = 0; s < SHAPES; s++)
        for (int z = 0; z < SIZES; z++) {
            n = sizes[z], seed = n;
            fprintf(stderr, "bench: the lists of %s, %zu nodes\n", shape_names[s], n);
            int wrong = compare_net(s);
            for (enum pairs pairs = EVERY; pairs < PAIRS; pairs++) {
                table_len = make_net(s, n, VARIED, table);
                memset(marks, 0, sizeof marks);
                wrong |= measure_list(pairs, took[s][z][pairs]);
                rows_of[s][pairs] = many;
            }
            if (wrong) printf("DIFFERENT: the lists of %s with %zu nodes\n", shape_names[s], n);
            differ |= wrong;
        }
    free(listed_scan), free(listed_library), free(list);
    print_lists();
    return differ;
}
