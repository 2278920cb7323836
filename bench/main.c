/* Measures the library beside the plain scan: one run, the same tables, marks and buffers, lent to both. Writes the
   figures to standard output, the plot of heaviest, with the second argument below it, to the file that the first
   names, and how far it is to standard error. Ends with status 1 where the two give different answers, a window has no
   pair, a list is not vetted as it was made, an operation with a change set differs from the same one on the changed
   table, a table made row by row is not the one that it was made of, or a mesh has not the answer that it was made
   for. */
#include "hourbench.h"
#include "lists.h"
#include "meshes.h"
#include "nets.h"
#include "rows.h"
#include "scan.h"
#include "sets.h"
#include "timing.h"
#include "trades.h"
#include <math.h>
#include <stdio.h>
#include <stdlib.h>
#include <string.h>

enum { SIZES = 3, PAGE = 65536 };
/* The operations that are measured, and from OPS on those that are only compared; 2: of the table of version 2. */
enum op { HEAVIEST, HEAVIEST_EXACT, LISTING, LISTING_EXACT, WINDOW, WINDOW_LIST, WINDOW_HALF, WINDOW_LIST_HALF,
          PAIR, PAIR_2, CLAIM, CONVERT, ACCEPT, ACCEPT_2, RING, OPS,
          RING_2 = OPS, HEAVIEST_2, LISTING_2, WINDOW_2, WINDOW_LIST_2, COMMIT, ALL };
static const size_t sizes[SIZES] = {256, 1024, 4096};
static const char *op_names[ALL] = {"Heaviest", "Heaviest exact", "Listing", "Listing exact", "Window", "Window list",
                                    "Window with an upper limit", "Window list with an upper limit",
                                    "Pair", "Pair, version 2", "Claim and abort", "Convert", "Acceptance",
                                    "Acceptance, version 2", "Refusal 11", "Refusal 11, version 2",
                                    "Heaviest, version 2", "Listing, version 2", "Window, version 2",
                                    "Window list, version 2", "Claim and commit"};

static uint8_t table[12 * 4096], table_2[12 * 4096], ringed[12 * 4096], ringed_2[12 * 4096];
static uint8_t page_scan[PAGE], page_library[PAGE];
static uint16_t marks_scan[4096], marks_library[4096];
static size_t n, table_len;
static double took[SHAPES][SIZES][OPS][2]; /* seconds a call: scan, library */
static double equal_took[SHAPES][OPS];     /* the library's, 4,096 nodes, all lengths equal; heaviest and
                                              listing alone */
static int64_t best[8], best_exact[8], best_2[8];
/* The window: from one branch on, with no upper limit or, where that is said, up to one more than half of the net's
   most; and from SUM_LOW to SUM_HIGH. Every branch of the nets weighs so much, marked or
   not, so that on each of them some pair is in it. */
enum { SUM_LOW = -100, SUM_HIGH = 100 };
static uint32_t count_high;
static int differ;

static uint64_t seed;

/* One call (claim and abort, claim and commit: two) by the scan or the library. */
static void call(int op, int library, uint16_t a, uint16_t b, int64_t answer[8]) {
    uint16_t *marks = library ? marks_library : marks_scan;
    uint8_t *page = library ? page_library : page_scan;
    size_t m = n - 1;
    switch (op) {
    case HEAVIEST: (library ? hb_heaviest : scan_heaviest)(table, table_len, marks, m, answer); break;
    case HEAVIEST_EXACT: (library ? hb_heaviest_exact : scan_heaviest_exact)(table, table_len, marks, m, answer); break;
    case LISTING:
        (library ? hb_listing : scan_listing)(table, table_len, marks, m, best[6] - 50, 0, 0, page, PAGE, answer);
        break;
    case LISTING_EXACT:
        (library ? hb_listing_exact : scan_listing_exact)(table, table_len, marks, m, best_exact[6] - 50, 0, 0,
                                                          page, PAGE, answer);
        break;
    case PAIR:
    case PAIR_2:
        (library ? hb_pair : scan_pair)(op == PAIR ? table : table_2, table_len, marks, m, a, b, answer);
        answer[5] = 0; /* hops, which a scan does not have */
        break;
    case ACCEPT:
    case ACCEPT_2: (library ? hb_accept : scan_accept)(op == ACCEPT ? table : table_2, table_len, answer); break;
    case HEAVIEST_2: (library ? hb_heaviest : scan_heaviest)(table_2, table_len, marks, m, answer); break;
    case LISTING_2:
        (library ? hb_listing : scan_listing)(table_2, table_len, marks, m, best_2[6] - 50, 0, 0, page, PAGE, answer);
        break;
    case WINDOW:
    case WINDOW_HALF:
    case WINDOW_2:
        (library ? hb_window : scan_window)(op == WINDOW_2 ? table_2 : table, table_len, marks, m, 1,
                                            op == WINDOW ? UINT32_MAX : count_high, SUM_LOW, SUM_HIGH, answer);
        break;
    case WINDOW_LIST:
    case WINDOW_LIST_HALF:
    case WINDOW_LIST_2:
        (library ? hb_window_list : scan_window_list)(op == WINDOW_LIST_2 ? table_2 : table, table_len, marks, m, 1,
                                                      op == WINDOW_LIST ? UINT32_MAX : count_high, SUM_LOW, SUM_HIGH,
                                                      0, 0, page, PAGE, answer);
        break;
    case CONVERT: (library ? hb_convert : scan_convert)(table, table_len, marks, m, answer); break;
    case RING:
    case RING_2: (library ? hb_accept : scan_accept)(op == RING ? ringed : ringed_2, table_len, answer); break;
    default:
        (library ? hb_claim : scan_claim)(table, table_len, marks, m, 7, (uint16_t)best[3], (uint16_t)best[4], answer);
        if (op == CLAIM) (library ? hb_abort : scan_abort)(table, table_len, marks, m, 7, answer);
        else (library ? hb_commit : scan_commit)(table, table_len, marks, m, 7, answer);
    }
}

/* An operation, by the scan or the library, between two nodes; its answer. */
typedef struct {
    int op, library;
    uint16_t a, b;
    int64_t answer[8];
} asked;

static void next_nodes(void *with) {
    asked *q = with;
    q->a = (uint16_t)(next_number(&seed) % n);
    q->b = (uint16_t)((q->a + 1 + next_number(&seed) % (n - 1)) % n);
}

static void call_asked(void *with) {
    asked *q = with;
    call(q->op, q->library, q->a, q->b, q->answer);
}

static double measure(int op, int library) {
    asked q = {.op = op, .library = library};
    seed = 77;
    return second_least(next_nodes, call_asked, &q);
}

/* Has a window no pair, or its list no row, by this answer? Such a window would not do. */
static int is_empty(int op, const int64_t answer[8]) {
    if (op == WINDOW || op == WINDOW_HALF || op == WINDOW_2) return answer[0] != 0;
    return (op == WINDOW_LIST || op == WINDOW_LIST_HALF || op == WINDOW_LIST_2) && answer[3] == 0;
}

/* Equal answers, page and marks; for pair on fifty pairs. Leaves the marks as they were. */
static void compare(int op, const char *shape) {
    uint16_t before[4096];
    memcpy(before, marks_scan, sizeof before);
    seed = 78;
    for (int i = 0; i < (op == PAIR || op == PAIR_2 ? 50 : 1); i++) {
        asked q = {.op = op};
        int64_t y[8];
        next_nodes(&q);
        call_asked(&q);
        call(op, 1, q.a, q.b, y);
        if (memcmp(q.answer, y, sizeof y) || memcmp(page_scan, page_library, PAGE) ||
            memcmp(marks_scan, marks_library, sizeof marks_scan)) {
            printf("DIFFERENT: %s of %s with %zu nodes\n", op_names[op], shape, n);
            differ = 1;
        }
        if (is_empty(op, q.answer)) {
            printf("EMPTY: %s of %s with %zu nodes\n", op_names[op], shape, n);
            differ = 1;
        }
    }
    memcpy(marks_scan, before, sizeof before), memcpy(marks_library, before, sizeof before);
}

/* Two marks in turn, on every third branch. */
static void mark_every_third(uint16_t mark, uint16_t other) {
    for (size_t r = 0; r + 1 < n; r += 3) marks_scan[r] = marks_library[r] = r % 2 ? other : mark;
}

/* The next net of a shape, all branches free; its heaviest runs are what listings and claims go by, its most branches
   what windows do. Beside it the same net weighed by kind, and both with a ring. */
static void take_net(int shape, size_t nodes, enum lengths lengths) {
    n = nodes;
    table_len = make_net(shape, n, lengths, table);
    memcpy(table_2, table, table_len), weigh_by_kind(n, table_2);
    memcpy(ringed, table, table_len), close_ring(n, ringed);
    memcpy(ringed_2, table_2, table_len), close_ring(n, ringed_2);
    memset(marks_scan, 0, sizeof marks_scan), memset(marks_library, 0, sizeof marks_library);
    memset(page_scan, 0, PAGE), memset(page_library, 0, PAGE);
    scan_heaviest(table, table_len, marks_scan, n - 1, best);
    scan_heaviest_exact(table, table_len, marks_scan, n - 1, best_exact);
    scan_heaviest(table_2, table_len, marks_scan, n - 1, best_2);
    int64_t most[8];
    scan_window(table, table_len, marks_scan, n - 1, 1, UINT32_MAX, INT64_MIN, INT64_MAX, most);
    count_high = (uint32_t)most[5] / 2 + 1;
}

/* The same under marks, held by run 9 and spent by run 7, so that what a marked row weighs is compared too, and that a
   commit or abort of run 7 leaves what it has spent; and under old marks that convert takes. */
static void compare_marked(const char *shape) {
    mark_every_third(9, 0x8000 | 7);
    for (int op = 0; op < ALL; op++) compare(op, shape);
    mark_every_third(9, 65535);
    compare(CONVERT, shape);
    mark_every_third(0, 0);
}

#define X(i) (90 + 250 * (double)(i))
static double low_y, high_y;
static double y_of(double seconds) { return 420 - 370 * (log10(seconds) - low_y) / (high_y - low_y); }

static void plot(const char *path, const char *machine) {
    FILE *f = fopen(path, "w");
    if (!f) {
        perror(path);
        exit(2);
    }
    static const char *colour[2] = {"#b4502d", "#1f6f8b"}, *who[2] = {"plain scan in C", "library"};
    double least = 1e9, most = 0;
    for (int s = 0; s < SHAPES; s++)
        for (int z = 0; z < SIZES; z++)
            for (int w = 0; w < 2; w++) {
                double t = took[s][z][0][w];
                if (t < least) least = t;
                if (t > most) most = t;
            }
    low_y = floor(log10(least)), high_y = ceil(log10(most));
    fprintf(f, "<svg xmlns=\"http://www.w3.org/2000/svg\" viewBox=\"0 0 760 480\" font-family=\"sans-serif\" "
               "font-size=\"13\">\n");
    fprintf(f, "<rect width=\"760\" height=\"480\" fill=\"white\"/>\n"
               "<text x=\"90\" y=\"28\" font-size=\"16\">Heaviest: time of a call against nodes</text>\n");
    for (int d = (int)low_y; d <= (int)high_y; d++) {
        double y = y_of(pow(10, d)), ms = pow(10, d + 3);
        fprintf(f, "<line x1=\"90\" x2=\"590\" y1=\"%.1f\" y2=\"%.1f\" stroke=\"#ddd\"/>"
                   "<text x=\"82\" y=\"%.1f\" text-anchor=\"end\">%g ms</text>\n",
                y, y, y + 4, ms);
    }
    for (int z = 0; z < SIZES; z++)
        fprintf(f, "<line x1=\"%.0f\" x2=\"%.0f\" y1=\"50\" y2=\"420\" stroke=\"#ddd\"/>"
                   "<text x=\"%.0f\" y=\"440\" text-anchor=\"middle\">%zu nodes</text>\n",
                X(z), X(z), X(z), sizes[z]);
    for (int w = 0; w < 2; w++) {
        int order[SHAPES] = {0, 1, 2, 3, 4};
        for (int i = 0; i < SHAPES; i++)
            for (int j = i + 1; j < SHAPES; j++)
                if (took[order[j]][2][0][w] > took[order[i]][2][0][w]) {
                    int o = order[i];
                    order[i] = order[j], order[j] = o;
                }
        double at = 0;
        for (int i = 0; i < SHAPES; i++) {
            int s = order[i];
            fprintf(f, "<polyline fill=\"none\" stroke=\"%s\" stroke-width=\"1.8\" points=\"", colour[w]);
            for (int z = 0; z < SIZES; z++) fprintf(f, "%.1f,%.1f ", X(z), y_of(took[s][z][0][w]));
            fprintf(f, "\"/>\n");
            for (int z = 0; z < SIZES; z++)
                fprintf(f, "<circle cx=\"%.1f\" cy=\"%.1f\" r=\"3\" fill=\"%s\"/>\n",
                        X(z), y_of(took[s][z][0][w]), colour[w]);
            double y = y_of(took[s][2][0][w]) + 4;
            if (i > 0 && y < at + 15) y = at + 15;
            at = y;
            if (i == 0)
                fprintf(f, "<text x=\"602\" y=\"%.1f\" fill=\"%s\" font-weight=\"bold\">%s</text>\n",
                        y - 18, colour[w], who[w]);
            fprintf(f, "<text x=\"602\" y=\"%.1f\" fill=\"%s\">%s</text>\n", y, colour[w], shape_names[s]);
        }
    }
    fprintf(f, "<text x=\"90\" y=\"466\" fill=\"#555\">Both axes logarithmic. Drawn by tools/bench on %s.</text>\n"
               "</svg>\n",
            machine);
    if (fclose(f)) {
        perror(path);
        exit(2);
    }
}

static void measure_equal(void) {
    for (int s = 0; s < SHAPES; s++) {
        take_net(s, sizes[SIZES - 1], EQUAL);
        fprintf(stderr, "bench: %s, %zu nodes, all lengths equal\n", shape_names[s], n);
        for (int op = HEAVIEST; op <= LISTING_EXACT; op++) {
            compare(op, shape_names[s]);
            equal_took[s][op] = measure(op, 1);
        }
        for (int op = WINDOW; op <= WINDOW_LIST_HALF; op++) compare(op, shape_names[s]);
    }
}

static void print_mode(double most, double exact) {
    printf(" %.3g / %.3g (%.2f) |", 1e3 * most, 1e3 * exact, exact / most);
}

static void print_modes(void) {
    printf("#### Exactly the bound beside at most the bound\n\n");
    printf("The library at 4,096 nodes: milliseconds within the bound / of exactly its length, and in brackets "
           "the second by the first.\n\n");
    printf("| shape | heaviest | heaviest, all lengths equal | listing | listing, all lengths equal |\n"
           "|---|---|---|---|---|\n");
    for (int s = 0; s < SHAPES; s++) {
        printf("| %s |", shape_names[s]);
        for (int op = HEAVIEST; op <= LISTING; op += 2) {
            print_mode(took[s][SIZES - 1][op][1], took[s][SIZES - 1][op + 1][1]);
            print_mode(equal_took[s][op], equal_took[s][op + 1]);
        }
        printf("\n");
    }
    printf("\n");
}

int main(int argc, char **argv) {
    if (argc != 3) {
        fprintf(stderr, "usage: bench PLOT.svg MACHINE\n");
        return 2;
    }
    for (int s = 0; s < SHAPES; s++)
        for (int z = 0; z < SIZES; z++) {
            take_net(s, sizes[z], VARIED);
            fprintf(stderr, "bench: %d of %d: %s, %zu nodes\n", s * SIZES + z + 1, SHAPES * SIZES, shape_names[s], n);
            compare_marked(shape_names[s]);
            for (int op = 0; op < ALL; op++) {
                compare(op, shape_names[s]);
                for (int w = 0; w < 2 && op < OPS; w++) took[s][z][op][w] = measure(op, w);
            }
        }
    measure_equal();
    for (int op = 0; op < OPS; op++) {
        printf("#### %s\n\n", op_names[op]);
        printf("| shape | 256 nodes | 1,024 nodes | 4,096 nodes | scan grows | library grows |\n"
               "|---|---|---|---|---|---|\n");
        for (int s = 0; s < SHAPES; s++) {
            printf("| %s |", shape_names[s]);
            for (int z = 0; z < SIZES; z++) {
                double *t = took[s][z][op];
                printf(" %.3g / %.3g (%.3g) |", 1e3 * t[0], 1e3 * t[1], t[0] / t[1]);
            }
            printf(" %.1f-fold | %.1f-fold |\n", took[s][2][op][0] / took[s][1][op][0],
                   took[s][2][op][1] / took[s][1][op][1]);
        }
        printf("\n");
    }
    print_modes();
    differ |= measure_lists();
    differ |= measure_trades();
    differ |= measure_sets();
    differ |= measure_rows();
    differ |= measure_meshes();
    printf("%s\n", differ ? "ANSWERS DIFFER, A WINDOW IS EMPTY, OR A LIST IS NOT VETTED AS IT WAS MADE"
                          : "All answers were equal.");
    plot(argv[1], argv[2]);
    return differ;
}
