/* The trade with the road-graph tools, measured (trades.h). The texts are those of a net's table, as the plain writer
   has them; both read them, and write them from that table. */
#include "trades.h"
#include "hourbench.h"
#include "nets.h"
#include "roads.h"
#include "timing.h"
#include <stdio.h>
#include <string.h>

enum { SIDES = 4, GRAPHS = 4, TEXT = 1 << 18, TABLE = 12 * 4096 };
static const size_t sides[SIDES] = {8, 16, 32, 64}; /* of a grid; as many nodes as their squares */
static const char *graph_names[GRAPHS] = {"chain", "star", "random", "grid"};
static const int shapes[GRAPHS] = {0, 1, 4, -1};

/* What a call is lent: the plain one's and the library's. */
typedef struct {
    uint8_t table[TABLE], lengths[TEXT], weights[TEXT];
    int64_t answer[8];
} memory;
static memory plain, library;
static uint8_t table[TABLE], lengths[TEXT], weights[TEXT];
static size_t table_len, lengths_len, weights_len;
static uint32_t bound;

typedef uint8_t read_texts(const uint8_t *, size_t, const uint8_t *, size_t, uint32_t, uint8_t *, size_t, int64_t *);
typedef uint8_t write_texts(const uint8_t *, size_t, uint8_t *, size_t, uint8_t *, size_t, int64_t *);

static void read_by(read_texts *by, memory *m) {
    by(lengths, lengths_len, weights, weights_len, bound, m->table, TABLE, m->answer);
}

static void write_by(write_texts *by, memory *m) {
    by(table, table_len, m->lengths, TEXT, m->weights, TEXT, m->answer);
}

static void plain_read(void *m) { read_by(roads_read, m); }
static void library_read(void *m) { read_by(hb_dimacs_read, m); }
static void plain_write(void *m) { write_by(roads_write, m); }
static void library_write(void *m) { write_by(hb_dimacs_write, m); }

/* The next net, and its texts. */
static void take_graph(int graph, size_t side) {
    int64_t answer[8];
    size_t n = side * side;
    table_len = graph == GRAPHS - 1 ? make_grid_tree(side, table) : make_net(shapes[graph], n, VARIED, table);
    bound = table[8] | (uint32_t)table[9] << 8 | (uint32_t)table[10] << 16 | (uint32_t)table[11] << 24;
    roads_write(table, table_len, lengths, TEXT, weights, TEXT, answer);
    lengths_len = (size_t)answer[3], weights_len = (size_t)answer[4];
    memset(&plain, 0, sizeof plain), memset(&library, 0, sizeof library);
}

/* Equal answers and memory; the texts as they are, without a last byte, and with another one in their middle; and that
   what is read is the table again. */
static int compare_graph(const char *name, size_t n) {
    size_t whole = lengths_len, middle = whole / 2;
    uint8_t old = lengths[middle];
    int differ = 0;
    for (int i = 0; i < 3; i++) {
        lengths_len = whole - (i == 1);
        lengths[middle] = i == 2 ? old ^ 1 : old;
        plain_read(&plain), library_read(&library);
        differ |= memcmp(&plain, &library, sizeof plain) != 0;
        if (i == 0) differ |= plain.answer[0] || memcmp(plain.table, table, table_len);
    }
    lengths[middle] = old;
    plain_write(&plain), library_write(&library);
    differ |= memcmp(&plain, &library, sizeof plain) != 0;
    if (differ) printf("DIFFERENT: the texts of %s with %zu nodes\n", name, n);
    return differ;
}

static void print_times(const char *what, double took[GRAPHS][SIDES][2]) {
    printf("#### %s\n\n| roads | 64 nodes | 256 nodes | 1,024 nodes | 4,096 nodes |\n|---|---|---|---|---|\n", what);
    for (int g = 0; g < GRAPHS; g++) {
        printf("| %s |", graph_names[g]);
        for (int s = 0; s < SIDES; s++) {
            double *t = took[g][s];
            printf(" %.3g / %.3g (%.2f) |", 1e3 * t[0], 1e3 * t[1], t[1] / t[0]);
        }
        printf("\n");
    }
    printf("\n");
}

int measure_trades(void) {
    static double took_read[GRAPHS][SIDES][2], took_write[GRAPHS][SIDES][2]; /* seconds a call: plain, library */
    int differ = 0;
    for (int g = 0; g < GRAPHS; g++)
        for (int s = 0; s < SIDES; s++) {
            fprintf(stderr, "bench: the texts of %s, %zu nodes\n", graph_names[g], sides[s] * sides[s]);
            take_graph(g, sides[s]);
            differ |= compare_graph(graph_names[g], sides[s] * sides[s]);
            took_read[g][s][0] = second_least(NULL, plain_read, &plain);
            took_read[g][s][1] = second_least(NULL, library_read, &library);
            took_write[g][s][0] = second_least(NULL, plain_write, &plain);
            took_write[g][s][1] = second_least(NULL, library_write, &library);
        }
    printf("Of road-graph texts: milliseconds, plain reader or writer in C / library, and in brackets the second by "
           "the first.\n\n");
    print_times("Dimacs read", took_read);
    print_times("Dimacs write", took_write);
    return differ;
}
