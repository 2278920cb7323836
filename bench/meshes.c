/* Clock meshes, measured (meshes.h). */
#include "meshes.h"
#include "hourbench.h"
#include "mesh.h"
#include "nets.h"
#include "timing.h"
#include <stdio.h>
#include <stdlib.h>
#include <string.h>

enum { SIZES = 2, HEADER = 12, ROW = 12, PAIRS = MESH_NODES * (MESH_NODES - 1) / 2 };
static const size_t sizes[SIZES] = {64, MESH_NODES}, long_sizes[SIZES] = {8 << 20, 16 << 20};

typedef uint8_t find(const uint8_t *, size_t, int64_t *);

/* A table, asked of one or the other. */
typedef struct {
    find *by;
    const uint8_t *table;
    size_t table_len;
    int64_t answer[8];
} asked;

static int came_up[256]; /* the numbers that were given, 0 where nothing was refused */

static void call(void *with) {
    asked *q = with;
    q->by(q->table, q->table_len, q->answer);
}

/* Do both give the same, all eight numbers? */
static int is_same(const uint8_t *table, size_t table_len, int64_t answer[8]) {
    int64_t plain[8];
    memset(plain, 0xEE, sizeof plain), memset(answer, 0xDD, sizeof plain);
    uint8_t number = plain_mesh(table, table_len, plain);
    came_up[number] = 1;
    return hb_mesh(table, table_len, answer) == number && number == answer[0] && !memcmp(plain, answer, sizeof plain);
}

static void put(uint8_t *to, size_t x, size_t bytes) {
    for (size_t i = 0; i < bytes; i++) to[i] = (uint8_t)(x >> 8 * i);
}

/* A row with nothing but its two nodes. */
static void put_row(uint8_t *row, size_t a, size_t b) {
    memset(row, 0, ROW);
    put(row, a, 2), put(row + 2, b, 2);
}

static void put_header(uint8_t *table, size_t nodes) {
    memcpy(table, "RTN\3\0", 5);
    put(table + 5, nodes, 3), put(table + 8, 0, 4);
}

/* The parts of a small mesh's table, and the whole with each of its bits turned. */
static int is_same_spoiled(int mesh, size_t n) {
    uint8_t table[MESH_SIZE];
    int64_t answer[8];
    size_t size = make_mesh(mesh, n, table);
    int same = 1;
    for (size_t part = 0; part <= size; part++) same &= is_same(table, part, answer);
    for (size_t bit = 0; bit < 8 * size; bit++) {
        table[bit / 8] ^= (uint8_t)(1 << bit % 8);
        same &= is_same(table, size, answer);
        table[bit / 8] ^= (uint8_t)(1 << bit % 8);
    }
    return same;
}

/* Rows at random between few nodes, up to two more than the nodes. */
static int is_same_random(void) {
    enum { FEW = 9, TABLES = 50000 };
    uint8_t table[HEADER + ROW * (FEW + 2)];
    int64_t answer[8];
    uint64_t seed = 14;
    int same = 1;
    for (int i = 0; i < TABLES; i++) {
        size_t n = 2 + next_number(&seed) % (FEW - 1), rows = next_number(&seed) % (n + 3);
        put_header(table, n);
        for (size_t r = 0; r < rows; r++) {
            size_t a = next_number(&seed) % n, b = (a + 1 + next_number(&seed) % (n - 1)) % n;
            put_row(table + HEADER + ROW * r, a, b);
        }
        same &= is_same(table, HEADER + ROW * rows, answer);
    }
    return same;
}

static int all_came_up(void) {
    int all = 1;
    for (int number = 0; number <= 10; number++) all &= came_up[number];
    return all & came_up[36] & came_up[37] & came_up[38];
}

/* Seconds a call: plain, library. */
static void measure(const uint8_t *table, size_t table_len, double took[2]) {
    asked plain = {plain_mesh, table, table_len, {0}}, library = {hb_mesh, table, table_len, {0}};
    void *const both[2] = {&plain, &library};
    second_least_of_two(NULL, call, both, took);
}

static void print_times(const double took[2]) {
    printf(" %.3g / %.3g (%.2f) |", 1e3 * took[0], 1e3 * took[1], took[1] / took[0]);
}

static void print_row(const char *what, double took[SIZES][2]) {
    printf("| %s |", what);
    for (int z = 0; z < SIZES; z++) print_times(took[z]);
    printf(" %.1f-fold |\n", took[1][1] / took[0][1]);
}

/* A mesh of so many nodes. A path, a ring and triangles on a string have a path through every node. */
static int measure_mesh(int mesh, size_t nodes, double took[2]) {
    uint8_t table[MESH_SIZE];
    int64_t answer[8];
    size_t size = make_mesh(mesh, nodes, table), n = table[5] + 256u * table[6];
    int wrong = !is_same(table, size, answer) || answer[0] || (mesh < 3 && answer[3] != (int64_t)n - 1);
    if (wrong) printf("DIFFERENT: %s with %zu nodes\n", mesh_names[mesh], n);
    measure(table, size, took);
    return wrong;
}

static int measure_shapes(void) {
    static double took[MESHES][SIZES][2];
    int differ = 0;
    for (int mesh = 0; mesh < MESHES; mesh++)
        for (int z = 0; z < SIZES; z++) differ |= measure_mesh(mesh, sizes[z], took[mesh][z]);
    printf("#### Mesh\n\n"
           "Milliseconds, plain program in C / library, and in brackets the second by the first. \"Grows\" is from 64\n"
           "to 256 nodes. Triangles have one node less.\n\n"
           "| mesh | 64 nodes | 256 nodes | library grows |\n|---|---|---|---|\n");
    for (int mesh = 0; mesh < MESHES; mesh++) print_row(mesh_names[mesh], took[mesh]);
    printf("\n");
    return differ;
}

/* So many rows: every pair of nodes in a shuffled order, over and over. */
static void put_pairs(uint8_t *table, size_t rows) {
    uint64_t seed = PAIRS;
    size_t many = 0;
    put_header(table, MESH_NODES);
    for (size_t a = 0; a < MESH_NODES; a++)
        for (size_t b = 0; b < a; b++) put_row(table + HEADER + ROW * many++, a, b);
    for (size_t i = PAIRS; i > 1; i--) {
        size_t j = next_number(&seed) % i;
        uint8_t row[ROW], *one = table + HEADER + ROW * (i - 1), *other = table + HEADER + ROW * j;
        memcpy(row, one, ROW), memcpy(one, other, ROW), memcpy(other, row, ROW);
    }
    for (size_t r = PAIRS; r < rows; r++) memcpy(table + HEADER + ROW * r, table + HEADER + ROW * (r - PAIRS), ROW);
}

/* Both refuse it by this number and row. */
static int is_refused(const uint8_t *table, size_t rows, int64_t number, size_t row) {
    int64_t answer[8];
    return is_same(table, HEADER + ROW * rows, answer) && answer[0] == number && answer[1] == (int64_t)row;
}

static int measure_long(void) {
    double repeated[SIZES][2], bad[SIZES][2], once[2];
    uint8_t *table = malloc(long_sizes[SIZES - 1]);
    int good;
    if (!table) {
        perror("bench: room for a long table");
        exit(2);
    }
    put_pairs(table, long_sizes[SIZES - 1] / ROW - 1);
    good = is_refused(table, PAIRS, 38, 0);
    measure(table, HEADER + ROW * PAIRS, once);
    for (int z = 0; z < SIZES; z++) {
        size_t rows = long_sizes[z] / ROW - 1, size = HEADER + ROW * rows;
        uint8_t *last = table + size - ROW, kept = last[ROW - 1];
        good &= is_refused(table, rows, 36, PAIRS);
        measure(table, size, repeated[z]);
        last[ROW - 1] = 0x80; /* the weight */
        good &= is_refused(table, rows, 10, rows - 1);
        measure(table, size, bad[z]);
        last[ROW - 1] = kept;
    }
    free(table);
    if (!good) printf("DIFFERENT: long tables of meshes\n");
    printf("#### Mesh: long tables, refused\n\n"
           "Likewise; of 256 nodes, and rows that have every pair of them, in a shuffled order, over and over; "
           "\"grows\"\nis from 8 to 16 MiB. Every pair once, 391,692 bytes, refused by 38: %.3g / %.3g (%.2f).\n\n"
           "| table | 8 MiB | 16 MiB | library grows |\n|---|---|---|---|\n",
           1e3 * once[0], 1e3 * once[1], once[1] / once[0]);
    print_row("a repeat, 36", repeated);
    print_row("a bad last row, 10", bad);
    printf("\n");
    return !good;
}

int measure_meshes(void) {
    fprintf(stderr, "bench: meshes\n");
    int same = is_same_random();
    for (int mesh = 0; mesh < MESHES; mesh++)
        for (size_t n = 3; n <= 16; n++) same &= is_same_spoiled(mesh, n);
    int differ = measure_shapes();
    differ |= measure_long();
    if (same && all_came_up()) return differ;
    printf("DIFFERENT: meshes\n");
    return 1;
}
