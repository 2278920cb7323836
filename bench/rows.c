/* Rows written, measured (rows.h). Every row of a table is written, and that so many times together, since the clock is
   coarse. */
#include "rows.h"
#include "hourbench.h"
#include "nets.h"
#include "timing.h"
#include "writer.h"
#include <stdio.h>
#include <string.h>

enum { NODES = 4096, BRANCHES = NODES - 1, ROW = 12, SIZE = ROW * NODES, GUARD = 0xEE };
enum { FILLER = 24, BLOCKED = 32, FILLERS = BLOCKED - FILLER };
enum { TIMES = 16, ROWS = TIMES * BRANCHES };

typedef uint8_t write_row(uint16_t, uint16_t, uint32_t, uint16_t, uint16_t, uint8_t *, size_t, int64_t *);
static write_row *const writers[2] = {plain_write_row, hb_write_row};

/* What a row is made of. */
typedef struct {
    uint32_t length;
    uint16_t a, b, kind, count;
} branch;

/* The rows that are written, by one or the other, into a table. */
typedef struct {
    const branch *rows;
    write_row *by;
    uint8_t table[SIZE];
    int64_t answer[8];
} asked;

static uint8_t table[SIZE];
static branch good[BRANCHES], retired[BRANCHES];

static uint16_t u16(const uint8_t *s) { return (uint16_t)(s[0] | s[1] << 8); }

/* A net of version 2, with kinds that score where it had filler; its rows as numbers, and the same with filler. */
static void take_net(void) {
    make_net(SHAPES - 1, NODES, VARIED, table);
    weigh_by_kind(NODES, table);
    for (size_t r = 0; r < BRANCHES; r++) {
        uint8_t *row = table + ROW + ROW * r;
        if (row[8] >= FILLER && row[8] < BLOCKED) row[8] -= FILLER;
        uint32_t length = u16(row + 4) | (uint32_t)u16(row + 6) << 16;
        good[r] = retired[r] = (branch){length, u16(row), u16(row + 2), u16(row + 8), u16(row + 10)};
        retired[r].kind = (uint16_t)(FILLER + r % FILLERS);
    }
}

static void write_all(void *with) {
    asked *q = with;
    for (size_t r = 0; r < BRANCHES; r++) {
        const branch *x = q->rows + r;
        q->by(x->a, x->b, x->length, x->kind, x->count, q->table + ROW + ROW * r, ROW, q->answer);
    }
}

static void write_times(void *with) {
    for (int i = 0; i < TIMES; i++) write_all(with);
}

/* Is the table that the library makes, row by row, the one that it was made of, and accepted as one without filler? */
static int is_made(void) {
    static asked made = {.rows = good, .by = hb_write_row};
    int64_t answer[8];
    memcpy(made.table, table, ROW);
    write_all(&made);
    return !memcmp(made.table, table, SIZE) && hb_accept(made.table, SIZE, answer) == 0 && answer[5] == 0;
}

/* Do both leave the same answer and the same memory, beyond the lent bytes too? */
static int is_same(const branch *x, size_t row_len) {
    uint8_t number[2], row[2][ROW + 4];
    int64_t answer[2][8];
    memset(row, GUARD, sizeof row), memset(answer, GUARD, sizeof answer);
    for (int i = 0; i < 2; i++)
        number[i] = writers[i](x->a, x->b, x->length, x->kind, x->count, row[i], row_len, answer[i]);
    return number[0] == number[1] && !memcmp(row[0], row[1], sizeof row[0]) &&
           !memcmp(answer[0], answer[1], sizeof answer[0]);
}

/* The ends of every range and what lies beyond them, each with each. */
static int is_same_at_ends(void) {
    static const uint16_t nodes[] = {0, 1, 4095, 4096, 65535}, counts[] = {0, 1, 20000, 20001, 65535};
    static const uint16_t kinds[] = {0, 23, 24, 31, 32, 63, 64, 65535};
    static const uint32_t lengths[] = {0, 1, 1000000, 1000001, UINT32_MAX};
    static const size_t lent[] = {0, 11, 12, 13};
    int same = 1;
    for (size_t i = 0; i < 5 * 5 * 5 * 5 * 8 * 4; i++) {
        branch x = {lengths[i % 5], nodes[i / 5 % 5], nodes[i / 25 % 5], kinds[i / 625 % 8], counts[i / 125 % 5]};
        same &= is_same(&x, lent[i / 5000]);
    }
    return same;
}

static void print_times(const char *what, const branch *rows) {
    static asked plain = {.by = plain_write_row}, library = {.by = hb_write_row};
    void *const both[2] = {&plain, &library};
    double took[2];
    plain.rows = library.rows = rows;
    second_least_of_two(NULL, write_times, both, took);
    printf("| %s | %.3g | %.3g | %.2f |\n", what, 1e9 * took[0] / ROWS, 1e9 * took[1] / ROWS, took[1] / took[0]);
}

int measure_rows(void) {
    fprintf(stderr, "bench: rows written\n");
    take_net();
    int differ = !is_made() || !is_same_at_ends();
    if (differ) printf("DIFFERENT: rows written\n");
    printf("#### Write row\n\nNanoseconds of a row, of %d,%03d one after the other.\n\n",
           ROWS / 1000, ROWS % 1000);
    printf("| row | plain writer in C | library | library by plain writer |\n|---|---|---|---|\n");
    print_times("written", good);
    print_times("refused by 35", retired);
    printf("\n");
    return differ;
}
