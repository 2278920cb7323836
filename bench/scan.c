/* The plain scan (scan.h). Refusals, rows, neighbours where a walk follows, then a walk from a node that gives every
   length and weight, or for a window every count and weight: for one node, or for each in turn; the rows of a ring by a
   walk too. A walk goes to every node, also past the bound or a window's upper count limit. Its hops are left 0: a scan
   has no spines. A list that is vetted is sorted by first node, on the heap. */
#include "scan.h"
#include <stdlib.h>
#include <string.h>

enum { MOST = 4096, MOST_RUN = 32766, SPENT = 32768 /* a mark's top bit */ };

typedef struct {
    size_t n, filler; /* how many rows are filler */
    int64_t bound;
    uint16_t a[MOST], b[MOST];       /* each row's ends */
    int32_t length[MOST], weight[MOST]; /* a marked row weighs the lesser of 0 and its own */
    uint32_t first[MOST + 1];        /* the halves of node x stand from first[x] to first[x + 1] */
    uint16_t to[2 * MOST], row[2 * MOST];
} net;

typedef struct {
    int64_t length[MOST], weight[MOST];
    uint16_t last[MOST], from[MOST]; /* the row and the node by which each node was reached */
} paths;

/* A node that a walk has reached: by what row, and the path's weight and how many branches it has. */
typedef struct {
    int64_t weight;
    uint16_t node, last, count;
} place;

typedef struct {
    uint32_t count_low, count_high;
    int64_t sum_low, sum_high;
} window;

static uint32_t u16(const uint8_t *s) { return s[0] | (uint32_t)s[1] << 8; }
static uint32_t u32(const uint8_t *s) { return u16(s) | u16(s + 2) << 16; }
static uint64_t u64(const uint8_t *s) { return u32(s) | (uint64_t)u32(s + 4) << 32; }

static uint8_t refuse(int64_t answer[8], uint8_t number, size_t row) {
    memset(answer, 0, 8 * sizeof *answer);
    answer[0] = number;
    answer[1] = (int64_t)row;
    return number;
}

static uint16_t top(uint16_t *up, uint16_t x) {
    while (up[x] != x) x = up[x] = up[up[x]];
    return x;
}

/* The halves of each node along the first rows. */
static void neighbours(net *t, size_t rows) {
    uint32_t next[MOST];
    memset(t->first, 0, sizeof t->first);
    for (size_t r = 0; r < rows; r++) t->first[t->a[r] + 1]++, t->first[t->b[r] + 1]++;
    for (size_t x = 0; x < t->n; x++) t->first[x + 1] += t->first[x];
    memcpy(next, t->first, t->n * sizeof *next);
    for (size_t r = 0; r < rows; r++) {
        uint32_t h = next[t->a[r]]++, k = next[t->b[r]]++;
        t->to[h] = t->b[r], t->row[h] = (uint16_t)r;
        t->to[k] = t->a[r], t->row[k] = (uint16_t)r;
    }
}

static void walk(const net *t, uint16_t from, paths *p) {
    uint16_t stack[MOST];
    size_t top = 0;
    stack[top++] = from;
    p->length[from] = p->weight[from] = 0;
    p->last[from] = p->from[from] = 65535;
    while (top) {
        uint16_t x = stack[--top], back = p->last[x];
        int64_t length = p->length[x], weight = p->weight[x];
        for (uint32_t h = t->first[x]; h < t->first[x + 1]; h++) {
            uint16_t r = t->row[h], y = t->to[h];
            if (r == back) continue;
            p->length[y] = length + t->length[r];
            p->weight[y] = weight + t->weight[r];
            p->last[y] = r, p->from[y] = x;
            stack[top++] = y;
        }
    }
}

/* 11 for row r: the ring has it and the rows before it that the walk between its ends takes. */
static uint8_t refuse_ring(net *t, size_t r, int64_t answer[8]) {
    paths p;
    refuse(answer, 11, r);
    neighbours(t, r);
    walk(t, t->a[r], &p);
    answer[2] = 1;
    for (uint16_t x = t->b[r]; x != t->a[r]; x = p.from[x]) answer[2]++;
    return 11;
}

static int is_filler(uint32_t kind) { return kind >= 24 && kind < 32; }

/* What a kind below 64 scores. */
static int32_t score(uint32_t kind) {
    static const int32_t scores[24] = {1,  2,  2,  3,  3,  4,  4,  5,  6,  6,  8,  8,
                                       10, 10, 12, 12, 14, 14, 16, 16, 18, 20, 22, 24};
    if (kind < 24) return scores[kind];
    return is_filler(kind) ? 0 : -50; /* else blocked ground */
}

/* 1 to 11, and 22 and 23 where 10 stands for version 1. Rows that pass 11 join all nodes. */
static uint8_t open_net(const uint8_t *s, size_t len, net *t, int64_t answer[8]) {
    if (len < 12) return refuse(answer, 1, 0);
    if (memcmp(s, "RTN", 3) != 0) return refuse(answer, 2, 0);
    uint32_t version = u16(s + 3);
    if (version != 1 && version != 2) return refuse(answer, 3, 0);
    size_t n = u16(s + 5);
    if (n == 0 || n > MOST) return refuse(answer, 4, 0);
    if (s[7] != 0) return refuse(answer, 5, 0);
    if (len != 12 * n) return refuse(answer, 6, 0);
    t->n = n, t->filler = 0;
    t->bound = u32(s + 8);
    for (size_t r = 0; r + 1 < n; r++) {
        const uint8_t *p = s + 12 + 12 * r;
        uint32_t a = u16(p), b = u16(p + 2), length = u32(p + 4);
        int32_t weight;
        if (a >= n || b >= n) return refuse(answer, 7, r);
        if (a == b) return refuse(answer, 8, r);
        if (length > 1000000) return refuse(answer, 9, r);
        if (version == 1) {
            weight = (int32_t)u32(p + 8);
            if (weight < -1000000 || weight > 1000000) return refuse(answer, 10, r);
        } else {
            uint32_t kind = u16(p + 8), count = u16(p + 10);
            if (kind >= 64) return refuse(answer, 22, r);
            if (count > 20000) return refuse(answer, 23, r);
            weight = (int32_t)count * score(kind);
            t->filler += (size_t)is_filler(kind);
        }
        t->a[r] = (uint16_t)a, t->b[r] = (uint16_t)b, t->length[r] = (int32_t)length, t->weight[r] = weight;
    }
    uint16_t up[MOST];
    for (size_t x = 0; x < n; x++) up[x] = (uint16_t)x;
    for (size_t r = 0; r + 1 < n; r++) {
        uint16_t x = top(up, t->a[r]), y = top(up, t->b[r]);
        if (x == y) return refuse_ring(t, r, answer);
        up[x] = y;
    }
    return 0;
}

/* Then 13. */
static uint8_t begin(const uint8_t *s, size_t len, const uint16_t *marks, size_t marks_len, net *t, int64_t answer[8]) {
    uint8_t number = open_net(s, len, t, answer);
    if (number) return number;
    if (marks_len != t->n - 1) return refuse(answer, 13, 0);
    for (size_t r = 0; r + 1 < t->n; r++)
        if (marks[r] && t->weight[r] > 0) t->weight[r] = 0;
    return 0;
}

/* The same, for an operation that walks. */
static uint8_t begin_walks(const uint8_t *s, size_t len, const uint16_t *marks, size_t marks_len, net *t,
                           int64_t answer[8]) {
    uint8_t number = begin(s, len, marks, marks_len, t, answer);
    if (number == 0) neighbours(t, t->n - 1);
    return number;
}

uint8_t scan_accept(const uint8_t *table, size_t table_len, int64_t answer[8]) {
    net t;
    uint8_t number = open_net(table, table_len, &t, answer);
    if (number) return number;
    refuse(answer, 0, 0);
    answer[3] = (int64_t)t.n, answer[4] = t.bound, answer[5] = (int64_t)t.filler;
    return 0;
}

uint8_t scan_pair(const uint8_t *table, size_t table_len, const uint16_t *marks, size_t marks_len,
                  uint16_t a, uint16_t b, int64_t answer[8]) {
    net t;
    paths p;
    uint8_t number = begin_walks(table, table_len, marks, marks_len, &t, answer);
    if (number) return number;
    if (a >= t.n || b >= t.n || a == b) return refuse(answer, 15, 0);
    walk(&t, a, &p);
    refuse(answer, 0, 0);
    answer[3] = p.length[b], answer[4] = p.weight[b];
    return 0;
}

uint8_t scan_heaviest(const uint8_t *table, size_t table_len, const uint16_t *marks, size_t marks_len,
                      int64_t answer[8]) {
    net t;
    paths p;
    uint8_t number = begin_walks(table, table_len, marks, marks_len, &t, answer);
    if (number) return number;
    size_t low = 0, high = 0;
    int64_t length = 0, weight = INT64_MIN;
    for (size_t a = 0; a < t.n; a++) {
        walk(&t, (uint16_t)a, &p);
        for (size_t b = a + 1; b < t.n; b++) {
            if (p.length[b] > t.bound || p.weight[b] < weight) continue;
            if (p.weight[b] > weight || p.length[b] < length)
                low = a, high = b, length = p.length[b], weight = p.weight[b];
        }
    }
    if (weight == INT64_MIN) return refuse(answer, 16, 0);
    refuse(answer, 0, 0);
    answer[3] = (int64_t)low, answer[4] = (int64_t)high, answer[5] = length, answer[6] = weight;
    return 0;
}

uint8_t scan_heaviest_exact(const uint8_t *table, size_t table_len, const uint16_t *marks, size_t marks_len,
                            int64_t answer[8]) {
    net t;
    paths p;
    uint8_t number = begin_walks(table, table_len, marks, marks_len, &t, answer);
    if (number) return number;
    size_t low = 0, high = 0;
    int64_t weight = INT64_MIN;
    for (size_t a = 0; a < t.n; a++) {
        walk(&t, (uint16_t)a, &p);
        for (size_t b = a + 1; b < t.n; b++)
            if (p.length[b] == t.bound && p.weight[b] > weight) low = a, high = b, weight = p.weight[b];
    }
    if (weight == INT64_MIN) return refuse(answer, 21, 0);
    refuse(answer, 0, 0);
    answer[3] = (int64_t)low, answer[4] = (int64_t)high, answer[5] = t.bound, answer[6] = weight;
    return 0;
}

static void put(uint8_t *to, uint64_t x, size_t bytes) {
    for (size_t i = 0; i < bytes; i++) to[i] = (uint8_t)(x >> 8 * i);
}

static void put_row(uint8_t *row, size_t a, size_t b, const paths *p) {
    put(row, a, 2), put(row + 2, b, 2), put(row + 4, (uint64_t)p->length[b], 4),
        put(row + 8, (uint64_t)p->weight[b], 8);
}

/* The pairs within the bound, or of exactly its length. */
static uint8_t list(const uint8_t *table, size_t table_len, const uint16_t *marks, size_t marks_len, int exact,
                    int64_t floor, uint16_t from_low, uint16_t from_high,
                    uint8_t *rows, size_t rows_len, int64_t answer[8]) {
    net t;
    paths p;
    uint8_t number = begin_walks(table, table_len, marks, marks_len, &t, answer);
    if (number) return number;
    if (rows_len < 16) return refuse(answer, 17, 0);
    size_t room = rows_len / 16, written = 0, left = 0;
    int64_t least = exact ? t.bound : 0;
    for (size_t a = from_low; a < t.n; a++) {
        walk(&t, (uint16_t)a, &p);
        for (size_t b = a + 1; b < t.n; b++) {
            if (p.length[b] > t.bound || p.length[b] < least || p.weight[b] < floor) continue;
            if (a == from_low && b <= from_high) continue;
            if (written == room) left++;
            else put_row(rows + 16 * written++, a, b, &p);
        }
    }
    refuse(answer, 0, 0);
    answer[3] = (int64_t)written, answer[4] = (int64_t)left;
    return 0;
}

uint8_t scan_listing(const uint8_t *table, size_t table_len, const uint16_t *marks, size_t marks_len, int64_t floor,
                     uint16_t from_low, uint16_t from_high, uint8_t *rows, size_t rows_len, int64_t answer[8]) {
    return list(table, table_len, marks, marks_len, 0, floor, from_low, from_high, rows, rows_len, answer);
}

uint8_t scan_listing_exact(const uint8_t *table, size_t table_len, const uint16_t *marks, size_t marks_len,
                           int64_t floor, uint16_t from_low, uint16_t from_high,
                           uint8_t *rows, size_t rows_len, int64_t answer[8]) {
    return list(table, table_len, marks, marks_len, 1, floor, from_low, from_high, rows, rows_len, answer);
}

/* 30. */
static int no_window(window w) { return w.count_low == 0 || w.count_low > w.count_high || w.sum_low > w.sum_high; }

/* The most branches that a pair in the window has whose lower node is a; 0 where none has `least` or more. The count is
   tested once for all neighbours of a node, which share it. */
static uint32_t most_from(const net *t, uint16_t a, window w, uint32_t least) {
    place stack[MOST];
    size_t top = 0;
    uint32_t most = 0;
    if (least < w.count_low) least = w.count_low;
    stack[top++] = (place){.node = a, .last = 65535};
    while (top) {
        place x = stack[--top];
        uint32_t count = x.count + 1u;
        int asked = count >= least && count <= w.count_high;
        for (uint32_t h = t->first[x.node]; h < t->first[x.node + 1]; h++) {
            uint16_t r = t->row[h], y = t->to[h];
            if (r == x.last) continue;
            int64_t weight = x.weight + t->weight[r];
            stack[top++] = (place){weight, y, r, (uint16_t)count};
            if (!asked || y < a || weight < w.sum_low || weight > w.sum_high) continue;
            most = count, least = count + 1, asked = 0;
        }
    }
    return most;
}

/* A walk that gives counts too, and no nodes that others were reached from: no path is gone back along. */
static void walk_counting(const net *t, uint16_t from, paths *p, uint16_t count[MOST]) {
    uint16_t stack[MOST];
    size_t top = 0;
    stack[top++] = from;
    p->length[from] = p->weight[from] = count[from] = 0;
    p->last[from] = 65535;
    while (top) {
        uint16_t x = stack[--top], back = p->last[x];
        int64_t length = p->length[x], weight = p->weight[x];
        for (uint32_t h = t->first[x]; h < t->first[x + 1]; h++) {
            uint16_t r = t->row[h], y = t->to[h];
            if (r == back) continue;
            p->length[y] = length + t->length[r];
            p->weight[y] = weight + t->weight[r];
            p->last[y] = r, count[y] = (uint16_t)(count[x] + 1);
            stack[top++] = y;
        }
    }
}

uint8_t scan_window(const uint8_t *table, size_t table_len, const uint16_t *marks, size_t marks_len,
                    uint32_t count_low, uint32_t count_high, int64_t sum_low, int64_t sum_high, int64_t answer[8]) {
    net t;
    paths p;
    uint16_t count[MOST];
    window w = {count_low, count_high, sum_low, sum_high};
    uint8_t number = begin_walks(table, table_len, marks, marks_len, &t, answer);
    if (number) return number;
    if (no_window(w)) return refuse(answer, 30, 0);
    size_t low = 0;
    uint32_t most = 0;
    for (size_t a = 0; a < t.n; a++) {
        uint32_t more = most_from(&t, (uint16_t)a, w, most + 1);
        if (more) most = more, low = a;
    }
    if (most == 0) return refuse(answer, 31, 0);
    walk_counting(&t, (uint16_t)low, &p, count);
    size_t high = low + 1; /* the first of that count in the window */
    while (count[high] != most || p.weight[high] < sum_low || p.weight[high] > sum_high) high++;
    refuse(answer, 0, 0);
    answer[3] = (int64_t)low, answer[4] = (int64_t)high, answer[5] = most, answer[6] = p.weight[high];
    return 0;
}

uint8_t scan_window_list(const uint8_t *table, size_t table_len, const uint16_t *marks, size_t marks_len,
                         uint32_t count_low, uint32_t count_high, int64_t sum_low, int64_t sum_high,
                         uint16_t from_low, uint16_t from_high, uint8_t *rows, size_t rows_len, int64_t answer[8]) {
    net t;
    paths p;
    uint16_t count[MOST];
    uint32_t most_of[MOST], most = 1; /* of each lower node's pairs, 0 where an earlier node's have more; of all */
    window w = {count_low, count_high, sum_low, sum_high};
    uint8_t number = begin_walks(table, table_len, marks, marks_len, &t, answer);
    if (number) return number;
    if (no_window(w)) return refuse(answer, 30, 0);
    if (rows_len < 16) return refuse(answer, 17, 0);
    for (size_t a = 0; a < t.n; a++) {
        most_of[a] = most_from(&t, (uint16_t)a, w, most);
        if (most_of[a]) most = most_of[a];
    }
    size_t room = rows_len / 16, written = 0, left = 0;
    for (size_t a = from_low; a < t.n; a++) {
        if (most_of[a] != most) continue;
        walk_counting(&t, (uint16_t)a, &p, count);
        for (size_t b = a + 1; b < t.n; b++) {
            if (count[b] != most || p.weight[b] < sum_low || p.weight[b] > sum_high) continue;
            if (a == from_low && b <= from_high) continue;
            if (written == room) left++;
            else put_row(rows + 16 * written++, a, b, &p);
        }
    }
    refuse(answer, 0, 0);
    answer[3] = (int64_t)written, answer[4] = (int64_t)left;
    return 0;
}

/* The numbers of the list's rows by their first node, each node's rising: those of node a stand from first[a] to
   first[a + 1]. Only rows before the first that names no pair of n nodes, whose number this gives (or how many rows
   there are), since no later one can be the first at fault. */
static uint32_t by_first(const uint8_t *list, size_t rows, size_t n, uint32_t first[MOST + 2], uint32_t *order) {
    size_t r = 0;
    memset(first, 0, (n + 2) * sizeof *first);
    for (; r < rows; r++) {
        uint32_t a = u16(list + 16 * r), b = u16(list + 16 * r + 2);
        if (a >= b || b >= n) break;
        first[a + 2]++;
    }
    for (size_t a = 0; a < n; a++) first[a + 2] += first[a + 1];
    for (size_t k = 0; k < r; k++) order[first[u16(list + 16 * k) + 1]++] = (uint32_t)k;
    return (uint32_t)r;
}

/* A list of fewer than 2^32 rows. */
uint8_t scan_vet(const uint8_t *table, size_t table_len, const uint16_t *marks, size_t marks_len, int64_t floor,
                 const uint8_t *list, size_t list_len, int64_t answer[8]) {
    net t;
    paths p;
    uint8_t named[MOST]; /* by a row with the first node that is walked from */
    uint32_t first[MOST + 2];
    uint8_t number = begin_walks(table, table_len, marks, marks_len, &t, answer);
    if (number) return number;
    if (list_len % 16) return refuse(answer, 32, 0);
    size_t rows = list_len / 16, low = 0, high = 0; /* the first pair missing: 0 and 0 where none is */
    uint32_t *order = malloc(rows * sizeof *order + 1);
    if (!order) abort();
    uint32_t fault = by_first(list, rows, t.n, first, order);
    for (size_t a = 0; a < t.n; a++) {
        walk(&t, (uint16_t)a, &p);
        memset(named, 0, t.n);
        for (uint32_t i = first[a]; i < first[a + 1] && order[i] < fault; i++) {
            const uint8_t *row = list + 16 * (size_t)order[i];
            size_t b = u16(row + 2);
            int64_t length = p.length[b], weight = p.weight[b];
            if (named[b] || u32(row + 4) != length || u64(row + 8) != (uint64_t)weight || length > t.bound ||
                weight < floor) fault = order[i];
            named[b] = 1;
        }
        for (size_t b = a + 1; b < t.n && high == 0 && fault == rows; b++)
            if (!named[b] && p.length[b] <= t.bound && p.weight[b] >= floor) low = a, high = b;
    }
    free(order);
    refuse(answer, 0, 0);
    if (fault < rows) answer[3] = 2, answer[4] = fault;
    else answer[3] = high ? 3 : 1, answer[5] = (int64_t)low, answer[6] = (int64_t)high;
    return 0;
}

uint8_t scan_claim(const uint8_t *table, size_t table_len, uint16_t *marks, size_t marks_len,
                   uint16_t run, uint16_t a, uint16_t b, int64_t answer[8]) {
    net t;
    paths p;
    uint8_t number = begin_walks(table, table_len, marks, marks_len, &t, answer);
    if (number) return number;
    if (run == 0 || run > MOST_RUN) return refuse(answer, 14, 0);
    if (a >= t.n || b >= t.n || a == b) return refuse(answer, 15, 0);
    walk(&t, a, &p);
    if (p.length[b] > t.bound) return refuse(answer, 18, 0);
    int64_t taken = 0;
    for (uint16_t x = b; x != a; x = p.from[x])
        if (marks[p.last[x]] == 0) marks[p.last[x]] = run, taken++;
    if (taken == 0) return refuse(answer, 19, 0);
    refuse(answer, 0, 0);
    answer[3] = taken;
    return 0;
}

/* What the run holds, unspent, becomes that mark. */
static uint8_t settle(const uint8_t *table, size_t table_len, uint16_t *marks, size_t marks_len,
                      uint16_t run, uint16_t mark, int64_t answer[8]) {
    net t;
    uint8_t number = begin(table, table_len, marks, marks_len, &t, answer);
    if (number) return number;
    if (run == 0 || run > MOST_RUN) return refuse(answer, 14, 0);
    int64_t changed = 0;
    for (size_t r = 0; r < marks_len; r++)
        if (marks[r] == run) marks[r] = mark, changed++;
    refuse(answer, 0, 0);
    answer[3] = changed;
    return 0;
}

uint8_t scan_commit(const uint8_t *table, size_t table_len, uint16_t *marks, size_t marks_len,
                    uint16_t run, int64_t answer[8]) {
    return settle(table, table_len, marks, marks_len, run, (uint16_t)(run | SPENT), answer);
}

uint8_t scan_abort(const uint8_t *table, size_t table_len, uint16_t *marks, size_t marks_len,
                   uint16_t run, int64_t answer[8]) {
    return settle(table, table_len, marks, marks_len, run, 0, answer);
}

uint8_t scan_convert(const uint8_t *table, size_t table_len, const uint16_t *marks, size_t marks_len,
                     int64_t answer[8]) {
    net t;
    uint8_t number = begin(table, table_len, marks, marks_len, &t, answer);
    if (number) return number;
    for (size_t r = 0; r < marks_len; r++)
        if (marks[r] > MOST_RUN && marks[r] < 65535) return refuse(answer, 24, r);
    return refuse(answer, 0, 0);
}
