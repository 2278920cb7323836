/* The plain reader and writer (roads.h). A text is read line by line into an array of arcs; arcs are found again in a
   table of places, by open addressing. */
#include "roads.h"
#include "scan.h"
#include <inttypes.h>
#include <stdio.h>
#include <stdlib.h>
#include <string.h>

typedef struct {
    uint16_t from, to;
    uint32_t number; /* its 32 bits */
} arc;

typedef struct {
    uint64_t nodes, count; /* what the p line has; a count of more than 18 digits is the same as any such */
    arc *arcs;
    size_t many;
    uint32_t *places; /* of each arc, one more than its place in `arcs`; 0: free */
    size_t mask;
} graph;

enum { HEADER = 12, ROW = 12 };
static const uint64_t HUGE_COUNT = 1000000000000000000u;

static uint8_t refuse(int64_t answer[8], uint8_t number) {
    memset(answer, 0, 8 * sizeof *answer);
    answer[0] = number;
    return number;
}

static void put(uint8_t *to, uint64_t x, size_t bytes) {
    for (size_t i = 0; i < bytes; i++) to[i] = (uint8_t)(x >> 8 * i);
}

static uint32_t get(const uint8_t *from, size_t bytes) {
    uint32_t x = 0;
    for (size_t i = 0; i < bytes; i++) x |= (uint32_t)from[i] << 8 * i;
    return x;
}

/* A number with no leading zero, and the byte that ends it; moves on. */
static int number(const uint8_t **at, const uint8_t *end, uint8_t last, uint64_t *x) {
    const uint8_t *s = *at;
    uint64_t value = 0;
    while (s < end && *s >= '0' && *s <= '9') {
        value = 10 * value + (uint64_t)(*s++ - '0');
        if (value > HUGE_COUNT) value = HUGE_COUNT;
    }
    if (s == end || *s != last || s == *at || (**at == '0' && s - *at > 1)) return 0;
    *at = s + 1, *x = value;
    return 1;
}

/* `a FROM TO NUMBER`, from after its first two bytes on. */
static int arc_line(const uint8_t **at, const uint8_t *end, uint64_t nodes, int weights, arc *a) {
    uint64_t from, to, x;
    if (!number(at, end, ' ', &from) || !number(at, end, ' ', &to)) return 0;
    int minus = weights && *at < end && **at == '-';
    *at += minus;
    if (!number(at, end, '\n', &x)) return 0;
    uint64_t most = !weights ? UINT32_MAX : minus ? 2147483648u : 2147483647u;
    if (from < 1 || from > nodes || to < 1 || to > nodes || x > most || (minus && !x)) return 0;
    a->from = (uint16_t)from, a->to = (uint16_t)to, a->number = (uint32_t)(minus ? -x : x);
    return 1;
}

/* What a text says; 0 where that is nothing. */
static int read_text(const uint8_t *s, size_t size, int weights, graph *g) {
    const uint8_t *end = s + size;
    int begun = 0;
    g->arcs = malloc((size / 8 + 1) * sizeof *g->arcs); /* a line of an arc has 8 bytes at the least */
    g->many = 0;
    while (s < end) {
        if (*s == 'c') {
            s = memchr(s, '\n', (size_t)(end - s));
            if (!s++) return 0;
        } else if (!begun) {
            if (end - s < 5 || memcmp(s, "p sp ", 5)) return 0;
            s += 5, begun = 1;
            if (!number(&s, end, ' ', &g->nodes) || !number(&s, end, '\n', &g->count) || g->nodes > 65535) return 0;
        } else {
            if (end - s < 2 || s[0] != 'a' || s[1] != ' ') return 0;
            s += 2;
            if (!arc_line(&s, end, g->nodes, weights, &g->arcs[g->many])) return 0;
            g->many++;
        }
    }
    return begun;
}

static size_t slot(const graph *g, uint16_t from, uint16_t to) {
    uint32_t key = (uint32_t)from << 16 | to;
    return (size_t)(key * 0x9E3779B97F4A7C15u >> 32) & g->mask;
}

/* One more than the place of the arc from a node to a node; 0 where there is none. */
static uint32_t find(const graph *g, uint16_t from, uint16_t to) {
    for (size_t h = slot(g, from, to);; h = (h + 1) & g->mask) {
        uint32_t place = g->places[h];
        if (!place || (g->arcs[place - 1].from == from && g->arcs[place - 1].to == to)) return place;
    }
}

/* No arc given twice, from a node to itself or without its equal opposite. */
static int paired(graph *g) {
    g->mask = 15;
    while (g->mask < 2 * g->many) g->mask = 2 * g->mask + 1;
    g->places = calloc(g->mask + 1, sizeof *g->places);
    for (size_t i = 0; i < g->many; i++) {
        const arc *a = &g->arcs[i];
        size_t h = slot(g, a->from, a->to);
        for (; g->places[h]; h = (h + 1) & g->mask) {
            const arc *b = &g->arcs[g->places[h] - 1];
            if (a->from == b->from && a->to == b->to) return 0;
        }
        if (a->from == a->to) return 0;
        g->places[h] = (uint32_t)i + 1;
    }
    for (size_t i = 0; i < g->many; i++) {
        uint32_t place = find(g, g->arcs[i].to, g->arcs[i].from);
        if (!place || g->arcs[place - 1].number != g->arcs[i].number) return 0;
    }
    return 1;
}

static uint8_t make(const graph *l, const graph *w, uint32_t bound, uint8_t *table, size_t room, int64_t answer[8]) {
    size_t size = HEADER + ROW * (l->many / 2);
    for (size_t i = 0; i < l->many; i++)
        if (!find(w, l->arcs[i].from, l->arcs[i].to)) return refuse(answer, 28);
    if (room < size) return refuse(answer, 29);
    uint8_t *made = malloc(size), *row = made + HEADER;
    memcpy(made, "RTN\1\0", 5);
    put(made + 5, l->nodes, 2), put(made + 7, 0, 1), put(made + 8, bound, 4);
    for (size_t i = 0; i < l->many; i++) {
        const arc *a = &l->arcs[i];
        if (find(l, a->to, a->from) <= i) continue; /* its opposite came first */
        put(row, a->from - 1u, 2), put(row + 2, a->to - 1u, 2), put(row + 4, a->number, 4);
        put(row + 8, w->arcs[find(w, a->from, a->to) - 1].number, 4);
        row += ROW;
    }
    if (!scan_accept(made, size, answer)) {
        memcpy(table, made, size);
        refuse(answer, 0);
        answer[3] = (int64_t)size;
    }
    free(made);
    return (uint8_t)answer[0];
}

uint8_t roads_read(const uint8_t *lengths, size_t lengths_len, const uint8_t *weights, size_t weights_len,
                   uint32_t bound, uint8_t *table, size_t table_len, int64_t answer[8]) {
    graph l = {0}, w = {0};
    int said = read_text(lengths, lengths_len, 0, &l) && read_text(weights, weights_len, 1, &w);
    if (!said) refuse(answer, 25);
    else if (l.count != l.many || w.count != w.many || l.nodes != w.nodes || l.count != w.count) refuse(answer, 26);
    else if (!paired(&l) || !paired(&w)) refuse(answer, 27);
    else make(&l, &w, bound, table, table_len, answer);
    free(l.arcs), free(l.places), free(w.arcs), free(w.places);
    return (uint8_t)answer[0];
}

/* One text, the numbers at a place of each row, into memory of ours; its size. */
static size_t write_text(const uint8_t *table, size_t n, size_t at, char **text) {
    size_t room = 32 + (n - 1) * 2 * 32;
    char *s = *text = malloc(room), *end = s + room;
    s += snprintf(s, (size_t)(end - s), "p sp %zu %zu\n", n, 2 * (n - 1));
    for (size_t r = 0; r + 1 < n; r++) {
        const uint8_t *row = table + HEADER + ROW * r;
        uint32_t a = get(row, 2) + 1, b = get(row + 2, 2) + 1;
        int32_t x = (int32_t)get(row + at, 4);
        s += snprintf(s, (size_t)(end - s), "a %" PRIu32 " %" PRIu32 " %" PRId32 "\n", a, b, x);
        s += snprintf(s, (size_t)(end - s), "a %" PRIu32 " %" PRIu32 " %" PRId32 "\n", b, a, x);
    }
    return (size_t)(s - *text);
}

uint8_t roads_write(const uint8_t *table, size_t table_len, uint8_t *lengths, size_t lengths_len,
                    uint8_t *weights, size_t weights_len, int64_t answer[8]) {
    if (table_len >= HEADER && !memcmp(table, "RTN", 3) && get(table + 3, 2) != 1) return refuse(answer, 3);
    if (scan_accept(table, table_len, answer)) return (uint8_t)answer[0];
    char *long_text, *heavy_text;
    size_t n = get(table + 5, 2);
    size_t l = write_text(table, n, 4, &long_text), w = write_text(table, n, 8, &heavy_text);
    if (lengths_len < l || weights_len < w) {
        refuse(answer, 29);
    } else {
        memcpy(lengths, long_text, l), memcpy(weights, heavy_text, w);
        refuse(answer, 0);
        answer[3] = (int64_t)l, answer[4] = (int64_t)w;
    }
    free(long_text), free(heavy_text);
    return (uint8_t)answer[0];
}
