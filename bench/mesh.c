/* The plain program for clock meshes (mesh.h). */
#include "mesh.h"
#include <string.h>

/* NONE: no node. PAIRS: as many rows as there are without a repeat. */
enum { NODES = 256, NONE = NODES, PAIRS = NODES * (NODES - 1) / 2, MOST = 1000000 };

typedef struct {
    uint16_t a, b;
} branch;

typedef struct {
    size_t n, rows;
    branch row[PAIRS];
} mesh;

/* A spanning tree: each node's parent, the root's being itself; the nodes in an order in which each comes after its
   parent; and each node's place in it. */
typedef struct {
    uint16_t up[NODES], order[NODES], place[NODES];
    size_t many;
} tree;

static uint32_t u16(const uint8_t *s) { return s[0] | (uint32_t)s[1] << 8; }
static uint32_t u32(const uint8_t *s) { return u16(s) | u16(s + 2) << 16; }

static uint8_t refusal_of_header(const uint8_t *table, size_t table_len) {
    if (table_len < 12) return 1;
    if (memcmp(table, "RTN", 3)) return 2;
    if (u16(table + 3) != 3) return 3;
    if (u16(table + 5) < 1 || u16(table + 5) > NODES) return 4;
    if (table[7]) return 5;
    return table_len % 12 ? 6 : 0;
}

static uint8_t refusal_of_row(const uint8_t *row, size_t n) {
    uint32_t a = u16(row), b = u16(row + 2);
    int32_t weight = (int32_t)u32(row + 8);
    if (a >= n || b >= n) return 7;
    if (a == b) return 8;
    if (u32(row + 4) > MOST) return 9;
    return weight < -MOST || weight > MOST ? 10 : 0;
}

/* 7 to 10 and then 36, with the row; takes the rows into the mesh. */
static uint8_t take_rows(const uint8_t *table, size_t rows, mesh *net, size_t *at) {
    uint8_t joined[NODES][NODES];
    for (size_t r = 0; r < rows; r++) {
        uint8_t number = refusal_of_row(table + 12 + 12 * r, net->n);
        *at = r;
        if (number) return number;
    }
    memset(joined, 0, sizeof joined);
    for (size_t r = 0; r < rows; r++) {
        const uint8_t *row = table + 12 + 12 * r;
        uint16_t a = (uint16_t)u16(row), b = (uint16_t)u16(row + 2);
        *at = r;
        if (joined[a][b]) return 36;
        joined[a][b] = joined[b][a] = 1;
        net->row[r] = (branch){a, b};
    }
    net->rows = rows;
    *at = 0;
    return 0;
}

static void start(tree *t, size_t root) {
    for (size_t x = 0; x < NODES; x++) t->place[x] = NONE;
    t->up[root] = t->order[0] = (uint16_t)root, t->place[root] = 0, t->many = 1;
}

static void hang(tree *t, size_t node, size_t up) {
    t->up[node] = (uint16_t)up, t->order[t->many] = (uint16_t)node, t->place[node] = (uint16_t)t->many++;
}

/* From node 0: the rows are gone through again as long as one led on. */
static void span(const mesh *net, tree *t) {
    start(t, 0);
    for (size_t before = 0; before < t->many && t->many < net->n;) {
        before = t->many;
        for (size_t r = 0; r < net->rows; r++) {
            branch x = net->row[r];
            int first = t->place[x.a] != NONE, second = t->place[x.b] != NONE;
            if (first && !second) hang(t, x.b, x.a);
            if (second && !first) hang(t, x.a, x.b);
        }
    }
}

/* The same tree hung up at another root: its climb to the old one first. */
static void turn(const tree *from, size_t root, tree *t) {
    start(t, root);
    for (size_t x = root; x != from->order[0]; x = from->up[x]) hang(t, from->up[x], x);
    for (size_t i = 1; i < from->many; i++) {
        size_t x = from->order[i];
        if (t->place[x] == NONE) hang(t, x, from->up[x]);
    }
}

/* Names for each node the ring that its row to its parent lies on, by the later end of the row that closes the ring,
   and where there is none the node itself; and counts the nodes of each. Gives 0 where a row lies on two. */
static int take_rings(const mesh *net, const tree *t, uint16_t ring[NODES], uint16_t size[NODES]) {
    for (size_t x = 0; x < net->n; x++) ring[x] = NONE, size[x] = 0;
    for (size_t r = 0; r < net->rows; r++) {
        size_t x = net->row[r].a, y = net->row[r].b;
        if (t->up[x] == y || t->up[y] == x) continue;
        uint16_t name = (uint16_t)(t->place[x] > t->place[y] ? x : y);
        while (x != y) {
            int first = t->place[x] > t->place[y];
            size_t later = first ? x : y;
            if (ring[later] != NONE) return 0;
            ring[later] = name;
            if (first) x = t->up[x];
            else y = t->up[y];
        }
    }
    for (size_t x = 0; x < net->n; x++) {
        if (ring[x] == NONE) ring[x] = (uint16_t)x;
        size[ring[x]]++;
    }
    return 1;
}

/* The most branches on a path from the tree's root, and the first node with so many. Gives 0 where a row lies on two
   rings. */
static int from_root(const mesh *net, const tree *t, size_t *most, size_t *node) {
    uint16_t ring[NODES], size[NODES];
    size_t far[NODES], base[NODES], steps[NODES]; /* of the ring: how far it is to its first node, and from there */
    if (!take_rings(net, t, ring, size)) return 0;
    far[t->order[0]] = base[t->order[0]] = steps[t->order[0]] = 0;
    for (size_t i = 1; i < net->n; i++) {
        size_t x = t->order[i], up = t->up[x], more = ring[x] == ring[up], round = size[ring[x]] + 1u;
        base[x] = more ? base[up] : far[up], steps[x] = more ? steps[up] + 1 : 1;
        far[x] = base[x] + (2 * steps[x] > round ? steps[x] : round - steps[x]);
    }
    *node = 0;
    for (size_t x = 1; x < net->n; x++)
        if (far[x] > far[*node]) *node = x;
    *most = far[*node];
    return 1;
}

static uint8_t longest(const mesh *net, int64_t fields[3]) {
    tree first, turned;
    int64_t best = 0, low = 0, high = 0;
    span(net, &first);
    if (first.many < net->n) return 37;
    for (size_t root = 0; root < net->n; root++) {
        size_t most, node;
        turn(&first, root, &turned);
        if (!from_root(net, &turned, &most, &node)) return 38;
        if ((int64_t)most > best) best = (int64_t)most, low = (int64_t)root, high = (int64_t)node;
    }
    fields[0] = best, fields[1] = low, fields[2] = high;
    return 0;
}

uint8_t plain_mesh(const uint8_t *table, size_t table_len, int64_t *answer) {
    mesh net;
    size_t row = 0;
    uint8_t number = refusal_of_header(table, table_len);
    memset(answer, 0, 8 * sizeof *answer);
    if (!number) {
        net.n = u16(table + 5);
        number = take_rows(table, table_len / 12 - 1, &net, &row);
        if (!number) number = longest(&net, answer + 3);
    }
    answer[0] = number, answer[1] = (int64_t)row;
    return number;
}
