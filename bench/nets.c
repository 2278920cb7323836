/* The nets that are measured (nets.h). */
#include "nets.h"
#include <string.h>

const char *const shape_names[SHAPES] = {"chain", "star", "caterpillar", "balanced", "random"};

uint64_t next_number(uint64_t *seed) { /* splitmix64 */
    uint64_t z = *seed += 0x9E3779B97F4A7C15u;
    z = (z ^ z >> 30) * 0xBF58476D1CE4E5B9u;
    z = (z ^ z >> 27) * 0x94D049BB133111EBu;
    return z ^ z >> 31;
}

static size_t parent(int shape, size_t n, size_t i, uint64_t *seed) {
    switch (shape) {
    case 0: return i - 1;
    case 1: return 0;
    case 2: return i < n / 2 ? i - 1 : i - n / 2;
    case 3: return (i - 1) / 2;
    default: return next_number(seed) % i;
    }
}

static void put(uint8_t *to, uint64_t x, size_t bytes) {
    for (size_t i = 0; i < bytes; i++) to[i] = (uint8_t)(x >> 8 * i);
}

static void shuffle(uint16_t *list, size_t many, uint64_t *seed) {
    for (size_t i = 0; i < many; i++) list[i] = (uint16_t)i;
    for (size_t i = many; i > 1; i--) {
        size_t j = next_number(seed) % i;
        uint16_t x = list[i - 1];
        list[i - 1] = list[j], list[j] = x;
    }
}

static uint32_t bound_of(int shape, size_t n, enum lengths lengths, const uint32_t *far) {
    uint32_t most = 0, best = 0;
    for (size_t i = 0; i < n; i++)
        if (far[i] > most) most = far[i];
    if (shape == 1) return lengths == EQUAL ? 2 * most : most;
    for (size_t i = 0; i < n; i++)
        if (far[i] <= most / 2 && far[i] > best) best = far[i];
    return best;
}

size_t make_net(int shape, size_t n, enum lengths lengths, uint8_t table[12 * 4096]) {
    uint16_t name[4096], rows[4096];
    uint32_t far[4096] = {0};
    uint64_t seed = 8 * n + (uint64_t)shape;
    shuffle(name, n, &seed);
    shuffle(rows, n - 1, &seed);
    memcpy(table, "RTN\1\0", 5);
    put(table + 5, n, 3);
    for (size_t i = 1; i < n; i++) {
        size_t up = parent(shape, n, i, &seed);
        uint32_t any = 1 + (uint32_t)(next_number(&seed) % 100), length = lengths == EQUAL ? 50 : any;
        uint8_t *row = table + 12 + 12 * (size_t)rows[i - 1];
        put(row, name[up], 2), put(row + 2, name[i], 2), put(row + 4, length, 4);
        put(row + 8, (uint64_t)((int64_t)(next_number(&seed) % 201) - 100), 4);
        far[i] = far[up] + length;
    }
    put(table + 8, bound_of(shape, n, lengths, far), 4);
    return 12 * n;
}

size_t make_grid_tree(size_t side, uint8_t table[12 * 4096]) {
    uint64_t seed = side;
    size_t n = side * side;
    memcpy(table, "RTN\1\0", 5);
    put(table + 5, n, 3), put(table + 8, 500 * side, 4);
    for (size_t x = 1; x < n; x++) {
        size_t beside = x < side || (x % side && next_number(&seed) % 2), up = beside ? x - 1 : x - side;
        uint8_t *row = table + 12 * x;
        put(row, up, 2), put(row + 2, x, 2), put(row + 4, 1 + next_number(&seed) % 1000, 4);
        put(row + 8, (uint64_t)((int64_t)(next_number(&seed) % 201) - 100), 4);
    }
    return 12 * n;
}

void weigh_by_kind(size_t n, uint8_t table[12 * 4096]) {
    uint64_t seed = n;
    put(table + 3, 2, 2);
    for (size_t r = 0; r + 1 < n; r++) {
        uint64_t kind = next_number(&seed) % 96 % 64, most = kind < 32 ? 100 / (kind + 1) : 2;
        put(table + 20 + 12 * r, kind, 2), put(table + 22 + 12 * r, next_number(&seed) % (most + 1), 2);
    }
}

void close_ring(size_t n, uint8_t table[12 * 4096]) {
    uint16_t steps[4096] = {0}; /* one more than the branches from the first row's first node; 0: not reached */
    size_t last = n - 2, start = table[12] + 256u * table[13], far = start;
    steps[start] = 1;
    for (int more = 1; more;) {
        more = 0;
        for (size_t r = 0; r < last; r++) {
            const uint8_t *row = table + 12 + 12 * r;
            size_t a = row[0] + 256u * row[1], b = row[2] + 256u * row[3];
            if (!steps[a] == !steps[b]) continue;
            if (!steps[a]) steps[a] = (uint16_t)(steps[b] + 1);
            else steps[b] = (uint16_t)(steps[a] + 1);
            more = 1;
        }
    }
    for (size_t x = 0; x < n; x++)
        if (steps[x] > steps[far]) far = x;
    put(table + 12 + 12 * last, start, 2), put(table + 14 + 12 * last, far, 2);
}

const char *const mesh_names[MESHES] = {"path", "one ring", "triangles on a string", "rings on rings", "random tree"};

/* The nodes of the next ring, with the one that it hangs on; 2 for a single branch. */
static size_t ring_size(int mesh, size_t left, uint64_t *seed) {
    size_t nodes;
    switch (mesh) {
    case 1: nodes = left + 1; break;
    case 2: nodes = 3; break;
    case 3: nodes = 3 + next_number(seed) % 10; break;
    default: nodes = 2;
    }
    return nodes > left + 1 ? left + 1 : nodes;
}

size_t make_mesh(int mesh, size_t n, uint8_t table[MESH_SIZE]) {
    uint16_t name[MESH_NODES], rows[MESH_ROWS], ends[MESH_ROWS][2];
    uint64_t seed = 8 * n + (uint64_t)mesh;
    size_t many = 0;
    if (mesh == 2 && n % 2 == 0) n--;
    for (size_t made = 1; made < n;) {
        size_t nodes = ring_size(mesh, n - made, &seed), hook = made - 1;
        if (mesh > 2) hook = next_number(&seed) % made;
        for (size_t i = 1; i < nodes; i++, many++)
            ends[many][0] = (uint16_t)(i == 1 ? hook : made + i - 2), ends[many][1] = (uint16_t)(made + i - 1);
        made += nodes - 1;
        if (nodes > 2) ends[many][0] = (uint16_t)(made - 1), ends[many++][1] = (uint16_t)hook;
    }
    shuffle(name, n, &seed);
    shuffle(rows, many, &seed);
    memcpy(table, "RTN\3\0", 5);
    put(table + 5, n, 3), put(table + 8, next_number(&seed), 4);
    for (size_t r = 0; r < many; r++) {
        uint8_t *row = table + 12 + 12 * (size_t)rows[r];
        put(row, name[ends[r][0]], 2), put(row + 2, name[ends[r][1]], 2), put(row + 4, next_number(&seed) % 1000, 4);
        put(row + 8, (uint64_t)((int64_t)(next_number(&seed) % 201) - 100), 4);
    }
    return 12 + 12 * many;
}
