/* How much stack each operation takes: on a thread whose stack was painted, over the five nets of 4,096 nodes
   in both versions and the same with a ring, over the texts of each net, of more arcs than a net has, and of a ring;
   with a change set over the same nets, of no entry and of every row; of a row written, and refused; of clock meshes
   over five of 256 nodes and over such as 36, 37 and 38 refuse. The most of all is told, and the most where no table
   has a ring. */
#include "hourbench.h"
#include "nets.h"
#include <pthread.h>
#include <stdio.h>
#include <stdlib.h>
#include <string.h>

enum { STACK = 2 << 20, NODES = 4096, BRANCHES = NODES - 1, TEXT = 1 << 18, PAINT = 0xA5, RUBBISH = 0xEE };
enum { READ = 15, WRITE_ROW = 17, MESH = 18, OPS = 19 }; /* READ, of texts, WRITE_ROW, of numbers, and MESH: no set */
static const char *names[OPS] = {"(the thread itself)", "hb_accept", "hb_pair", "hb_heaviest", "hb_heaviest_exact",
                                 "hb_heads", "hb_listing", "hb_listing_exact", "hb_window", "hb_window_list", "hb_vet",
                                 "hb_claim", "hb_commit", "hb_abort", "hb_convert", "hb_dimacs_read",
                                 "hb_dimacs_write", "hb_write_row", "hb_mesh"};
static uint8_t table[12 * NODES], made[12 * NODES], page[65536], lengths[TEXT], weights[TEXT], text[TEXT], other[TEXT];
static uint8_t frozen[12 * NODES], set[6 + 14 * BRANCHES];
static uint8_t list[65536]; /* the listing's first rows */
static uint16_t marks[NODES], heads[NODES];
static size_t size, list_len, lengths_len, weights_len;

/* The meshes, and after them those that are refused; what each gives, and whether it has a ring. */
enum { REPEATED = MESHES, APART, CROSSED, TABLES };
static const uint8_t mesh_numbers[TABLES] = {[REPEATED] = 36, [APART] = 37, [CROSSED] = 38};
static const int mesh_rings[TABLES] = {0, 1, 1, 1, 0, 1, 1, 1};
static uint8_t meshes[TABLES][MESH_SIZE + 12];
static size_t mesh_sizes[TABLES];
static int with_rings; /* the meshes that are asked: those with a ring, or the others */

/* What an operation is asked over: the table, or a table and a set. */
typedef struct {
    const uint8_t *table, *set; /* no set: NULL */
    size_t set_len;
} over;

#define ASK(name, ...) \
    (net->set ? hb_##name##_with(net->table, size, net->set, net->set_len, __VA_ARGS__) \
              : hb_##name(net->table, size, __VA_ARGS__))

/* A list whose rows are good and from which others are missing; the same with a row at fault; a list that is ours. */
static void vet_lists(const over *net, int64_t answer[8]) {
    ASK(vet, marks, BRANCHES, 0, list, list_len, answer);
    list[list_len - 16] ^= 1;
    ASK(vet, marks, BRANCHES, 0, list, list_len, answer);
    list[list_len - 16] ^= 1;
    ASK(vet, marks, BRANCHES, INT64_MAX, list, 0, answer);
}

static void ask_meshes(int64_t answer[8]) {
    for (int mesh = 0; mesh < TABLES; mesh++)
        if (mesh_rings[mesh] == with_rings) hb_mesh(meshes[mesh], mesh_sizes[mesh], answer);
}

static void ask(int op, const over *net) {
    int64_t answer[8];
    size_t m = BRANCHES;
    switch (op) {
    case 1: ASK(accept, answer); break;
    case 2: ASK(pair, marks, m, 1, 2, answer); break;
    case 3: ASK(heaviest, marks, m, answer); break;
    case 4: ASK(heaviest_exact, marks, m, answer); break;
    case 5: ASK(heads, heads, NODES, answer); break;
    case 6: ASK(listing, marks, m, 0, 0, 0, page, sizeof page, answer); break;
    case 7: ASK(listing_exact, marks, m, 0, 0, 0, page, sizeof page, answer); break;
    case 8: ASK(window, marks, m, 1, NODES, INT64_MIN, INT64_MAX, answer); break;
    case 9: ASK(window_list, marks, m, 1, NODES, INT64_MIN, INT64_MAX, 0, 0, page, sizeof page, answer); break;
    case 10: vet_lists(net, answer); break;
    case 11: ASK(claim, marks, m, 7, 1, 2, answer); break;
    case 12: ASK(commit, marks, m, 7, answer); break;
    case 13: ASK(abort, marks, m, 7, answer); break;
    case 14: ASK(convert, marks, m, answer); break;
    case READ: hb_dimacs_read(lengths, lengths_len, weights, weights_len, 0, made, sizeof made, answer); break;
    case 16: ASK(dimacs_write, text, TEXT, other, TEXT, answer); break;
    case WRITE_ROW:
        hb_write_row(4094, 4095, 1000000, 63, 20000, page, 12, answer);
        hb_write_row(4094, 4095, 1000000, 63, 20000, page, 11, answer);
        break;
    case MESH: ask_meshes(answer); break;
    }
}

static void *call(void *which) {
    int op = *(int *)which;
    ask(op, &(over){table, NULL, 0});
    return NULL;
}

static void *call_with(void *which) {
    int op = *(int *)which;
    ask(op, &(over){table, set, 6});
    memset(marks, 0, sizeof marks);
    ask(op, &(over){frozen, set, sizeof set});
    return NULL;
}

/* The set of every row of the table; the frozen table has rubbish in their place. */
static void take_set(void) {
    memcpy(frozen, table, 12), memset(frozen + 12, RUBBISH, sizeof frozen - 12);
    memcpy(set, "RTN\1\0\1", 6);
    for (size_t row = 0; row < BRANCHES; row++) {
        uint8_t *entry = set + 6 + 14 * row;
        entry[0] = (uint8_t)row, entry[1] = (uint8_t)(row >> 8);
        memcpy(entry + 2, table + 12 + 12 * row, 12);
    }
}

/* Each operation on the table as it stands, without a set and with one. */
static int take(uint8_t *stack, size_t most[2][OPS]) {
    take_set();
    for (int i = 0; i < 2 * OPS; i++) {
        int op = i / 2, with = i % 2;
        pthread_attr_t how;
        pthread_t thread;
        memset(stack, PAINT, STACK);
        memset(marks, 0, sizeof marks);
        pthread_attr_init(&how);
        pthread_attr_setstack(&how, stack, STACK);
        if (pthread_create(&thread, &how, with ? call_with : call, &op)) return 2;
        pthread_join(thread, NULL);
        size_t low = 0;
        while (low < STACK && stack[low] == PAINT) low++;
        if (STACK - low > most[with][op]) most[with][op] = STACK - low;
    }
    return 0;
}

/* Every pair of 100 nodes as a branch: 9,900 arcs. */
static void take_all_pairs(void) {
    char *s = (char *)lengths;
    s += sprintf(s, "p sp 100 9900\n");
    for (int a = 2; a <= 100; a++)
        for (int b = 1; b < a; b++) s += sprintf(s, "a %d %d 7\na %d %d 7\n", a, b, b, a);
    lengths_len = weights_len = (size_t)(s - (char *)lengths);
    memcpy(weights, lengths, lengths_len);
}

/* A ring of three branches and a node apart: the table made is refused by 11, whose ring is counted by a walk. */
static void take_ring(void) {
    static const char text_of_ring[] = "p sp 4 6\na 1 2 7\na 2 1 7\na 2 3 7\na 3 2 7\na 3 1 7\na 1 3 7\n";
    lengths_len = weights_len = sizeof text_of_ring - 1;
    memcpy(lengths, text_of_ring, lengths_len), memcpy(weights, text_of_ring, weights_len);
}

/* Rings on rings with the first row once more; with a node more, which no row has; four nodes, each joined to each.
   Gives 1 where a mesh is not taken or refused as it should be. */
static int take_meshes(void) {
    int64_t answer[8];
    int wrong = 0;
    for (int mesh = 0; mesh < MESHES; mesh++) mesh_sizes[mesh] = make_mesh(mesh, MESH_NODES, meshes[mesh]);
    mesh_sizes[REPEATED] = make_mesh(3, MESH_NODES, meshes[REPEATED]) + 12;
    memcpy(meshes[REPEATED] + mesh_sizes[REPEATED] - 12, meshes[REPEATED] + 12, 12);
    mesh_sizes[APART] = make_mesh(3, MESH_NODES - 1, meshes[APART]);
    meshes[APART][5] = 0, meshes[APART][6] = 1;
    memcpy(meshes[CROSSED], "RTN\3\0\4", 6), mesh_sizes[CROSSED] = 12;
    for (uint8_t a = 0; a < 4; a++)
        for (uint8_t b = 0; b < a; b++, mesh_sizes[CROSSED] += 12)
            meshes[CROSSED][mesh_sizes[CROSSED]] = a, meshes[CROSSED][mesh_sizes[CROSSED] + 2] = b;
    for (int mesh = 0; mesh < TABLES; mesh++)
        wrong |= hb_mesh(meshes[mesh], mesh_sizes[mesh], answer) != mesh_numbers[mesh];
    return wrong;
}

int main(void) {
    size_t most[2][OPS] = {0}, ringed[2][OPS] = {0};
    uint8_t *stack = aligned_alloc(4096, STACK);
    if (take_meshes()) return 2;
    for (int net = 0; net < 2 * SHAPES; net++) {
        int64_t answer[8];
        size = make_net(net / 2, NODES, VARIED, table);
        if (hb_dimacs_write(table, size, lengths, TEXT, weights, TEXT, answer)) return 2;
        lengths_len = (size_t)answer[3], weights_len = (size_t)answer[4];
        if (net % 2) weigh_by_kind(NODES, table);
        if (hb_listing(table, size, marks, NODES - 1, 0, 0, 0, list, sizeof list, answer)) return 2;
        list_len = 16 * (size_t)answer[3];
        if (list_len == 0) return 2;
        with_rings = 0;
        if (take(stack, most)) return 2;
        close_ring(NODES, table);
        with_rings = 1;
        if (take(stack, ringed)) return 2;
    }
    take_ring();
    if (take(stack, ringed)) return 2;
    with_rings = 0;
    size = make_net(0, NODES, VARIED, table);
    take_all_pairs();
    if (take(stack, most)) return 2;
    printf("| operation | stack, KiB | without a ring | with a change set | that without a ring |\n"
           "|---|---|---|---|---|\n");
    for (int op = 1; op < OPS; op++) {
        printf("| `%s` |", names[op]);
        for (int with = 0; with < 2; with++) {
            size_t own = most[with][0], all = most[with][op], rings = ringed[with][op];
            if (with && (op == READ || op >= WRITE_ROW)) printf(" | |");
            else printf(" %zu | %zu |", ((all > rings ? all : rings) - own + 1023) / 1024, (all - own + 1023) / 1024);
        }
        printf("\n");
    }
    return 0;
}
