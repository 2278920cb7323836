/* The nets that are measured: chain, star, caterpillar, balanced, random; and the clock meshes. */
#ifndef NETS_H
#define NETS_H
#include <stddef.h>
#include <stdint.h>

enum { SHAPES = 5 };
extern const char *const shape_names[SHAPES];

/* A number from `seed`, which moves on. */
uint64_t next_number(uint64_t *seed);

/* Lengths 1 to 100, or all of them 50. */
enum lengths { VARIED, EQUAL };

/* Writes the table of a net of n nodes, 2 to 4,096: nodes under shuffled names, rows in shuffled order, weights -100 to
   100. The bound is the longest of the first node's paths that is at most half as long as its longest (of a star: the
   longest; twice that where all lengths are equal, so that two leaves are that far apart): some pair has exactly this
   length. Gives the table's size. */
size_t make_net(int shape, size_t n, enum lengths lengths, uint8_t table[12 * 4096]);

/* Writes the table of a tree that spans a planar grid of so many rows and columns, 2 to 64, node after node: each but
   the first hangs from the one before it or the one above it. Lengths 1 to 1,000, weights -100 to 100, some bound.
   Gives the table's size. */
size_t make_grid_tree(size_t side, uint8_t table[12 * 4096]);

/* Of a net's table, the one of version 2 with kinds and counts at random in place of the weights. They lie from -100 to
   100 again, about 0: of six rows three have kinds that score, one has filler and two have blocked ground. */
void weigh_by_kind(size_t n, uint8_t table[12 * 4096]);

/* Of a net's table, 3 nodes or more, the one whose last row joins the first row's first node to the farthest node that
   the other rows join to it: the last row closes a ring. */
void close_ring(size_t n, uint8_t table[12 * 4096]);

/* The clock meshes: a path; one ring; triangles on a string, each with one node of the one before it; rings on rings,
   each of 3 to 12 nodes and hung on a random node of those before it; a random tree. The first and the last have no
   ring. */
enum { MESHES = 5, MESH_NODES = 256, MESH_ROWS = 3 * (MESH_NODES - 1) / 2, MESH_SIZE = 12 + 12 * MESH_ROWS };
extern const char *const mesh_names[MESHES];

/* Writes the table of a mesh, of version 3, of n nodes, 3 to 256, under shuffled names and with shuffled rows; of
   triangles of one node less where n is even. Gives the table's size. */
size_t make_mesh(int mesh, size_t n, uint8_t table[MESH_SIZE]);

#endif
