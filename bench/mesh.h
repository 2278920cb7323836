/* The plain program for clock meshes: the most branches on a simple path, with the library's refusals. */
#ifndef MESH_H
#define MESH_H
#include <stddef.h>
#include <stdint.h>

/* By trying the longest paths from each node, over one spanning tree that is turned for each: rows beside the tree are
   climbed from both ends to where these meet, and each ring is gone round the longer way. */
uint8_t plain_mesh(const uint8_t *table, size_t table_len, int64_t *answer);

#endif
