/* A plain reader and writer of road-graph texts, as anyone would write them in C: the same as the library's
   hb_dimacs_read and hb_dimacs_write, with the same answers. */
#ifndef ROADS_H
#define ROADS_H
#include <stddef.h>
#include <stdint.h>

/* Reads each text once; hashes the arcs; the table's own refusals are the plain scan's (scan.h). */
uint8_t roads_read(const uint8_t *lengths, size_t lengths_len, const uint8_t *weights, size_t weights_len,
                   uint32_t bound, uint8_t *table, size_t table_len, int64_t answer[8]);

/* Both texts of a table, by printf's functions. */
uint8_t roads_write(const uint8_t *table, size_t table_len, uint8_t *lengths, size_t lengths_len,
                    uint8_t *weights, size_t weights_len, int64_t answer[8]);

#endif
