/* The plain writer of one row of a version 2 table, with the library's refusals. */
#ifndef WRITER_H
#define WRITER_H
#include <stddef.h>
#include <stdint.h>

uint8_t plain_write_row(uint16_t a, uint16_t b, uint32_t length, uint16_t kind, uint16_t count,
                        uint8_t *row, size_t row_len, int64_t *answer);

#endif
