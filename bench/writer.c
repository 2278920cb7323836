/* The plain writer (writer.h). */
#include "writer.h"
#include <string.h>

static uint8_t refusal(uint16_t a, uint16_t b, uint32_t length, uint16_t kind, uint16_t count, size_t row_len) {
    if (a > 4095 || b > 4095) return 7;
    if (a == b) return 8;
    if (length > 1000000) return 9;
    if (kind >= 64) return 22;
    if (kind >= 24 && kind < 32) return 35;
    if (count > 20000) return 23;
    return row_len == 12 ? 0 : 39;
}

/* Without a loop, so that a compiler stores each number at once. */
static void put16(uint8_t *to, uint32_t x) { to[0] = (uint8_t)x, to[1] = (uint8_t)(x >> 8); }
static void put32(uint8_t *to, uint32_t x) {
    to[0] = (uint8_t)x, to[1] = (uint8_t)(x >> 8), to[2] = (uint8_t)(x >> 16), to[3] = (uint8_t)(x >> 24);
}

uint8_t plain_write_row(uint16_t a, uint16_t b, uint32_t length, uint16_t kind, uint16_t count,
                        uint8_t *row, size_t row_len, int64_t *answer) {
    uint8_t number = refusal(a, b, length, kind, count, row_len);
    memset(answer, 0, 8 * sizeof *answer);
    answer[0] = number;
    if (number) return number;
    put16(row, a), put16(row + 2, b), put32(row + 4, length), put16(row + 8, kind), put16(row + 10, count);
    return 0;
}
