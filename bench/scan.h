/* The plain scan: the same operations as the library's, each from the table's bytes on, by a walk from each node. */
#ifndef SCAN_H
#define SCAN_H
#include <stddef.h>
#include <stdint.h>

uint8_t scan_accept(const uint8_t *table, size_t table_len, int64_t answer[8]);
uint8_t scan_pair(const uint8_t *table, size_t table_len, const uint16_t *marks, size_t marks_len,
                  uint16_t a, uint16_t b, int64_t answer[8]);
uint8_t scan_heaviest(const uint8_t *table, size_t table_len, const uint16_t *marks, size_t marks_len,
                      int64_t answer[8]);
uint8_t scan_heaviest_exact(const uint8_t *table, size_t table_len, const uint16_t *marks, size_t marks_len,
                            int64_t answer[8]);
uint8_t scan_listing(const uint8_t *table, size_t table_len, const uint16_t *marks, size_t marks_len, int64_t floor,
                     uint16_t from_low, uint16_t from_high, uint8_t *rows, size_t rows_len, int64_t answer[8]);
uint8_t scan_listing_exact(const uint8_t *table, size_t table_len, const uint16_t *marks, size_t marks_len,
                           int64_t floor, uint16_t from_low, uint16_t from_high,
                           uint8_t *rows, size_t rows_len, int64_t answer[8]);
uint8_t scan_window(const uint8_t *table, size_t table_len, const uint16_t *marks, size_t marks_len,
                    uint32_t count_low, uint32_t count_high, int64_t sum_low, int64_t sum_high, int64_t answer[8]);
uint8_t scan_window_list(const uint8_t *table, size_t table_len, const uint16_t *marks, size_t marks_len,
                         uint32_t count_low, uint32_t count_high, int64_t sum_low, int64_t sum_high,
                         uint16_t from_low, uint16_t from_high, uint8_t *rows, size_t rows_len, int64_t answer[8]);
uint8_t scan_vet(const uint8_t *table, size_t table_len, const uint16_t *marks, size_t marks_len, int64_t floor,
                 const uint8_t *list, size_t list_len, int64_t answer[8]);
uint8_t scan_claim(const uint8_t *table, size_t table_len, uint16_t *marks, size_t marks_len,
                   uint16_t run, uint16_t a, uint16_t b, int64_t answer[8]);
uint8_t scan_commit(const uint8_t *table, size_t table_len, uint16_t *marks, size_t marks_len,
                    uint16_t run, int64_t answer[8]);
uint8_t scan_abort(const uint8_t *table, size_t table_len, uint16_t *marks, size_t marks_len,
                   uint16_t run, int64_t answer[8]);
uint8_t scan_convert(const uint8_t *table, size_t table_len, const uint16_t *marks, size_t marks_len,
                     int64_t answer[8]);

#endif
