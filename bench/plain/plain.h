/* The library's jobs in plain C, unproved: what its instructions and answers are held beside. */
#ifndef PLAIN_H
#define PLAIN_H

#include <stdbool.h>
#include <stddef.h>
#include <stdint.h>

struct plain_reading {
    uint8_t number;
    size_t place;
};

struct plain_record {
    uint8_t kind, number;
};

struct plain_run {
    bool done[224];
};

struct plain_taken {
    struct plain_run run;
    uint8_t number;
};

uint32_t plain_check(const uint8_t *table, size_t table_len);
uint32_t plain_order(const uint8_t *table, size_t table_len, uint8_t *order, size_t order_len);
uint32_t plain_verdict(const uint8_t *table, size_t table_len,
                       const uint8_t *order, size_t order_len);
uint32_t plain_verdict_of_records(const uint8_t *table, size_t table_len,
                                  const struct plain_record *records, size_t count);
struct plain_reading plain_read(const uint8_t *text, size_t text_len,
                                uint8_t *table, size_t table_len);
struct plain_reading plain_list(const uint8_t *text, size_t text_len,
                                uint8_t *out, size_t out_len);
struct plain_taken plain_take(const uint8_t *table, size_t table_len,
                              struct plain_run run, size_t call);
bool plain_precedes(const uint8_t *table, size_t table_len, size_t first, size_t second);

#endif
