/*
 * The calls of mersohki.h, written by hand in C for speed: what the proved library is measured against. Parameters,
 * answers, refusals, and which lent memory is written, are those of the header. Nothing here is proved.
 *
 * No heap, no global state; native_races needs 200 KiB of stack, the others below 64 KiB.
 */
#ifndef NATIVE_H
#define NATIVE_H

#include "mersohki.h"

struct mersohki_accept_result native_accept(const uint8_t *file, size_t file_length);

struct mersohki_table_result native_order_table(const uint8_t *file, size_t file_length,
                                                uint16_t *table, size_t table_length);

struct mersohki_order_result native_pair_order(const uint8_t *file, size_t file_length, uint32_t a, uint32_t b);

struct mersohki_runs_result native_two_runs(const uint8_t *file, size_t file_length, uint32_t a, uint32_t b,
                                            uint16_t *first, size_t first_length,
                                            uint16_t *second, size_t second_length);

struct mersohki_races_result native_races(const uint8_t *file, size_t file_length,
                                          uint16_t *table, size_t table_length,
                                          uint16_t *lower, size_t lower_length,
                                          uint16_t *higher, size_t higher_length);

struct mersohki_canonical_result native_canonical(const uint8_t *file, size_t file_length,
                                                  uint8_t *output, size_t output_length);

struct mersohki_beginning_result native_beginning(const uint16_t *first, size_t first_length,
                                                  const uint16_t *second, size_t second_length,
                                                  uint32_t chosen, uint32_t other);

#endif
