/* The calls of include/asbru.h, in C, tuned by hand and without proofs: what host/bench.c measures the library against. */
#ifndef PLAIN_H
#define PLAIN_H

#include <stddef.h>
#include <stdint.h>

#ifdef __cplusplus
extern "C" {
#endif

/* plain.c */
uint64_t plain_step(uint32_t rule, const uint8_t *table, size_t table_length, uint8_t *states, size_t states_length,
                    const uint8_t *words, size_t words_length, uint8_t *causes, size_t causes_length);
uint64_t plain_rest(uint32_t rule, const uint8_t *table, size_t table_length, uint8_t *states, size_t states_length,
                    const uint8_t *words, size_t words_length, uint8_t *causes, size_t causes_length, uint16_t budget);
uint64_t plain_bound(const uint8_t *table, size_t table_length, const uint8_t *words, size_t words_length);
uint64_t plain_check(uint32_t rule, const uint8_t *table, size_t table_length, const uint8_t *record, size_t record_length);
uint64_t plain_to_version_1(const uint8_t *table, size_t table_length, uint8_t *output, size_t output_length);
uint64_t plain_to_version_2(const uint8_t *table, size_t table_length, uint8_t *output, size_t output_length);

/* plain_held.c */
uint64_t plain_pattern(const int64_t *annotation, const int64_t *samples, size_t count, int64_t asked);
uint64_t plain_normalise(int64_t *annotation);
uint32_t plain_with_pattern(uint32_t word, uint32_t condition, uint64_t answer);

#ifdef __cplusplus
}
#endif

#endif
