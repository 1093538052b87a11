/* The calls without the audit, over two arrays: by the proved crates (calls.rt.in), by plain.c, or by
 * nothing.c, which does nothing. A find gives the row or 0, an insert and an audit the answer's
 * number, a delete the row, a listing its bytes. */
#include <stddef.h>
#include <stdint.h>

uint64_t cost_find(const int32_t *base, size_t base_length, const int32_t *check,
                   size_t check_length, const uint8_t *key, size_t key_length);
uint64_t cost_insert(int32_t *base, size_t base_length, int32_t *check, size_t check_length,
                     const uint8_t *key, size_t key_length, uint32_t row);
uint64_t cost_delete(int32_t *base, size_t base_length, int32_t *check, size_t check_length,
                     const uint8_t *key, size_t key_length);
uint64_t cost_audit(const int32_t *base, size_t base_length, const int32_t *check,
                    size_t check_length);
uint64_t cost_list(const int32_t *base, size_t base_length, const int32_t *check,
                   size_t check_length, uint8_t *out, size_t out_length);

/* For a sheet, by the proved crates alone: an insert that asks KEY and NUMBER too and gives the
 * answer's value, and a run, which gives the lines answered. */
uint64_t cost_single(int32_t *base, size_t base_length, int32_t *check, size_t check_length,
                     const uint8_t *key, size_t key_length, uint32_t row);
uint64_t cost_run(int32_t *base, size_t base_length, int32_t *check, size_t check_length,
                  const uint8_t *sheet, size_t sheet_length, uint8_t *answers,
                  size_t answers_length);
