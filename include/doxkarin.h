/* Doxkarin: the judge of weekly production plans. Link with libdoxkarin.a (tools/build).
 *
 * Each call returns 0, or the number of the refusal; on a refusal nothing behind a pointer is changed. A file is a pointer to its bytes and
 * their count: a plant file of kind 1, or of kind 4, which says what is mounted before the first week; a plan file of kind 2; a slot file of
 * kind 3; a list of rates. No pointer may be null, one with a count of 0 neither; profit and length are aligned as their types are. The
 * output, profit and length may not overlap a file or each other. */
#ifndef DOXKARIN_H
#define DOXKARIN_H

#include <stddef.h>
#include <stdint.h>

#ifdef __cplusplus
extern "C" {
#endif

/* Level A: checks a plan file against a plant file, and gives its profit in thousandths of a cent. */
uint32_t doxkarin_check(const uint8_t *plant, size_t plant_length,
                        const uint8_t *plan, size_t plan_length,
                        int64_t *profit);

/* Level B: writes the slot file of a plan that passes to the start of out, and gives its length. 51 if out is shorter. */
uint32_t doxkarin_slots(const uint8_t *plant, size_t plant_length,
                        const uint8_t *plan, size_t plan_length,
                        uint8_t *out, size_t out_length,
                        uint64_t *length);

/* Level C: writes the plan file of a slot file's run to the start of out, and gives its length. 51 if out is shorter. */
uint32_t doxkarin_plan(const uint8_t *plant, size_t plant_length,
                       const uint8_t *slots, size_t slots_length,
                       uint8_t *out, size_t out_length,
                       uint64_t *length);

/* Rolls on: writes the plant file, of kind 4, of the weeks that remain after the first k of a plan that passes to the start of out, and
 * gives its length. Stock, what is owed and the mounted product are those after week k. The list has the new grams a minute of each
 * product, 4 bytes each, little-endian. After the plant and the plan: 61 if k is not 1 to the plant's weeks less 1; 4 if the list is not
 * 4 bytes for each product; 5 if a rate is not 1 to 100,000; 62 if more than 1,600,000,000 grams of a product are owed to a customer after
 * week k; 51 if out is shorter. */
uint32_t doxkarin_roll(const uint8_t *plant, size_t plant_length,
                       const uint8_t *plan, size_t plan_length,
                       uint64_t k,
                       const uint8_t *rates, size_t rates_length,
                       uint8_t *out, size_t out_length,
                       uint64_t *length);

#ifdef __cplusplus
}
#endif

#endif
