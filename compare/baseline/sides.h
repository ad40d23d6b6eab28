/* The two sides that are compared and measured: the library's sender and the baseline's. */
#ifndef BASELINE_SIDES_H
#define BASELINE_SIDES_H

#include <stdint.h>

/* The functions of a sender, as include/pondreszi.h has them. */
struct side {
    const char *name;
    const char *prefix; /* of its functions' names */
    uint8_t (*new)(uint32_t k, uint32_t t1_initial, uint32_t transmission_limit, uint32_t timeout_type, uint32_t spacecraft,
                   uint32_t channel, uint32_t vs, uint32_t nnr, const uint8_t *store, uint64_t store_len, uint8_t *state,
                   uint64_t state_len);
    uint8_t (*request_ad)(uint8_t *state, uint64_t state_len, const uint8_t *unit, uint64_t unit_len, uint8_t *store, uint64_t store_len,
                          uint8_t *output, uint64_t output_len, uint8_t *answer, uint64_t answer_len);
    uint8_t (*request_bd)(uint8_t *state, uint64_t state_len, const uint8_t *unit, uint64_t unit_len, uint8_t *store, uint64_t store_len,
                          uint8_t *output, uint64_t output_len, uint8_t *answer, uint64_t answer_len);
    uint8_t (*directive)(uint8_t *state, uint64_t state_len, uint32_t number, uint32_t value, uint8_t *store, uint64_t store_len,
                         uint8_t *output, uint64_t output_len, uint8_t *answer, uint64_t answer_len);
    uint8_t (*tick)(uint8_t *state, uint64_t state_len, uint8_t *store, uint64_t store_len, uint8_t *output, uint64_t output_len,
                    uint8_t *answer, uint64_t answer_len);
    uint8_t (*lower_layer)(uint8_t *state, uint64_t state_len, uint32_t number, uint8_t *store, uint64_t store_len, uint8_t *output,
                           uint64_t output_len, uint8_t *answer, uint64_t answer_len);
    uint8_t (*control_word)(uint8_t *state, uint64_t state_len, const uint8_t *word, uint64_t word_len, uint8_t *store, uint64_t store_len,
                            uint8_t *output, uint64_t output_len, uint8_t *answer, uint64_t answer_len);
};

extern const struct side library_side;
extern const struct side baseline_side;

#endif
