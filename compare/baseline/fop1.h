/*
 * A hand-written FOP-1 behind the boundary of include/pondreszi.h: each function has the signature, the answers and the refusals of the
 * function pondreszi_sender_ of its name, and the state, the store and the answer have the same octets.
 */
#ifndef BASELINE_FOP1_H
#define BASELINE_FOP1_H

#include <stdint.h>

uint8_t baseline_sender_new(uint32_t k, uint32_t t1_initial, uint32_t transmission_limit, uint32_t timeout_type, uint32_t spacecraft,
                            uint32_t channel, uint32_t vs, uint32_t nnr, const uint8_t *store, uint64_t store_len, uint8_t *state,
                            uint64_t state_len);

uint8_t baseline_sender_request_ad(uint8_t *state, uint64_t state_len, const uint8_t *unit, uint64_t unit_len, uint8_t *store,
                                   uint64_t store_len, uint8_t *output, uint64_t output_len, uint8_t *answer, uint64_t answer_len);

uint8_t baseline_sender_request_bd(uint8_t *state, uint64_t state_len, const uint8_t *unit, uint64_t unit_len, uint8_t *store,
                                   uint64_t store_len, uint8_t *output, uint64_t output_len, uint8_t *answer, uint64_t answer_len);

uint8_t baseline_sender_directive(uint8_t *state, uint64_t state_len, uint32_t number, uint32_t value, uint8_t *store, uint64_t store_len,
                                  uint8_t *output, uint64_t output_len, uint8_t *answer, uint64_t answer_len);

uint8_t baseline_sender_tick(uint8_t *state, uint64_t state_len, uint8_t *store, uint64_t store_len, uint8_t *output, uint64_t output_len,
                             uint8_t *answer, uint64_t answer_len);

uint8_t baseline_sender_lower_layer(uint8_t *state, uint64_t state_len, uint32_t number, uint8_t *store, uint64_t store_len,
                                    uint8_t *output, uint64_t output_len, uint8_t *answer, uint64_t answer_len);

uint8_t baseline_sender_control_word(uint8_t *state, uint64_t state_len, const uint8_t *word, uint64_t word_len, uint8_t *store,
                                     uint64_t store_len, uint8_t *output, uint64_t output_len, uint8_t *answer, uint64_t answer_len);

#endif
