/* A deterministic random generator (splitmix64): one seed, one list of inputs. */
#ifndef BASELINE_RANDOM_H
#define BASELINE_RANDOM_H

#include <stdbool.h>
#include <stddef.h>
#include <stdint.h>

extern uint64_t random_state;

static inline uint64_t random_number(void) {
    random_state += 0x9E3779B97F4A7C15u;
    uint64_t z = random_state;
    z = (z ^ (z >> 30)) * 0xBF58476D1CE4E5B9u;
    z = (z ^ (z >> 27)) * 0x94D049BB133111EBu;
    return z ^ (z >> 31);
}

/* A number below the limit, which is not 0. */
static inline uint32_t below(uint32_t limit) { return (uint32_t)(random_number() % limit); }

/* A number from least to most, both included. */
static inline uint32_t between(uint32_t least, uint32_t most) { return least + below(most - least + 1); }

static inline bool once_in(uint32_t times) { return below(times) == 0; }

static inline void random_octets(uint8_t *octets, size_t count) {
    for (size_t i = 0; i < count; i++)
        octets[i] = (uint8_t)random_number();
}

#endif
