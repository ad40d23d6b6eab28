/* Holds the baseline to the library. */
#ifndef BASELINE_CHECK_H
#define BASELINE_CHECK_H

#include <stdbool.h>
#include <stdint.h>

/*
 * Does so many random events on both sides, from the same memory: number, state, store, output and answer must be the same. False where
 * they differ, or where the events were too few to meet every row of table 7-8, every refusal and every K; a message says which.
 */
bool sides_agree(uint32_t count);

#endif
