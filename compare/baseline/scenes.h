/* The events that are measured, each from a sender prepared for it. */
#ifndef BASELINE_SCENES_H
#define BASELINE_SCENES_H

#include <stdint.h>

#include "events.h"
#include "pondreszi.h"
#include "sides.h"

/* Senders that differ in V(S): few enough that their states stay in the nearest memory, enough that the clock counts little. */
#define SENDERS 32

/* An event to be measured: what comes, and what it finds. */
struct scene {
    const char *name;
    const char *word; /* its name on the command line */
    enum event_kind kind;
    uint32_t number; /* of a directive or of the lower layer */
    uint8_t row;     /* of table 7-8; with K 1 row_alone where that is not 0 */
    uint8_t row_alone;
    uint8_t acknowledged; /* N(R) - NN(R) of a word */
    enum { K_OUTSTANDING, LESS_ONE, NONE_INITIAL } finds;
    enum { AD_READY, AD_NOT_READY, ALL_MARKED, LAST_TICK } with;
};

extern const struct scene scenes[];
extern const unsigned scene_count;

/* The memory of one side: senders prepared, and what an event is lent. */
struct stage {
    uint8_t prepared[SENDERS][PONDRESZI_SENDER_STATE_OCTETS];
    uint8_t states[SENDERS][PONDRESZI_SENDER_STATE_OCTETS];
    uint8_t words[SENDERS][PONDRESZI_CLCW_OCTETS];
    uint8_t unit[PONDRESZI_LARGEST_UNIT];
    uint8_t store[PONDRESZI_LARGEST_STORE];
    uint8_t output[PONDRESZI_LARGEST_FRAME];
    uint8_t answer[PONDRESZI_ANSWER_OCTETS];
    uint64_t unit_len, store_len;
};

/* Prepares the senders of a scene with a side's functions, for units of so many octets. */
void prepare(const struct scene *scene, const struct side *side, uint32_t k, uint64_t unit_len, struct stage *stage);

/* The states become the prepared ones again. */
void restore(struct stage *stage);

/* Does the event of the scene once for each sender, and tells whether each was done. */
int perform(const struct scene *scene, const struct side *side, struct stage *stage);

/* Does it on both sides: numbers, states, stores, outputs and answers must be the same, and the rows those of the scene. */
int scene_agrees(const struct scene *scene, uint32_t k, struct stage *library, struct stage *baseline);

#endif
