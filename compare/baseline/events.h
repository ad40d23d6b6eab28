/* Senders' states and events at random, and an event done by a side. */
#ifndef BASELINE_EVENTS_H
#define BASELINE_EVENTS_H

#include <stdint.h>

#include "pondreszi.h"
#include "sides.h"

#define BEHIND 32 /* octets behind a buffer that are compared too */

enum event_kind { REQUEST_AD, REQUEST_BD, DIRECTIVE, TICK, LOWER_LAYER, CONTROL_WORD, EVENT_KINDS };

struct sender_event {
    enum event_kind kind;
    uint32_t number; /* of a directive or of the lower layer */
    uint32_t value;
    uint8_t octets[PONDRESZI_LARGEST_UNIT + BEHIND]; /* a unit or a control word */
    uint64_t count;
};

/* What is lent to a call: the buffers, and how many of their octets. */
struct memory {
    uint8_t state[PONDRESZI_SENDER_STATE_OCTETS + BEHIND];
    uint8_t store[PONDRESZI_LARGEST_STORE + BEHIND];
    uint8_t output[PONDRESZI_LARGEST_FRAME + BEHIND];
    uint8_t answer[PONDRESZI_ANSWER_OCTETS + BEHIND];
    uint64_t state_len, store_len, output_len, answer_len;
};

struct settings {
    uint32_t k, t1_initial, transmission_limit, timeout_type, spacecraft, channel, vs, nnr;
};

const char *event_name(enum event_kind kind);

/* Does the event with a side's function. */
uint8_t do_event(const struct side *side, const struct sender_event *event, struct memory *memory);

uint8_t do_new(const struct side *side, const struct settings *settings, struct memory *memory);

/* Settings, some of them beyond their limits. */
void random_settings(struct settings *settings);

/* Octets of any well-formed state, with any lengths where no unit is held. */
void random_sender_state(uint8_t *state);

/* An event that often fits the state. */
void random_event(struct sender_event *event, const uint8_t *state);

/* So many octets of each buffer as are lent: mostly enough. */
void random_lengths(struct memory *memory, const struct sender_event *event);

/* Changes octets of the state, or their count. */
void damage_state(struct memory *memory);

#endif
