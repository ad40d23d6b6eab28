/*
 * Pondreszi for programs in C99 or C++: structs that carry what a call is lent, the fields of answers and states by name, and texts.
 *
 * Each function here is static inline, allocates nothing, and calls pondreszi.h, which has the rules. It is not proved: what it calls is.
 *
 *   pondreszi_X_start       calls pondreszi_X_new
 *   pondreszi_X_restore     begins with octets that were kept, where pondreszi_X_check takes them
 *   pondreszi_X_on_EVENT    calls pondreszi_X_EVENT with what the struct carries
 *   pondreszi_X_FIELD       tells a field of the state
 *   .._encode, .._decode    call .._write and .._read
 *   .._text                 is a text for a number, "unknown" for one that has no meaning
 *
 * Lengths and counts are size_t here. What is returned is a refusal, as by the function that is called, unless it says otherwise. A struct
 * is of no use before it is started or restored, and a start or restore that is refused leaves it as it was. Read and keep its octets of
 * state, but let only these functions write them.
 */
#ifndef PONDRESZI_INLINE_H
#define PONDRESZI_INLINE_H

#if !defined(__cplusplus) && (!defined(__STDC_VERSION__) || __STDC_VERSION__ < 199901L)
#error "pondreszi_inline.h needs C99 or C++; pondreszi.h does not"
#endif

#include "pondreszi.h"

/* The number of two octets, the high one first. */
static inline uint16_t pondreszi_pair(const uint8_t *high) {
    return (uint16_t)((uint32_t)high[0] * 256u + high[1]);
}

static inline void pondreszi_copy(uint8_t *to, const uint8_t *from, size_t count) {
    size_t i;
    for (i = 0; i < count; i++) {
        to[i] = from[i];
    }
}

/* CLTU, frame and control word. -------------------------------------------------------------------------------------------------- */

static inline uint8_t pondreszi_cltu_encode(const uint8_t *frame, size_t frame_octets, uint8_t *output, size_t output_octets,
                                            size_t *count) {
    uint64_t written;
    uint8_t refusal = pondreszi_cltu_write(frame, frame_octets, output, output_octets, &written);
    *count = (size_t)written;
    return refusal;
}

/* What pondreszi_cltu_read tells. */
struct pondreszi_decoded {
    size_t count;
    size_t place;
    size_t corrected;
};

static inline uint8_t pondreszi_cltu_decode(const uint8_t *input, size_t input_octets, uint32_t mode, uint8_t *output, size_t output_octets,
                                            struct pondreszi_decoded *decoded) {
    uint64_t count, place, corrected;
    uint8_t refusal = pondreszi_cltu_read(input, input_octets, mode, output, output_octets, &count, &place, &corrected);
    decoded->count = (size_t)count;
    decoded->place = (size_t)place;
    decoded->corrected = (size_t)corrected;
    return refusal;
}

/* What pondreszi_frame_read tells; data is the data field within the octets read, NULL after a refusal. */
struct pondreszi_frame {
    uint8_t kind;
    uint8_t value;
    size_t frame_octets;
    const uint8_t *data;
    size_t data_octets;
};

static inline uint8_t pondreszi_frame_decode(const uint8_t *octets, size_t count, uint32_t spacecraft, uint32_t channel,
                                             struct pondreszi_frame *frame) {
    uint16_t total, field;
    uint8_t refusal = pondreszi_frame_read(octets, count, spacecraft, channel, &frame->kind, &frame->value, &total, &field);
    frame->frame_octets = total;
    frame->data = refusal == PONDRESZI_DONE ? octets + PONDRESZI_FRAME_HEADER_OCTETS : NULL;
    frame->data_octets = field;
    return refusal;
}

/* What pondreszi_clcw_read tells. */
struct pondreszi_clcw {
    uint8_t valid;
    uint8_t status;
    uint8_t rf;
    uint8_t flags;
    uint8_t counter;
    uint8_t report;
};

static inline uint8_t pondreszi_clcw_decode(const uint8_t *octets, size_t count, uint32_t channel, struct pondreszi_clcw *word) {
    return pondreszi_clcw_read(octets, count, channel, &word->valid, &word->status, &word->rf, &word->flags, &word->counter,
                               &word->report);
}

/* The receiver. ------------------------------------------------------------------------------------------------------------------ */

/* What a frame or a release came to. The unit's octets are a part of the caller's frame and no copy; NULL where there is no unit. */
struct pondreszi_received {
    uint8_t event;   /* enum pondreszi_farm_event */
    uint8_t channel; /* the one whose event it is, of a receiver of several channels and where it was not refused */
    uint8_t unit;    /* enum pondreszi_unit */
    const uint8_t *octets;
    size_t count;
};

struct pondreszi_receiver {
    uint8_t state[PONDRESZI_RECEIVER_STATE_OCTETS];
    struct pondreszi_received last;
};

struct pondreszi_receiver_settings {
    uint32_t spacecraft;
    uint32_t channel;
    uint32_t window;
    uint32_t vr; /* V(R), the number of the first AD unit */
    uint32_t buffers;
};

static inline void pondreszi_received_none(struct pondreszi_received *received) {
    received->event = PONDRESZI_FARM_NONE;
    received->channel = 0;
    received->unit = PONDRESZI_UNIT_NONE;
    received->octets = NULL;
    received->count = 0;
}

static inline uint8_t pondreszi_receiver_start(struct pondreszi_receiver *receiver, const struct pondreszi_receiver_settings *settings) {
    uint8_t refusal = pondreszi_receiver_new(settings->spacecraft, settings->channel, settings->window, settings->vr, settings->buffers,
                                             receiver->state, sizeof receiver->state);
    if (refusal == PONDRESZI_DONE) {
        pondreszi_received_none(&receiver->last);
    }
    return refusal;
}

/* 0 where the octets are a state, otherwise 12. */
static inline uint8_t pondreszi_receiver_check(const uint8_t *octets, size_t count) {
    uint8_t word[PONDRESZI_CLCW_OCTETS];
    uint64_t written;
    return pondreszi_receiver_word(octets, count, word, sizeof word, &written);
}

/* Refusal: 12 the octets are no state, and the receiver stays as it was. */
static inline uint8_t pondreszi_receiver_restore(struct pondreszi_receiver *receiver, const uint8_t *octets, size_t count) {
    uint8_t refusal = pondreszi_receiver_check(octets, count);
    if (refusal == PONDRESZI_DONE) {
        pondreszi_copy(receiver->state, octets, count);
        pondreszi_received_none(&receiver->last);
    }
    return refusal;
}

static inline uint8_t pondreszi_receiver_on_frame(struct pondreszi_receiver *receiver, const uint8_t *frame, size_t frame_octets) {
    struct pondreszi_received *last = &receiver->last;
    uint64_t first, count;
    uint8_t refusal = pondreszi_receiver_frame(receiver->state, sizeof receiver->state, frame, frame_octets, &last->event, &last->unit,
                                               &first, &count);
    last->channel = 0;
    last->octets = last->unit == PONDRESZI_UNIT_NONE ? NULL : frame + (size_t)first;
    last->count = (size_t)count;
    return refusal;
}

static inline uint8_t pondreszi_receiver_on_release(struct pondreszi_receiver *receiver) {
    pondreszi_received_none(&receiver->last);
    return pondreszi_receiver_release(receiver->state, sizeof receiver->state, &receiver->last.event);
}

/* Calls pondreszi_receiver_word: the control word to send down. */
static inline uint8_t pondreszi_receiver_control_word(const struct pondreszi_receiver *receiver, uint8_t word[PONDRESZI_CLCW_OCTETS]) {
    uint64_t written;
    return pondreszi_receiver_word(receiver->state, sizeof receiver->state, word, PONDRESZI_CLCW_OCTETS, &written);
}

static inline uint8_t pondreszi_receiver_state(const struct pondreszi_receiver *receiver) {
    return receiver->state[PONDRESZI_RECEIVER_STATE];
}
static inline uint16_t pondreszi_receiver_spacecraft(const struct pondreszi_receiver *receiver) {
    return pondreszi_pair(receiver->state + PONDRESZI_RECEIVER_SPACECRAFT);
}
static inline uint8_t pondreszi_receiver_channel(const struct pondreszi_receiver *receiver) {
    return receiver->state[PONDRESZI_RECEIVER_CHANNEL];
}
static inline uint8_t pondreszi_receiver_window(const struct pondreszi_receiver *receiver) {
    return receiver->state[PONDRESZI_RECEIVER_WINDOW];
}
static inline size_t pondreszi_receiver_buffers(const struct pondreszi_receiver *receiver) {
    return receiver->state[PONDRESZI_RECEIVER_BUFFERS];
}
static inline size_t pondreszi_receiver_taken(const struct pondreszi_receiver *receiver) {
    return receiver->state[PONDRESZI_RECEIVER_TAKEN];
}
static inline uint8_t pondreszi_receiver_vr(const struct pondreszi_receiver *receiver) {
    return receiver->state[PONDRESZI_RECEIVER_VR];
}
static inline uint8_t pondreszi_receiver_flags(const struct pondreszi_receiver *receiver) {
    return receiver->state[PONDRESZI_RECEIVER_FLAGS];
}
static inline uint8_t pondreszi_receiver_counter(const struct pondreszi_receiver *receiver) {
    return receiver->state[PONDRESZI_RECEIVER_COUNTER];
}

/* The receiver of several channels. ---------------------------------------------------------------------------------------------- */

/* Its table is the front of the octets: a record of 9 octets for each channel, in the order in which they were added. */
struct pondreszi_channels {
    uint32_t spacecraft;
    uint32_t pool;
    size_t records;
    uint8_t table[PONDRESZI_LARGEST_RECORDS * PONDRESZI_RECORD_OCTETS];
    struct pondreszi_received last;
};

static inline size_t pondreszi_channels_table_octets(const struct pondreszi_channels *channels) {
    return channels->records * PONDRESZI_RECORD_OCTETS;
}

/* 0 where the octets are a table, and spacecraft and pool within their limits, otherwise 12. */
static inline uint8_t pondreszi_channels_check(uint32_t spacecraft, uint32_t pool, const uint8_t *octets, size_t count) {
    uint8_t word[PONDRESZI_CLCW_OCTETS];
    uint64_t written;
    /* A channel that no table has: 7 where there is one. */
    uint8_t refusal = pondreszi_channels_word(spacecraft, pool, octets, count, PONDRESZI_LARGEST_CHANNEL + 1, word, sizeof word, &written);
    return refusal == PONDRESZI_ADDRESS ? (uint8_t)PONDRESZI_DONE : refusal;
}

/* Refusal: 12 the octets are no table, or spacecraft or pool is outside its limits, and the receiver stays as it was. */
static inline uint8_t pondreszi_channels_restore(struct pondreszi_channels *channels, uint32_t spacecraft, uint32_t pool,
                                                 const uint8_t *octets, size_t count) {
    uint8_t refusal = pondreszi_channels_check(spacecraft, pool, octets, count);
    if (refusal == PONDRESZI_DONE) {
        pondreszi_copy(channels->table, octets, count);
        channels->spacecraft = spacecraft;
        channels->pool = pool;
        channels->records = count / PONDRESZI_RECORD_OCTETS;
        pondreszi_received_none(&channels->last);
    }
    return refusal;
}

/* A receiver without channels. Refusal: 12 spacecraft or pool is outside its limits. */
static inline uint8_t pondreszi_channels_start(struct pondreszi_channels *channels, uint32_t spacecraft, uint32_t pool) {
    uint8_t none[1] = {0};
    return pondreszi_channels_restore(channels, spacecraft, pool, none, 0);
}

/*
 * A channel more, at its start: pondreszi_channel_new.
 * Refusals: 11 there are eight, 12 channel, window or V(R) outside its limit, or the channel is there. The table stays as it was.
 */
static inline uint8_t pondreszi_channels_add(struct pondreszi_channels *channels, uint32_t channel, uint32_t window, uint32_t vr) {
    size_t before = pondreszi_channels_table_octets(channels);
    uint8_t refusal = pondreszi_channel_new(channel, window, vr, channels->table + before, sizeof channels->table - before);
    if (refusal == PONDRESZI_DONE) {
        refusal = pondreszi_channels_check(channels->spacecraft, channels->pool, channels->table, before + PONDRESZI_RECORD_OCTETS);
    }
    if (refusal == PONDRESZI_DONE) {
        channels->records++;
    }
    return refusal;
}

static inline uint8_t pondreszi_channels_on_frame(struct pondreszi_channels *channels, const uint8_t *frame, size_t frame_octets) {
    struct pondreszi_received *last = &channels->last;
    uint64_t first, count;
    uint8_t refusal =
        pondreszi_channels_frame(channels->spacecraft, channels->pool, channels->table, pondreszi_channels_table_octets(channels), frame,
                                 frame_octets, &last->event, &last->channel, &last->unit, &first, &count);
    last->octets = last->unit == PONDRESZI_UNIT_NONE ? NULL : frame + (size_t)first;
    last->count = (size_t)count;
    return refusal;
}

static inline uint8_t pondreszi_channels_on_release(struct pondreszi_channels *channels, uint32_t channel) {
    uint8_t refusal;
    pondreszi_received_none(&channels->last);
    refusal = pondreszi_channels_release(channels->spacecraft, channels->pool, channels->table, pondreszi_channels_table_octets(channels),
                                         channel, &channels->last.event);
    if (refusal == PONDRESZI_DONE) {
        channels->last.channel = (uint8_t)channel;
    }
    return refusal;
}

/* Calls pondreszi_channels_word: the control word of a channel to send down. */
static inline uint8_t pondreszi_channels_control_word(const struct pondreszi_channels *channels, uint32_t channel,
                                                      uint8_t word[PONDRESZI_CLCW_OCTETS]) {
    uint64_t written;
    return pondreszi_channels_word(channels->spacecraft, channels->pool, channels->table, pondreszi_channels_table_octets(channels),
                                   channel, word, PONDRESZI_CLCW_OCTETS, &written);
}

/* The record of a channel, NULL where it has none. */
static inline const uint8_t *pondreszi_channels_record(const struct pondreszi_channels *channels, uint32_t channel) {
    size_t i;
    for (i = 0; i < channels->records; i++) {
        const uint8_t *record = channels->table + i * PONDRESZI_RECORD_OCTETS;
        if (record[PONDRESZI_RECORD_CHANNEL] == channel) {
            return record;
        }
    }
    return NULL;
}

static inline uint8_t pondreszi_record_state(const uint8_t *record) {
    return record[PONDRESZI_RECORD_STATE];
}
static inline uint8_t pondreszi_record_channel(const uint8_t *record) {
    return record[PONDRESZI_RECORD_CHANNEL];
}
static inline uint8_t pondreszi_record_window(const uint8_t *record) {
    return record[PONDRESZI_RECORD_WINDOW];
}
static inline size_t pondreszi_record_held(const uint8_t *record) {
    return record[PONDRESZI_RECORD_HELD];
}
static inline uint8_t pondreszi_record_vr(const uint8_t *record) {
    return record[PONDRESZI_RECORD_VR];
}
static inline uint8_t pondreszi_record_flags(const uint8_t *record) {
    return record[PONDRESZI_RECORD_FLAGS];
}
static inline uint8_t pondreszi_record_counter(const uint8_t *record) {
    return record[PONDRESZI_RECORD_COUNTER];
}

/* The sender. -------------------------------------------------------------------------------------------------------------------- */

/*
 * Its store is lent by the caller, since its length hangs on K, and belongs to this sender alone: keep it with the state. A frame handed down
 * is at the front of the output, pondreszi_answer_frame_octets(sender.answer) octets. Carry it away before the next event.
 */
struct pondreszi_sender {
    uint8_t state[PONDRESZI_SENDER_STATE_OCTETS];
    uint8_t answer[PONDRESZI_ANSWER_OCTETS];
    uint8_t output[PONDRESZI_LARGEST_FRAME];
    uint8_t *store;
    size_t store_octets;
};

struct pondreszi_sender_settings {
    uint32_t k;
    uint32_t t1_initial;
    uint32_t transmission_limit;
    uint32_t timeout_type; /* enum pondreszi_timeout_type */
    uint32_t spacecraft;
    uint32_t channel;
    uint32_t vs; /* V(S), the number of the first AD unit; NN(R) begins with it too */
};

/* No event leaves the answer of an earlier one: where the library writes none, all its fields but the refusal are 0. */
static inline void pondreszi_sender_clear_answer(struct pondreszi_sender *sender) {
    size_t i;
    for (i = 0; i < sizeof sender->answer; i++) {
        sender->answer[i] = 0;
    }
}

static inline uint8_t pondreszi_sender_judged(struct pondreszi_sender *sender, uint8_t refusal) {
    sender->answer[PONDRESZI_ANSWER_REFUSAL] = refusal;
    return refusal;
}

/* Another store, from the next event on: before Set K with a larger value a longer one, which begins with the same octets. */
static inline void pondreszi_sender_lend(struct pondreszi_sender *sender, uint8_t *store, size_t store_octets) {
    sender->store = store;
    sender->store_octets = store_octets;
    pondreszi_sender_clear_answer(sender);
}

/* The store has PONDRESZI_STORE_OCTETS(k) octets at the least. */
static inline uint8_t pondreszi_sender_start(struct pondreszi_sender *sender, const struct pondreszi_sender_settings *settings,
                                             uint8_t *store, size_t store_octets) {
    uint8_t refusal = pondreszi_sender_new(settings->k, settings->t1_initial, settings->transmission_limit, settings->timeout_type,
                                           settings->spacecraft, settings->channel, settings->vs, settings->vs, store, store_octets,
                                           sender->state, sizeof sender->state);
    if (refusal == PONDRESZI_DONE) {
        pondreszi_sender_lend(sender, store, store_octets);
    }
    return refusal;
}

/* 0 where the octets are a state, otherwise 12. */
static inline uint8_t pondreszi_sender_check(const uint8_t *octets, size_t count) {
    uint8_t state[PONDRESZI_SENDER_STATE_OCTETS];
    uint8_t none[1] = {0};
    uint8_t refusal;
    if (count != sizeof state) {
        return PONDRESZI_SETTING;
    }
    pondreszi_copy(state, octets, sizeof state);
    /* An event judges the state first and the answer's buffer next: without one a state is 11. */
    refusal = pondreszi_sender_tick(state, sizeof state, none, 0, none, 0, none, 0);
    return refusal == PONDRESZI_ROOM ? (uint8_t)PONDRESZI_DONE : refusal;
}

/*
 * docs/OPERATIONS.md, "Before the service begins again", says when a sender may go on from octets that were kept.
 * Refusals: 12 the octets are no state, 11 the store is shorter than this state needs; the sender stays as it was.
 */
static inline uint8_t pondreszi_sender_restore(struct pondreszi_sender *sender, const uint8_t *octets, size_t count, uint8_t *store,
                                               size_t store_octets) {
    uint8_t refusal = pondreszi_sender_check(octets, count);
    if (refusal != PONDRESZI_DONE) {
        return refusal;
    }
    if (store_octets < PONDRESZI_STORE_NEED(octets[PONDRESZI_SENDER_K], octets[PONDRESZI_SENDER_SENT])) {
        return PONDRESZI_ROOM;
    }
    pondreszi_copy(sender->state, octets, count);
    pondreszi_sender_lend(sender, store, store_octets);
    return PONDRESZI_DONE;
}

static inline uint8_t pondreszi_sender_on_request_ad(struct pondreszi_sender *sender, const uint8_t *unit, size_t unit_octets) {
    pondreszi_sender_clear_answer(sender);
    return pondreszi_sender_judged(
        sender, pondreszi_sender_request_ad(sender->state, sizeof sender->state, unit, unit_octets, sender->store, sender->store_octets,
                                            sender->output, sizeof sender->output, sender->answer, sizeof sender->answer));
}

static inline uint8_t pondreszi_sender_on_request_bd(struct pondreszi_sender *sender, const uint8_t *unit, size_t unit_octets) {
    pondreszi_sender_clear_answer(sender);
    return pondreszi_sender_judged(
        sender, pondreszi_sender_request_bd(sender->state, sizeof sender->state, unit, unit_octets, sender->store, sender->store_octets,
                                            sender->output, sizeof sender->output, sender->answer, sizeof sender->answer));
}

static inline uint8_t pondreszi_sender_on_directive(struct pondreszi_sender *sender, uint32_t number, uint32_t value) {
    pondreszi_sender_clear_answer(sender);
    return pondreszi_sender_judged(
        sender, pondreszi_sender_directive(sender->state, sizeof sender->state, number, value, sender->store, sender->store_octets,
                                           sender->output, sizeof sender->output, sender->answer, sizeof sender->answer));
}

static inline uint8_t pondreszi_sender_on_tick(struct pondreszi_sender *sender) {
    pondreszi_sender_clear_answer(sender);
    return pondreszi_sender_judged(
        sender, pondreszi_sender_tick(sender->state, sizeof sender->state, sender->store, sender->store_octets, sender->output,
                                      sizeof sender->output, sender->answer, sizeof sender->answer));
}

static inline uint8_t pondreszi_sender_on_lower_layer(struct pondreszi_sender *sender, uint32_t number) {
    pondreszi_sender_clear_answer(sender);
    return pondreszi_sender_judged(
        sender, pondreszi_sender_lower_layer(sender->state, sizeof sender->state, number, sender->store, sender->store_octets,
                                             sender->output, sizeof sender->output, sender->answer, sizeof sender->answer));
}

static inline uint8_t pondreszi_sender_on_control_word(struct pondreszi_sender *sender, const uint8_t *word, size_t word_octets) {
    pondreszi_sender_clear_answer(sender);
    return pondreszi_sender_judged(
        sender, pondreszi_sender_control_word(sender->state, sizeof sender->state, word, word_octets, sender->store, sender->store_octets,
                                              sender->output, sizeof sender->output, sender->answer, sizeof sender->answer));
}

/* The accept or reject of the lower layer that answers a frame of a kind (enum pondreszi_frame_kind); 0 where there is no such kind. */
static inline uint8_t pondreszi_accept_of(uint8_t kind) {
    switch (kind) {
    case PONDRESZI_FRAME_AD: return PONDRESZI_AD_ACCEPT;
    case PONDRESZI_FRAME_BD: return PONDRESZI_BD_ACCEPT;
    case PONDRESZI_FRAME_UNLOCK:
    case PONDRESZI_FRAME_SET_VR: return PONDRESZI_BC_ACCEPT;
    default: return 0;
    }
}
static inline uint8_t pondreszi_reject_of(uint8_t kind) {
    switch (kind) {
    case PONDRESZI_FRAME_AD: return PONDRESZI_AD_REJECT;
    case PONDRESZI_FRAME_BD: return PONDRESZI_BD_REJECT;
    case PONDRESZI_FRAME_UNLOCK:
    case PONDRESZI_FRAME_SET_VR: return PONDRESZI_BC_REJECT;
    default: return 0;
    }
}

static inline uint8_t pondreszi_answer_refusal(const uint8_t *answer) {
    return answer[PONDRESZI_ANSWER_REFUSAL];
}
static inline uint8_t pondreszi_answer_event(const uint8_t *answer) {
    return answer[PONDRESZI_ANSWER_EVENT];
}
static inline uint8_t pondreszi_answer_state(const uint8_t *answer) {
    return answer[PONDRESZI_ANSWER_STATE];
}
/* Of the frame handed down, 0 where there is none. */
static inline size_t pondreszi_answer_frame_octets(const uint8_t *answer) {
    return pondreszi_pair(answer + PONDRESZI_ANSWER_FRAME);
}
static inline uint8_t pondreszi_answer_kind(const uint8_t *answer) {
    return answer[PONDRESZI_ANSWER_KIND];
}
static inline int pondreszi_answer_abort(const uint8_t *answer) {
    return answer[PONDRESZI_ANSWER_ABORT] != 0;
}
static inline uint8_t pondreszi_answer_alert(const uint8_t *answer) {
    return answer[PONDRESZI_ANSWER_ALERT];
}
static inline int pondreszi_answer_suspended(const uint8_t *answer) {
    return answer[PONDRESZI_ANSWER_SUSPENDED] != 0;
}
static inline size_t pondreszi_answer_responses(const uint8_t *answer) {
    return answer[PONDRESZI_ANSWER_RESPONSES];
}
/* The response at a place, 0 for the first; none behind the last. */
static inline uint8_t pondreszi_answer_response(const uint8_t *answer, size_t place) {
    return place < PONDRESZI_LARGEST_RESPONSES ? answer[PONDRESZI_ANSWER_FIRST_RESPONSE + place] : (uint8_t)PONDRESZI_RESPONSE_NONE;
}
static inline uint8_t pondreszi_answer_confirmed_first(const uint8_t *answer) {
    return answer[PONDRESZI_ANSWER_CONFIRMED_FIRST];
}
static inline size_t pondreszi_answer_confirmed(const uint8_t *answer) {
    return answer[PONDRESZI_ANSWER_CONFIRMED];
}
static inline uint8_t pondreszi_answer_denied_first(const uint8_t *answer) {
    return answer[PONDRESZI_ANSWER_DENIED_FIRST];
}
static inline size_t pondreszi_answer_denied(const uint8_t *answer) {
    return answer[PONDRESZI_ANSWER_DENIED];
}

static inline uint8_t pondreszi_sender_state(const struct pondreszi_sender *sender) {
    return sender->state[PONDRESZI_SENDER_STATE];
}
static inline uint8_t pondreszi_sender_k(const struct pondreszi_sender *sender) {
    return sender->state[PONDRESZI_SENDER_K];
}
static inline uint16_t pondreszi_sender_t1_initial(const struct pondreszi_sender *sender) {
    return pondreszi_pair(sender->state + PONDRESZI_SENDER_T1_INITIAL);
}
static inline uint8_t pondreszi_sender_transmission_limit(const struct pondreszi_sender *sender) {
    return sender->state[PONDRESZI_SENDER_TRANSMISSION_LIMIT];
}
static inline uint8_t pondreszi_sender_timeout_type(const struct pondreszi_sender *sender) {
    return sender->state[PONDRESZI_SENDER_TIMEOUT_TYPE];
}
static inline uint16_t pondreszi_sender_spacecraft(const struct pondreszi_sender *sender) {
    return pondreszi_pair(sender->state + PONDRESZI_SENDER_SPACECRAFT);
}
static inline uint8_t pondreszi_sender_channel(const struct pondreszi_sender *sender) {
    return sender->state[PONDRESZI_SENDER_CHANNEL];
}
static inline uint8_t pondreszi_sender_vs(const struct pondreszi_sender *sender) {
    return sender->state[PONDRESZI_SENDER_VS];
}
static inline uint8_t pondreszi_sender_nnr(const struct pondreszi_sender *sender) {
    return sender->state[PONDRESZI_SENDER_NNR];
}
/* Ticks left, 0 stopped. */
static inline uint16_t pondreszi_sender_timer(const struct pondreszi_sender *sender) {
    return pondreszi_pair(sender->state + PONDRESZI_SENDER_TIMER);
}
static inline uint8_t pondreszi_sender_transmission_count(const struct pondreszi_sender *sender) {
    return sender->state[PONDRESZI_SENDER_TRANSMISSION_COUNT];
}
static inline int pondreszi_sender_is_set(const struct pondreszi_sender *sender, enum pondreszi_sender_flag flag) {
    return (sender->state[PONDRESZI_SENDER_FLAGS] & (unsigned)flag) != 0;
}
static inline uint8_t pondreszi_sender_suspend_state(const struct pondreszi_sender *sender) {
    return sender->state[PONDRESZI_SENDER_SUSPEND_STATE];
}
/* Units on the sent queue, and how many of them are to be sent again. */
static inline size_t pondreszi_sender_sent(const struct pondreszi_sender *sender) {
    return sender->state[PONDRESZI_SENDER_SENT];
}
static inline size_t pondreszi_sender_marked(const struct pondreszi_sender *sender) {
    return sender->state[PONDRESZI_SENDER_MARKED];
}
/* The type-BC frame on the sent queue (enum pondreszi_frame_kind), and the value of Set V(R). */
static inline uint8_t pondreszi_sender_bc_frame(const struct pondreszi_sender *sender) {
    uint8_t number = sender->state[PONDRESZI_SENDER_BC_FRAME];
    return number == 0 ? (uint8_t)PONDRESZI_FRAME_NONE : (uint8_t)(number + PONDRESZI_FRAME_UNLOCK - 1);
}
static inline uint8_t pondreszi_sender_bc_value(const struct pondreszi_sender *sender) {
    return sender->state[PONDRESZI_SENDER_BC_VALUE];
}
/* The octets that the store must have now, see pondreszi.h. */
static inline size_t pondreszi_sender_store_need(const struct pondreszi_sender *sender) {
    return PONDRESZI_STORE_NEED(sender->state[PONDRESZI_SENDER_K], sender->state[PONDRESZI_SENDER_SENT]);
}

/* Texts. ------------------------------------------------------------------------------------------------------------------------- */

/* Of enum pondreszi_refusal: document 01's name and what it means. */
static inline const char *pondreszi_refusal_text(uint8_t refusal) {
    switch (refusal) {
    case PONDRESZI_DONE: return "done";
    case PONDRESZI_NO_START: return "no start: no start sequence in the input";
    case PONDRESZI_NO_BLOCK: return "no block: the first codeblock is bad";
    case PONDRESZI_NO_END: return "no end: the input ends before a bad codeblock";
    case PONDRESZI_SHORT: return "short: a frame below 8 octets, or fewer than its header says";
    case PONDRESZI_FILL: return "fill: more than 6 octets after the frame";
    case PONDRESZI_HEADER: return "header: version, spare or type, or a type-B frame's sequence octet";
    case PONDRESZI_ADDRESS: return "address: another spacecraft or virtual channel";
    case PONDRESZI_CHECK: return "check: the FECF differs";
    case PONDRESZI_COMMAND: return "command: BC data is neither command";
    case PONDRESZI_LENGTH: return "length: below or above its limit";
    case PONDRESZI_ROOM: return "room: a lent buffer is too short";
    case PONDRESZI_SETTING: return "setting: a value outside its limit, an unknown directive, or octets that are no state or no table";
    case PONDRESZI_RELEASE: return "release: no buffer is taken";
    default: return "unknown";
    }
}

static inline const char *pondreszi_frame_kind_text(uint8_t kind) {
    switch (kind) {
    case PONDRESZI_FRAME_NONE: return "none";
    case PONDRESZI_FRAME_AD: return "AD";
    case PONDRESZI_FRAME_BD: return "BD";
    case PONDRESZI_FRAME_UNLOCK: return "BC, Unlock";
    case PONDRESZI_FRAME_SET_VR: return "BC, Set V(R)";
    default: return "unknown";
    }
}

static inline const char *pondreszi_unit_text(uint8_t unit) {
    switch (unit) {
    case PONDRESZI_UNIT_NONE: return "none";
    case PONDRESZI_UNIT_AD: return "AD";
    case PONDRESZI_UNIT_BD: return "BD";
    default: return "unknown";
    }
}

static inline const char *pondreszi_farm_state_text(uint8_t state) {
    switch (state) {
    case PONDRESZI_FARM_OPEN: return "Open";
    case PONDRESZI_FARM_WAIT: return "Wait";
    case PONDRESZI_FARM_LOCKOUT: return "Lockout";
    default: return "unknown";
    }
}

/* Of enum pondreszi_farm_event: the row of table 7-9. */
static inline const char *pondreszi_farm_event_text(uint8_t event) {
    switch (event) {
    case PONDRESZI_FARM_NONE: return "none";
    case PONDRESZI_FARM_E1: return "E1: AD frame, the expected one, a buffer is free";
    case PONDRESZI_FARM_E2: return "E2: AD frame, the expected one, no buffer is free, or Wait";
    case PONDRESZI_FARM_E3: return "E3: AD frame ahead of the expected one";
    case PONDRESZI_FARM_E4: return "E4: AD frame behind the expected one";
    case PONDRESZI_FARM_E5: return "E5: AD frame outside both windows";
    case PONDRESZI_FARM_E6: return "E6: BD frame";
    case PONDRESZI_FARM_E7: return "E7: Unlock";
    case PONDRESZI_FARM_E8: return "E8: Set V(R)";
    case PONDRESZI_FARM_E9: return "E9: a frame that is refused";
    case PONDRESZI_FARM_E10: return "E10: buffer release";
    default: return "unknown";
    }
}

static inline const char *pondreszi_fop_state_text(uint8_t state) {
    switch (state) {
    case PONDRESZI_FOP_ACTIVE: return "S1: Active";
    case PONDRESZI_FOP_RETRANSMIT_WITHOUT_WAIT: return "S2: Retransmit without Wait";
    case PONDRESZI_FOP_RETRANSMIT_WITH_WAIT: return "S3: Retransmit with Wait";
    case PONDRESZI_FOP_INITIALISING_WITHOUT_BC: return "S4: Initialising without BC frame";
    case PONDRESZI_FOP_INITIALISING_WITH_BC: return "S5: Initialising with BC frame";
    case PONDRESZI_FOP_INITIAL: return "S6: Initial";
    default: return "unknown";
    }
}

/* The row of table 7-8 that the answer's event names. N(R) is the control word's report value. */
static inline const char *pondreszi_fop_event_text(uint8_t event) {
    switch (event) {
    case 0: return "none";
    case 1: return "E1: control word, N(R) = V(S) = NN(R), no flag";
    case 2: return "E2: control word, N(R) = V(S), not NN(R), no flag";
    case 3: return "E3: control word, N(R) = V(S), Wait without Retransmit";
    case 4: return "E4: control word, N(R) = V(S), Retransmit";
    case 5: return "E5: control word, N(R) = NN(R), not V(S), no flag";
    case 6: return "E6: control word, N(R) between NN(R) and V(S), no flag";
    case 7: return "E7: control word, N(R) not V(S), Wait without Retransmit";
    case 8: return "E8: control word, Retransmit, N(R) between NN(R) and V(S), no Wait";
    case 9: return "E9: control word, Retransmit, N(R) between NN(R) and V(S), Wait";
    case 10: return "E10: control word, Retransmit, N(R) = NN(R), below the transmission limit, no Wait";
    case 11: return "E11: control word, Retransmit, N(R) = NN(R), below the transmission limit, Wait";
    case 12: return "E12: control word, Retransmit, N(R) = NN(R), at the transmission limit, no Wait";
    case 13: return "E13: control word, N(R) outside NN(R) to V(S)";
    case 14: return "E14: control word, Lockout";
    case 15: return "E15: an invalid control word";
    case 16: return "E16: timer expired below the transmission limit, Timeout_Type 0";
    case 17: return "E17: timer expired at the transmission limit, Timeout_Type 0";
    case 18: return "E18: timer expired at the transmission limit, Timeout_Type 1";
    case 19: return "E19: AD request, none waits";
    case 20: return "E20: AD request, one waits";
    case 21: return "E21: BD request, BD_Out Ready";
    case 22: return "E22: BD request, BD_Out Not_Ready";
    case 23: return "E23: Initiate without check";
    case 24: return "E24: Initiate with CLCW check";
    case 25: return "E25: Initiate with Unlock, BC_Out Ready";
    case 26: return "E26: Initiate with Unlock, BC_Out Not_Ready";
    case 27: return "E27: Initiate with Set V(R), BC_Out Ready";
    case 28: return "E28: Initiate with Set V(R), BC_Out Not_Ready";
    case 29: return "E29: Terminate";
    case 30: return "E30: Resume, not suspended";
    case 31: return "E31: Resume, suspended in S1";
    case 32: return "E32: Resume, suspended in S2";
    case 33: return "E33: Resume, suspended in S3";
    case 34: return "E34: Resume, suspended in S4";
    case 35: return "E35: Set V(S)";
    case 36: return "E36: Set K";
    case 37: return "E37: Set timer";
    case 38: return "E38: Set transmission limit";
    case 39: return "E39: Set Timeout_Type";
    case 40: return "E40: invalid directive";
    case 41: return "E41: AD_Accept";
    case 42: return "E42: AD_Reject";
    case 43: return "E43: BC_Accept";
    case 44: return "E44: BC_Reject";
    case 45: return "E45: BD_Accept";
    case 46: return "E46: BD_Reject";
    case 101: return "E101: control word, Retransmit at a transmission limit of 1, N(R) between NN(R) and V(S)";
    case 102: return "E102: control word, Retransmit at a transmission limit of 1, N(R) = NN(R)";
    case 103: return "E103: control word, Retransmit, N(R) = NN(R), at the transmission limit, Wait";
    case 104: return "E104: timer expired below the transmission limit, Timeout_Type 1";
    default: return "unknown";
    }
}

static inline const char *pondreszi_alert_text(uint8_t alert) {
    switch (alert) {
    case PONDRESZI_ALERT_NONE: return "none";
    case PONDRESZI_ALERT_SYNCH: return "synch: report value and flags contradict the state";
    case PONDRESZI_ALERT_CLCW: return "CLCW: an invalid control word, or flags that cannot stand together";
    case PONDRESZI_ALERT_LIMIT: return "limit: retransmission asked for at a transmission limit of 1";
    case PONDRESZI_ALERT_NNR: return "NN(R): a report value that cannot be";
    case PONDRESZI_ALERT_LOCKOUT: return "lockout: the receiver is locked out";
    case PONDRESZI_ALERT_T1: return "T1: the timer expired";
    case PONDRESZI_ALERT_TERM: return "term: Terminate was asked";
    case PONDRESZI_ALERT_LLIF: return "LLIF: the lower layer rejected a frame";
    default: return "unknown";
    }
}

static inline const char *pondreszi_response_text(uint8_t response) {
    switch (response) {
    case PONDRESZI_RESPONSE_NONE: return "none";
    case PONDRESZI_RESPONSE_ACCEPT_AD: return "accept of the AD unit";
    case PONDRESZI_RESPONSE_REJECT_AD: return "reject of the AD unit";
    case PONDRESZI_RESPONSE_ACCEPT_BD: return "accept of the BD unit";
    case PONDRESZI_RESPONSE_REJECT_BD: return "reject of the BD unit";
    case PONDRESZI_RESPONSE_ACCEPT_DIRECTIVE: return "accept of the directive";
    case PONDRESZI_RESPONSE_REJECT_DIRECTIVE: return "reject of the directive";
    case PONDRESZI_RESPONSE_CONFIRM_DIRECTIVE: return "positive confirm of the directive";
    case PONDRESZI_RESPONSE_DENY_DIRECTIVE: return "negative confirm of the directive";
    default: return "unknown";
    }
}

static inline const char *pondreszi_directive_text(uint32_t number) {
    switch (number) {
    case PONDRESZI_INITIATE_WITHOUT_CHECK: return "Initiate without check";
    case PONDRESZI_INITIATE_WITH_CLCW_CHECK: return "Initiate with CLCW check";
    case PONDRESZI_INITIATE_WITH_UNLOCK: return "Initiate with Unlock";
    case PONDRESZI_INITIATE_WITH_SET_VR: return "Initiate with Set V(R)";
    case PONDRESZI_TERMINATE: return "Terminate";
    case PONDRESZI_RESUME: return "Resume";
    case PONDRESZI_SET_VS: return "Set V(S)";
    case PONDRESZI_SET_K: return "Set K";
    case PONDRESZI_SET_TIMER: return "Set timer";
    case PONDRESZI_SET_TRANSMISSION_LIMIT: return "Set transmission limit";
    case PONDRESZI_SET_TIMEOUT_TYPE: return "Set Timeout_Type";
    default: return "unknown";
    }
}

static inline const char *pondreszi_lower_layer_text(uint32_t number) {
    switch (number) {
    case PONDRESZI_AD_ACCEPT: return "AD_Accept";
    case PONDRESZI_AD_REJECT: return "AD_Reject";
    case PONDRESZI_BC_ACCEPT: return "BC_Accept";
    case PONDRESZI_BC_REJECT: return "BC_Reject";
    case PONDRESZI_BD_ACCEPT: return "BD_Accept";
    case PONDRESZI_BD_REJECT: return "BD_Reject";
    default: return "unknown";
    }
}

#endif
