/*
 * FOP-1 (ECSS-E-ST-50-04C, clauses 7.2.2 and 7.9.2, table 7-8), hand-written: what a C programmer would write behind the boundary of
 * include/pondreszi.h. The state's octets are judged and taken apart at each call, the event is done, and they are packed again. Nothing
 * is allocated. A refusal changes nothing but the answer: what changes lent memory comes after the last judgement, in finish().
 */
#include "fop1.h"

#include <stdbool.h>
#include <string.h>

#include "fecf_table.h"
#include "pondreszi.h"

#define MARK 0x53
#define LAYOUT 2
#define PLACES (PONDRESZI_LARGEST_K + 1)
#define FLAGS_MOST 31
#define FRAME_OVERHEAD 7 /* header and FECF */
#define BYPASS 0x20
#define CONTROL_COMMAND 0x10

/* The type-BC frame on the sent queue. */
enum { BC_NONE = 0, BC_UNLOCK = 1, BC_SET_VR = 2 };

/* The state taken apart. */
struct sender {
    uint8_t state;
    uint8_t k;
    uint16_t t1_initial;
    uint8_t transmission_limit;
    uint8_t timeout_type;
    uint16_t spacecraft;
    uint8_t channel;
    uint8_t vs;
    uint8_t nnr;
    uint16_t timer;
    uint8_t transmission_count;
    uint8_t suspend_state;
    bool ad_out_ready;
    bool bc_out_ready;
    bool bd_out_ready;
    bool waits;
    bool bc_marked;
    uint8_t sent;
    uint8_t marked;
    uint8_t bc_frame;
    uint8_t bc_value;
    uint16_t lengths[PLACES];
};

/* An event under way: the sender, its answer, and what is to be done to the store and the output once nothing can be refused. */
struct event {
    struct sender sender;
    uint8_t *answer;
    const uint8_t *unit; /* of a request */
    uint16_t unit_len;
    bool adds;           /* the unit goes into the store */
    uint8_t added_place; /* where it goes */
    uint8_t place;       /* of the AD unit handed down, and its N(S) */
    uint8_t number;
    uint8_t removed; /* units confirmed, which leave the store */
    uint8_t staying; /* units behind them, which move down */
};

static uint16_t get16(const uint8_t *octets) { return (uint16_t)(octets[0] << 8 | octets[1]); }

static void put16(uint8_t *octets, uint16_t number) {
    octets[0] = (uint8_t)(number >> 8);
    octets[1] = (uint8_t)number;
}

/* The state's octets, judged, taken apart and packed. -------------------------------------------------------------------------------- */

static bool settings_hold(const struct sender *s) {
    return s->k >= PONDRESZI_SMALLEST_K && s->k <= PONDRESZI_LARGEST_K && s->t1_initial >= PONDRESZI_SMALLEST_T1 &&
           s->transmission_limit >= PONDRESZI_SMALLEST_TRANSMISSION_LIMIT && s->timeout_type <= PONDRESZI_LARGEST_TIMEOUT_TYPE &&
           s->spacecraft <= PONDRESZI_LARGEST_SPACECRAFT && s->channel <= PONDRESZI_LARGEST_CHANNEL;
}

static bool queues_hold(const struct sender *s) {
    return s->sent <= PONDRESZI_LARGEST_K && s->sent <= (uint8_t)(s->vs - s->nnr) && s->marked <= s->sent && s->transmission_count >= 1 &&
           s->bc_frame <= BC_SET_VR && (s->bc_frame == BC_SET_VR || s->bc_value == 0);
}

/* Units are held in S1 to S3 or where a suspension left these, a type-BC frame in S5; the timer is stopped in S6. */
static bool state_holds(const struct sender *s) {
    bool holds_units = s->sent > 0 || s->waits;
    bool holds_frame = s->bc_frame != BC_NONE;
    switch (s->state) {
    case PONDRESZI_FOP_ACTIVE:
    case PONDRESZI_FOP_RETRANSMIT_WITHOUT_WAIT:
    case PONDRESZI_FOP_RETRANSMIT_WITH_WAIT:
        return s->suspend_state == 0 && !holds_frame;
    case PONDRESZI_FOP_INITIALISING_WITHOUT_BC:
        return s->suspend_state == 0 && !holds_frame && !holds_units;
    case PONDRESZI_FOP_INITIALISING_WITH_BC:
        return s->suspend_state == 0 && holds_frame && !holds_units;
    case PONDRESZI_FOP_INITIAL:
        return s->suspend_state <= PONDRESZI_LARGEST_SUSPEND_STATE && s->timer == 0 && !holds_frame &&
               (!holds_units || (s->suspend_state >= 1 && s->suspend_state <= 3));
    default:
        return false;
    }
}

/* Every length is at most a unit's; those of the units held are not 0. */
static bool lengths_hold(const struct sender *s) {
    uint16_t largest = 0;
    for (unsigned i = 0; i < PLACES; i++)
        largest = s->lengths[i] > largest ? s->lengths[i] : largest;
    if (largest > PONDRESZI_LARGEST_UNIT)
        return false;
    unsigned held = (unsigned)s->sent + s->waits;
    for (unsigned i = 0; i < held; i++)
        if (s->lengths[i] == 0)
            return false;
    return true;
}

/* Takes the octets apart; false where they are no state. They stand apart from the struct, so that lengths may be taken several at once. */
static bool take_apart(struct sender *restrict s, const uint8_t *restrict octets, uint64_t len) {
    if (len != PONDRESZI_SENDER_STATE_OCTETS || octets[0] != MARK || octets[1] != LAYOUT)
        return false;
    uint8_t flags = octets[PONDRESZI_SENDER_FLAGS];
    if (flags > FLAGS_MOST)
        return false;
    s->state = octets[PONDRESZI_SENDER_STATE];
    s->k = octets[PONDRESZI_SENDER_K];
    s->t1_initial = get16(octets + PONDRESZI_SENDER_T1_INITIAL);
    s->transmission_limit = octets[PONDRESZI_SENDER_TRANSMISSION_LIMIT];
    s->timeout_type = octets[PONDRESZI_SENDER_TIMEOUT_TYPE];
    s->spacecraft = get16(octets + PONDRESZI_SENDER_SPACECRAFT);
    s->channel = octets[PONDRESZI_SENDER_CHANNEL];
    s->vs = octets[PONDRESZI_SENDER_VS];
    s->nnr = octets[PONDRESZI_SENDER_NNR];
    s->timer = get16(octets + PONDRESZI_SENDER_TIMER);
    s->transmission_count = octets[PONDRESZI_SENDER_TRANSMISSION_COUNT];
    s->suspend_state = octets[PONDRESZI_SENDER_SUSPEND_STATE];
    s->ad_out_ready = flags & PONDRESZI_SENDER_AD_OUT_READY;
    s->bc_out_ready = flags & PONDRESZI_SENDER_BC_OUT_READY;
    s->bd_out_ready = flags & PONDRESZI_SENDER_BD_OUT_READY;
    s->waits = flags & PONDRESZI_SENDER_UNIT_WAITS;
    s->bc_marked = flags & PONDRESZI_SENDER_BC_MARKED;
    s->sent = octets[PONDRESZI_SENDER_SENT];
    s->marked = octets[PONDRESZI_SENDER_MARKED];
    s->bc_frame = octets[PONDRESZI_SENDER_BC_FRAME];
    s->bc_value = octets[PONDRESZI_SENDER_BC_VALUE];
    for (unsigned i = 0; i < PLACES; i++)
        s->lengths[i] = get16(octets + PONDRESZI_SENDER_LENGTHS + 2 * i);
    return settings_hold(s) && queues_hold(s) && state_holds(s) && lengths_hold(s);
}

static void pack(const struct sender *restrict s, uint8_t *restrict octets) {
    octets[0] = MARK;
    octets[1] = LAYOUT;
    octets[PONDRESZI_SENDER_STATE] = s->state;
    octets[PONDRESZI_SENDER_K] = s->k;
    put16(octets + PONDRESZI_SENDER_T1_INITIAL, s->t1_initial);
    octets[PONDRESZI_SENDER_TRANSMISSION_LIMIT] = s->transmission_limit;
    octets[PONDRESZI_SENDER_TIMEOUT_TYPE] = s->timeout_type;
    put16(octets + PONDRESZI_SENDER_SPACECRAFT, s->spacecraft);
    octets[PONDRESZI_SENDER_CHANNEL] = s->channel;
    octets[PONDRESZI_SENDER_VS] = s->vs;
    octets[PONDRESZI_SENDER_NNR] = s->nnr;
    put16(octets + PONDRESZI_SENDER_TIMER, s->timer);
    octets[PONDRESZI_SENDER_TRANSMISSION_COUNT] = s->transmission_count;
    octets[PONDRESZI_SENDER_FLAGS] =
        (uint8_t)(s->ad_out_ready * PONDRESZI_SENDER_AD_OUT_READY | s->bc_out_ready * PONDRESZI_SENDER_BC_OUT_READY |
                  s->bd_out_ready * PONDRESZI_SENDER_BD_OUT_READY | s->waits * PONDRESZI_SENDER_UNIT_WAITS |
                  s->bc_marked * PONDRESZI_SENDER_BC_MARKED);
    octets[PONDRESZI_SENDER_SUSPEND_STATE] = s->suspend_state;
    octets[PONDRESZI_SENDER_SENT] = s->sent;
    octets[PONDRESZI_SENDER_MARKED] = s->marked;
    octets[PONDRESZI_SENDER_BC_FRAME] = s->bc_frame;
    octets[PONDRESZI_SENDER_BC_VALUE] = s->bc_value;
    for (unsigned i = 0; i < PLACES; i++)
        put16(octets + PONDRESZI_SENDER_LENGTHS + 2 * i, s->lengths[i]);
}

/* Frames (clauses 6.2 and 6.4). ------------------------------------------------------------------------------------------------------- */

static uint16_t fecf(const uint8_t *octets, size_t count) {
    uint16_t check = 0xFFFF;
    for (size_t i = 0; i < count; i++)
        check = (uint16_t)(check << 8 ^ fecf_table[check >> 8 ^ octets[i]]);
    return check;
}

/* A frame of this type, with N(S) and the octets of its data field. */
static void write_frame(const struct sender *s, uint8_t type, uint8_t number, const uint8_t *data, size_t count, uint8_t *output) {
    size_t octets = count + FRAME_OVERHEAD;
    output[0] = (uint8_t)(type | s->spacecraft >> 8);
    output[1] = (uint8_t)s->spacecraft;
    output[2] = (uint8_t)(s->channel << 2 | (octets - 1) >> 8);
    output[3] = (uint8_t)(octets - 1);
    output[4] = number;
    memcpy(output + PONDRESZI_FRAME_HEADER_OCTETS, data, count);
    put16(output + octets - 2, fecf(output, octets - 2));
}

/* What the actions tell. --------------------------------------------------------------------------------------------------------------- */

static void respond(struct event *e, uint8_t response) {
    e->answer[PONDRESZI_ANSWER_FIRST_RESPONSE + e->answer[PONDRESZI_ANSWER_RESPONSES]++] = response;
}

static void hand_down(struct event *e, uint8_t kind) { e->answer[PONDRESZI_ANSWER_KIND] = kind; }

/* The actions (clauses 7.9.2.4 to 7.9.2.19). ------------------------------------------------------------------------------------------- */

static void start_timer(struct sender *s) { s->timer = s->t1_initial; }

static void release_bc_frame(struct sender *s) {
    s->bc_frame = BC_NONE;
    s->bc_value = 0;
    s->bc_marked = false;
}

static void purge_sent_queue(struct event *e) {
    struct sender *s = &e->sender;
    if (s->sent > 0) {
        e->answer[PONDRESZI_ANSWER_DENIED_FIRST] = (uint8_t)(s->vs - s->sent);
        e->answer[PONDRESZI_ANSWER_DENIED] = s->sent;
    }
    if (s->bc_frame != BC_NONE)
        respond(e, PONDRESZI_RESPONSE_DENY_DIRECTIVE);
    s->sent = 0;
    s->marked = 0;
    release_bc_frame(s);
}

static void purge_wait_queue(struct event *e) {
    if (e->sender.waits)
        respond(e, PONDRESZI_RESPONSE_REJECT_AD);
    e->sender.waits = false;
}

static void alert(struct event *e, uint8_t reason) {
    e->sender.timer = 0;
    purge_sent_queue(e);
    purge_wait_queue(e);
    e->answer[PONDRESZI_ANSWER_ALERT] = reason;
    e->sender.state = PONDRESZI_FOP_INITIAL;
}

static void initialise(struct event *e) {
    purge_sent_queue(e);
    purge_wait_queue(e);
    e->sender.transmission_count = 1;
    e->sender.suspend_state = 0;
}

/* The timer's expiry suspends the AD service: SS becomes the state left. */
static void suspend(struct event *e) {
    e->sender.suspend_state = e->sender.state;
    e->sender.state = PONDRESZI_FOP_INITIAL;
    e->answer[PONDRESZI_ANSWER_SUSPENDED] = 1;
}

static void transmit_ad_frame(struct event *e) {
    struct sender *s = &e->sender;
    e->number = s->vs++;
    e->place = s->sent;
    if (s->sent++ == 0)
        s->transmission_count = 1;
    s->waits = false;
    s->ad_out_ready = false;
    start_timer(s);
    hand_down(e, PONDRESZI_FRAME_AD);
}

/* The marked units are the last ones of the sent queue. */
static void send_oldest_marked(struct event *e) {
    struct sender *s = &e->sender;
    e->number = (uint8_t)(s->vs - s->marked);
    e->place = (uint8_t)(s->sent - s->marked);
    s->marked--;
    s->ad_out_ready = false;
    hand_down(e, PONDRESZI_FRAME_AD);
}

static void look_for_fdu(struct event *e) {
    struct sender *s = &e->sender;
    if (!s->ad_out_ready)
        return;
    if (s->marked > 0) {
        send_oldest_marked(e);
    } else if (s->waits && (uint8_t)(s->vs - s->nnr) < s->k) {
        respond(e, PONDRESZI_RESPONSE_ACCEPT_AD);
        transmit_ad_frame(e);
    }
}

static uint8_t kind_of_bc_frame(const struct sender *s) {
    return s->bc_frame == BC_UNLOCK ? PONDRESZI_FRAME_UNLOCK : PONDRESZI_FRAME_SET_VR;
}

static void look_for_directive(struct event *e) {
    struct sender *s = &e->sender;
    if (!s->bc_out_ready || !s->bc_marked)
        return;
    s->bc_marked = false;
    s->bc_out_ready = false;
    hand_down(e, kind_of_bc_frame(s));
}

static void transmit_bc_frame(struct event *e, uint8_t bc_frame, uint8_t value) {
    struct sender *s = &e->sender;
    s->bc_frame = bc_frame;
    s->bc_value = value;
    s->bc_marked = false;
    s->transmission_count = 1;
    s->bc_out_ready = false;
    start_timer(s);
    hand_down(e, kind_of_bc_frame(s));
}

static void initiate_retransmission(struct event *e) {
    e->answer[PONDRESZI_ANSWER_ABORT] = 1;
    e->sender.transmission_count++;
    start_timer(&e->sender);
}

static void initiate_ad_retransmission(struct event *e) {
    initiate_retransmission(e);
    e->sender.marked = e->sender.sent;
}

static void initiate_bc_retransmission(struct event *e) {
    initiate_retransmission(e);
    e->sender.bc_marked = true;
}

/* The units before N(R) leave the sent queue. Their octets leave the store in finish(). */
static void remove_acknowledged_frames(struct event *e, uint8_t nr) {
    struct sender *s = &e->sender;
    uint8_t rest = (uint8_t)(s->vs - nr);
    if (rest < s->sent) {
        uint8_t removed = (uint8_t)(s->sent - rest);
        e->answer[PONDRESZI_ANSWER_CONFIRMED_FIRST] = (uint8_t)(s->vs - s->sent);
        e->answer[PONDRESZI_ANSWER_CONFIRMED] = removed;
        e->removed = removed;
        e->staying = (uint8_t)(rest + s->waits);
        memmove(s->lengths, s->lengths + removed, (size_t)(PLACES - removed) * sizeof s->lengths[0]);
        s->sent = rest;
        if (s->marked > rest)
            s->marked = rest;
    }
    s->nnr = nr;
    s->transmission_count = 1;
}

/* How each call begins and ends. ------------------------------------------------------------------------------------------------------- */

/* A refusal after the event was judged: the answer has the refusal and the state that stays. */
static uint8_t refuse(const uint8_t *state, uint8_t *answer, uint8_t refusal) {
    memset(answer, 0, PONDRESZI_ANSWER_OCTETS);
    answer[PONDRESZI_ANSWER_REFUSAL] = refusal;
    answer[PONDRESZI_ANSWER_STATE] = state[PONDRESZI_SENDER_STATE];
    return refusal;
}

/* Refused with 12 where the octets are no state, with 11 where the answer has no room. Otherwise an empty answer stands. */
static uint8_t begin(struct event *e, const uint8_t *state, uint64_t state_len, uint8_t *answer, uint64_t answer_len) {
    if (!take_apart(&e->sender, state, state_len))
        return PONDRESZI_SETTING;
    if (answer_len < PONDRESZI_ANSWER_OCTETS)
        return PONDRESZI_ROOM;
    memset(answer, 0, PONDRESZI_ANSWER_OCTETS);
    e->answer = answer;
    e->unit = NULL;
    e->unit_len = 0;
    e->adds = false;
    e->removed = 0;
    return PONDRESZI_DONE;
}

static bool store_suffices(const struct sender *s, uint32_t k, uint64_t store_len) { return store_len >= PONDRESZI_STORE_NEED(k, s->sent); }

/* The octets of the data field of the frame handed down. */
static size_t data_octets(const struct event *e) {
    switch (e->answer[PONDRESZI_ANSWER_KIND]) {
    case PONDRESZI_FRAME_AD:
        return e->sender.lengths[e->place];
    case PONDRESZI_FRAME_BD:
        return e->unit_len;
    case PONDRESZI_FRAME_UNLOCK:
        return 1;
    default:
        return 3;
    }
}

static void write_handed_down(const struct event *e, const uint8_t *store, size_t count, uint8_t *output) {
    const struct sender *s = &e->sender;
    const uint8_t set_vr[3] = {0x82, 0x00, s->bc_value};
    const uint8_t unlock[1] = {0x00};
    switch (e->answer[PONDRESZI_ANSWER_KIND]) {
    case PONDRESZI_FRAME_AD:
        write_frame(s, 0, e->number, store + (size_t)e->place * PONDRESZI_LARGEST_UNIT, count, output);
        break;
    case PONDRESZI_FRAME_BD:
        write_frame(s, BYPASS, 0, e->unit, count, output);
        break;
    case PONDRESZI_FRAME_UNLOCK:
        write_frame(s, BYPASS | CONTROL_COMMAND, 0, unlock, count, output);
        break;
    default:
        write_frame(s, BYPASS | CONTROL_COMMAND, 0, set_vr, count, output);
        break;
    }
}

/* The units that stay move down, the oldest first, and of each only its octets; a unit taken is put at its place. */
static void change_store(const struct event *e, uint8_t *store) {
    if (e->removed > 0) {
        uint8_t *to = store;
        const uint8_t *from = store + (size_t)e->removed * PONDRESZI_LARGEST_UNIT;
        for (unsigned i = 0; i < e->staying; i++) {
            memcpy(to, from, e->sender.lengths[i]);
            to += PONDRESZI_LARGEST_UNIT;
            from += PONDRESZI_LARGEST_UNIT;
        }
    } else if (e->adds) {
        memcpy(store + (size_t)e->added_place * PONDRESZI_LARGEST_UNIT, e->unit, e->unit_len);
    }
}

/* Refused with 11 where the output is too short for the frame; otherwise store, output, state and answer become the next ones. */
static uint8_t finish(struct event *e, uint8_t *state, uint8_t *store, uint8_t *output, uint64_t output_len) {
    bool hands_down = e->answer[PONDRESZI_ANSWER_KIND] != PONDRESZI_FRAME_NONE;
    size_t count = hands_down ? data_octets(e) : 0;
    if (hands_down && output_len < count + FRAME_OVERHEAD)
        return refuse(state, e->answer, PONDRESZI_ROOM);
    change_store(e, store);
    if (hands_down) {
        write_handed_down(e, store, count, output);
        put16(e->answer + PONDRESZI_ANSWER_FRAME, (uint16_t)(count + FRAME_OVERHEAD));
    }
    e->answer[PONDRESZI_ANSWER_STATE] = e->sender.state;
    pack(&e->sender, state);
    return PONDRESZI_DONE;
}

/* The events of table 7-8. ------------------------------------------------------------------------------------------------------------- */

static void tell_event(struct event *e, uint8_t number) { e->answer[PONDRESZI_ANSWER_EVENT] = number; }

/* E19 and E20. */
static void take_ad_unit(struct event *e) {
    struct sender *s = &e->sender;
    bool serves = s->state <= PONDRESZI_FOP_RETRANSMIT_WITH_WAIT;
    tell_event(e, s->waits ? 20 : 19);
    if (s->waits || !serves) {
        respond(e, PONDRESZI_RESPONSE_REJECT_AD);
        return;
    }
    e->adds = true;
    e->added_place = s->sent;
    s->waits = true;
    s->lengths[s->sent] = e->unit_len;
    if (s->state != PONDRESZI_FOP_RETRANSMIT_WITH_WAIT)
        look_for_fdu(e);
}

/* E21 and E22. */
static void take_bd_unit(struct event *e) {
    if (!e->sender.bd_out_ready) {
        tell_event(e, 22);
        respond(e, PONDRESZI_RESPONSE_REJECT_BD);
        return;
    }
    tell_event(e, 21);
    e->sender.bd_out_ready = false;
    hand_down(e, PONDRESZI_FRAME_BD);
}

/* E16 to E18 and E104. */
static void expire(struct event *e) {
    struct sender *s = &e->sender;
    bool in_time = s->transmission_count < s->transmission_limit;
    bool suspends = s->timeout_type == PONDRESZI_TIMEOUT_SUSPEND;
    tell_event(e, in_time ? (suspends ? 104 : 16) : (suspends ? 18 : 17));
    switch (s->state) {
    case PONDRESZI_FOP_ACTIVE:
    case PONDRESZI_FOP_RETRANSMIT_WITHOUT_WAIT:
        if (in_time) {
            initiate_ad_retransmission(e);
            look_for_fdu(e);
            return;
        }
        break;
    case PONDRESZI_FOP_RETRANSMIT_WITH_WAIT:
        if (in_time)
            return;
        break;
    case PONDRESZI_FOP_INITIALISING_WITH_BC:
        if (in_time) {
            initiate_bc_retransmission(e);
            look_for_directive(e);
            return;
        }
        suspends = false;
        break;
    default:
        break;
    }
    if (suspends)
        suspend(e);
    else
        alert(e, PONDRESZI_ALERT_T1);
}

/* E41 to E46. */
static void take_lower_layer(struct event *e, uint32_t number) {
    struct sender *s = &e->sender;
    tell_event(e, (uint8_t)(40 + number));
    switch (number) {
    case PONDRESZI_AD_ACCEPT:
        s->ad_out_ready = true;
        if (s->state == PONDRESZI_FOP_ACTIVE || s->state == PONDRESZI_FOP_RETRANSMIT_WITHOUT_WAIT)
            look_for_fdu(e);
        break;
    case PONDRESZI_BC_ACCEPT:
        s->bc_out_ready = true;
        if (s->state == PONDRESZI_FOP_INITIALISING_WITH_BC)
            look_for_directive(e);
        break;
    case PONDRESZI_BD_ACCEPT:
        s->bd_out_ready = true;
        respond(e, PONDRESZI_RESPONSE_ACCEPT_BD);
        break;
    default:
        alert(e, PONDRESZI_ALERT_LLIF);
        break;
    }
}

/* Table 7-3: the values of the directives that have one. */
static bool directive_is_valid(uint32_t number, uint32_t value) {
    switch (number) {
    case PONDRESZI_INITIATE_WITHOUT_CHECK:
    case PONDRESZI_INITIATE_WITH_CLCW_CHECK:
    case PONDRESZI_INITIATE_WITH_UNLOCK:
    case PONDRESZI_TERMINATE:
    case PONDRESZI_RESUME:
        return true;
    case PONDRESZI_INITIATE_WITH_SET_VR:
    case PONDRESZI_SET_VS:
        return value <= PONDRESZI_LARGEST_NUMBER;
    case PONDRESZI_SET_K:
        return value >= PONDRESZI_SMALLEST_K && value <= PONDRESZI_LARGEST_K;
    case PONDRESZI_SET_TIMER:
        return value >= PONDRESZI_SMALLEST_T1 && value <= PONDRESZI_LARGEST_T1;
    case PONDRESZI_SET_TRANSMISSION_LIMIT:
        return value >= PONDRESZI_SMALLEST_TRANSMISSION_LIMIT && value <= PONDRESZI_LARGEST_TRANSMISSION_LIMIT;
    case PONDRESZI_SET_TIMEOUT_TYPE:
        return value <= PONDRESZI_LARGEST_TIMEOUT_TYPE;
    default:
        return false;
    }
}

/* E23 to E28. */
static void initiate(struct event *e, uint32_t number, uint8_t value) {
    struct sender *s = &e->sender;
    bool with_bc_frame = number == PONDRESZI_INITIATE_WITH_UNLOCK || number == PONDRESZI_INITIATE_WITH_SET_VR;
    bool is_ready = !with_bc_frame || s->bc_out_ready;
    uint8_t of_table = (uint8_t)(with_bc_frame ? 19 + 2 * number : 22 + number);
    tell_event(e, (uint8_t)(is_ready ? of_table : of_table + 1));
    if (s->state != PONDRESZI_FOP_INITIAL || !is_ready) {
        respond(e, PONDRESZI_RESPONSE_REJECT_DIRECTIVE);
        return;
    }
    respond(e, PONDRESZI_RESPONSE_ACCEPT_DIRECTIVE);
    initialise(e);
    switch (number) {
    case PONDRESZI_INITIATE_WITHOUT_CHECK:
        respond(e, PONDRESZI_RESPONSE_CONFIRM_DIRECTIVE);
        s->state = PONDRESZI_FOP_ACTIVE;
        break;
    case PONDRESZI_INITIATE_WITH_CLCW_CHECK:
        start_timer(s);
        s->state = PONDRESZI_FOP_INITIALISING_WITHOUT_BC;
        break;
    case PONDRESZI_INITIATE_WITH_UNLOCK:
        transmit_bc_frame(e, BC_UNLOCK, 0);
        s->state = PONDRESZI_FOP_INITIALISING_WITH_BC;
        break;
    default:
        s->vs = value;
        s->nnr = value;
        transmit_bc_frame(e, BC_SET_VR, value);
        s->state = PONDRESZI_FOP_INITIALISING_WITH_BC;
        break;
    }
}

/* E29: while Initial, suspended or not, nothing is left to end. */
static void terminate(struct event *e) {
    tell_event(e, 29);
    respond(e, PONDRESZI_RESPONSE_ACCEPT_DIRECTIVE);
    if (e->sender.state != PONDRESZI_FOP_INITIAL)
        alert(e, PONDRESZI_ALERT_TERM);
    respond(e, PONDRESZI_RESPONSE_CONFIRM_DIRECTIVE);
}

/* E30 to E34. */
static void resume(struct event *e) {
    struct sender *s = &e->sender;
    tell_event(e, (uint8_t)(30 + s->suspend_state));
    if (s->suspend_state == 0) {
        respond(e, PONDRESZI_RESPONSE_REJECT_DIRECTIVE);
        return;
    }
    respond(e, PONDRESZI_RESPONSE_ACCEPT_DIRECTIVE);
    start_timer(s);
    s->state = s->suspend_state;
    s->suspend_state = 0;
    respond(e, PONDRESZI_RESPONSE_CONFIRM_DIRECTIVE);
}

/* E35 to E39. */
static void set(struct event *e, uint32_t number, uint16_t value) {
    struct sender *s = &e->sender;
    tell_event(e, (uint8_t)(28 + number));
    if (number == PONDRESZI_SET_VS && (s->state != PONDRESZI_FOP_INITIAL || s->suspend_state != 0)) {
        respond(e, PONDRESZI_RESPONSE_REJECT_DIRECTIVE);
        return;
    }
    respond(e, PONDRESZI_RESPONSE_ACCEPT_DIRECTIVE);
    switch (number) {
    case PONDRESZI_SET_VS:
        s->vs = (uint8_t)value;
        s->nnr = (uint8_t)value;
        break;
    case PONDRESZI_SET_K:
        s->k = (uint8_t)value;
        break;
    case PONDRESZI_SET_TIMER:
        s->t1_initial = value;
        break;
    case PONDRESZI_SET_TRANSMISSION_LIMIT:
        s->transmission_limit = (uint8_t)value;
        break;
    default:
        s->timeout_type = (uint8_t)value;
        break;
    }
    respond(e, PONDRESZI_RESPONSE_CONFIRM_DIRECTIVE);
}

static void take_directive(struct event *e, uint32_t number, uint32_t value) {
    switch (number) {
    case PONDRESZI_TERMINATE:
        terminate(e);
        break;
    case PONDRESZI_RESUME:
        resume(e);
        break;
    case PONDRESZI_SET_VS:
    case PONDRESZI_SET_K:
    case PONDRESZI_SET_TIMER:
    case PONDRESZI_SET_TRANSMISSION_LIMIT:
    case PONDRESZI_SET_TIMEOUT_TYPE:
        set(e, number, (uint16_t)value);
        break;
    default:
        initiate(e, number, (uint8_t)value);
        break;
    }
}

/* Control words (clause 6.3). Type, version, COP and spare bits; the status is not judged. */
static bool word_is_valid(const uint8_t *word) { return (word[0] & 0xE3) == 0x01 && (word[1] & 0x03) == 0 && (word[2] & 0x01) == 0; }

/* The row of a word whose N(R) lies from NN(R) to V(S) and whose Lockout Flag is not set. */
static uint8_t row_of_report(const struct sender *s, uint8_t acknowledged, uint8_t outstanding, bool wait, bool retransmit) {
    if (acknowledged == outstanding) {
        if (retransmit)
            return 4;
        return wait ? 3 : acknowledged == 0 ? 1 : 2;
    }
    if (!retransmit)
        return wait ? 7 : acknowledged == 0 ? 5 : 6;
    if (s->transmission_limit == 1)
        return acknowledged == 0 ? 102 : 101;
    if (acknowledged != 0)
        return wait ? 9 : 8;
    if (s->transmission_count < s->transmission_limit)
        return wait ? 11 : 10;
    return wait ? 103 : 12;
}

static uint8_t row_of_word(const struct sender *s, const uint8_t *word) {
    uint8_t acknowledged = (uint8_t)(word[3] - s->nnr);
    uint8_t outstanding = (uint8_t)(s->vs - s->nnr);
    if (!word_is_valid(word))
        return 15;
    if (word[2] & 0x20)
        return 14;
    if (acknowledged > outstanding)
        return 13;
    return row_of_report(s, acknowledged, outstanding, word[2] & 0x10, word[2] & 0x08);
}

/* A word in S1 to S3. */
static void take_word_serving(struct event *e, uint8_t row, uint8_t nr) {
    struct sender *s = &e->sender;
    bool is_active = s->state == PONDRESZI_FOP_ACTIVE;
    switch (row) {
    case 1:
    case 5:
        if (!is_active)
            alert(e, PONDRESZI_ALERT_SYNCH);
        break;
    case 2:
        remove_acknowledged_frames(e, nr);
        s->timer = 0;
        look_for_fdu(e);
        s->state = PONDRESZI_FOP_ACTIVE;
        break;
    case 6:
        remove_acknowledged_frames(e, nr);
        look_for_fdu(e);
        s->state = PONDRESZI_FOP_ACTIVE;
        break;
    case 4:
        alert(e, PONDRESZI_ALERT_SYNCH);
        break;
    case 101:
        remove_acknowledged_frames(e, nr);
        alert(e, PONDRESZI_ALERT_LIMIT);
        break;
    case 102:
        alert(e, PONDRESZI_ALERT_LIMIT);
        break;
    case 8:
        remove_acknowledged_frames(e, nr);
        initiate_ad_retransmission(e);
        look_for_fdu(e);
        s->state = PONDRESZI_FOP_RETRANSMIT_WITHOUT_WAIT;
        break;
    case 9:
        remove_acknowledged_frames(e, nr);
        s->state = PONDRESZI_FOP_RETRANSMIT_WITH_WAIT;
        break;
    case 10:
        if (s->state != PONDRESZI_FOP_RETRANSMIT_WITHOUT_WAIT) {
            initiate_ad_retransmission(e);
            look_for_fdu(e);
        }
        s->state = PONDRESZI_FOP_RETRANSMIT_WITHOUT_WAIT;
        break;
    case 12:
        s->state = PONDRESZI_FOP_RETRANSMIT_WITHOUT_WAIT;
        break;
    case 11:
    case 103:
        s->state = PONDRESZI_FOP_RETRANSMIT_WITH_WAIT;
        break;
    case 13:
        alert(e, PONDRESZI_ALERT_NNR);
        break;
    case 14:
        alert(e, PONDRESZI_ALERT_LOCKOUT);
        break;
    default: /* 3, 7, 15 */
        alert(e, PONDRESZI_ALERT_CLCW);
        break;
    }
}

/* A word in S4 and S5; the rows left out are not applicable there, or ignored. */
static void take_word_initialising(struct event *e, uint8_t row) {
    struct sender *s = &e->sender;
    bool with_bc_frame = s->state == PONDRESZI_FOP_INITIALISING_WITH_BC;
    switch (row) {
    case 1:
        respond(e, PONDRESZI_RESPONSE_CONFIRM_DIRECTIVE);
        if (with_bc_frame)
            release_bc_frame(s);
        s->timer = 0;
        s->state = PONDRESZI_FOP_ACTIVE;
        break;
    case 3:
    case 15:
        alert(e, PONDRESZI_ALERT_CLCW);
        break;
    case 4:
        if (!with_bc_frame)
            alert(e, PONDRESZI_ALERT_SYNCH);
        break;
    case 13:
        if (!with_bc_frame)
            alert(e, PONDRESZI_ALERT_NNR);
        break;
    case 14:
        if (!with_bc_frame)
            alert(e, PONDRESZI_ALERT_LOCKOUT);
        break;
    default:
        break;
    }
}

static void take_word(struct event *e, const uint8_t *word) {
    uint8_t row = row_of_word(&e->sender, word);
    tell_event(e, row);
    if (e->sender.state <= PONDRESZI_FOP_RETRANSMIT_WITH_WAIT)
        take_word_serving(e, row, word[3]);
    else if (e->sender.state != PONDRESZI_FOP_INITIAL)
        take_word_initialising(e, row);
}

/* The boundary. --------------------------------------------------------------------------------------------------------------------------
 */

uint8_t baseline_sender_new(uint32_t k, uint32_t t1_initial, uint32_t transmission_limit, uint32_t timeout_type, uint32_t spacecraft,
                            uint32_t channel, uint32_t vs, uint32_t nnr, const uint8_t *store, uint64_t store_len, uint8_t *state,
                            uint64_t state_len) {
    (void)store;
    if (k < PONDRESZI_SMALLEST_K || k > PONDRESZI_LARGEST_K || t1_initial < PONDRESZI_SMALLEST_T1 || t1_initial > PONDRESZI_LARGEST_T1 ||
        transmission_limit < PONDRESZI_SMALLEST_TRANSMISSION_LIMIT || transmission_limit > PONDRESZI_LARGEST_TRANSMISSION_LIMIT ||
        timeout_type > PONDRESZI_LARGEST_TIMEOUT_TYPE || spacecraft > PONDRESZI_LARGEST_SPACECRAFT || channel > PONDRESZI_LARGEST_CHANNEL ||
        vs > PONDRESZI_LARGEST_NUMBER || nnr > PONDRESZI_LARGEST_NUMBER)
        return PONDRESZI_SETTING;
    if (store_len < PONDRESZI_STORE_OCTETS(k) || state_len < PONDRESZI_SENDER_STATE_OCTETS)
        return PONDRESZI_ROOM;
    struct sender s = {
        .state = PONDRESZI_FOP_INITIAL,
        .k = (uint8_t)k,
        .t1_initial = (uint16_t)t1_initial,
        .transmission_limit = (uint8_t)transmission_limit,
        .timeout_type = (uint8_t)timeout_type,
        .spacecraft = (uint16_t)spacecraft,
        .channel = (uint8_t)channel,
        .vs = (uint8_t)vs,
        .nnr = (uint8_t)nnr,
        .transmission_count = 1,
        .ad_out_ready = true,
        .bc_out_ready = true,
        .bd_out_ready = true,
    };
    pack(&s, state);
    return PONDRESZI_DONE;
}

/* The refusal of a request, and the unit taken down. */
static uint8_t judge_unit(struct event *e, const uint8_t *unit, uint64_t unit_len, uint64_t store_len) {
    if (unit_len < PONDRESZI_SMALLEST_UNIT || unit_len > PONDRESZI_LARGEST_UNIT)
        return PONDRESZI_LENGTH;
    if (!store_suffices(&e->sender, e->sender.k, store_len))
        return PONDRESZI_ROOM;
    e->unit = unit;
    e->unit_len = (uint16_t)unit_len;
    return PONDRESZI_DONE;
}

uint8_t baseline_sender_request_ad(uint8_t *state, uint64_t state_len, const uint8_t *unit, uint64_t unit_len, uint8_t *store,
                                   uint64_t store_len, uint8_t *output, uint64_t output_len, uint8_t *answer, uint64_t answer_len) {
    struct event e;
    uint8_t refusal = begin(&e, state, state_len, answer, answer_len);
    if (refusal != PONDRESZI_DONE)
        return refusal;
    refusal = judge_unit(&e, unit, unit_len, store_len);
    if (refusal != PONDRESZI_DONE)
        return refuse(state, answer, refusal);
    take_ad_unit(&e);
    return finish(&e, state, store, output, output_len);
}

uint8_t baseline_sender_request_bd(uint8_t *state, uint64_t state_len, const uint8_t *unit, uint64_t unit_len, uint8_t *store,
                                   uint64_t store_len, uint8_t *output, uint64_t output_len, uint8_t *answer, uint64_t answer_len) {
    struct event e;
    uint8_t refusal = begin(&e, state, state_len, answer, answer_len);
    if (refusal != PONDRESZI_DONE)
        return refusal;
    refusal = judge_unit(&e, unit, unit_len, store_len);
    if (refusal != PONDRESZI_DONE)
        return refuse(state, answer, refusal);
    take_bd_unit(&e);
    return finish(&e, state, store, output, output_len);
}

uint8_t baseline_sender_directive(uint8_t *state, uint64_t state_len, uint32_t number, uint32_t value, uint8_t *store, uint64_t store_len,
                                  uint8_t *output, uint64_t output_len, uint8_t *answer, uint64_t answer_len) {
    struct event e;
    uint8_t refusal = begin(&e, state, state_len, answer, answer_len);
    if (refusal != PONDRESZI_DONE)
        return refusal;
    if (!directive_is_valid(number, value)) {
        refuse(state, answer, PONDRESZI_SETTING);
        tell_event(&e, 40);
        respond(&e, PONDRESZI_RESPONSE_REJECT_DIRECTIVE);
        return PONDRESZI_SETTING;
    }
    if (!store_suffices(&e.sender, number == PONDRESZI_SET_K ? value : e.sender.k, store_len))
        return refuse(state, answer, PONDRESZI_ROOM);
    take_directive(&e, number, value);
    return finish(&e, state, store, output, output_len);
}

uint8_t baseline_sender_tick(uint8_t *state, uint64_t state_len, uint8_t *store, uint64_t store_len, uint8_t *output, uint64_t output_len,
                             uint8_t *answer, uint64_t answer_len) {
    struct event e;
    uint8_t refusal = begin(&e, state, state_len, answer, answer_len);
    if (refusal != PONDRESZI_DONE)
        return refusal;
    if (!store_suffices(&e.sender, e.sender.k, store_len))
        return refuse(state, answer, PONDRESZI_ROOM);
    if (e.sender.timer > 0 && --e.sender.timer == 0)
        expire(&e);
    return finish(&e, state, store, output, output_len);
}

uint8_t baseline_sender_lower_layer(uint8_t *state, uint64_t state_len, uint32_t number, uint8_t *store, uint64_t store_len,
                                    uint8_t *output, uint64_t output_len, uint8_t *answer, uint64_t answer_len) {
    struct event e;
    if (number < PONDRESZI_AD_ACCEPT || number > PONDRESZI_BD_REJECT)
        return PONDRESZI_SETTING;
    uint8_t refusal = begin(&e, state, state_len, answer, answer_len);
    if (refusal != PONDRESZI_DONE)
        return refusal;
    if (!store_suffices(&e.sender, e.sender.k, store_len))
        return refuse(state, answer, PONDRESZI_ROOM);
    take_lower_layer(&e, number);
    return finish(&e, state, store, output, output_len);
}

uint8_t baseline_sender_control_word(uint8_t *state, uint64_t state_len, const uint8_t *word, uint64_t word_len, uint8_t *store,
                                     uint64_t store_len, uint8_t *output, uint64_t output_len, uint8_t *answer, uint64_t answer_len) {
    struct event e;
    uint8_t refusal = begin(&e, state, state_len, answer, answer_len);
    if (refusal != PONDRESZI_DONE)
        return refusal;
    if (word_len != PONDRESZI_CLCW_OCTETS)
        return refuse(state, answer, PONDRESZI_LENGTH);
    if (word_is_valid(word) && word[1] >> 2 != e.sender.channel)
        return refuse(state, answer, PONDRESZI_ADDRESS);
    if (!store_suffices(&e.sender, e.sender.k, store_len))
        return refuse(state, answer, PONDRESZI_ROOM);
    take_word(&e, word);
    return finish(&e, state, store, output, output_len);
}
