#include "events.h"

#include <string.h>

#include "random.h"

#define MARK 0x53
#define LAYOUT 2
#define FORMER_LAYOUT 1
#define FORMER_STATE_OCTETS 88
#define PLACES (PONDRESZI_LARGEST_K + 1)

uint64_t random_state;

const char *event_name(enum event_kind kind) {
    static const char *const names[EVENT_KINDS] = {"request_ad", "request_bd", "directive", "tick", "lower_layer", "control_word"};
    return names[kind];
}

uint8_t do_event(const struct side *side, const struct sender_event *event, struct memory *m) {
    switch (event->kind) {
    case REQUEST_AD:
        return side->request_ad(m->state, m->state_len, event->octets, event->count, m->store, m->store_len, m->output, m->output_len,
                                m->answer, m->answer_len);
    case REQUEST_BD:
        return side->request_bd(m->state, m->state_len, event->octets, event->count, m->store, m->store_len, m->output, m->output_len,
                                m->answer, m->answer_len);
    case DIRECTIVE:
        return side->directive(m->state, m->state_len, event->number, event->value, m->store, m->store_len, m->output, m->output_len,
                               m->answer, m->answer_len);
    case TICK:
        return side->tick(m->state, m->state_len, m->store, m->store_len, m->output, m->output_len, m->answer, m->answer_len);
    case LOWER_LAYER:
        return side->lower_layer(m->state, m->state_len, event->number, m->store, m->store_len, m->output, m->output_len, m->answer,
                                 m->answer_len);
    default:
        return side->control_word(m->state, m->state_len, event->octets, event->count, m->store, m->store_len, m->output, m->output_len,
                                  m->answer, m->answer_len);
    }
}

uint8_t do_new(const struct side *side, const struct settings *s, struct memory *m) {
    return side->new (s->k, s->t1_initial, s->transmission_limit, s->timeout_type, s->spacecraft, s->channel, s->vs, s->nnr, m->store,
                      m->store_len, m->state, m->state_len);
}

/* One of some values, or 0 to 255 added above the first 8, 16 or 24 bits: a number must not be cut. */
static uint32_t too_wide(uint32_t value) {
    static const uint32_t above[] = {256, 65536, 1u << 24, 1u << 31};
    return value + above[below(4)];
}

static uint32_t random_k(void) { return once_in(2) ? between(1, PONDRESZI_LARGEST_K) : between(1, 8); }

static uint32_t random_timer(void) { return once_in(3) ? between(1, PONDRESZI_LARGEST_T1) : between(1, 4); }

static uint32_t random_limit(void) { return once_in(3) ? between(1, PONDRESZI_LARGEST_TRANSMISSION_LIMIT) : between(1, 4); }

static void spoil(struct settings *s) {
    uint32_t *const all[] = {&s->k, &s->t1_initial, &s->transmission_limit, &s->timeout_type, &s->spacecraft, &s->channel, &s->vs, &s->nnr};
    static const uint32_t near_limits[] = {0, 1, 2, 63, 64, 127, 128, 255, 256, 1023, 1024, 65535, 65536};
    uint32_t *setting = all[below(8)];
    *setting = once_in(2) ? near_limits[below(13)] : too_wide(*setting);
}

void random_settings(struct settings *s) {
    s->k = random_k();
    s->t1_initial = random_timer();
    s->transmission_limit = random_limit();
    s->timeout_type = below(2);
    s->spacecraft = below(PONDRESZI_LARGEST_SPACECRAFT + 1);
    s->channel = below(PONDRESZI_LARGEST_CHANNEL + 1);
    s->nnr = below(256);
    s->vs = once_in(4) ? (s->nnr + below(256)) % 256 : s->nnr;
    if (once_in(4))
        spoil(s);
}

static void put16(uint8_t *octets, uint32_t number) {
    octets[0] = (uint8_t)(number >> 8);
    octets[1] = (uint8_t)number;
}

static uint32_t random_unit_length(void) {
    switch (below(12)) {
    case 0:
        return 1;
    case 1:
        return PONDRESZI_LARGEST_UNIT;
    case 2:
        return between(1, PONDRESZI_LARGEST_UNIT);
    default:
        return between(1, 20);
    }
}

/* The units sent: few, or about K, or any count. */
static uint32_t random_sent(uint32_t k) {
    switch (below(4)) {
    case 0:
        return below(PONDRESZI_LARGEST_K + 1);
    case 1:
        return k;
    case 2:
        return k - 1;
    default:
        return below(5);
    }
}

static void random_queues(uint8_t *state, uint32_t k) {
    uint32_t sent = random_sent(k);
    uint32_t ahead = once_in(4) ? below(256 - sent) : 0;
    state[PONDRESZI_SENDER_SENT] = (uint8_t)sent;
    state[PONDRESZI_SENDER_MARKED] = (uint8_t)(once_in(2) ? 0 : below(sent + 1));
    state[PONDRESZI_SENDER_NNR] = (uint8_t)(state[PONDRESZI_SENDER_VS] - sent - ahead);
    if (once_in(3))
        state[PONDRESZI_SENDER_FLAGS] |= PONDRESZI_SENDER_UNIT_WAITS;
}

static void random_places(uint8_t *state) {
    uint32_t held = state[PONDRESZI_SENDER_SENT];
    held += (state[PONDRESZI_SENDER_FLAGS] & PONDRESZI_SENDER_UNIT_WAITS) != 0;
    for (uint32_t i = 0; i < PLACES; i++) {
        uint32_t left = once_in(2) ? 0 : random_unit_length();
        put16(state + PONDRESZI_SENDER_LENGTHS + 2 * i, i < held ? random_unit_length() : left);
    }
}

void random_sender_state(uint8_t *state) {
    uint32_t fop_state = between(PONDRESZI_FOP_ACTIVE, PONDRESZI_FOP_INITIAL);
    bool suspended = fop_state == PONDRESZI_FOP_INITIAL && !once_in(3);
    uint32_t suspend_state = suspended ? between(1, PONDRESZI_LARGEST_SUSPEND_STATE) : 0;
    uint32_t effective = suspended ? suspend_state : fop_state;
    uint32_t k = random_k(), t1_initial = random_timer(), limit = random_limit();
    memset(state, 0, PONDRESZI_SENDER_STATE_OCTETS);
    state[0] = MARK;
    state[1] = LAYOUT;
    state[PONDRESZI_SENDER_STATE] = (uint8_t)fop_state;
    state[PONDRESZI_SENDER_K] = (uint8_t)k;
    put16(state + PONDRESZI_SENDER_T1_INITIAL, t1_initial);
    state[PONDRESZI_SENDER_TRANSMISSION_LIMIT] = (uint8_t)limit;
    state[PONDRESZI_SENDER_TIMEOUT_TYPE] = (uint8_t)below(2);
    put16(state + PONDRESZI_SENDER_SPACECRAFT, below(PONDRESZI_LARGEST_SPACECRAFT + 1));
    state[PONDRESZI_SENDER_CHANNEL] = (uint8_t)below(PONDRESZI_LARGEST_CHANNEL + 1);
    state[PONDRESZI_SENDER_VS] = (uint8_t)below(256);
    state[PONDRESZI_SENDER_NNR] = (uint8_t)(state[PONDRESZI_SENDER_VS] - (once_in(2) ? below(256) : 0));
    if (fop_state != PONDRESZI_FOP_INITIAL)
        put16(state + PONDRESZI_SENDER_TIMER, once_in(2) ? 1 : below(PONDRESZI_LARGEST_T1 + 1));
    state[PONDRESZI_SENDER_TRANSMISSION_COUNT] = (uint8_t)(once_in(3) ? between(1, 255) : between(1, limit));
    state[PONDRESZI_SENDER_FLAGS] = (uint8_t)(below(8) | (once_in(8) ? PONDRESZI_SENDER_BC_MARKED : 0));
    state[PONDRESZI_SENDER_SUSPEND_STATE] = (uint8_t)suspend_state;
    if (effective <= PONDRESZI_FOP_RETRANSMIT_WITH_WAIT)
        random_queues(state, k);
    if (fop_state == PONDRESZI_FOP_INITIALISING_WITH_BC) {
        state[PONDRESZI_SENDER_BC_FRAME] = (uint8_t)between(1, 2);
        state[PONDRESZI_SENDER_BC_VALUE] = (uint8_t)(state[PONDRESZI_SENDER_BC_FRAME] == 2 ? below(256) : 0);
        state[PONDRESZI_SENDER_FLAGS] |= once_in(2) ? PONDRESZI_SENDER_BC_MARKED : 0;
    }
    random_places(state);
}

static void random_unit(struct sender_event *event) {
    event->count = once_in(30) ? 0 : once_in(30) ? between(PONDRESZI_LARGEST_UNIT + 1, PONDRESZI_LARGEST_UNIT + 8) : random_unit_length();
    random_octets(event->octets, event->count);
}

static void random_directive(struct sender_event *event, const uint8_t *state) {
    static const uint32_t near_limits[] = {0, 1, 2, 127, 128, 255, 256, 65535, 65536};
    event->number = between(1, 11);
    if (state[PONDRESZI_SENDER_STATE] == PONDRESZI_FOP_INITIAL && once_in(2))
        event->number = between(1, 6);
    event->value = event->number == PONDRESZI_SET_TIMEOUT_TYPE ? below(2) : between(1, 127);
    if (once_in(4))
        event->value = near_limits[below(9)];
    if (once_in(20))
        event->value = too_wide(event->value);
    if (once_in(20))
        event->number = once_in(2) ? too_wide(event->number) : once_in(2) ? 0 : between(12, 255);
}

/* N(R) from NN(R) to V(S), or one beside, with flags that often go with it. */
static void random_word(struct sender_event *event, const uint8_t *state) {
    uint8_t nnr = state[PONDRESZI_SENDER_NNR];
    uint8_t outstanding = (uint8_t)(state[PONDRESZI_SENDER_VS] - nnr);
    uint8_t *word = event->octets;
    uint32_t acknowledged = once_in(3) ? outstanding : once_in(3) ? 0 : once_in(12) ? below(256) : below(outstanding + 1u);
    static const uint8_t flags[] = {0, 0, 0, 0, 0x08, 0x08, 0x18, 0x10, 0x20, 0x38};
    word[0] = (uint8_t)(0x01 | (once_in(4) ? below(8) << 2 : 0));
    word[1] = (uint8_t)(state[PONDRESZI_SENDER_CHANNEL] << 2);
    word[2] = (uint8_t)(flags[below(10)] | below(4) << 1 | (once_in(4) ? below(4) << 6 : 0));
    word[3] = (uint8_t)(nnr + acknowledged);
    event->count = PONDRESZI_CLCW_OCTETS;
    if (once_in(12))
        word[below(3)] ^= (uint8_t)(1 << below(8));
    if (once_in(40))
        event->count = below(9);
}

void random_event(struct sender_event *event, const uint8_t *state) {
    static const enum event_kind kinds[] = {REQUEST_AD, REQUEST_AD,  REQUEST_AD,  REQUEST_BD,  DIRECTIVE,    DIRECTIVE,    TICK,
                                            TICK,       LOWER_LAYER, LOWER_LAYER, LOWER_LAYER, CONTROL_WORD, CONTROL_WORD, CONTROL_WORD};
    event->kind = kinds[below(sizeof kinds / sizeof kinds[0])];
    event->count = 0;
    switch (event->kind) {
    case REQUEST_AD:
    case REQUEST_BD:
        random_unit(event);
        break;
    case DIRECTIVE:
        random_directive(event, state);
        break;
    case LOWER_LAYER:
        event->number = once_in(2) ? PONDRESZI_AD_ACCEPT : once_in(2) ? 2 * below(3) + 1 : between(1, 6);
        if (once_in(30))
            event->number = once_in(2) ? too_wide(event->number) : once_in(2) ? 0 : between(7, 255);
        break;
    case CONTROL_WORD:
        random_word(event, state);
        break;
    default:
        break;
    }
}

/* About the need of the store, at Set K of the old or the new one. */
static uint64_t random_store(const uint8_t *state, const struct sender_event *event) {
    bool is_set_k = event->kind == DIRECTIVE && event->number == PONDRESZI_SET_K && event->value <= PONDRESZI_LARGEST_K;
    uint32_t k = is_set_k && !once_in(3) ? event->value : state[PONDRESZI_SENDER_K] & PONDRESZI_LARGEST_K;
    uint64_t need = PONDRESZI_STORE_NEED(k, state[PONDRESZI_SENDER_SENT] & PONDRESZI_LARGEST_K);
    switch (below(24)) {
    case 0:
        return need - 1;
    case 1:
        return need - PONDRESZI_LARGEST_UNIT;
    case 2:
        return below((uint32_t)need);
    case 3:
        return PONDRESZI_STORE_OCTETS(k);
    case 4:
        return PONDRESZI_LARGEST_STORE;
    default:
        return need;
    }
}

void random_lengths(struct memory *memory, const struct sender_event *event) {
    memory->state_len = PONDRESZI_SENDER_STATE_OCTETS;
    memory->store_len = random_store(memory->state, event);
    memory->output_len = once_in(8) ? below(PONDRESZI_LARGEST_FRAME + 1) : once_in(8) ? below(20) : PONDRESZI_LARGEST_FRAME;
    memory->answer_len = once_in(60) ? below(PONDRESZI_ANSWER_OCTETS) : between(PONDRESZI_ANSWER_OCTETS, PONDRESZI_ANSWER_OCTETS + 4);
}

void damage_state(struct memory *memory) {
    uint8_t *state = memory->state;
    switch (below(10)) {
    case 0:
        state[1] = FORMER_LAYOUT;
        memory->state_len = once_in(2) ? FORMER_STATE_OCTETS : PONDRESZI_SENDER_STATE_OCTETS;
        break;
    case 1:
        memory->state_len = once_in(2) ? below(PONDRESZI_SENDER_STATE_OCTETS)
                                       : between(PONDRESZI_SENDER_STATE_OCTETS + 1, PONDRESZI_SENDER_STATE_OCTETS + BEHIND);
        break;
    case 2: /* a length at or about its limits */
        put16(state + PONDRESZI_SENDER_LENGTHS + 2 * below(PLACES),
              once_in(2) ? 0 : between(PONDRESZI_LARGEST_UNIT, PONDRESZI_LARGEST_UNIT + 2));
        break;
    case 3:
        state[below(PONDRESZI_SENDER_STATE_OCTETS)] ^= (uint8_t)(1 << below(8));
        break;
    case 4: /* two octets */
        state[below(PONDRESZI_SENDER_LENGTHS)] = (uint8_t)below(8);
        state[below(PONDRESZI_SENDER_LENGTHS)] = (uint8_t)below(8);
        break;
    case 5:
        state[below(PONDRESZI_SENDER_LENGTHS)] = (uint8_t)below(256);
        break;
    default: /* a small number: another state, Suspend_State, count or type-BC frame */
        state[between(2, PONDRESZI_SENDER_LENGTHS - 1)] = (uint8_t)below(8);
        break;
    }
}
