#include "scenes.h"

#include <stdio.h>
#include <stdlib.h>
#include <string.h>

#define SPACECRAFT 0x2A5
#define CHANNEL 3
#define LONG_TIMER 65535
#define TRANSMISSION_LIMIT 3

const struct scene scenes[] = {
    {.name = "AD request", .word = "ad_request", .kind = REQUEST_AD, .row = 19, .finds = LESS_ONE},
    {.name = "AD_Accept", .word = "ad_accept", .kind = LOWER_LAYER, .number = PONDRESZI_AD_ACCEPT, .row = 41, .with = AD_NOT_READY},
    {.name = "AD_Accept, a unit sent again",
     .word = "ad_accept_again",
     .kind = LOWER_LAYER,
     .number = PONDRESZI_AD_ACCEPT,
     .row = 41,
     .with = ALL_MARKED},
    {.name = "Word that confirms one unit", .word = "word", .kind = CONTROL_WORD, .row = 6, .row_alone = 2, .acknowledged = 1},
    {.name = "Word that confirms none", .word = "word_none", .kind = CONTROL_WORD, .row = 5},
    {.name = "Tick", .word = "tick", .kind = TICK, .row = 0},
    {.name = "Tick that expires, a unit sent again", .word = "expiry", .kind = TICK, .row = 16, .with = LAST_TICK},
    {.name = "BD request", .word = "bd_request", .kind = REQUEST_BD, .row = 21},
    {.name = "Terminate", .word = "terminate", .kind = DIRECTIVE, .number = PONDRESZI_TERMINATE, .row = 29},
    {.name = "Initiate without check",
     .word = "initiate",
     .kind = DIRECTIVE,
     .number = PONDRESZI_INITIATE_WITHOUT_CHECK,
     .row = 23,
     .finds = NONE_INITIAL},
};
const unsigned scene_count = sizeof scenes / sizeof scenes[0];

static void done(uint8_t refusal) {
    if (refusal != PONDRESZI_DONE) {
        fprintf(stderr, "an event that prepares a sender is refused with %u\n", (unsigned)refusal);
        exit(1);
    }
}

/* The control word without a counter that reports N(R). */
static void write_word(uint8_t *word, uint8_t flags, uint8_t nr) {
    word[0] = 0x01;
    word[1] = CHANNEL << 2;
    word[2] = flags;
    word[3] = nr;
}

static void accept_ad(const struct side *side, uint8_t *state, struct stage *s) {
    done(side->lower_layer(state, PONDRESZI_SENDER_STATE_OCTETS, PONDRESZI_AD_ACCEPT, s->store, s->store_len, s->output, sizeof s->output,
                           s->answer, sizeof s->answer));
}

/* Units are sent; the lower layer accepted them all, or all but the last. */
static void send_units(const struct side *side, uint8_t *state, uint32_t count, int last_accepted, struct stage *s) {
    for (uint32_t i = 0; i < count; i++) {
        done(side->request_ad(state, PONDRESZI_SENDER_STATE_OCTETS, s->unit, s->unit_len, s->store, s->store_len, s->output,
                              sizeof s->output, s->answer, sizeof s->answer));
        if (i + 1 < count || last_accepted)
            accept_ad(side, state, s);
    }
}

static void prepare_sender(const struct scene *scene, const struct side *side, uint32_t k, uint8_t number, uint8_t *state,
                           struct stage *s) {
    uint32_t t1_initial = scene->with == LAST_TICK ? 1 : LONG_TIMER;
    uint32_t count = scene->finds == K_OUTSTANDING ? k : scene->finds == LESS_ONE ? k - 1 : 0;
    int last_accepted = scene->with == AD_READY || scene->with == LAST_TICK;
    uint8_t word[PONDRESZI_CLCW_OCTETS];
    done(side->new (k, t1_initial, TRANSMISSION_LIMIT, PONDRESZI_TIMEOUT_ALERT, SPACECRAFT, CHANNEL, number, number, s->store, s->store_len,
                    state, PONDRESZI_SENDER_STATE_OCTETS));
    if (scene->finds != NONE_INITIAL)
        done(side->directive(state, PONDRESZI_SENDER_STATE_OCTETS, PONDRESZI_INITIATE_WITHOUT_CHECK, 0, s->store, s->store_len, s->output,
                             sizeof s->output, s->answer, sizeof s->answer));
    send_units(side, state, count, last_accepted, s);
    if (scene->with == ALL_MARKED) {
        write_word(word, 0x08, number); /* Retransmit Flag */
        done(side->control_word(state, PONDRESZI_SENDER_STATE_OCTETS, word, sizeof word, s->store, s->store_len, s->output,
                                sizeof s->output, s->answer, sizeof s->answer));
    }
}

void prepare(const struct scene *scene, const struct side *side, uint32_t k, uint64_t unit_len, struct stage *s) {
    memset(s, 0, sizeof *s);
    s->unit_len = unit_len;
    s->store_len = PONDRESZI_STORE_OCTETS(k);
    for (unsigned i = 0; i < unit_len; i++)
        s->unit[i] = (uint8_t)(i * 167 + 13);
    for (unsigned i = 0; i < SENDERS; i++) {
        uint8_t number = (uint8_t)(i * 8);
        prepare_sender(scene, side, k, number, s->prepared[i], s);
        write_word(s->words[i], 0, (uint8_t)(number + scene->acknowledged));
    }
    memset(s->output, 0, sizeof s->output);
    memset(s->answer, 0, sizeof s->answer);
    restore(s);
}

void restore(struct stage *s) { memcpy(s->states, s->prepared, sizeof s->states); }

/* Once for each sender. */
#define FOR_EACH_SENDER(call)                                                                                                              \
    for (unsigned i = 0; i < SENDERS; i++)                                                                                                 \
    refusals |= call

#define LENT s->store, s->store_len, s->output, sizeof s->output, s->answer, sizeof s->answer

int perform(const struct scene *scene, const struct side *side, struct stage *s) {
    uint8_t refusals = 0;
    switch (scene->kind) {
    case REQUEST_AD:
        FOR_EACH_SENDER(side->request_ad(s->states[i], sizeof s->states[i], s->unit, s->unit_len, LENT));
        break;
    case REQUEST_BD:
        FOR_EACH_SENDER(side->request_bd(s->states[i], sizeof s->states[i], s->unit, s->unit_len, LENT));
        break;
    case DIRECTIVE:
        FOR_EACH_SENDER(side->directive(s->states[i], sizeof s->states[i], scene->number, 0, LENT));
        break;
    case TICK:
        FOR_EACH_SENDER(side->tick(s->states[i], sizeof s->states[i], LENT));
        break;
    case LOWER_LAYER:
        FOR_EACH_SENDER(side->lower_layer(s->states[i], sizeof s->states[i], scene->number, LENT));
        break;
    default:
        FOR_EACH_SENDER(side->control_word(s->states[i], sizeof s->states[i], s->words[i], sizeof s->words[i], LENT));
        break;
    }
    return refusals == PONDRESZI_DONE;
}

int scene_agrees(const struct scene *scene, uint32_t k, struct stage *library, struct stage *baseline) {
    uint8_t row = k == 1 && scene->row_alone != 0 ? scene->row_alone : scene->row;
    int all_done = perform(scene, &library_side, library) && perform(scene, &baseline_side, baseline);
    int agrees = memcmp(library, baseline, sizeof *library) == 0 && library->answer[PONDRESZI_ANSWER_EVENT] == row;
    restore(library);
    restore(baseline);
    return all_done && agrees;
}
