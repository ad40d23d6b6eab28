/*
 * The stack that each exported function of the library takes, by a painted stack: the most octets written below the stack pointer at
 * its call, over many inputs. The sender's functions are called on random states and events (events.c), the baseline's too; the others on
 * inputs of the smallest and largest lengths, good ones and such as are refused. What was never written, though reserved, is not seen.
 *
 *   stack        a table
 */
#include <stdio.h>
#include <string.h>

#include "events.h"
#include "fop1.h"
#include "painted.h"
#include "random.h"

#define SEED 7
#define SENDER_EVENTS 60000
#define EVENTS_OF_A_RUN 60
#define TIMES 400
#define RECEIVER_FRAMES 4000
#define SPACECRAFT 0x2A5
#define CHANNEL 3
#define CODEBLOCKS 510 /* of an input of the largest length */

#define P(x) ((uint64_t)(uintptr_t)(x))
#define PAINTED(function, ...) call_painted(#function, (any_function)function, (const uint64_t[MOST_ARGUMENTS]){__VA_ARGS__})

/* Both sides' senders on the painted stack. ------------------------------------------------------------------------------------------- */

#define LENT_HERE P(store), store_len, P(output), output_len, P(answer), answer_len
#define PAINTED_SIDE(prefix)                                                                                                               \
    static uint8_t prefix##_new(uint32_t k, uint32_t t1_initial, uint32_t transmission_limit, uint32_t timeout_type, uint32_t spacecraft,  \
                                uint32_t channel, uint32_t vs, uint32_t nnr, const uint8_t *store, uint64_t store_len, uint8_t *state,     \
                                uint64_t state_len) {                                                                                      \
        return (uint8_t)PAINTED(prefix##_sender_new, k, t1_initial, transmission_limit, timeout_type, spacecraft, channel, vs, nnr,        \
                                P(store), store_len, P(state), state_len);                                                                 \
    }                                                                                                                                      \
    static uint8_t prefix##_request_ad(uint8_t *state, uint64_t state_len, const uint8_t *unit, uint64_t unit_len, uint8_t *store,         \
                                       uint64_t store_len, uint8_t *output, uint64_t output_len, uint8_t *answer, uint64_t answer_len) {   \
        return (uint8_t)PAINTED(prefix##_sender_request_ad, P(state), state_len, P(unit), unit_len, LENT_HERE);                            \
    }                                                                                                                                      \
    static uint8_t prefix##_request_bd(uint8_t *state, uint64_t state_len, const uint8_t *unit, uint64_t unit_len, uint8_t *store,         \
                                       uint64_t store_len, uint8_t *output, uint64_t output_len, uint8_t *answer, uint64_t answer_len) {   \
        return (uint8_t)PAINTED(prefix##_sender_request_bd, P(state), state_len, P(unit), unit_len, LENT_HERE);                            \
    }                                                                                                                                      \
    static uint8_t prefix##_directive(uint8_t *state, uint64_t state_len, uint32_t number, uint32_t value, uint8_t *store,                 \
                                      uint64_t store_len, uint8_t *output, uint64_t output_len, uint8_t *answer, uint64_t answer_len) {    \
        return (uint8_t)PAINTED(prefix##_sender_directive, P(state), state_len, number, value, LENT_HERE);                                 \
    }                                                                                                                                      \
    static uint8_t prefix##_tick(uint8_t *state, uint64_t state_len, uint8_t *store, uint64_t store_len, uint8_t *output,                  \
                                 uint64_t output_len, uint8_t *answer, uint64_t answer_len) {                                              \
        return (uint8_t)PAINTED(prefix##_sender_tick, P(state), state_len, LENT_HERE);                                                     \
    }                                                                                                                                      \
    static uint8_t prefix##_lower_layer(uint8_t *state, uint64_t state_len, uint32_t number, uint8_t *store, uint64_t store_len,           \
                                        uint8_t *output, uint64_t output_len, uint8_t *answer, uint64_t answer_len) {                      \
        return (uint8_t)PAINTED(prefix##_sender_lower_layer, P(state), state_len, number, LENT_HERE);                                      \
    }                                                                                                                                      \
    static uint8_t prefix##_control_word(uint8_t *state, uint64_t state_len, const uint8_t *word, uint64_t word_len, uint8_t *store,       \
                                         uint64_t store_len, uint8_t *output, uint64_t output_len, uint8_t *answer, uint64_t answer_len) { \
        return (uint8_t)PAINTED(prefix##_sender_control_word, P(state), state_len, P(word), word_len, LENT_HERE);                          \
    }                                                                                                                                      \
    static const struct side painted_##prefix = {                                                                                          \
        .new = prefix##_new,                                                                                                               \
        .request_ad = prefix##_request_ad,                                                                                                 \
        .request_bd = prefix##_request_bd,                                                                                                 \
        .directive = prefix##_directive,                                                                                                   \
        .tick = prefix##_tick,                                                                                                             \
        .lower_layer = prefix##_lower_layer,                                                                                               \
        .control_word = prefix##_control_word,                                                                                             \
    }

PAINTED_SIDE(pondreszi);
PAINTED_SIDE(baseline);

static struct memory lent;

static void paint_senders(const struct side *side) {
    struct settings settings;
    struct sender_event event;
    random_state = SEED;
    for (int events = 0; events < SENDER_EVENTS;) {
        random_settings(&settings);
        lent.store_len = PONDRESZI_LARGEST_STORE;
        lent.state_len = PONDRESZI_SENDER_STATE_OCTETS;
        do_new(side, &settings, &lent);
        random_sender_state(lent.state);
        for (uint32_t n = between(1, EVENTS_OF_A_RUN); n > 0; n--, events++) {
            random_event(&event, lent.state);
            random_lengths(&lent, &event);
            do_event(side, &event, &lent);
        }
    }
}

/* The other functions. ------------------------------------------------------------------------------------------------------------------
 */

static uint8_t unit[PONDRESZI_LARGEST_UNIT], frame[PONDRESZI_LARGEST_FRAME + PONDRESZI_LARGEST_FILL], cltu[PONDRESZI_LARGEST_CLTU];
static uint8_t input[PONDRESZI_LARGEST_CLTU_INPUT + 1], output[PONDRESZI_LARGEST_DECODED], block[PONDRESZI_CODEBLOCK_OCTETS];
static uint8_t a, b, c, d, e, f;
static uint16_t total, field;
static uint64_t count, place, corrected, first;

static uint64_t random_length(uint64_t least, uint64_t most) {
    return once_in(3) ? most : once_in(3) ? least : between((uint32_t)least, (uint32_t)most);
}

static void paint_codeblocks(void) {
    for (int i = 0; i < TIMES; i++) {
        random_octets(block, sizeof block);
        block[7] = (uint8_t)PAINTED(pondreszi_codeblock_error_control, P(block), 7);
        if (once_in(2))
            block[below(8)] ^= (uint8_t)(1 << below(8));
        PAINTED(pondreszi_codeblock_judge, P(block), once_in(20) ? 7 : 8, below(3), P(output), once_in(20) ? 6 : 7, P(&a));
        PAINTED(pondreszi_randomizer_octet, random_number());
    }
}

/* A start sequence, good codeblocks to the input's end, some or all of them with a wrong bit. */
static void write_codeblocks(uint32_t wrong) {
    random_octets(input, sizeof input);
    input[0] = 0xEB;
    input[1] = 0x90;
    for (int i = 0; i < CODEBLOCKS; i++) {
        uint8_t *codeblock = input + 2 + 8 * i;
        codeblock[7] = pondreszi_codeblock_error_control(codeblock, 7);
        if (wrong > 0 && once_in(wrong))
            codeblock[below(7)] ^= (uint8_t)(1 << below(8));
    }
}

static void read_cltu(const uint8_t *octets, uint64_t len) {
    uint64_t room = once_in(20) ? below(100) : sizeof output;
    PAINTED(pondreszi_cltu_read, P(octets), len, below(3), P(output), room, P(&count), P(&place), P(&corrected));
}

static void paint_cltus(void) {
    for (int i = 0; i < TIMES; i++) {
        uint64_t len = random_length(PONDRESZI_SMALLEST_FRAME, PONDRESZI_LARGEST_FRAME);
        random_octets(frame, len);
        PAINTED(pondreszi_cltu_write, P(frame), once_in(20) ? 7 : len, P(cltu), once_in(20) ? len : sizeof cltu, P(&count));
        read_cltu(cltu, PONDRESZI_CLTU_OCTETS(len));
        write_codeblocks(below(4));
        read_cltu(input, once_in(20) ? sizeof input : sizeof input - 1);
        random_octets(input, sizeof input);
        read_cltu(input, below(sizeof input));
    }
}

static uint64_t write_frame(uint32_t kind, uint32_t channel, uint32_t number) {
    uint64_t len = random_length(PONDRESZI_SMALLEST_UNIT, PONDRESZI_LARGEST_UNIT);
    uint64_t room = once_in(20) ? below(PONDRESZI_LARGEST_FRAME) : PONDRESZI_LARGEST_FRAME;
    random_octets(unit, len);
    if (once_in(20))
        len = once_in(2) ? 0 : PONDRESZI_LARGEST_UNIT + 1;
    switch (kind) {
    case PONDRESZI_FRAME_AD:
        PAINTED(pondreszi_frame_write_ad, SPACECRAFT, channel, number, P(unit), len, P(frame), room, P(&count));
        break;
    case PONDRESZI_FRAME_BD:
        PAINTED(pondreszi_frame_write_bd, SPACECRAFT, channel, P(unit), len, P(frame), room, P(&count));
        break;
    case PONDRESZI_FRAME_UNLOCK:
        PAINTED(pondreszi_frame_write_unlock, SPACECRAFT, channel, P(frame), room, P(&count));
        break;
    default:
        PAINTED(pondreszi_frame_write_set_vr, SPACECRAFT, channel, number, P(frame), room, P(&count));
        break;
    }
    memset(frame + count, 0, sizeof frame - count);
    return count;
}

/* A frame as a receiver may get it: mostly good, some damaged, with fill or cut. */
static uint64_t random_frame(uint32_t channel, uint32_t number) {
    uint32_t kind = once_in(4) ? between(PONDRESZI_FRAME_BD, PONDRESZI_FRAME_SET_VR) : PONDRESZI_FRAME_AD;
    uint64_t len = write_frame(kind, channel, number);
    if (len > 2 && once_in(10)) { /* a header or a command that is refused, with its check */
        frame[once_in(2) ? below(5) : 5] ^= (uint8_t)(1 << below(8));
        uint16_t check = pondreszi_fecf(frame, len - 2);
        frame[len - 2] = (uint8_t)(check >> 8);
        frame[len - 1] = (uint8_t)check;
    }
    if (once_in(10))
        frame[below((uint32_t)sizeof frame)] ^= 1;
    return once_in(8) ? below((uint32_t)sizeof frame) : len + below(PONDRESZI_LARGEST_FILL + 1) * (len + 6 <= sizeof frame);
}

static void paint_frames(void) {
    for (int i = 0; i < TIMES; i++) {
        random_octets(frame, sizeof frame);
        PAINTED(pondreszi_fecf, P(frame), random_length(0, PONDRESZI_LARGEST_FRAME));
        uint64_t len = random_frame(CHANNEL, below(256));
        PAINTED(pondreszi_frame_read, P(frame), len, SPACECRAFT, CHANNEL, P(&a), P(&b), P(&total), P(&field));
    }
}

static void paint_words(void) {
    for (int i = 0; i < TIMES; i++) {
        PAINTED(pondreszi_clcw_write, below(65), below(2), below(2), below(2), below(5), below(257), P(output), once_in(8) ? 3 : 4,
                P(&count));
        if (once_in(4))
            output[below(4)] ^= (uint8_t)(1 << below(8));
        PAINTED(pondreszi_clcw_read, P(output), once_in(8) ? 3 : 4, once_in(2) ? output[1] >> 2 : CHANNEL, P(&a), P(&b), P(&c), P(&d),
                P(&e), P(&f));
    }
}

/* N(S): mostly the expected one, else one near it or any. */
static uint32_t random_frame_number(uint32_t expected) {
    return (expected + (once_in(3) ? below(12) + 250 : once_in(20) ? below(256) : 0)) % 256;
}

static void paint_receiver(void) {
    uint8_t state[PONDRESZI_RECEIVER_STATE_OCTETS];
    for (int i = 0; i < RECEIVER_FRAMES; i++) {
        if (i % 100 == 0)
            PAINTED(pondreszi_receiver_new, SPACECRAFT, CHANNEL, once_in(10) ? 3 : 2 * between(1, 127), below(256), between(1, 8), P(state),
                    sizeof state);
        if (i % 100 == 0)
            pondreszi_receiver_new(SPACECRAFT, CHANNEL, 20, 250, 2, state, sizeof state);
        uint64_t len = random_frame(CHANNEL, random_frame_number(state[PONDRESZI_RECEIVER_VR]));
        PAINTED(pondreszi_receiver_frame, P(state), once_in(40) ? 11 : sizeof state, P(frame), len, P(&a), P(&b), P(&first), P(&count));
        if (once_in(2))
            PAINTED(pondreszi_receiver_release, P(state), sizeof state, P(&a));
        PAINTED(pondreszi_receiver_word, P(state), sizeof state, P(output), once_in(8) ? 3 : 4, P(&count));
    }
}

/* Eight records, those of channels 0 to 7 in another order. */
static void start_channels(uint8_t *table) {
    for (uint32_t i = 0; i < PONDRESZI_LARGEST_RECORDS; i++)
        PAINTED(pondreszi_channel_new, once_in(20) ? 64 : (i + 3) % 8, 20, 250, P(table + i * PONDRESZI_RECORD_OCTETS),
                PONDRESZI_RECORD_OCTETS);
    for (uint32_t i = 0; i < PONDRESZI_LARGEST_RECORDS; i++)
        pondreszi_channel_new((i + 3) % 8, 20, 250, table + i * PONDRESZI_RECORD_OCTETS, PONDRESZI_RECORD_OCTETS);
}

static void paint_channels(void) {
    uint8_t table[PONDRESZI_LARGEST_RECORDS * PONDRESZI_RECORD_OCTETS];
    for (int i = 0; i < RECEIVER_FRAMES; i++) {
        if (i % 200 == 0)
            start_channels(table);
        uint32_t record = below(PONDRESZI_LARGEST_RECORDS), pool = once_in(40) ? 17 : 4;
        uint32_t channel = once_in(12) ? below(64) : table[record * PONDRESZI_RECORD_OCTETS + PONDRESZI_RECORD_CHANNEL];
        uint64_t len = random_frame(channel, random_frame_number(table[record * PONDRESZI_RECORD_OCTETS + PONDRESZI_RECORD_VR]));
        PAINTED(pondreszi_channels_frame, SPACECRAFT, pool, P(table), once_in(40) ? 20 : sizeof table, P(frame), len, P(&a), P(&b), P(&c),
                P(&first), P(&count));
        if (once_in(2))
            PAINTED(pondreszi_channels_release, SPACECRAFT, pool, P(table), sizeof table, channel, P(&a));
        PAINTED(pondreszi_channels_word, SPACECRAFT, pool, P(table), sizeof table, channel, P(output), once_in(8) ? 3 : 4, P(&count));
    }
}

/* All exported functions, in the header's order. */
static const char *const names[] = {"codeblock_error_control",
                                    "codeblock_judge",
                                    "randomizer_octet",
                                    "cltu_write",
                                    "cltu_read",
                                    "fecf",
                                    "frame_write_ad",
                                    "frame_write_bd",
                                    "frame_write_unlock",
                                    "frame_write_set_vr",
                                    "frame_read",
                                    "clcw_write",
                                    "clcw_read",
                                    "receiver_new",
                                    "receiver_frame",
                                    "receiver_release",
                                    "receiver_word",
                                    "channel_new",
                                    "channels_frame",
                                    "channels_release",
                                    "channels_word",
                                    "sender_new",
                                    "sender_request_ad",
                                    "sender_request_bd",
                                    "sender_directive",
                                    "sender_tick",
                                    "sender_lower_layer",
                                    "sender_control_word"};

static void print_row(const char *name) {
    char library[64], baseline[64];
    snprintf(library, sizeof library, "pondreszi_%s", name);
    snprintf(baseline, sizeof baseline, "baseline_%s", name);
    printf("| %s | %u |", library, (unsigned)most_octets(library));
    if (most_octets(baseline) > 0)
        printf(" %u |\n", (unsigned)most_octets(baseline));
    else
        printf(" |\n");
}

int main(void) {
    paint_senders(&painted_pondreszi);
    paint_senders(&painted_baseline);
    random_state = SEED;
    paint_codeblocks();
    paint_cltus();
    paint_frames();
    paint_words();
    paint_receiver();
    paint_channels();
    printf("| Function | Stack, octets | Baseline, octets |\n|---|---:|---:|\n");
    for (size_t i = 0; i < sizeof names / sizeof names[0]; i++)
        print_row(names[i]);
    return 0;
}
