/*
 * Drives the library by a generator, the same on every target, and prints one line: a digest of all that it told, how many events there were,
 * and which of the tables' rows they met. tools/cross compares the lines of two targets. It needs no C library: tools/bare.c.
 *
 * An event goes to a sender, to a receiver, or to a receiver of several channels; frames handed down go to both receivers, in a CLTU with
 * wrong bits now and then. After each one the answer, the states, and what was told through pointers go into the digest; output and
 * store do so every 64 events. Frames and stores are lent from any place on, aligned or not.
 */
#include "pondreszi_inline.h"

#define EVENTS 40000
#define MOST_K 12
#define RECORDS 3
#define SHIFTS 8 /* octets that a buffer is lent from later on, one fewer at the most */

void bare_write(const char *octets, size_t count);
int digest_main(void);

static struct pondreszi_sender sender;
static uint8_t store[PONDRESZI_STORE_OCTETS(MOST_K) + SHIFTS];
static struct pondreszi_receiver receiver;
static struct pondreszi_channels channels;

static uint8_t cltu[PONDRESZI_LARGEST_CLTU_INPUT + 1];
static uint8_t decoded[PONDRESZI_LARGEST_DECODED];
static uint8_t shifted[PONDRESZI_LARGEST_DECODED_FRAME + SHIFTS];
static uint8_t unit[PONDRESZI_LARGEST_UNIT + 1];

static uint64_t random_state = 0x9E3779B97F4A7C15u;
static uint64_t digest = 0xCBF29CE484222325u; /* FNV-1a */
static uint8_t met_fop[256], met_farm[256], met_refusals[256];

static uint32_t random_number(uint32_t below) {
    random_state ^= random_state << 13;
    random_state ^= random_state >> 7;
    random_state ^= random_state << 17;
    return (uint32_t)(random_state >> 32) % below;
}

static void absorb_octet(uint8_t octet) {
    digest = (digest ^ octet) * 0x100000001B3u;
}

static void absorb(const uint8_t *octets, size_t count) {
    size_t i;
    for (i = 0; i < count; i++) {
        absorb_octet(octets[i]);
    }
}

/* A number as eight octets, the low one first, whatever the target's order is. */
static void absorb_number(uint64_t number) {
    int i;
    for (i = 0; i < 8; i++) {
        absorb_octet((uint8_t)(number >> (8 * i)));
    }
}

static uint8_t absorb_refusal(uint8_t refusal) {
    met_refusals[refusal] = 1;
    absorb_octet(refusal);
    return refusal;
}

/* One bit of the octets inverted. The generator is called in an order that C leaves no choice in, here and below. */
static void flip(uint8_t *octets, size_t count) {
    uint32_t bit = random_number((uint32_t)count * 8);
    octets[bit / 8] ^= (uint8_t)(0x80u >> bit % 8);
}

static void fill(uint8_t *octets, size_t count) {
    size_t i;
    for (i = 0; i < count; i++) {
        octets[i] = (uint8_t)random_number(256);
    }
}

static void absorb_received(uint8_t refusal, const struct pondreszi_received *received) {
    absorb_refusal(refusal);
    met_farm[received->event] = 1;
    absorb_octet(received->event);
    absorb_octet(received->channel);
    absorb_octet(received->unit);
    if (received->octets != NULL) {
        absorb(received->octets, received->count);
    }
    absorb_number(received->count);
    absorb(receiver.state, sizeof receiver.state);
    absorb(channels.table, pondreszi_channels_table_octets(&channels));
}

static void arrive(const uint8_t *frame, size_t count) {
    absorb_received(pondreszi_receiver_on_frame(&receiver, frame, count), &receiver.last);
    absorb_received(pondreszi_channels_on_frame(&channels, frame, count), &channels.last);
}

/* Up to two wrong bits, then the CLTU is read in either mode, or one that is none. */
static void carry(const uint8_t *frame, size_t frame_octets) {
    struct pondreszi_decoded read;
    struct pondreszi_frame fields;
    size_t count;
    uint8_t *output = shifted + random_number(SHIFTS);
    uint32_t wrong, mode = random_number(16) == 0 ? 2 : random_number(2);
    absorb_refusal(pondreszi_cltu_encode(frame, frame_octets, cltu, sizeof cltu, &count));
    absorb(cltu, count);
    for (wrong = random_number(8) == 0 ? random_number(3) : 0; wrong > 0; wrong--) {
        flip(cltu, count);
    }
    if (absorb_refusal(pondreszi_cltu_decode(cltu, count, mode, output, PONDRESZI_LARGEST_DECODED_FRAME, &read)) == PONDRESZI_DONE) {
        absorb_refusal(pondreszi_frame_decode(output, read.count, 42, 3, &fields));
        absorb_octet(fields.kind);
        absorb_octet(fields.value);
        absorb_number(fields.frame_octets);
        absorb_number(fields.data_octets);
        arrive(output, read.count);
    }
    absorb_number(read.count);
    absorb_number(read.place);
    absorb_number(read.corrected);
}

/* What an event of the sender came to. The lower layer mostly accepts a frame. */
static void follow_answer(uint8_t refusal) {
    for (;;) {
        uint8_t kind = pondreszi_answer_kind(sender.answer);
        size_t frame_octets = pondreszi_answer_frame_octets(sender.answer);
        uint32_t choice;
        absorb_refusal(refusal);
        met_fop[pondreszi_answer_event(sender.answer)] = 1;
        absorb(sender.answer, sizeof sender.answer);
        absorb(sender.state, sizeof sender.state);
        if (frame_octets == 0) {
            return;
        }
        absorb(sender.output, frame_octets);
        choice = random_number(16);
        if (choice > 2) {
            carry(sender.output, frame_octets);
        }
        if (choice == 0) {
            return;
        }
        refusal = pondreszi_sender_on_lower_layer(&sender, random_number(200) == 0 ? pondreszi_reject_of(kind) : pondreszi_accept_of(kind));
    }
}

static void start_sender(void) {
    struct pondreszi_sender_settings settings;
    settings.k = random_number(MOST_K + 2); /* 0 and one that the store is too short for, too */
    settings.t1_initial = 1 + random_number(5);
    settings.transmission_limit = random_number(4);
    settings.timeout_type = random_number(2);
    settings.spacecraft = 42;
    settings.channel = 3;
    settings.vs = pondreszi_receiver_vr(&receiver);
    absorb_refusal(pondreszi_sender_start(&sender, &settings, store + random_number(SHIFTS), PONDRESZI_STORE_OCTETS(MOST_K)));
}

static void start_receivers(void) {
    struct pondreszi_receiver_settings settings;
    uint32_t i, vr = random_number(256);
    settings.spacecraft = 42;
    settings.channel = 3;
    settings.window = 2 * (1 + random_number(20));
    settings.vr = vr;
    settings.buffers = 1 + random_number(8);
    absorb_refusal(pondreszi_receiver_start(&receiver, &settings));
    absorb_refusal(pondreszi_channels_start(&channels, 42, 1 + random_number(16)));
    for (i = 0; i < RECORDS; i++) {
        absorb_refusal(pondreszi_channels_add(&channels, 2 + i, settings.window, vr));
    }
}

static void give_word(void) {
    uint8_t word[PONDRESZI_CLCW_OCTETS];
    struct pondreszi_clcw fields;
    uint32_t choice = random_number(48);
    absorb_refusal(pondreszi_receiver_control_word(&receiver, word));
    if (choice == 0) {
        fill(word, sizeof word);
    } else if (choice < 6) { /* a valid word of any flags and number near the sender's */
        uint64_t count;
        uint32_t report = (pondreszi_sender_vs(&sender) + 256u - random_number(6)) % 256;
        uint32_t flags = random_number(4);
        uint32_t lockout = random_number(8) == 0;
        absorb_refusal(pondreszi_clcw_write(3, lockout, flags & 1, flags & 2, random_number(5), report, word, sizeof word, &count));
    }
    absorb(word, sizeof word);
    absorb_refusal(pondreszi_clcw_decode(word, sizeof word, 3, &fields));
    absorb_octet(fields.valid);
    absorb_octet(fields.status);
    absorb_octet(fields.rf);
    absorb_octet(fields.flags);
    absorb_octet(fields.counter);
    absorb_octet(fields.report);
    follow_answer(pondreszi_sender_on_control_word(&sender, word, choice == 6 ? 3 : sizeof word));
}

static void direct(void) {
    uint32_t number = random_number(13);
    uint32_t value = random_number(8) == 0 ? random_number(70000) : 1 + random_number(MOST_K + 1);
    if (number == PONDRESZI_SET_VS) {
        value = pondreszi_receiver_vr(&receiver);
    }
    follow_answer(pondreszi_sender_on_directive(&sender, number, value));
}

/* The service goes on: a suspension ends, or the sender gets the receiver's number and is initiated. */
static void go_on(void) {
    if (pondreszi_sender_suspend_state(&sender) != 0 && random_number(4) != 0) {
        follow_answer(pondreszi_sender_on_directive(&sender, PONDRESZI_RESUME, 0));
        return;
    }
    follow_answer(pondreszi_sender_on_directive(&sender, PONDRESZI_SET_VS, pondreszi_receiver_vr(&receiver)));
    follow_answer(pondreszi_sender_on_directive(&sender, 1 + random_number(4), pondreszi_receiver_vr(&receiver)));
}

/* The timer of a sender whose receiver waits (S3) expires at the limit, which suspends it: too rare without help. */
static void expire(void) {
    int i;
    follow_answer(pondreszi_sender_on_directive(&sender, PONDRESZI_SET_TIMEOUT_TYPE, PONDRESZI_TIMEOUT_SUSPEND));
    follow_answer(pondreszi_sender_on_directive(&sender, PONDRESZI_SET_TRANSMISSION_LIMIT, 1));
    for (i = 0; i < 5; i++) {
        follow_answer(pondreszi_sender_on_tick(&sender));
    }
}

/* Octets that were kept, one of them changed: a state or not. */
static void keep(void) {
    uint8_t kept[PONDRESZI_SENDER_STATE_OCTETS];
    pondreszi_copy(kept, sender.state, sizeof kept);
    flip(kept, sizeof kept);
    absorb_refusal(pondreszi_sender_check(kept, sizeof kept));
    pondreszi_copy(kept, receiver.state, sizeof receiver.state);
    flip(kept, sizeof receiver.state);
    absorb_refusal(pondreszi_receiver_check(kept, sizeof receiver.state));
    pondreszi_copy(kept, channels.table, pondreszi_channels_table_octets(&channels));
    flip(kept, pondreszi_channels_table_octets(&channels));
    absorb_refusal(pondreszi_channels_check(42, channels.pool, kept, pondreszi_channels_table_octets(&channels)));
}

/* Codeblocks and the random sequence, on random octets. */
static void code(void) {
    uint8_t octets[PONDRESZI_CODEBLOCK_OCTETS], information[PONDRESZI_CODEBLOCK_INFORMATION_OCTETS], corrected;
    uint64_t place = random_number(1000);
    fill(octets, sizeof octets);
    octets[7] = pondreszi_codeblock_error_control(octets, 7);
    absorb_octet(octets[7]);
    flip(octets, sizeof octets);
    pondreszi_copy(information, octets, sizeof information);
    absorb_refusal(pondreszi_codeblock_judge(octets, sizeof octets, random_number(3), information, sizeof information, &corrected));
    absorb(information, sizeof information);
    absorb_octet(corrected);
    absorb_octet(pondreszi_randomizer_octet(place << 32 | random_number(1000)));
}

/* Noise behind a start sequence, some of it good codeblocks; now and then no start sequence, no tail, or too many octets. */
static void read_noise(void) {
    struct pondreszi_decoded read;
    size_t input = random_number(300), room = random_number(4) == 0 ? 7 : sizeof decoded, at;
    size_t good = random_number(40) * PONDRESZI_CODEBLOCK_OCTETS;
    uint32_t mode = random_number(2);
    fill(cltu, sizeof cltu);
    for (at = 2; at + 8 <= 2 + good; at += PONDRESZI_CODEBLOCK_OCTETS) {
        cltu[at + 7] = pondreszi_codeblock_error_control(cltu + at, 7);
    }
    if (random_number(8) != 0) {
        cltu[0] = 0xEB;
        cltu[1] = 0x90;
    }
    if (random_number(50) == 0) {
        input = sizeof cltu;
    }
    absorb_number(pondreszi_fecf(cltu, input));
    absorb_refusal(pondreszi_cltu_decode(cltu, input, mode, decoded, room, &read));
    absorb(decoded, read.count);
    absorb_number(read.count);
    absorb_number(read.place);
    absorb_number(read.corrected);
}

/* A frame of any kind that no sender handed down, at times with a wrong bit, and of these some with a right FECF. */
static void write_frame(void) {
    uint32_t kind = random_number(4), channel = 2 + random_number(4), number = random_number(260);
    size_t unit_octets = random_number(20), room = random_number(8) == 0 ? 8 : sizeof decoded;
    uint64_t count;
    uint8_t refusal;
    if (kind == 0) {
        refusal = pondreszi_frame_write_ad(42, channel, number, unit, unit_octets, decoded, room, &count);
    } else if (kind == 1) {
        refusal = pondreszi_frame_write_bd(42, channel, unit, unit_octets, decoded, room, &count);
    } else if (kind == 2) {
        refusal = pondreszi_frame_write_unlock(42, channel, decoded, room, &count);
    } else {
        refusal = pondreszi_frame_write_set_vr(42, channel, number, decoded, room, &count);
    }
    if (absorb_refusal(refusal) == PONDRESZI_DONE) {
        absorb(decoded, (size_t)count);
        if (random_number(4) == 0) {
            flip(decoded, (size_t)count - 2);
            if (random_number(4) != 0) {
                uint16_t fecf = pondreszi_fecf(decoded, count - 2);
                decoded[count - 2] = (uint8_t)(fecf >> 8);
                decoded[count - 1] = (uint8_t)fecf;
            }
        }
        arrive(decoded, (size_t)count + (random_number(4) == 0 ? random_number(9) : 0));
    }
}

static void release(void) {
    uint8_t word[PONDRESZI_CLCW_OCTETS];
    uint32_t channel = 1 + random_number(RECORDS + 1);
    absorb_received(pondreszi_receiver_on_release(&receiver), &receiver.last);
    absorb_received(pondreszi_channels_on_release(&channels, channel), &channels.last);
    if (absorb_refusal(pondreszi_channels_control_word(&channels, channel, word)) == PONDRESZI_DONE) {
        absorb(word, sizeof word);
    }
}

static void offer(uint32_t choice) {
    size_t count = random_number(32) == 0 ? random_number(sizeof unit + 1) : random_number(40);
    fill(unit, count);
    follow_answer(choice == 0 ? pondreszi_sender_on_request_bd(&sender, unit, count) : pondreszi_sender_on_request_ad(&sender, unit, count));
}

/* While the application is busy it releases nothing, and the receivers come to wait. */
static void do_event(int busy) {
    uint32_t choice = random_number(100);
    if (choice < 35) {
        offer(choice);
    } else if (choice < 55) {
        follow_answer(pondreszi_sender_on_tick(&sender));
    } else if (choice < 75) {
        give_word();
    } else if (choice < 85) {
        if (!busy) {
            release();
        }
    } else if (choice < 88) {
        direct();
    } else if (choice < 90) {
        follow_answer(pondreszi_sender_on_lower_layer(&sender, random_number(24) == 0 ? random_number(9) : 1 + 2 * random_number(3)));
    } else if (choice < 92) {
        keep();
    } else if (choice < 94) {
        code();
        read_noise();
        write_frame();
    } else if (pondreszi_sender_state(&sender) == PONDRESZI_FOP_INITIAL) {
        go_on();
    } else if (pondreszi_sender_state(&sender) == PONDRESZI_FOP_RETRANSMIT_WITH_WAIT) {
        expire();
    }
}

static char line[200];
static size_t line_octets;

static void put_text(const char *text) {
    while (*text != '\0') {
        line[line_octets++] = *text++;
    }
}

static void put_number(uint32_t number, uint32_t base, uint32_t digits) {
    char reversed[16];
    uint32_t count = 0;
    do {
        reversed[count++] = "0123456789abcdef"[number % base];
        number /= base;
    } while (number > 0 || count < digits);
    while (count > 0) {
        line[line_octets++] = reversed[--count];
    }
}

static uint32_t count_met(const uint8_t *met, uint32_t first) {
    uint32_t i, count = 0;
    for (i = first; i < 256; i++) {
        count += met[i];
    }
    return count;
}

int digest_main(void) {
    uint32_t event;
    for (event = 0; event < EVENTS; event++) {
        if (event % 1000 == 0) {
            start_receivers();
            start_sender();
        }
        do_event(event / 100 % 3 == 0);
        if (event % 64 == 0) {
            absorb(sender.output, sizeof sender.output);
            absorb(store, sizeof store);
        }
    }
    put_text("digest ");
    put_number((uint32_t)(digest >> 32), 16, 8);
    put_number((uint32_t)digest, 16, 8);
    put_text(", ");
    put_number(EVENTS, 10, 1);
    put_text(" events, ");
    put_number(count_met(met_fop, 1), 10, 1);
    put_text(" rows of table 7-8, ");
    put_number(count_met(met_farm, 1), 10, 1);
    put_text(" of table 7-9, ");
    put_number(count_met(met_refusals, 1), 10, 1);
    put_text(" refusals\n");
    bare_write(line, line_octets);
    return 0;
}
