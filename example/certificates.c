/*
 * Sends a file of certificates, a line as a unit, from an uplink unit to a receiver on board, over a loopback that flips bits and loses
 * frames and control words. Ends with status 0 only where the received file equals the sent one.
 *
 *   certificates FILE RECEIVED [SEED [FRAME_LOSS [WORD_LOSS]]]      losses in percent, 0 to 99
 *
 * Certificates are applied in the order in which FARM-1 accepts them and in no other, so none can come twice, late or out of order.
 */
#include <stdint.h>
#include <stdio.h>
#include <stdlib.h>
#include <string.h>

#include "pondreszi_inline.h"

#define SPACECRAFT 42
#define CHANNEL 3
#define K 8              /* at most half of the receiver's window */
#define FIRST_NUMBER 250 /* V(S) and V(R) at the start; numbers wrap soon */

static const struct pondreszi_receiver_settings receiver_settings = {
    .spacecraft = SPACECRAFT, .channel = CHANNEL, .window = 2 * K, .vr = FIRST_NUMBER, .buffers = 4};
static const struct pondreszi_sender_settings sender_settings = {
    .k = K, .t1_initial = 12, .transmission_limit = 3, .timeout_type = PONDRESZI_TIMEOUT_ALERT,
    .spacecraft = SPACECRAFT, .channel = CHANNEL, .vs = FIRST_NUMBER};

#define FRAME_PASSES 4 /* what a frame takes on the radio at the most */

#define LARGEST_COUNT 4096 /* lines of a file */
#define MOST_PASSES 10000000L

/* The uplink unit. */
static struct pondreszi_sender sender;
static uint8_t store[PONDRESZI_STORE_OCTETS(K)];

/* The radio: the frames handed down and not yet sent, the oldest first. At most one is of type AD and one of type BC. */
static struct {
    uint8_t octets[PONDRESZI_LARGEST_FRAME];
    size_t count;
    uint8_t kind; /* enum pondreszi_frame_kind, as the answer told it */
} under_way[2];
static size_t under_way_count;
static uint32_t passes_left; /* for the oldest */

/* The receiver on board. */
static struct pondreszi_receiver receiver;
static FILE *received;

/* The certificates. Units oldest to next - 1 have numbers from oldest_number on and are not known to be accepted. */
static uint8_t units[LARGEST_COUNT][PONDRESZI_LARGEST_UNIT];
static size_t lengths[LARGEST_COUNT];
static size_t unit_count;
static size_t oldest;
static uint8_t oldest_number = FIRST_NUMBER;
static size_t next;
static int alerted;

static uint64_t random_state;
static uint32_t frame_loss = 20;
static uint32_t word_loss = 20;

/* What is told at the end. */
static unsigned long ad_frames, bc_frames, lost_frames, words, lost_words, ticks, alerts, corrected_codeblocks;
static unsigned long confirmed_by_sender, confirmed_by_report;

static void fail(const char *what) {
    fprintf(stderr, "certificates: %s\n", what);
    exit(1);
}

/* For calls that cannot be refused here. */
static void done(uint8_t refusal, const char *what) {
    if (refusal != PONDRESZI_DONE) {
        fprintf(stderr, "certificates: %s: %s\n", what, pondreszi_refusal_text(refusal));
        exit(1);
    }
}

/* The same seed gives the same losses everywhere. */
static uint32_t random_number(uint32_t below) {
    random_state ^= random_state << 13;
    random_state ^= random_state >> 7;
    random_state ^= random_state << 17;
    return (uint32_t)(random_state >> 32) % below;
}

static int is_lost(uint32_t percent) {
    return random_number(100) < percent;
}

/* On board: a frame arrives; an accepted certificate is applied, here by writing it down. */
static void arrive(const uint8_t *octets, size_t count) {
    uint8_t refusal = pondreszi_receiver_on_frame(&receiver, octets, count);
    if (receiver.last.event == PONDRESZI_FARM_NONE) {
        done(refusal, "the receiver's state");
    }
    if (receiver.last.unit == PONDRESZI_UNIT_AD) {
        fwrite(receiver.last.octets, 1, receiver.last.count, received);
        fputc('\n', received);
    }
}

/* On board: the application gives buffers back at once, but is busy for a while now and then, so that the receiver has to wait. */
static void release_buffers(void) {
    static unsigned busy;
    if (busy > 0) {
        busy--;
        return;
    }
    while (pondreszi_receiver_taken(&receiver) > 0) {
        done(pondreszi_receiver_on_release(&receiver), "release");
    }
    if (random_number(40) == 0) {
        busy = random_number(60);
    }
}

static void flip(uint8_t *octets, uint32_t bit) {
    octets[bit / 8] ^= (uint8_t)(0x80u >> bit % 8);
}

/* At most one wrong bit in the start sequence, in the first 63 bits of each codeblock, and in the tail. */
static void add_noise(uint8_t *cltu, size_t cltu_octets) {
    size_t at;
    if (random_number(10) == 0) {
        flip(cltu, random_number(16));
    }
    for (at = 2; at < cltu_octets; at += PONDRESZI_CODEBLOCK_OCTETS) {
        if (random_number(10) == 0) {
            flip(cltu + at, random_number(63));
        }
    }
}

/* Two wrong bits in one codeblock. */
static void damage(uint8_t *cltu, size_t cltu_octets) {
    uint32_t codeblocks = (uint32_t)(cltu_octets - 2) / PONDRESZI_CODEBLOCK_OCTETS - 1;
    uint8_t *codeblock = cltu + 2 + PONDRESZI_CODEBLOCK_OCTETS * random_number(codeblocks);
    uint32_t bit = random_number(64);
    flip(codeblock, bit);
    flip(codeblock, (bit + 1 + random_number(63)) % 64);
}

/*
 * The radio: a frame goes up in a CLTU. Noise flips a bit here and there: at most one in each codeblock and in the tail, which reading
 * in the correcting mode mends. A CLTU can also be lost whole, or damaged in two bits of one codeblock, which are seen as bad.
 */
static void carry_up(const uint8_t *frame, size_t frame_octets) {
    uint8_t cltu[PONDRESZI_LARGEST_CLTU];
    uint8_t decoded[PONDRESZI_LARGEST_DECODED_FRAME];
    struct pondreszi_decoded read;
    size_t cltu_octets;
    done(pondreszi_cltu_encode(frame, frame_octets, cltu, sizeof cltu, &cltu_octets), "CLTU");
    if (is_lost(frame_loss)) {
        lost_frames++;
        if (random_number(2) == 0) {
            return;
        }
        damage(cltu, cltu_octets);
    } else {
        add_noise(cltu, cltu_octets);
    }
    if (pondreszi_cltu_decode(cltu, cltu_octets, PONDRESZI_CORRECTING, decoded, sizeof decoded, &read) == PONDRESZI_DONE) {
        corrected_codeblocks += (unsigned long)read.corrected;
        arrive(decoded, read.count);
    }
}

/* The radio: the receiver's control word comes down, or is lost. */
static int carry_down(uint8_t word[PONDRESZI_CLCW_OCTETS]) {
    done(pondreszi_receiver_control_word(&receiver, word), "control word");
    words++;
    if (is_lost(word_loss)) {
        lost_words++;
        return 0;
    }
    return 1;
}

static void advance(size_t count) {
    size_t before = oldest;
    oldest += count;
    oldest_number = (uint8_t)(oldest_number + count);
    if (oldest / 10 != before / 10) {
        printf("%4lu of %lu certificates confirmed\n", (unsigned long)oldest, (unsigned long)unit_count);
    }
}

/* What the sender's answer says of units. */
static void note_answer(void) {
    const uint8_t *answer = sender.answer;
    size_t confirmed = pondreszi_answer_confirmed(answer);
    size_t denied = pondreszi_answer_denied(answer);
    size_t i;
    for (i = 0; i < pondreszi_answer_responses(answer); i++) {
        uint8_t response = pondreszi_answer_response(answer, i);
        if (response == PONDRESZI_RESPONSE_ACCEPT_AD) {
            next++;
        }
        if (response == PONDRESZI_RESPONSE_REJECT_DIRECTIVE) {
            fail("a directive is rejected");
        }
    }
    if (confirmed > 0) {
        if (pondreszi_answer_confirmed_first(answer) != oldest_number || confirmed > next - oldest) {
            fail("a run that was not sent is confirmed");
        }
        confirmed_by_sender += (unsigned long)confirmed;
        advance(confirmed);
    }
    if (denied > 0 && (pondreszi_answer_denied_first(answer) != oldest_number || denied != next - oldest)) {
        fail("a run that is not outstanding is denied");
    }
    if (pondreszi_answer_alert(answer) != PONDRESZI_ALERT_NONE) {
        alerted = 1;
    }
}

/* Takes over what the answer to an event tells, and tells whether the event moved anything. No event is refused here. */
static int follow_answer(uint8_t refusal, const char *event) {
    static uint8_t state_before = PONDRESZI_FOP_INITIAL;
    uint8_t state = pondreszi_sender_state(&sender);
    size_t frame_octets = pondreszi_answer_frame_octets(sender.answer);
    int moved = frame_octets > 0 || state != state_before || pondreszi_answer_responses(sender.answer) > 0 ||
                pondreszi_answer_confirmed(sender.answer) > 0;
    done(refusal, event);
    note_answer();
    if (frame_octets > 0) {
        if (under_way_count == 2) {
            fail("a frame is handed down before the last one is accepted");
        }
        memcpy(under_way[under_way_count].octets, sender.output, frame_octets);
        under_way[under_way_count].count = frame_octets;
        under_way[under_way_count].kind = pondreszi_answer_kind(sender.answer);
        under_way_count++;
    }
    state_before = state;
    return moved;
}

static void accept_frame(uint8_t kind) {
    follow_answer(pondreszi_sender_on_lower_layer(&sender, pondreszi_accept_of(kind)), "accept of the lower layer");
}

/*
 * The radio sends the oldest frame, and accepts it, which may hand down the next. A frame under way is sent even where the sender asked
 * for an abort: the receiver tells by its number whether it still wants it.
 */
static void send_oldest(void) {
    uint8_t kind = under_way[0].kind;
    carry_up(under_way[0].octets, under_way[0].count);
    under_way[0] = under_way[1];
    under_way_count--;
    if (kind == PONDRESZI_FRAME_AD) {
        ad_frames++;
    } else {
        bc_frames++;
    }
    accept_frame(kind);
}

/* The radio has the time of one pass; tells whether it sent a frame. */
static int radio(void) {
    if (under_way_count == 0) {
        return 0;
    }
    if (passes_left > 0) {
        passes_left--;
        return 0;
    }
    passes_left = random_number(FRAME_PASSES);
    send_oldest();
    return 1;
}

static void direct(uint32_t number, uint32_t value) {
    follow_answer(pondreszi_sender_on_directive(&sender, number, value), pondreszi_directive_text(number));
}

static int request(void) {
    return follow_answer(pondreszi_sender_on_request_ad(&sender, units[next], lengths[next]), "request");
}

static int take_word(const uint8_t word[PONDRESZI_CLCW_OCTETS]) {
    return follow_answer(pondreszi_sender_on_control_word(&sender, word, PONDRESZI_CLCW_OCTETS), "control word");
}

static void tick(void) {
    ticks++;
    follow_answer(pondreszi_sender_on_tick(&sender), "tick");
}

/*
 * docs/OPERATIONS.md, "Before the service begins again" and "After an alert". Once no frame is under way any more, a control word that is
 * made then tells V(R). The units numbered before V(R) were accepted on board, the others were not: V(S) becomes V(R), and those go again. Flags that still stand would
 * end the CLCW check with an alert, so Unlock takes them down.
 */
static void recover(void) {
    uint8_t octets[PONDRESZI_CLCW_OCTETS];
    struct pondreszi_clcw word;
    unsigned accepted;
    alerts++;
    while (under_way_count > 0) {
        send_oldest();
    }
    while (!carry_down(octets)) {
    }
    done(pondreszi_clcw_decode(octets, sizeof octets, CHANNEL, &word), "control word");
    accepted = (uint8_t)(word.report - oldest_number);
    if (!word.valid || accepted > next - oldest) {
        fail("the receiver reports a number that was not sent");
    }
    confirmed_by_report += accepted;
    advance(accepted);
    next = oldest;
    direct(PONDRESZI_SET_VS, word.report);
    direct(word.flags == 0 ? PONDRESZI_INITIATE_WITH_CLCW_CHECK : PONDRESZI_INITIATE_WITH_UNLOCK, 0);
}

/* The sender takes a unit: the AD service is initiated and none waits. */
static int takes_unit(void) {
    return pondreszi_sender_state(&sender) <= PONDRESZI_FOP_RETRANSMIT_WITH_WAIT &&
           !pondreszi_sender_is_set(&sender, PONDRESZI_SENDER_UNIT_WAITS);
}

/* docs/OPERATIONS.md, "Two traps of the standard". */
static int is_marked_in_vain(void) {
    return pondreszi_sender_state(&sender) == PONDRESZI_FOP_RETRANSMIT_WITHOUT_WAIT && pondreszi_sender_marked(&sender) > 0 &&
           pondreszi_sender_is_set(&sender, PONDRESZI_SENDER_AD_OUT_READY);
}

static int is_without_timer(void) {
    return under_way_count == 0 && pondreszi_sender_state(&sender) == PONDRESZI_FOP_ACTIVE && pondreszi_sender_sent(&sender) > 0 &&
           pondreszi_sender_timer(&sender) == 0;
}

/* Where nothing moves: the remedies for the two traps, otherwise time passes. */
static void let_time_pass(void) {
    if (is_marked_in_vain()) {
        accept_frame(PONDRESZI_FRAME_AD);
    } else if (is_without_timer()) {
        /* The remedy is a further unit, whose sending starts the timer. None is left, so the service is begun anew. */
        direct(PONDRESZI_TERMINATE, 0);
    } else {
        tick();
    }
}

static void pass(void) {
    uint8_t word[PONDRESZI_CLCW_OCTETS];
    int moved = 0;
    release_buffers();
    if (takes_unit() && next < unit_count) {
        moved = request();
    }
    if (radio()) {
        moved = 1;
    }
    /* Control words come down in telemetry, whatever goes up. */
    if (random_number(4) == 0 && carry_down(word) && take_word(word)) {
        moved = 1;
    }
    if (!moved) {
        let_time_pass();
    }
    if (alerted) {
        alerted = 0;
        recover();
    }
}

static void read_units(const char *path) {
    FILE *file = fopen(path, "rb");
    char line[PONDRESZI_LARGEST_UNIT + 3];
    if (file == NULL) {
        fail("the file of certificates cannot be read");
    }
    while (fgets(line, sizeof line, file) != NULL) {
        size_t count = strlen(line);
        if (count < 2 || line[count - 1] != '\n' || count - 1 > PONDRESZI_LARGEST_UNIT) {
            fail("a line has no certificate that fits a unit, or no newline");
        }
        if (unit_count == LARGEST_COUNT) {
            fail("too many certificates");
        }
        memcpy(units[unit_count], line, count - 1);
        lengths[unit_count] = count - 1;
        unit_count++;
    }
    fclose(file);
}

static int files_equal(const char *one, const char *other) {
    FILE *a = fopen(one, "rb");
    FILE *b = fopen(other, "rb");
    int equal = a != NULL && b != NULL;
    while (equal) {
        int c = fgetc(a);
        equal = c == fgetc(b);
        if (c == EOF) {
            break;
        }
    }
    if (a != NULL) {
        fclose(a);
    }
    if (b != NULL) {
        fclose(b);
    }
    return equal;
}

static uint32_t percent(const char *text) {
    unsigned long value = strtoul(text, NULL, 10);
    if (value > 99) {
        fail("a loss is 0 to 99 percent");
    }
    return (uint32_t)value;
}

int main(int argc, char **argv) {
    unsigned long seed = 1;
    long passes;
    int equal;
    if (argc < 3 || argc > 6) {
        fail("FILE RECEIVED [SEED [FRAME_LOSS [WORD_LOSS]]]");
    }
    if (argc > 3) {
        seed = strtoul(argv[3], NULL, 10);
    }
    if (argc > 4) {
        frame_loss = percent(argv[4]);
    }
    if (argc > 5) {
        word_loss = percent(argv[5]);
    }
    random_state = (seed * UINT64_C(0x9E3779B97F4A7C15) ^ UINT64_C(0xD1B54A32D192ED03)) | 1; /* never 0 */
    read_units(argv[1]);
    received = fopen(argv[2], "wb");
    if (received == NULL) {
        fail("the received file cannot be written");
    }

    done(pondreszi_receiver_start(&receiver, &receiver_settings), "receiver");
    done(pondreszi_sender_start(&sender, &sender_settings, store, sizeof store), "sender");
    direct(PONDRESZI_INITIATE_WITHOUT_CHECK, 0);

    for (passes = 0; oldest < unit_count; passes++) {
        if (passes == MOST_PASSES) {
            fail("too many passes");
        }
        pass();
    }
    if (fclose(received) != 0) {
        fail("the received file cannot be written");
    }

    printf("seed %lu, losses %u %% of frames and %u %% of control words\n", seed, (unsigned)frame_loss, (unsigned)word_loss);
    printf("%lu certificates sent, %lu sent again, in %lu AD frames; %lu BC frames; %lu frames lost\n", (unsigned long)unit_count,
           ad_frames - (unsigned long)unit_count, ad_frames, bc_frames, lost_frames);
    printf("%lu codeblocks corrected\n", corrected_codeblocks);
    printf("%lu control words, %lu lost; %lu ticks; %lu alerts\n", words, lost_words, ticks, alerts);
    printf("%lu confirmed by the sender, %lu by the report value after an alert\n", confirmed_by_sender, confirmed_by_report);
    equal = files_equal(argv[1], argv[2]);
    printf("the received file %s the sent one\n", equal ? "equals" : "DIFFERS from");
    return equal ? 0 : 1;
}
