/*
 * Tests include/pondreszi_inline.h: each wrapper beside the exported function that it calls, each field of a state or an answer, each text.
 * Prints how many checks were made; a check that fails is told, and the exit status is 1. Compiles as C99 and as C++.
 */
#include <stdio.h>
#include <string.h>

#include "pondreszi_inline.h"

#define SPACECRAFT 0x123
#define CHANNEL 9
#define K 3

static unsigned long checks, failures;

#define CHECK(condition) check((condition) ? 1 : 0, #condition, __LINE__)

static void check(int holds, const char *text, int line) {
    checks++;
    if (!holds) {
        failures++;
        printf("line %d: %s\n", line, text);
    }
}

static const uint8_t unit[] = {'d', 'a', 't', 'e'};
static uint8_t store[PONDRESZI_STORE_OCTETS(K)];
static uint8_t other_store[PONDRESZI_STORE_OCTETS(K)];
static uint8_t longer_store[PONDRESZI_STORE_OCTETS(K + 1)];

static const struct pondreszi_sender_settings sender_settings = {K, 0x203, 5, PONDRESZI_TIMEOUT_ALERT, SPACECRAFT, CHANNEL, 250};
static const struct pondreszi_receiver_settings receiver_settings = {SPACECRAFT, CHANNEL, 8, 250, 2};

/* What the wrappers must equal: the same calls by the exported functions, over buffers of their own. */
static uint8_t raw_state[PONDRESZI_SENDER_STATE_OCTETS];
static uint8_t raw_output[PONDRESZI_LARGEST_FRAME];
static uint8_t raw_answer[PONDRESZI_ANSWER_OCTETS];
#define RAW other_store, sizeof other_store, raw_output, sizeof raw_output, raw_answer, sizeof raw_answer

static int same_as_raw(const struct pondreszi_sender *sender) {
    size_t frame_octets = pondreszi_answer_frame_octets(sender->answer);
    return memcmp(sender->state, raw_state, sizeof raw_state) == 0 && memcmp(sender->answer, raw_answer, sizeof raw_answer) == 0 &&
           memcmp(sender->output, raw_output, frame_octets) == 0 && memcmp(store, other_store, sizeof store) == 0;
}

/* A change of one octet of a kept state, and of its length, is judged as the library judges it. */
static void check_kept_sender(const struct pondreszi_sender *sender) {
    uint8_t kept[PONDRESZI_SENDER_STATE_OCTETS + 1] = {0};
    uint8_t judged[PONDRESZI_SENDER_STATE_OCTETS];
    uint8_t answer[PONDRESZI_ANSWER_OCTETS];
    size_t place;
    unsigned value, states = 0, wrong = 0;
    memcpy(kept, sender->state, sizeof sender->state);
    CHECK(pondreszi_sender_check(kept, sizeof sender->state) == PONDRESZI_DONE);
    CHECK(pondreszi_sender_check(kept, sizeof sender->state - 1) == PONDRESZI_SETTING);
    CHECK(pondreszi_sender_check(kept, sizeof kept) == PONDRESZI_SETTING);
    CHECK(pondreszi_sender_check(kept, 0) == PONDRESZI_SETTING);
    for (place = 0; place < sizeof sender->state; place++) {
        for (value = 0; value < 256; value++) {
            uint8_t refusal;
            kept[place] = (uint8_t)value;
            refusal = pondreszi_sender_check(kept, sizeof sender->state);
            memcpy(judged, kept, sizeof judged);
            /* A word of no octets is 10 to any state. */
            wrong += refusal != (pondreszi_sender_control_word(judged, sizeof judged, unit, 0, other_store, 0, raw_output, 0, answer,
                                                               sizeof answer) == PONDRESZI_LENGTH
                                     ? PONDRESZI_DONE
                                     : PONDRESZI_SETTING);
            states += refusal == PONDRESZI_DONE;
        }
        kept[place] = sender->state[place];
    }
    CHECK(wrong == 0);
    CHECK(states > sizeof sender->state && states < 256 * sizeof sender->state);
    CHECK(memcmp(kept, sender->state, sizeof sender->state) == 0);
}

static void check_sender_start(struct pondreszi_sender *sender) {
    struct pondreszi_sender_settings wrong = sender_settings;
    struct pondreszi_sender before;
    CHECK(pondreszi_sender_start(sender, &sender_settings, store, sizeof store) == PONDRESZI_DONE);
    before = *sender;
    wrong.k = 0;
    CHECK(pondreszi_sender_start(sender, &wrong, other_store, sizeof other_store) == PONDRESZI_SETTING);
    CHECK(pondreszi_sender_start(sender, &sender_settings, store, sizeof store - 1) == PONDRESZI_ROOM);
    CHECK(memcmp(sender->state, before.state, sizeof before.state) == 0 && sender->store == store);
    CHECK(pondreszi_sender_new(K, 0x203, 5, PONDRESZI_TIMEOUT_ALERT, SPACECRAFT, CHANNEL, 250, 250, other_store, sizeof other_store, raw_state,
                               sizeof raw_state) == PONDRESZI_DONE);
    memset(raw_answer, 0, sizeof raw_answer);
    CHECK(same_as_raw(sender));
    CHECK(pondreszi_sender_state(sender) == PONDRESZI_FOP_INITIAL);
    CHECK(pondreszi_sender_k(sender) == K);
    CHECK(pondreszi_sender_t1_initial(sender) == 0x203);
    CHECK(pondreszi_sender_transmission_limit(sender) == 5);
    CHECK(pondreszi_sender_timeout_type(sender) == PONDRESZI_TIMEOUT_ALERT);
    CHECK(pondreszi_sender_spacecraft(sender) == SPACECRAFT);
    CHECK(pondreszi_sender_channel(sender) == CHANNEL);
    CHECK(pondreszi_sender_vs(sender) == 250);
    CHECK(pondreszi_sender_nnr(sender) == 250);
    CHECK(pondreszi_sender_timer(sender) == 0);
    CHECK(pondreszi_sender_sent(sender) == 0);
    CHECK(pondreszi_sender_bc_frame(sender) == PONDRESZI_FRAME_NONE);
    CHECK(pondreszi_sender_store_need(sender) == sizeof store);
    CHECK(pondreszi_sender_is_set(sender, PONDRESZI_SENDER_AD_OUT_READY));
    CHECK(pondreszi_sender_is_set(sender, PONDRESZI_SENDER_BC_OUT_READY));
    CHECK(pondreszi_sender_is_set(sender, PONDRESZI_SENDER_BD_OUT_READY));
    CHECK(!pondreszi_sender_is_set(sender, PONDRESZI_SENDER_UNIT_WAITS));
}

static void check_sender_restore(const struct pondreszi_sender *sender) {
    struct pondreszi_sender restored;
    uint8_t kept[PONDRESZI_SENDER_STATE_OCTETS];
    memset(&restored, 0, sizeof restored);
    memcpy(kept, sender->state, sizeof kept);
    CHECK(pondreszi_sender_restore(&restored, kept, sizeof kept, store, sizeof store - 1) == PONDRESZI_ROOM);
    CHECK(pondreszi_sender_restore(&restored, kept, sizeof kept - 1, store, sizeof store) == PONDRESZI_SETTING);
    kept[1] = 1;
    CHECK(pondreszi_sender_restore(&restored, kept, sizeof kept, store, sizeof store) == PONDRESZI_SETTING);
    CHECK(restored.state[0] == 0 && restored.store == NULL);
    kept[1] = 2;
    CHECK(pondreszi_sender_restore(&restored, kept, sizeof kept, store, sizeof store) == PONDRESZI_DONE);
    CHECK(memcmp(restored.state, sender->state, sizeof kept) == 0);
    CHECK(restored.store == store && restored.store_octets == sizeof store);
    CHECK(pondreszi_answer_frame_octets(restored.answer) == 0);
}

/* The answers, octet by octet as the header numbers them, with a value of its own in each. */
static void check_answer_fields(void) {
    static const uint8_t answer[PONDRESZI_ANSWER_OCTETS] = {100, 101, 102, 3, 4, 1, 106, 1, 108, 109, 110, 111, 112, 113, 114, 115, 116, 117};
    static const uint8_t nothing[PONDRESZI_ANSWER_OCTETS] = {0};
    CHECK(pondreszi_answer_refusal(answer) == 100);
    CHECK(pondreszi_answer_event(answer) == 101);
    CHECK(pondreszi_answer_state(answer) == 102);
    CHECK(pondreszi_answer_frame_octets(answer) == 0x304);
    CHECK(pondreszi_answer_abort(answer) && !pondreszi_answer_abort(nothing));
    CHECK(pondreszi_answer_alert(answer) == 106);
    CHECK(pondreszi_answer_suspended(answer) && !pondreszi_answer_suspended(nothing));
    CHECK(pondreszi_answer_responses(answer) == 108);
    CHECK(pondreszi_answer_response(answer, 0) == 109);
    CHECK(pondreszi_answer_response(answer, 3) == 112);
    CHECK(pondreszi_answer_response(answer, 4) == PONDRESZI_RESPONSE_NONE);
    CHECK(pondreszi_answer_confirmed_first(answer) == 113);
    CHECK(pondreszi_answer_confirmed(answer) == 114);
    CHECK(pondreszi_answer_denied_first(answer) == 115);
    CHECK(pondreszi_answer_denied(answer) == 116);
    CHECK(pondreszi_answer_kind(answer) == 117);
}

/* The same of a sender's state; the octets need be none for this. */
static void check_sender_fields(void) {
    struct pondreszi_sender sender;
    size_t i;
    memset(&sender, 0, sizeof sender);
    for (i = 0; i < sizeof sender.state; i++) {
        sender.state[i] = (uint8_t)(100 + i);
    }
    sender.state[PONDRESZI_SENDER_FLAGS] = PONDRESZI_SENDER_BC_MARKED;
    sender.state[PONDRESZI_SENDER_BC_FRAME] = 2;
    CHECK(pondreszi_sender_state(&sender) == 102);
    CHECK(pondreszi_sender_k(&sender) == 103);
    CHECK(pondreszi_sender_t1_initial(&sender) == 104 * 256 + 105);
    CHECK(pondreszi_sender_transmission_limit(&sender) == 106);
    CHECK(pondreszi_sender_timeout_type(&sender) == 107);
    CHECK(pondreszi_sender_spacecraft(&sender) == 108 * 256 + 109);
    CHECK(pondreszi_sender_channel(&sender) == 110);
    CHECK(pondreszi_sender_vs(&sender) == 111);
    CHECK(pondreszi_sender_nnr(&sender) == 112);
    CHECK(pondreszi_sender_timer(&sender) == 113 * 256 + 114);
    CHECK(pondreszi_sender_transmission_count(&sender) == 115);
    CHECK(pondreszi_sender_is_set(&sender, PONDRESZI_SENDER_BC_MARKED));
    CHECK(!pondreszi_sender_is_set(&sender, PONDRESZI_SENDER_UNIT_WAITS));
    CHECK(pondreszi_sender_suspend_state(&sender) == 117);
    CHECK(pondreszi_sender_sent(&sender) == 118);
    CHECK(pondreszi_sender_marked(&sender) == 119);
    CHECK(pondreszi_sender_bc_frame(&sender) == PONDRESZI_FRAME_SET_VR);
    CHECK(pondreszi_sender_bc_value(&sender) == 121);
    CHECK(pondreszi_sender_store_need(&sender) == PONDRESZI_STORE_OCTETS(118));
    sender.state[PONDRESZI_SENDER_BC_FRAME] = 1;
    CHECK(pondreszi_sender_bc_frame(&sender) == PONDRESZI_FRAME_UNLOCK);
    sender.state[PONDRESZI_SENDER_BC_FRAME] = 0;
    CHECK(pondreszi_sender_bc_frame(&sender) == PONDRESZI_FRAME_NONE);
}

static void check_receiver_fields(void) {
    struct pondreszi_receiver receiver;
    size_t i;
    for (i = 0; i < sizeof receiver.state; i++) {
        receiver.state[i] = (uint8_t)(100 + i);
    }
    CHECK(pondreszi_receiver_state(&receiver) == 102);
    CHECK(pondreszi_receiver_spacecraft(&receiver) == 103 * 256 + 104);
    CHECK(pondreszi_receiver_channel(&receiver) == 105);
    CHECK(pondreszi_receiver_window(&receiver) == 106);
    CHECK(pondreszi_receiver_buffers(&receiver) == 107);
    CHECK(pondreszi_receiver_taken(&receiver) == 108);
    CHECK(pondreszi_receiver_vr(&receiver) == 109);
    CHECK(pondreszi_receiver_flags(&receiver) == 110);
    CHECK(pondreszi_receiver_counter(&receiver) == 111);
}

static void check_record_fields(void) {
    static const uint8_t record[PONDRESZI_RECORD_OCTETS] = {100, 101, 102, 103, 104, 105, 106, 107, 108};
    CHECK(pondreszi_record_state(record) == 102);
    CHECK(pondreszi_record_channel(record) == 103);
    CHECK(pondreszi_record_window(record) == 104);
    CHECK(pondreszi_record_held(record) == 105);
    CHECK(pondreszi_record_vr(record) == 106);
    CHECK(pondreszi_record_flags(record) == 107);
    CHECK(pondreszi_record_counter(record) == 108);
}

/* The frame in the sender's output, sent in a CLTU and read again; what is decoded goes to the receiver. */
static size_t carry(const struct pondreszi_sender *sender, uint8_t *decoded, size_t decoded_octets) {
    uint8_t cltu[PONDRESZI_LARGEST_CLTU];
    struct pondreszi_decoded read;
    size_t frame_octets = pondreszi_answer_frame_octets(sender->answer);
    size_t count = 99;
    CHECK(pondreszi_cltu_encode(sender->output, frame_octets, cltu, PONDRESZI_CLTU_OCTETS(frame_octets) - 1, &count) == PONDRESZI_ROOM);
    CHECK(count == 0);
    CHECK(pondreszi_cltu_encode(sender->output, frame_octets, cltu, sizeof cltu, &count) == PONDRESZI_DONE);
    CHECK(count == PONDRESZI_CLTU_OCTETS(frame_octets));
    cltu[0] ^= 1;
    cltu[2] ^= 0x80;
    CHECK(pondreszi_cltu_decode(cltu, count, PONDRESZI_DETECTING, decoded, decoded_octets, &read) == PONDRESZI_NO_BLOCK);
    CHECK(read.count == 0 && read.place == 2 && read.corrected == 0);
    CHECK(pondreszi_cltu_decode(cltu, count, PONDRESZI_CORRECTING, decoded, decoded_octets, &read) == PONDRESZI_DONE);
    CHECK(read.count == (frame_octets + 6) / 7 * 7 && read.place == count - 8 && read.corrected == 1);
    return read.count;
}

static void check_frame(const uint8_t *octets, size_t count) {
    struct pondreszi_frame frame;
    CHECK(pondreszi_frame_decode(octets, count, SPACECRAFT, CHANNEL, &frame) == PONDRESZI_DONE);
    CHECK(frame.kind == PONDRESZI_FRAME_AD && frame.value == 250);
    CHECK(frame.frame_octets == sizeof unit + 7 && frame.data_octets == sizeof unit);
    CHECK(frame.data == octets + 5 && memcmp(frame.data, unit, sizeof unit) == 0);
    CHECK(pondreszi_frame_decode(octets, count, SPACECRAFT, CHANNEL + 1, &frame) == PONDRESZI_ADDRESS);
    CHECK(frame.kind == PONDRESZI_FRAME_NONE && frame.data == NULL && frame.data_octets == 0 && frame.frame_octets == 0);
}

static void check_word(const struct pondreszi_receiver *receiver, uint8_t report, uint8_t flags) {
    uint8_t octets[PONDRESZI_CLCW_OCTETS];
    struct pondreszi_clcw word;
    CHECK(pondreszi_receiver_control_word(receiver, octets) == PONDRESZI_DONE);
    CHECK(pondreszi_clcw_decode(octets, sizeof octets, CHANNEL, &word) == PONDRESZI_DONE);
    CHECK(word.valid == 1 && word.status == 0 && word.rf == 0 && word.counter == 0);
    CHECK(word.report == report && word.flags == flags);
    CHECK(pondreszi_clcw_decode(octets, sizeof octets - 1, CHANNEL, &word) == PONDRESZI_LENGTH);
    CHECK(pondreszi_clcw_decode(octets, sizeof octets, CHANNEL + 1, &word) == PONDRESZI_ADDRESS);
}

static void check_receiver(const uint8_t *frame, size_t count, struct pondreszi_receiver *receiver) {
    struct pondreszi_receiver_settings wrong = receiver_settings;
    struct pondreszi_receiver restored;
    uint8_t kept[PONDRESZI_RECEIVER_STATE_OCTETS];
    CHECK(pondreszi_receiver_start(receiver, &receiver_settings) == PONDRESZI_DONE);
    wrong.window = 3;
    CHECK(pondreszi_receiver_start(receiver, &wrong) == PONDRESZI_SETTING);
    CHECK(pondreszi_receiver_state(receiver) == PONDRESZI_FARM_OPEN && pondreszi_receiver_spacecraft(receiver) == SPACECRAFT);
    CHECK(pondreszi_receiver_on_release(receiver) == PONDRESZI_RELEASE && receiver->last.event == PONDRESZI_FARM_NONE);
    check_word(receiver, 250, 0);
    CHECK(pondreszi_receiver_on_frame(receiver, frame, count) == PONDRESZI_DONE);
    CHECK(receiver->last.event == PONDRESZI_FARM_E1 && receiver->last.unit == PONDRESZI_UNIT_AD);
    CHECK(receiver->last.octets == frame + 5 && receiver->last.count == sizeof unit);
    CHECK(pondreszi_receiver_taken(receiver) == 1 && pondreszi_receiver_vr(receiver) == 251);
    check_word(receiver, 251, 0);
    CHECK(pondreszi_receiver_on_frame(receiver, frame, count) == PONDRESZI_DONE);
    CHECK(receiver->last.event == PONDRESZI_FARM_E4 && receiver->last.unit == PONDRESZI_UNIT_NONE);
    CHECK(receiver->last.octets == NULL && receiver->last.count == 0);
    CHECK(pondreszi_receiver_on_frame(receiver, frame, 7) == PONDRESZI_SHORT && receiver->last.event == PONDRESZI_FARM_E9);

    memcpy(kept, receiver->state, sizeof kept);
    memset(&restored, 0, sizeof restored);
    CHECK(pondreszi_receiver_check(kept, sizeof kept) == PONDRESZI_DONE);
    CHECK(pondreszi_receiver_check(kept, sizeof kept - 1) == PONDRESZI_SETTING);
    kept[PONDRESZI_RECEIVER_TAKEN] = 3;
    CHECK(pondreszi_receiver_check(kept, sizeof kept) == PONDRESZI_SETTING);
    CHECK(pondreszi_receiver_restore(&restored, kept, sizeof kept) == PONDRESZI_SETTING && restored.state[0] == 0);
    kept[PONDRESZI_RECEIVER_TAKEN] = 1;
    CHECK(pondreszi_receiver_restore(&restored, kept, sizeof kept) == PONDRESZI_DONE);
    CHECK(memcmp(restored.state, receiver->state, sizeof kept) == 0 && restored.last.unit == PONDRESZI_UNIT_NONE);

    CHECK(pondreszi_receiver_on_release(receiver) == PONDRESZI_DONE && receiver->last.event == PONDRESZI_FARM_E10);
    CHECK(pondreszi_receiver_taken(receiver) == 0);
}

static void check_ends(void) {
    static struct pondreszi_sender sender;
    struct pondreszi_receiver receiver;
    uint8_t decoded[PONDRESZI_LARGEST_DECODED_FRAME];
    uint8_t word[PONDRESZI_CLCW_OCTETS];
    size_t count;
    check_sender_start(&sender);
    check_kept_sender(&sender);

    CHECK(pondreszi_sender_on_directive(&sender, PONDRESZI_INITIATE_WITHOUT_CHECK, 0) == PONDRESZI_DONE);
    CHECK(pondreszi_sender_directive(raw_state, sizeof raw_state, PONDRESZI_INITIATE_WITHOUT_CHECK, 0, RAW) == PONDRESZI_DONE);
    CHECK(same_as_raw(&sender) && pondreszi_answer_event(sender.answer) == 23);

    CHECK(pondreszi_sender_on_request_ad(&sender, unit, sizeof unit) == PONDRESZI_DONE);
    CHECK(pondreszi_sender_request_ad(raw_state, sizeof raw_state, unit, sizeof unit, RAW) == PONDRESZI_DONE);
    CHECK(same_as_raw(&sender) && pondreszi_answer_event(sender.answer) == 19);
    CHECK(pondreszi_answer_kind(sender.answer) == PONDRESZI_FRAME_AD);
    CHECK(pondreszi_answer_responses(sender.answer) == 1);
    CHECK(pondreszi_answer_response(sender.answer, 0) == PONDRESZI_RESPONSE_ACCEPT_AD);
    CHECK(pondreszi_answer_frame_octets(sender.answer) == sizeof unit + 7);
    CHECK(pondreszi_sender_timer(&sender) == 0x203 && pondreszi_sender_sent(&sender) == 1);
    check_sender_restore(&sender);
    check_kept_sender(&sender);
    count = carry(&sender, decoded, sizeof decoded);
    check_frame(decoded, count);
    check_receiver(decoded, count, &receiver);

    CHECK(pondreszi_sender_on_lower_layer(&sender, pondreszi_accept_of(PONDRESZI_FRAME_AD)) == PONDRESZI_DONE);
    CHECK(pondreszi_sender_lower_layer(raw_state, sizeof raw_state, PONDRESZI_AD_ACCEPT, RAW) == PONDRESZI_DONE);
    CHECK(same_as_raw(&sender) && pondreszi_answer_event(sender.answer) == 41);

    CHECK(pondreszi_sender_on_tick(&sender) == PONDRESZI_DONE);
    CHECK(pondreszi_sender_tick(raw_state, sizeof raw_state, RAW) == PONDRESZI_DONE);
    CHECK(same_as_raw(&sender) && pondreszi_sender_timer(&sender) == 0x202);

    CHECK(pondreszi_sender_on_request_bd(&sender, unit, sizeof unit) == PONDRESZI_DONE);
    CHECK(pondreszi_sender_request_bd(raw_state, sizeof raw_state, unit, sizeof unit, RAW) == PONDRESZI_DONE);
    CHECK(same_as_raw(&sender) && pondreszi_answer_kind(sender.answer) == PONDRESZI_FRAME_BD);

    /* Refused, where the library writes no answer: nothing of the former one is left. */
    CHECK(pondreszi_sender_on_lower_layer(&sender, 7) == PONDRESZI_SETTING);
    CHECK(pondreszi_answer_refusal(sender.answer) == PONDRESZI_SETTING && pondreszi_answer_frame_octets(sender.answer) == 0);
    CHECK(pondreszi_answer_kind(sender.answer) == PONDRESZI_FRAME_NONE && memcmp(sender.state, raw_state, sizeof raw_state) == 0);
    /* And where it writes one. */
    CHECK(pondreszi_sender_on_directive(&sender, 12, 0) == PONDRESZI_SETTING && pondreszi_answer_event(sender.answer) == 40);
    CHECK(pondreszi_answer_refusal(sender.answer) == PONDRESZI_SETTING);
    CHECK(pondreszi_sender_on_control_word(&sender, unit, 3) == PONDRESZI_LENGTH);

    CHECK(pondreszi_receiver_control_word(&receiver, word) == PONDRESZI_DONE);
    CHECK(pondreszi_sender_on_control_word(&sender, word, sizeof word) == PONDRESZI_DONE);
    CHECK(pondreszi_sender_control_word(raw_state, sizeof raw_state, word, sizeof word, RAW) == PONDRESZI_DONE);
    CHECK(same_as_raw(&sender) && pondreszi_answer_event(sender.answer) == 2);
    CHECK(pondreszi_answer_confirmed(sender.answer) == 1 && pondreszi_answer_confirmed_first(sender.answer) == 250);

    CHECK(pondreszi_sender_on_directive(&sender, PONDRESZI_TERMINATE, 0) == PONDRESZI_DONE);
    CHECK(pondreszi_answer_alert(sender.answer) == PONDRESZI_ALERT_TERM && pondreszi_sender_state(&sender) == PONDRESZI_FOP_INITIAL);
    CHECK(pondreszi_sender_on_directive(&sender, PONDRESZI_INITIATE_WITH_SET_VR, 7) == PONDRESZI_DONE);
    CHECK(pondreszi_sender_bc_frame(&sender) == PONDRESZI_FRAME_SET_VR && pondreszi_sender_bc_value(&sender) == 7);
    CHECK(pondreszi_answer_kind(sender.answer) == PONDRESZI_FRAME_SET_VR);

    CHECK(pondreszi_sender_on_directive(&sender, PONDRESZI_SET_K, K + 1) == PONDRESZI_ROOM && pondreszi_sender_k(&sender) == K);
    memcpy(longer_store, store, sizeof store);
    pondreszi_sender_lend(&sender, longer_store, sizeof longer_store);
    CHECK(pondreszi_answer_kind(sender.answer) == PONDRESZI_FRAME_NONE);
    CHECK(pondreszi_sender_on_directive(&sender, PONDRESZI_SET_K, K + 1) == PONDRESZI_DONE && pondreszi_sender_k(&sender) == K + 1);
    CHECK(pondreszi_sender_store_need(&sender) == sizeof longer_store);
}

static void check_channels(void) {
    struct pondreszi_channels channels, restored;
    uint8_t kept[PONDRESZI_LARGEST_RECORDS * PONDRESZI_RECORD_OCTETS];
    uint8_t frame[PONDRESZI_LARGEST_FRAME];
    uint8_t octets[PONDRESZI_CLCW_OCTETS];
    struct pondreszi_clcw word;
    uint64_t count;
    uint32_t i;
    memset(&channels, 0, sizeof channels);
    memset(&restored, 0, sizeof restored);
    CHECK(pondreszi_channels_start(&channels, SPACECRAFT, 17) == PONDRESZI_SETTING);
    CHECK(pondreszi_channels_start(&channels, 1024, 2) == PONDRESZI_SETTING && channels.pool == 0);
    CHECK(pondreszi_channels_start(&channels, SPACECRAFT, 2) == PONDRESZI_DONE);
    CHECK(pondreszi_channels_table_octets(&channels) == 0 && pondreszi_channels_record(&channels, 0) == NULL);
    CHECK(pondreszi_channels_add(&channels, CHANNEL, 8, 5) == PONDRESZI_DONE);
    CHECK(pondreszi_channels_add(&channels, CHANNEL, 8, 5) == PONDRESZI_SETTING);
    CHECK(pondreszi_channels_add(&channels, 64, 8, 5) == PONDRESZI_SETTING);
    CHECK(pondreszi_channels_add(&channels, 10, 7, 5) == PONDRESZI_SETTING);
    CHECK(pondreszi_channels_add(&channels, 10, 8, 256) == PONDRESZI_SETTING);
    CHECK(channels.records == 1 && pondreszi_channels_table_octets(&channels) == PONDRESZI_RECORD_OCTETS);
    CHECK(pondreszi_channels_record(&channels, CHANNEL) == channels.table && pondreszi_channels_record(&channels, 10) == NULL);

    CHECK(pondreszi_frame_write_ad(SPACECRAFT, CHANNEL, 5, unit, sizeof unit, frame, sizeof frame, &count) == PONDRESZI_DONE);
    CHECK(pondreszi_channels_on_frame(&channels, frame, (size_t)count) == PONDRESZI_DONE);
    CHECK(channels.last.event == PONDRESZI_FARM_E1 && channels.last.channel == CHANNEL && channels.last.unit == PONDRESZI_UNIT_AD);
    CHECK(channels.last.octets == frame + 5 && channels.last.count == sizeof unit);
    CHECK(pondreszi_record_held(channels.table) == 1 && pondreszi_record_vr(channels.table) == 6);
    CHECK(pondreszi_channels_on_frame(&channels, frame, 7) == PONDRESZI_SHORT && channels.last.event == PONDRESZI_FARM_E9);
    CHECK(channels.last.octets == NULL && channels.last.count == 0 && channels.last.unit == PONDRESZI_UNIT_NONE);
    CHECK(pondreszi_channels_control_word(&channels, CHANNEL, octets) == PONDRESZI_DONE);
    CHECK(pondreszi_clcw_decode(octets, sizeof octets, CHANNEL, &word) == PONDRESZI_DONE && word.report == 6);
    CHECK(pondreszi_channels_control_word(&channels, 10, octets) == PONDRESZI_ADDRESS);

    memcpy(kept, channels.table, sizeof kept);
    CHECK(pondreszi_channels_check(SPACECRAFT, 2, kept, PONDRESZI_RECORD_OCTETS) == PONDRESZI_DONE);
    CHECK(pondreszi_channels_check(SPACECRAFT, 2, kept, 0) == PONDRESZI_DONE);
    CHECK(pondreszi_channels_check(SPACECRAFT, 2, kept, PONDRESZI_RECORD_OCTETS - 1) == PONDRESZI_SETTING);
    CHECK(pondreszi_channels_check(SPACECRAFT, 0, kept, PONDRESZI_RECORD_OCTETS) == PONDRESZI_SETTING);
    CHECK(pondreszi_channels_restore(&restored, SPACECRAFT, 2, kept, PONDRESZI_RECORD_OCTETS) == PONDRESZI_DONE);
    CHECK(restored.records == 1 && restored.spacecraft == SPACECRAFT && restored.pool == 2);
    CHECK(memcmp(restored.table, channels.table, PONDRESZI_RECORD_OCTETS) == 0);
    kept[PONDRESZI_RECORD_HELD] = 3; /* more than the pool has */
    CHECK(pondreszi_channels_restore(&restored, SPACECRAFT, 2, kept, PONDRESZI_RECORD_OCTETS) == PONDRESZI_SETTING);
    CHECK(pondreszi_record_held(restored.table) == 1);

    CHECK(pondreszi_channels_on_release(&channels, 10) == PONDRESZI_ADDRESS && channels.last.event == PONDRESZI_FARM_NONE);
    CHECK(pondreszi_channels_on_release(&channels, CHANNEL) == PONDRESZI_DONE);
    CHECK(channels.last.event == PONDRESZI_FARM_E10 && channels.last.channel == CHANNEL);
    CHECK(pondreszi_record_held(channels.table) == 0);
    CHECK(pondreszi_channels_on_release(&channels, CHANNEL) == PONDRESZI_RELEASE);
    for (i = 0; i < PONDRESZI_LARGEST_RECORDS - 1; i++) {
        CHECK(pondreszi_channels_add(&channels, 20 + i, 8, 5) == PONDRESZI_DONE);
    }
    CHECK(pondreszi_channels_add(&channels, 30, 8, 5) == PONDRESZI_ROOM && channels.records == PONDRESZI_LARGEST_RECORDS);
    CHECK(pondreszi_channels_record(&channels, 20) == channels.table + PONDRESZI_RECORD_OCTETS);
    CHECK(pondreszi_record_state(pondreszi_channels_record(&channels, 26)) == PONDRESZI_FARM_OPEN);
}

static void check_lower_layer(void) {
    CHECK(pondreszi_accept_of(PONDRESZI_FRAME_NONE) == 0 && pondreszi_reject_of(PONDRESZI_FRAME_NONE) == 0);
    CHECK(pondreszi_accept_of(PONDRESZI_FRAME_AD) == PONDRESZI_AD_ACCEPT && pondreszi_reject_of(PONDRESZI_FRAME_AD) == PONDRESZI_AD_REJECT);
    CHECK(pondreszi_accept_of(PONDRESZI_FRAME_BD) == PONDRESZI_BD_ACCEPT && pondreszi_reject_of(PONDRESZI_FRAME_BD) == PONDRESZI_BD_REJECT);
    CHECK(pondreszi_accept_of(PONDRESZI_FRAME_UNLOCK) == PONDRESZI_BC_ACCEPT);
    CHECK(pondreszi_reject_of(PONDRESZI_FRAME_UNLOCK) == PONDRESZI_BC_REJECT);
    CHECK(pondreszi_accept_of(PONDRESZI_FRAME_SET_VR) == PONDRESZI_BC_ACCEPT);
    CHECK(pondreszi_reject_of(PONDRESZI_FRAME_SET_VR) == PONDRESZI_BC_REJECT);
    CHECK(pondreszi_accept_of(5) == 0 && pondreszi_reject_of(5) == 0);
}

#define OF_OCTET(name) \
    static const char *name(uint32_t number) { return pondreszi_##name((uint8_t)number); }
OF_OCTET(refusal_text)
OF_OCTET(frame_kind_text)
OF_OCTET(unit_text)
OF_OCTET(farm_state_text)
OF_OCTET(farm_event_text)
OF_OCTET(fop_state_text)
OF_OCTET(fop_event_text)
OF_OCTET(alert_text)
OF_OCTET(response_text)

/* A text of each number with a meaning, no two the same, and "unknown" for each other up to 255. */
typedef const char *(*text_function)(uint32_t);

static int is_told(text_function text, uint32_t first, uint32_t last) {
    uint32_t number, other;
    for (number = 0; number < 256; number++) {
        int known = (number >= first && number <= last) || (text == fop_event_text && number >= 101 && number <= 104);
        if (known != (strcmp(text(number), "unknown") != 0) || text(number)[0] == '\0') {
            return 0;
        }
        for (other = 0; known && other < number; other++) {
            if (strcmp(text(number), text(other)) == 0) {
                return 0;
            }
        }
    }
    return 1;
}

static int begins(const char *text, char letter, unsigned number) {
    char front[8];
    snprintf(front, sizeof front, "%c%u:", letter, number);
    return strncmp(text, front, strlen(front)) == 0;
}

/* Texts of events and states begin with their number. */
static int are_numbered(text_function text, char letter, unsigned first, unsigned last) {
    while (first <= last && begins(text(first), letter, first)) {
        first++;
    }
    return first > last;
}

static void check_texts(void) {
    CHECK(is_told(refusal_text, PONDRESZI_DONE, PONDRESZI_RELEASE));
    CHECK(is_told(frame_kind_text, PONDRESZI_FRAME_NONE, PONDRESZI_FRAME_SET_VR));
    CHECK(is_told(unit_text, PONDRESZI_UNIT_NONE, PONDRESZI_UNIT_BD));
    CHECK(is_told(farm_state_text, PONDRESZI_FARM_OPEN, PONDRESZI_FARM_LOCKOUT));
    CHECK(is_told(farm_event_text, PONDRESZI_FARM_NONE, PONDRESZI_FARM_E10));
    CHECK(is_told(fop_state_text, PONDRESZI_FOP_ACTIVE, PONDRESZI_FOP_INITIAL));
    CHECK(is_told(fop_event_text, 0, 46));
    CHECK(is_told(alert_text, PONDRESZI_ALERT_NONE, PONDRESZI_ALERT_LLIF));
    CHECK(is_told(response_text, PONDRESZI_RESPONSE_NONE, PONDRESZI_RESPONSE_DENY_DIRECTIVE));
    CHECK(is_told(pondreszi_directive_text, PONDRESZI_INITIATE_WITHOUT_CHECK, PONDRESZI_SET_TIMEOUT_TYPE));
    CHECK(is_told(pondreszi_lower_layer_text, PONDRESZI_AD_ACCEPT, PONDRESZI_BD_REJECT));
    CHECK(are_numbered(fop_event_text, 'E', 1, 46));
    CHECK(are_numbered(fop_event_text, 'E', 101, 104));
    CHECK(are_numbered(farm_event_text, 'E', 1, 10));
    CHECK(are_numbered(fop_state_text, 'S', 1, 6));
    CHECK(strcmp(refusal_text(PONDRESZI_CHECK), "check: the FECF differs") == 0);
    CHECK(strcmp(alert_text(PONDRESZI_ALERT_T1), "T1: the timer expired") == 0);
    CHECK(strcmp(pondreszi_directive_text(PONDRESZI_SET_K), "Set K") == 0);
    CHECK(strcmp(pondreszi_lower_layer_text(PONDRESZI_BC_REJECT), "BC_Reject") == 0);
    CHECK(strcmp(pondreszi_directive_text(256 + PONDRESZI_SET_K), "unknown") == 0);
    CHECK(strcmp(pondreszi_lower_layer_text(256 + PONDRESZI_BC_REJECT), "unknown") == 0);
}

int main(void) {
    check_ends();
    check_channels();
    check_answer_fields();
    check_sender_fields();
    check_receiver_fields();
    check_record_fields();
    check_lower_layer();
    check_texts();
    printf("%lu checks, %lu failed\n", checks, failures);
    return failures == 0 ? 0 : 1;
}
