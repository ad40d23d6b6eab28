/*
 * Pondreszi: the telecommand link of ECSS-E-ST-50-04C, proved.
 *
 * The uplink unit sends with FOP-1, the receiver on board takes with FARM-1. Between them go transfer frames in CLTUs upwards and
 * control words (CLCW) downwards:
 *
 *   unit -> sender_* -> frame -> cltu_write -> radio -> cltu_read -> receiver_frame -> unit
 *                ^                                                        |
 *                +---------------- control word <---- receiver_word ------+
 *
 * Every name begins with pondreszi_ or PONDRESZI_; the drawing leaves it out.
 *
 * Every function here is proved: for any octets it gives exactly the answer that the standard's tables 7-8 and 7-9 and document 01
 * define, or one of document 01's refusals.
 *
 * Rules for all functions
 *
 *   - The library keeps nothing between calls and allocates nothing. All memory is lent by the caller for the call.
 *   - Octets cross as a pointer and a length. No pointer may be null. A length of 0 takes any pointer that is not null. Lengths and
 *     counts have 64 bits on every target, also where size_t has fewer.
 *   - Buffers and numbers lent to one call must not overlap.
 *   - Numbers cross as 32 bits, so that none is cut on the way: a value outside its limit is refused with 12, however large, and on
 *     reading an own address beyond its limits matches no frame or word (7). Only the place of pondreszi_randomizer_octet has 64 bits.
 *   - The number returned is 0 for done, otherwise a refusal (enum pondreszi_refusal). Only pondreszi_codeblock_error_control,
 *     pondreszi_randomizer_octet and pondreszi_fecf refuse nothing: they return what they compute.
 *   - A refusal changes no octet of any buffer of data (states, frames, units, store, output). The numbers that a function tells through
 *     pointers are always written, and are 0 where they mean nothing. The answer of a sender's event is written where the event was
 *     judged, refused or not.
 *   - A write touches only the octets that it needs, at the front of the output.
 *   - Sequence numbers are counted modulo 256, the FARM-B counter modulo 4.
 *
 * The states of sender and receiver are octets that the caller keeps, so that a unit can store them and go on after a reset; so is the
 * table of several channels. Whatever octets come back, nothing breaks: those that are no state are refused with 12, and nothing changes.
 * Octets that are one are taken as they are, so keep a state whole, and the sender's state together with its store. A sender's octets
 * of the former layout (88 octets, 1 in octet 1) are refused with 12: the store that was kept with them has another stride.
 *
 * This header is C89 but for <stdint.h>. pondreszi_inline.h has, for C99 and C++, structs that carry what a call is lent, fields by name and
 * texts.
 *
 * Platforms: tools/library builds the library for x86-64 with Linux, and that build is what is compared and tested. tools/cross builds it for
 * aarch64, riscv64 and Cortex-M4 from the same module; what these builds are not covered by: docs/AUDIT.md, 1.3. The library needs no
 * operating system, keeps no variables, and calls memcpy, memmove and memset of its host.
 */
#ifndef PONDRESZI_H
#define PONDRESZI_H

#include <stddef.h>
#include <stdint.h>

#ifdef __cplusplus
extern "C" {
#endif

/* The version of this header, and of the Rust crate. ----------------------------------------------------------------------------- */

#define PONDRESZI_VERSION_MAJOR 0
#define PONDRESZI_VERSION_MINOR 1
#define PONDRESZI_VERSION_PATCH 0

/* One number, to be compared with that of another version. */
#define PONDRESZI_VERSION (PONDRESZI_VERSION_MAJOR * 10000 + PONDRESZI_VERSION_MINOR * 100 + PONDRESZI_VERSION_PATCH)

/* Limits (document 01; frames, units and K: document 02, order 7; records and pool: order 8; Timeout_Type: order 9). ------------ */

#define PONDRESZI_SMALLEST_FRAME 8 /* octets of a transfer frame, with its FECF */
#define PONDRESZI_LARGEST_FRAME 1024
#define PONDRESZI_SMALLEST_UNIT 1 /* octets of a unit (FDU) */
#define PONDRESZI_LARGEST_UNIT 1017
#define PONDRESZI_FRAME_HEADER_OCTETS 5 /* the data field begins behind them */
#define PONDRESZI_LARGEST_FILL 6        /* octets that may follow a frame out of a CLTU */

#define PONDRESZI_SMALLEST_CLTU 26  /* octets of the CLTU of a frame of 8 octets */
#define PONDRESZI_LARGEST_CLTU 1186 /* and of a frame of 1,024 */
#define PONDRESZI_LARGEST_CLTU_INPUT 4096
#define PONDRESZI_LARGEST_DECODED_FRAME 1029 /* what one frame's CLTU gives at the most: 1,024 octets and fill */
#define PONDRESZI_LARGEST_DECODED 3570       /* what any input gives at the most */

/* The octets of the CLTU of a frame of n octets: start sequence, codeblocks of seven octets and their error control, tail. */
#define PONDRESZI_CLTU_OCTETS(n) (2 + 8 * (((n) + 6) / 7) + 8)

#define PONDRESZI_CODEBLOCK_INFORMATION_OCTETS 7
#define PONDRESZI_CODEBLOCK_OCTETS 8

#define PONDRESZI_CLCW_OCTETS 4

#define PONDRESZI_LARGEST_SPACECRAFT 1023
#define PONDRESZI_LARGEST_CHANNEL 63
#define PONDRESZI_LARGEST_COUNTER 3 /* FARM-B counter */
#define PONDRESZI_LARGEST_NUMBER 255 /* N(S), V(S), NN(R), V(R), report value */

#define PONDRESZI_SMALLEST_WINDOW 2 /* FARM_Sliding_Window_Width W: even; PW = NW = W / 2 */
#define PONDRESZI_LARGEST_WINDOW 254
#define PONDRESZI_SMALLEST_BUFFERS 1 /* receiver buffers for AD units */
#define PONDRESZI_LARGEST_BUFFERS 8
#define PONDRESZI_LARGEST_RECORDS 8 /* channels of a receiver of several, a record each */
#define PONDRESZI_SMALLEST_POOL 1   /* buffers for AD units that several channels share */
#define PONDRESZI_LARGEST_POOL 16

#define PONDRESZI_SMALLEST_K 1 /* FOP_Sliding_Window_Width K: at most PW of the receiver, or it may lock out */
#define PONDRESZI_LARGEST_K 127
#define PONDRESZI_SMALLEST_T1 1 /* T1_Initial, in ticks */
#define PONDRESZI_LARGEST_T1 65535
#define PONDRESZI_SMALLEST_TRANSMISSION_LIMIT 1
#define PONDRESZI_LARGEST_TRANSMISSION_LIMIT 255
#define PONDRESZI_LARGEST_TIMEOUT_TYPE 1
#define PONDRESZI_LARGEST_SUSPEND_STATE 4

/*
 * The octets that the sender's store must have: places for K units sent and one waiting, each of the largest length. Where K was set
 * below the units on the sent queue, places for these and one waiting. Keep nothing else in them.
 */
#define PONDRESZI_STORE_OCTETS(k) (((size_t)(k) + 1) * PONDRESZI_LARGEST_UNIT)
#define PONDRESZI_STORE_NEED(k, sent) PONDRESZI_STORE_OCTETS((size_t)(k) > (size_t)(sent) ? (size_t)(k) : (size_t)(sent))
#define PONDRESZI_LARGEST_STORE PONDRESZI_STORE_OCTETS(PONDRESZI_LARGEST_K) /* 130,176: enough for any K */

#define PONDRESZI_SENDER_STATE_OCTETS 278
#define PONDRESZI_ANSWER_OCTETS 18
#define PONDRESZI_RECEIVER_STATE_OCTETS 12
#define PONDRESZI_RECORD_OCTETS 9 /* of one of several channels; a table has as many octets as its records */

/* Refusals (document 01). -------------------------------------------------------------------------------------------------------- */

enum pondreszi_refusal {
    PONDRESZI_DONE = 0,
    PONDRESZI_NO_START = 1, /* no start sequence in the input, not even with one wrong bit */
    PONDRESZI_NO_BLOCK = 2, /* the first codeblock is bad, or the one that is judged */
    PONDRESZI_NO_END = 3,   /* the input ends before a bad codeblock, and no 2 */
    PONDRESZI_SHORT = 4,    /* frame below 8 octets, or fewer lent than its header says */
    PONDRESZI_FILL = 5,     /* more than 6 octets after the frame */
    PONDRESZI_HEADER = 6,   /* version or spare not zero, type (0,1), or a type-B frame's sequence octet not zero */
    PONDRESZI_ADDRESS = 7,  /* spacecraft or virtual channel is not ours (frame, CLCW, or a channel that is named) */
    PONDRESZI_CHECK = 8,    /* the FECF differs */
    PONDRESZI_COMMAND = 9,  /* BC data is neither command */
    PONDRESZI_LENGTH = 10,  /* empty unit, a length below or above its limit, or a CLCW not of four octets; never of a frame read */
    PONDRESZI_ROOM = 11,    /* a lent buffer is shorter than the exact need */
    PONDRESZI_SETTING = 12, /* a value outside its limit, an unknown directive, or octets that are no state or no table */
    PONDRESZI_RELEASE = 13  /* a buffer release when none is taken */
};

/* Channel coding (clause 8). ----------------------------------------------------------------------------------------------------- */

/*
 * The error control octet of a codeblock: seven parity bits, each complemented, and the filler bit zero. A codeblock has seven octets of
 * information; for any other count the answer is the parity of those octets.
 */
uint8_t pondreszi_codeblock_error_control(const uint8_t *information, uint64_t information_len);

/* The mode in which codeblocks are judged (clause 8.8). Any other number is refused with 12. */
enum pondreszi_mode {
    PONDRESZI_DETECTING = 0, /* a codeblock with a wrong bit is bad */
    PONDRESZI_CORRECTING = 1 /* one wrong bit among its first 63 is corrected, a parity bit too; two of its 64 are bad */
};

/*
 * Judges eight octets as a codeblock: good where the last is the error control octet of the first seven, corrected where it is so with one
 * of the first 63 bits inverted and the mode corrects, else bad. A filler bit of one is bad in both modes. The information of a good or
 * corrected codeblock, seven octets, goes to the front of information; corrected tells 0 for good and 1 for corrected.
 * Refusals: 10 not eight octets, 12 mode, 2 the codeblock is bad, 11 information too short.
 */
uint8_t pondreszi_codeblock_judge(const uint8_t *block, uint64_t block_len, uint32_t mode, uint8_t *information, uint64_t information_len,
                                  uint8_t *corrected);

/* The octet of the random sequence at a place, 0 for the first: FF 39 9E 5A 68 ... */
uint8_t pondreszi_randomizer_octet(uint64_t place);

/*
 * Writes the CLTU of a frame of 8 to 1,024 octets: PONDRESZI_CLTU_OCTETS(frame_len) octets, told in count.
 * Refusals: 10 frame length, 11 output too short.
 */
uint8_t pondreszi_cltu_write(const uint8_t *frame, uint64_t frame_len, uint8_t *output, uint64_t output_len, uint64_t *count);

/*
 * Reads the first CLTU in up to 4,096 octets, hunting for its start sequence at octet boundaries: the first place that differs from EB 90 in
 * at most one bit counts. The decoded octets, fill included, go to the front of the output: count of them. They can be handed to
 * pondreszi_frame_read or pondreszi_receiver_frame as they are.
 *
 * place: where reading ended. Done: the offset of the codeblock that ended it (the tail); go on behind it for the next CLTU. Refusal 1:
 * the input's length; 2: the offset of the bad codeblock; 3: the offset where the next codeblock would begin. Otherwise 0.
 * mode: PONDRESZI_DETECTING or PONDRESZI_CORRECTING. 2, 3, 11 and the place follow it. No mode is better in every way: a wrong bit that
 * ends a CLTU early when detecting is mended when correcting, but so is noise behind a lost tail, and a reading that was done may become 3.
 * corrected: the count of corrected codeblocks, 0 by a refusal.
 *
 * An earlier near match hides a later exact one: EA 90 before a whole CLTU can be refusal 2 at place 2. 4,096 octets of noise hold about
 * one near match, so refusal 2 is the usual answer to noise: call again with the octets from place on. Of eight octets of noise behind a
 * near match about one in 256 passes as a codeblock when detecting, one in four when correcting, and reading goes on.
 * Refusals: 10 input over 4,096 octets, 12 mode, 1, 2, 3, 11 output too short.
 */
uint8_t pondreszi_cltu_read(const uint8_t *input, uint64_t input_len, uint32_t mode, uint8_t *output, uint64_t output_len, uint64_t *count,
                            uint64_t *place, uint64_t *corrected);

/* Transfer frames (clauses 6.2 and 6.4 to 6.8). ---------------------------------------------------------------------------------- */

/* The frame error control field of the octets before it. */
uint16_t pondreszi_fecf(const uint8_t *message, uint64_t len);

/*
 * Write a frame; count tells its octets, 7 more than the data field's. The sender writes its own frames: these are for tests, and for
 * units without FOP-1. Refusals: 10 unit length, 12 spacecraft, channel, number or value, 11 output too short.
 */
uint8_t pondreszi_frame_write_ad(uint32_t spacecraft, uint32_t channel, uint32_t number, const uint8_t *unit, uint64_t unit_len,
                                 uint8_t *output, uint64_t output_len, uint64_t *count);
uint8_t pondreszi_frame_write_bd(uint32_t spacecraft, uint32_t channel, const uint8_t *unit, uint64_t unit_len, uint8_t *output,
                                 uint64_t output_len, uint64_t *count);
uint8_t pondreszi_frame_write_unlock(uint32_t spacecraft, uint32_t channel, uint8_t *output, uint64_t output_len, uint64_t *count);
uint8_t pondreszi_frame_write_set_vr(uint32_t spacecraft, uint32_t channel, uint32_t value, uint8_t *output, uint64_t output_len,
                                     uint64_t *count);

/* The kind of a frame that was read, or that the sender hands down (octet 17 of its answer). */
enum pondreszi_frame_kind {
    PONDRESZI_FRAME_NONE = 0,
    PONDRESZI_FRAME_AD = 1,
    PONDRESZI_FRAME_BD = 2,
    PONDRESZI_FRAME_UNLOCK = 3, /* type BC, as Set V(R) */
    PONDRESZI_FRAME_SET_VR = 4
};

/*
 * Reads a frame, with up to 6 octets of fill behind it.
 *
 * kind: enum pondreszi_frame_kind. value: N(S) of an AD frame, the value of Set V(R), otherwise 0. total: the octets of the frame.
 * field: the octets of its data field, which is octets[5 .. 5 + field]. All are 0 after a refusal.
 * Refusals, in this order: 4, 5, 8, 6, 7, 9. Document 01 has 10 behind the first 4, where the header says too many octets; since the limit
 * is 1,024, which is all that its ten bits can say, reading a frame never answers 10.
 *
 * Document 01 said of the sequence octet, octets[4]: "Type-B frames are written with N(S) zero; on reading it isn't looked at." Document
 * 02, order 10, amends this: "A type-B frame whose sequence octet isn't zero is now refusal 6, judged where 6 was judged, and so event
 * E9." The types B are BD and BC, those with the Bypass Flag set. An AD frame may have any.
 */
uint8_t pondreszi_frame_read(const uint8_t *octets, uint64_t len, uint32_t spacecraft, uint32_t channel, uint8_t *kind, uint8_t *value,
                             uint16_t *total, uint16_t *field);

/* Control words (clause 6.3). ---------------------------------------------------------------------------------------------------- */

/* The three flags, as pondreszi_clcw_read tells them and as octet 10 of the receiver's state holds them. */
enum pondreszi_flag {
    PONDRESZI_FLAG_RETRANSMIT = 1,
    PONDRESZI_FLAG_WAIT = 2,
    PONDRESZI_FLAG_LOCKOUT = 4
};

/* What pondreszi_clcw_read tells of the radio. */
enum pondreszi_rf {
    PONDRESZI_RF_NO_BIT_LOCK = 1,
    PONDRESZI_RF_NO_RF = 2
};

/*
 * Writes a control word of four octets. A flag is set where its number is not 0. counter: FARM-B, 0 to 3; report: V(R), 0 to 255.
 * The receiver writes its own words (pondreszi_receiver_word). Refusals: 12 channel, counter or report, 11 output too short.
 */
uint8_t pondreszi_clcw_write(uint32_t channel, uint32_t lockout, uint32_t wait, uint32_t retransmit, uint32_t counter, uint32_t report,
                             uint8_t *output, uint64_t output_len, uint64_t *count);

/*
 * Reads a control word. valid: 1, or 0 where the four octets are no valid COP-1 word, which is no refusal (then all else is 0).
 * status: 0 to 7; rf: enum pondreszi_rf, added; flags: enum pondreszi_flag, added.
 * Refusals: 10 not four octets, 7 another channel's word.
 */
uint8_t pondreszi_clcw_read(const uint8_t *octets, uint64_t len, uint32_t channel, uint8_t *valid, uint8_t *status, uint8_t *rf,
                            uint8_t *flags, uint8_t *counter, uint8_t *report);

/* The receiver: FARM-1 (table 7-9). ---------------------------------------------------------------------------------------------- */

/*
 * Its state, 12 octets. Read them, but let only the functions below write them.
 *
 *   0 52 hex                        5 channel            9 V(R)
 *   1 layout, 1                     6 W                  10 flags (enum pondreszi_flag, added)
 *   2 enum pondreszi_farm_state     7 buffers            11 FARM-B counter
 *   3-4 spacecraft, high octet first  8 buffers taken
 *
 * Every call but pondreszi_receiver_new wants exactly 12 octets of a state, otherwise 12.
 */
enum pondreszi_receiver_octet {
    PONDRESZI_RECEIVER_STATE = 2,
    PONDRESZI_RECEIVER_SPACECRAFT = 3,
    PONDRESZI_RECEIVER_CHANNEL = 5,
    PONDRESZI_RECEIVER_WINDOW = 6,
    PONDRESZI_RECEIVER_BUFFERS = 7,
    PONDRESZI_RECEIVER_TAKEN = 8,
    PONDRESZI_RECEIVER_VR = 9,
    PONDRESZI_RECEIVER_FLAGS = 10,
    PONDRESZI_RECEIVER_COUNTER = 11
};

enum pondreszi_farm_state {
    PONDRESZI_FARM_OPEN = 1,
    PONDRESZI_FARM_WAIT = 2,   /* all buffers are taken (of several channels: were), and a frame had to be discarded */
    PONDRESZI_FARM_LOCKOUT = 3 /* a frame far from the expected number came; only Unlock opens */
};

/* The events of table 7-9 that the functions tell. */
enum pondreszi_farm_event {
    PONDRESZI_FARM_NONE = 0,
    PONDRESZI_FARM_E1 = 1,  /* AD frame, the expected one, with a free buffer: accepted in Open */
    PONDRESZI_FARM_E2 = 2,  /* AD frame, the expected one, no free buffer, or in Wait */
    PONDRESZI_FARM_E3 = 3,  /* AD frame ahead of the expected one: one was lost */
    PONDRESZI_FARM_E4 = 4,  /* AD frame behind: it came before */
    PONDRESZI_FARM_E5 = 5,  /* AD frame outside both windows: lockout */
    PONDRESZI_FARM_E6 = 6,  /* BD frame: accepted in every state */
    PONDRESZI_FARM_E7 = 7,  /* Unlock */
    PONDRESZI_FARM_E8 = 8,  /* Set V(R) */
    PONDRESZI_FARM_E9 = 9,  /* a frame that is refused: discarded */
    PONDRESZI_FARM_E10 = 10 /* buffer release signal */
};

/* The unit that a frame brought. */
enum pondreszi_unit {
    PONDRESZI_UNIT_NONE = 0,
    PONDRESZI_UNIT_AD = 1, /* the next in sequence; it holds a buffer until its release */
    PONDRESZI_UNIT_BD = 2  /* out of sequence, in a buffer of its own that the next one overwrites */
};

/*
 * A receiver at its start: Open, no flags, no buffer taken. The state's first 12 octets are written.
 * Refusals: 12 a value outside its limit, 11 the state's buffer is shorter than 12 octets.
 */
uint8_t pondreszi_receiver_new(uint32_t spacecraft, uint32_t channel, uint32_t window, uint32_t vr, uint32_t buffers, uint8_t *state,
                               uint64_t state_len);

/*
 * A frame arrives, as pondreszi_cltu_read gives it. The unit accepted, if any, is frame[first .. first + count], a part of the caller's
 * frame and no copy. AD units are accepted in order, none twice: apply them in the order of acceptance.
 * Returns the frame's refusal, which is event 9 and no fault of the caller; 12 where the octets are no state (event, unit, first and
 * count are then 0 and nothing changes).
 */
uint8_t pondreszi_receiver_frame(uint8_t *state, uint64_t state_len, const uint8_t *frame, uint64_t frame_len, uint8_t *event,
                                 uint8_t *unit, uint64_t *first, uint64_t *count);

/* The application is done with an AD unit: its buffer is free again, event 10. Refusals: 13 none is taken, 12 no state. */
uint8_t pondreszi_receiver_release(uint8_t *state, uint64_t state_len, uint8_t *event);

/* The control word to send down, four octets. Refusals: 12 no state, 11 output too short. */
uint8_t pondreszi_receiver_word(const uint8_t *state, uint64_t state_len, uint8_t *output, uint64_t output_len, uint64_t *count);

/* Several channels: one receiver of up to eight (document 02, order 8). ---------------------------------------------------------- */

/*
 * Each channel has a record, with its own window, V(R), flags and counter. All share a pool of buffers for AD units, 1 to 16, of which none
 * is kept for one channel. The records stand in a table, one behind the other in any order. It is the caller's, to be kept over a
 * reset. Spacecraft and pool come with each call: give the same ones each time.
 *
 * A record, 9 octets. Read them, but let only the functions below write them.
 *
 *   0 43 hex                      3 channel                     6 V(R)
 *   1 layout, 1                   4 W                           7 flags (enum pondreszi_flag, added)
 *   2 enum pondreszi_farm_state   5 buffers of the pool held    8 FARM-B counter
 *
 * The three functions that take a table judge it first. Refused with 12, which is no event: octets that are not whole records, or one of
 * them none that a receiver has; more than eight; two for one channel; more buffers held by all than the pool has; a pool or a spacecraft
 * outside its limits. A table of no octets is one: a receiver without channels.
 *
 * 7 means a channel that has no record: of a frame, which may be another spacecraft's too, of a release, or of a control word asked for.
 * A channel above 63 is 7, not 12.
 *
 * An event changes no octet but of its own channel's record, and a refusal none at all.
 *
 * Wait with a free buffer: a channel begins to wait where no buffer is free (E2). The release of another channel's buffer does not open
 * it: it discards AD frames still, the expected one as E2. So after every release name each channel whose record says Wait and holds no
 * buffer, in a release of its own: it is E10, opens the channel, and the pool stays as it was. A channel that waits and holds buffers
 * opens with its own next release: name it only when one of its units is done with, since this gives its buffer back.
 */
enum pondreszi_record_octet {
    PONDRESZI_RECORD_STATE = 2,
    PONDRESZI_RECORD_CHANNEL = 3,
    PONDRESZI_RECORD_WINDOW = 4,
    PONDRESZI_RECORD_HELD = 5,
    PONDRESZI_RECORD_VR = 6,
    PONDRESZI_RECORD_FLAGS = 7,
    PONDRESZI_RECORD_COUNTER = 8
};

/*
 * The record of a channel at its start: Open, no flags, counter 0, no buffer held. The first 9 octets are written: lend those of the table
 * from the record's place on.
 * Refusals: 12 channel, window or V(R) outside its limit, 11 fewer than 9 octets.
 */
uint8_t pondreszi_channel_new(uint32_t channel, uint32_t window, uint32_t vr, uint8_t *octets, uint64_t octets_len);

/*
 * A frame arrives, as at pondreszi_receiver_frame, for any of the channels. channel tells the one whose event it is, where the answer
 * is 0: channel 0 is one too. The unit accepted, if any, is frame[first .. first + count].
 * Returns the frame's refusal, judged as by pondreszi_frame_read: event 9, of no channel, and channel, unit, first and count are 0;
 * 12 where there is no table, and event is 0 too.
 */
uint8_t pondreszi_channels_frame(uint32_t spacecraft, uint32_t pool, uint8_t *table, uint64_t table_len, const uint8_t *frame,
                                 uint64_t frame_len, uint8_t *event, uint8_t *channel, uint8_t *unit, uint64_t *first, uint64_t *count);

/*
 * A release names a channel, event 10: the application is done with one of its AD units, whose buffer is free again. For a channel in Wait
 * that holds none it gives nothing back, and wants a free buffer in the pool. Either opens a channel in Wait.
 * Refusals, with event 0: 12 no table, 7 no such channel, 13 it holds none, unless it is in Wait and a buffer is free.
 */
uint8_t pondreszi_channels_release(uint32_t spacecraft, uint32_t pool, uint8_t *table, uint64_t table_len, uint32_t channel,
                                   uint8_t *event);

/*
 * The control word of a channel to send down, four octets, told in count. The table stays as it is.
 * Refusals, with a count of 0: 12 no table, 7 no such channel, 11 output too short.
 */
uint8_t pondreszi_channels_word(uint32_t spacecraft, uint32_t pool, const uint8_t *table, uint64_t table_len, uint32_t channel,
                                uint8_t *output, uint64_t output_len, uint64_t *count);

/* The sender: FOP-1 (table 7-8). ------------------------------------------------------------------------------------------------- */

/*
 * Its state, 278 octets; numbers of two octets have the high octet first. Read them, but let only the functions below write them.
 *
 *   0 53 hex                     8-9 spacecraft           16 enum pondreszi_sender_flag, added
 *   1 layout, 2                  10 channel               17 Suspend_State: 0 not suspended, 1 to 4 the state left
 *   2 enum pondreszi_fop_state   11 V(S)                  18 units on the sent queue
 *   3 K                          12 NN(R)                 19 of these to be sent again, always the last ones
 *   4-5 T1_Initial               13-14 timer, ticks left, 20 type-BC frame on the sent queue: 0 none, 1 Unlock, 2 Set V(R)
 *   6 Transmission_Limit               0 stopped          21 the value of Set V(R)
 *   7 Timeout_Type               15 Transmission_Count    22-277 the lengths of the 128 places of the store, two octets each
 *
 * Every call but pondreszi_sender_new wants exactly 278 octets of a state, otherwise 12. Octets of the former layout, with 1 in octet 1,
 * are refused with 12 too, since their store has another stride. The length of a place that holds no unit is left from before, so two
 * states can mean the same and differ in octets 22 to 277: compare what they mean, not their octets.
 *
 * A suspended sender is Initial (S6) with a Suspend_State of 1 to 4. Its octets are a state as any others. No state, and refused with 12:
 * a Suspend_State above 4, or not 0 outside S6, or 4 with a unit on the sent queue or waiting; in S6 a running timer, or units while not
 * suspended.
 *
 * The store holds the units at a stride of 1,017 octets from its first octet on: those on the sent queue, the oldest first, and directly
 * behind them the unit that waits. It is part of the state: its octets are to be the same at the next call, and are kept with the state's
 * over a reset.
 *
 * How long it must be follows from the state before the event: PONDRESZI_STORE_NEED(state[PONDRESZI_SENDER_K],
 * state[PONDRESZI_SENDER_SENT]) octets; a shorter one is 11. No event reads or writes behind that need, whatever is lent, and no event
 * but Set K raises it. So octets behind it need not be kept; and where K is below the units on the sent queue the need falls as these
 * are confirmed, and a host may lend less at a later event.
 *
 * Set K is judged by the new K, or by the units on the sent queue if these are more, and not by the old K. Upwards: lend a longer store
 * that begins with the same octets; where it is too short, 11, and K stays. Downwards: a store for the new K and for the units on the
 * sent queue is enough.
 */
enum pondreszi_sender_octet {
    PONDRESZI_SENDER_STATE = 2,
    PONDRESZI_SENDER_K = 3,
    PONDRESZI_SENDER_T1_INITIAL = 4,
    PONDRESZI_SENDER_TRANSMISSION_LIMIT = 6,
    PONDRESZI_SENDER_TIMEOUT_TYPE = 7,
    PONDRESZI_SENDER_SPACECRAFT = 8,
    PONDRESZI_SENDER_CHANNEL = 10,
    PONDRESZI_SENDER_VS = 11,
    PONDRESZI_SENDER_NNR = 12,
    PONDRESZI_SENDER_TIMER = 13,
    PONDRESZI_SENDER_TRANSMISSION_COUNT = 15,
    PONDRESZI_SENDER_FLAGS = 16,
    PONDRESZI_SENDER_SUSPEND_STATE = 17,
    PONDRESZI_SENDER_SENT = 18,
    PONDRESZI_SENDER_MARKED = 19,
    PONDRESZI_SENDER_BC_FRAME = 20,
    PONDRESZI_SENDER_BC_VALUE = 21,
    PONDRESZI_SENDER_LENGTHS = 22
};

enum pondreszi_fop_state {
    PONDRESZI_FOP_ACTIVE = 1,                  /* S1 */
    PONDRESZI_FOP_RETRANSMIT_WITHOUT_WAIT = 2, /* S2 */
    PONDRESZI_FOP_RETRANSMIT_WITH_WAIT = 3,    /* S3 */
    PONDRESZI_FOP_INITIALISING_WITHOUT_BC = 4, /* S4: a control word is awaited */
    PONDRESZI_FOP_INITIALISING_WITH_BC = 5,    /* S5: Unlock or Set V(R) was sent */
    PONDRESZI_FOP_INITIAL = 6                  /* S6: no AD service; after a start, an alert or Terminate, or suspended */
};

/*
 * Timeout_Type: what an expiry of the timer does at the transmission limit, and while a control word is awaited (S4) at any count. Below
 * the limit units, or the type-BC frame, are sent again, but in S3. With a type-BC frame (S5) it is the alert at the limit with both.
 */
enum pondreszi_timeout_type {
    PONDRESZI_TIMEOUT_ALERT = 0,  /* PONDRESZI_ALERT_T1 ends the AD service */
    PONDRESZI_TIMEOUT_SUSPEND = 1 /* the AD service is suspended until PONDRESZI_RESUME */
};

enum pondreszi_sender_flag {
    PONDRESZI_SENDER_AD_OUT_READY = 1,
    PONDRESZI_SENDER_BC_OUT_READY = 2,
    PONDRESZI_SENDER_BD_OUT_READY = 4,
    PONDRESZI_SENDER_UNIT_WAITS = 8,
    PONDRESZI_SENDER_BC_MARKED = 16 /* the type-BC frame is to be sent again */
};

/*
 * The answer to an event, the first 18 octets of the answer's buffer.
 *
 *   0 refusal, as returned                                        7 suspended: 1 at the event that suspends
 *   1 event: the row of table 7-8, 1 to 46 or 101 to 104; 0 none  8 count of responses, 0 to 4
 *   2 state, enum pondreszi_fop_state                             9-12 responses in their order, then 0
 *   3-4 octets of the frame handed down, at the front of the      13 confirmed: number of the first unit, 14 their count
 *       output, high octet first; 0 where there is none           15 denied: number of the first unit, 16 their count
 *   5 abort: 1 where the lower layer is to drop AD and BC         17 kind of the frame handed down, enum pondreszi_frame_kind
 *     frames it still holds
 *   6 enum pondreszi_alert
 *
 * The kind tells which accept or reject of the lower layer answers the frame: that of AD, of BD, or of BC for Unlock and Set V(R).
 * A confirmed unit was accepted on board. Of a denied one this is not known, and its frame may still be under way: see
 * enum pondreszi_directive for what must be waited for before the service begins again.
 *
 * Octet 7 is the Suspend notification. From then to Resume the sender is Initial and keeps its units with their marks, the unit that
 * waits, V(S), NN(R) and Transmission_Count: no AD frame is handed down, no unit confirmed or denied, unless the lower layer rejects a
 * frame or an Initiate is accepted. AD units offered are rejected, control words are ignored and so lost, Terminate is accepted and changes
 * nothing. BD units are sent as ever.
 */
enum pondreszi_answer_octet {
    PONDRESZI_ANSWER_REFUSAL = 0,
    PONDRESZI_ANSWER_EVENT = 1,
    PONDRESZI_ANSWER_STATE = 2,
    PONDRESZI_ANSWER_FRAME = 3,
    PONDRESZI_ANSWER_ABORT = 5,
    PONDRESZI_ANSWER_ALERT = 6,
    PONDRESZI_ANSWER_SUSPENDED = 7,
    PONDRESZI_ANSWER_RESPONSES = 8,
    PONDRESZI_ANSWER_FIRST_RESPONSE = 9,
    PONDRESZI_ANSWER_CONFIRMED_FIRST = 13,
    PONDRESZI_ANSWER_CONFIRMED = 14,
    PONDRESZI_ANSWER_DENIED_FIRST = 15,
    PONDRESZI_ANSWER_DENIED = 16,
    PONDRESZI_ANSWER_KIND = 17
};

#define PONDRESZI_LARGEST_RESPONSES 4

/*
 * An alert ends the AD service: the units outstanding are denied, a unit that waits is rejected, the timer stops, and the sender is
 * Initial. PONDRESZI_ALERT_LLIF can come while suspended too, and the suspension stays, with no unit left: the numbers of the units denied
 * still count in the window, and Set V(S) is rejected. Then Resume and at once Terminate, and go on as after an alert; or Initiate with
 * Set V(R) (docs/OPERATIONS.md, "Suspension and Resume").
 */
enum pondreszi_alert {
    PONDRESZI_ALERT_NONE = 0,
    PONDRESZI_ALERT_SYNCH = 1,   /* report value and flags contradict the state */
    PONDRESZI_ALERT_CLCW = 2,    /* an invalid control word, or flags that cannot stand together */
    PONDRESZI_ALERT_LIMIT = 3,   /* at a transmission limit of 1, a control word asked for retransmission */
    PONDRESZI_ALERT_NNR = 4,     /* a report value that cannot be */
    PONDRESZI_ALERT_LOCKOUT = 5, /* the receiver is locked out */
    PONDRESZI_ALERT_T1 = 6,      /* the timer expired, see enum pondreszi_timeout_type */
    PONDRESZI_ALERT_TERM = 7,    /* Terminate was asked */
    PONDRESZI_ALERT_LLIF = 8     /* the lower layer rejected a frame */
};

/* An AD unit is accepted when it is first sent, which may be at a later event than its request. One event can answer several. */
enum pondreszi_response {
    PONDRESZI_RESPONSE_NONE = 0,
    PONDRESZI_RESPONSE_ACCEPT_AD = 1,         /* the unit got its number, V(S) before the event, and was handed down */
    PONDRESZI_RESPONSE_REJECT_AD = 2,         /* the unit was not taken, or was waiting and is dropped: offer it again later */
    PONDRESZI_RESPONSE_ACCEPT_BD = 3,         /* the lower layer took the BD frame */
    PONDRESZI_RESPONSE_REJECT_BD = 4,         /* BD_Out_Flag is Not_Ready */
    PONDRESZI_RESPONSE_ACCEPT_DIRECTIVE = 5,  /* begun */
    PONDRESZI_RESPONSE_REJECT_DIRECTIVE = 6,  /* not in this state, or invalid */
    PONDRESZI_RESPONSE_CONFIRM_DIRECTIVE = 7, /* done: positive confirm */
    PONDRESZI_RESPONSE_DENY_DIRECTIVE = 8     /* failed: negative confirm */
};

/*
 * The directives by number. A value that a directive has no use for is not looked at.
 *
 * Before a new sender begins, before SET_VS, before every INITIATE, and before a sender goes on from a state that was kept: no AD or BC
 * frame is under way any more, whoever handed it down; a control word has come in that was made after that; and V(S) is, or by SET_VS
 * becomes, its report value, or INITIATE_WITH_SET_VR is used. Otherwise an old unit can be on board under the number of a new one, and the
 * new one be confirmed. docs/OPERATIONS.md, "Before the service begins again", says why and how a ground station knows it.
 *
 * RESUME ends a suspension: the sender is in the state left again, with its units, marks, numbers and count, and the timer is started.
 * It hands no frame down. Where Transmission_Count stands at the limit the next expiry suspends again: SET_TRANSMISSION_LIMIT before RESUME,
 * if units are to be sent again. An INITIATE that is accepted ends a suspension too: the units are denied, the unit that waits is rejected.
 */
enum pondreszi_directive {
    PONDRESZI_INITIATE_WITHOUT_CHECK = 1,
    PONDRESZI_INITIATE_WITH_CLCW_CHECK = 2,
    PONDRESZI_INITIATE_WITH_UNLOCK = 3,
    PONDRESZI_INITIATE_WITH_SET_VR = 4, /* value 0 to 255 */
    PONDRESZI_TERMINATE = 5,               /* while suspended it changes nothing */
    PONDRESZI_RESUME = 6,                  /* rejected where nothing is suspended */
    PONDRESZI_SET_VS = 7,                  /* value 0 to 255; sets NN(R) too; in Initial only, and not while suspended */
    PONDRESZI_SET_K = 8,                   /* value 1 to 127; the store lent with it must do for the new K */
    PONDRESZI_SET_TIMER = 9,               /* T1_Initial: value 1 to 65,535 */
    PONDRESZI_SET_TRANSMISSION_LIMIT = 10, /* value 1 to 255 */
    PONDRESZI_SET_TIMEOUT_TYPE = 11        /* value 0 or 1, enum pondreszi_timeout_type */
};

/*
 * What the lower layer says to a frame handed down. Until its accept the out flag of that type is Not_Ready and no further frame of
 * the type comes. A reject is an alert and leaves the flag Not_Ready until the next accept.
 */
enum pondreszi_lower_layer {
    PONDRESZI_AD_ACCEPT = 1,
    PONDRESZI_AD_REJECT = 2,
    PONDRESZI_BC_ACCEPT = 3,
    PONDRESZI_BC_REJECT = 4,
    PONDRESZI_BD_ACCEPT = 5,
    PONDRESZI_BD_REJECT = 6
};

/*
 * A sender at its start: Initial, queues empty, flags Ready, timer stopped. The state's first 278 octets are written; of the store only
 * the length matters. V(S) will be the number of the first AD unit; give NN(R) the same. Initiate before the first AD unit.
 * Any two numbers are taken; where V(S) - NN(R) is K or more, AD units wait. timeout_type: enum pondreszi_timeout_type.
 * Refusals: 12 a value outside its limit; 11 store under PONDRESZI_STORE_OCTETS(k) octets, or state's buffer under 278.
 */
uint8_t pondreszi_sender_new(uint32_t k, uint32_t t1_initial, uint32_t transmission_limit, uint32_t timeout_type, uint32_t spacecraft,
                             uint32_t channel, uint32_t vs, uint32_t nnr, const uint8_t *store, uint64_t store_len, uint8_t *state,
                             uint64_t state_len);

/*
 * The events. All of them judge in the same way:
 *
 *   - 12 where the octets are no state, 11 where the answer's buffer is shorter than 18 octets: no buffer changes, the answer neither.
 *   - Then the event's refusal: 10 (unit length; word not of four octets), 12 (invalid directive), 7 (another channel's word), 11 (store
 *     under its need, see above, or output shorter than the frame to be handed down). State, store and output stay as they were; the answer
 *     is written, with the refusal and the state. A tick refused with 11 does not count.
 *   - Otherwise 0: state, store and answer are the next ones, and a frame handed down is at the front of the output. Lend
 *     PONDRESZI_LARGEST_FRAME octets of output and it is never short.
 *
 * A reject among the responses is the table's and no refusal, but for the invalid directive, which has both.
 */

/* A unit of 1 to 1,017 octets for the AD service: in sequence, sent again until confirmed. One unit can wait; a further is rejected. */
uint8_t pondreszi_sender_request_ad(uint8_t *state, uint64_t state_len, const uint8_t *unit, uint64_t unit_len, uint8_t *store,
                                    uint64_t store_len, uint8_t *output, uint64_t output_len, uint8_t *answer, uint64_t answer_len);

/* A unit of 1 to 1,017 octets for the BD service: sent once, in any state, never confirmed. */
uint8_t pondreszi_sender_request_bd(uint8_t *state, uint64_t state_len, const uint8_t *unit, uint64_t unit_len, uint8_t *store,
                                    uint64_t store_len, uint8_t *output, uint64_t output_len, uint8_t *answer, uint64_t answer_len);

/*
 * A directive by its number (enum pondreszi_directive) and value. Any other number, or a value outside its limit, is the invalid
 * directive: 12, and the answer has event 40 and the reject.
 */
uint8_t pondreszi_sender_directive(uint8_t *state, uint64_t state_len, uint32_t number, uint32_t value, uint8_t *store, uint64_t store_len,
                                   uint8_t *output, uint64_t output_len, uint8_t *answer, uint64_t answer_len);

/* A tick of the clock that T1 is counted in: a running timer falls by one, and the tick that makes it 0 is its expiry. */
uint8_t pondreszi_sender_tick(uint8_t *state, uint64_t state_len, uint8_t *store, uint64_t store_len, uint8_t *output, uint64_t output_len,
                              uint8_t *answer, uint64_t answer_len);

/* The lower layer's accept or reject (enum pondreszi_lower_layer). Any other number is 12, and no buffer changes, the answer neither. */
uint8_t pondreszi_sender_lower_layer(uint8_t *state, uint64_t state_len, uint32_t number, uint8_t *store, uint64_t store_len,
                                     uint8_t *output, uint64_t output_len, uint8_t *answer, uint64_t answer_len);

/* A control word from the receiver, any octets. Invalid ones are an event (15), since they end the AD service. */
uint8_t pondreszi_sender_control_word(uint8_t *state, uint64_t state_len, const uint8_t *word, uint64_t word_len, uint8_t *store,
                                      uint64_t store_len, uint8_t *output, uint64_t output_len, uint8_t *answer, uint64_t answer_len);

#ifdef __cplusplus
}
#endif

#endif
