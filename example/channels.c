/*
 * Two virtual channels at one receiver: certificates on one, schedules on the other, each with a sender of its own. They share a pool
 * of two buffers. The application on board is busy at first, so that certificates hold the whole pool and schedules have to wait. The
 * frames that are discarded are sent again by their senders. Ends with status 0 only where all units are on board in order and confirmed.
 *
 * What each event on board does is printed. It is the same each time, and example/run compares it with example/channels.txt. Nothing is
 * lost on the way: certificates.c shows losses and alerts.
 */
#include <stdint.h>
#include <stdio.h>
#include <stdlib.h>
#include <string.h>

#include "pondreszi_inline.h"

#define SPACECRAFT 42
#define POOL 2
#define WINDOW 8 /* W of each channel */
#define K 3      /* at most W / 2 */
#define T1 3     /* turns of the service */
#define TRANSMISSION_LIMIT 10
#define FIRST_NUMBER 0

#define SERVICES 2
#define UNITS 5      /* of each service */
#define BUSY_TURNS 2 /* in which the application is done with no unit */
#define MOST_TURNS 100
#define LINE_OCTETS 40 /* of a unit, or of what is printed of an event, at the most */

/* A service on the ground: its channel, its sender, and what became of its units. */
struct service {
    const char *name;
    uint8_t channel;
    struct pondreszi_sender sender;
    uint8_t store[PONDRESZI_STORE_OCTETS(K)];
    unsigned offered, on_board, confirmed;
};

static struct service services[SERVICES] = {{.name = "certificates", .channel = 3}, {.name = "schedules", .channel = 5}};

/* The receiver on board: a record for each channel. */
static struct pondreszi_channels receiver;

static void fail(const char *what) {
    fprintf(stderr, "channels: %s\n", what);
    exit(1);
}

/* For calls that cannot be refused here. */
static void done(uint8_t refusal, const char *what) {
    if (refusal != PONDRESZI_DONE) {
        fprintf(stderr, "channels: %s: %s\n", what, pondreszi_refusal_text(refusal));
        exit(1);
    }
}

static size_t write_unit(const struct service *service, unsigned number, char unit[LINE_OCTETS]) {
    return (size_t)snprintf(unit, LINE_OCTETS, "%s, unit %u", service->name, number);
}

static int is_waiting(const struct service *service) {
    return pondreszi_record_state(pondreszi_channels_record(&receiver, service->channel)) == PONDRESZI_FARM_WAIT;
}

static unsigned held_by(const struct service *service) {
    return (unsigned)pondreszi_record_held(pondreszi_channels_record(&receiver, service->channel));
}

/* On board: what an event did, and the channels after it. */
static void tell(const struct service *service, const char *what) {
    size_t i;
    printf("%-12s  %-35s", service->name, what);
    for (i = 0; i < SERVICES; i++) {
        printf("  %s holds %u%s", services[i].name, held_by(&services[i]), is_waiting(&services[i]) ? ", waits" : "");
    }
    printf("\n");
}

/* On board: an accepted unit is the next of its service, or the order is broken. */
static void apply(struct service *service, const uint8_t *unit, size_t unit_octets) {
    char expected[LINE_OCTETS];
    size_t count = write_unit(service, service->on_board, expected);
    if (unit_octets != count || memcmp(unit, expected, count) != 0) {
        fail("a unit is accepted out of order");
    }
    service->on_board++;
}

/* On board: a frame arrives, for any of the channels. The receiver tells which, and it is one of those that have a record. */
static void arrive(const uint8_t *frame, size_t frame_octets) {
    char what[LINE_OCTETS];
    const struct pondreszi_received *last = &receiver.last;
    struct service *service = services;
    done(pondreszi_channels_on_frame(&receiver, frame, frame_octets), "frame");
    while (service->channel != last->channel) {
        service++;
    }
    if (last->unit == PONDRESZI_UNIT_AD) {
        apply(service, last->octets, last->count);
    }
    snprintf(what, sizeof what, "N(S) %u, E%u: %s", (unsigned)frame[4], (unsigned)last->event,
             last->unit == PONDRESZI_UNIT_AD ? "accepted" : "discarded");
    tell(service, what);
}

/* On board: a release names the channel. */
static void name_in_release(const struct service *service, const char *what) {
    done(pondreszi_channels_on_release(&receiver, service->channel), "release");
    tell(service, what);
}

/*
 * On board: the application is done with a unit. Its buffer may be what another channel waits for, and that opens only where a release
 * names it too. A channel that waits and holds buffers is left out: this would give back the buffer of a unit that is still in use, and
 * its own next release opens it.
 */
static void release(const struct service *service) {
    size_t i;
    name_in_release(service, "release");
    for (i = 0; i < SERVICES; i++) {
        if (is_waiting(&services[i]) && held_by(&services[i]) == 0) {
            name_in_release(&services[i], "release, in Wait with a free buffer");
        }
    }
}

/* On the ground: takes over what the answer to an event says, and carries up the frames that are handed down. No event is refused here. */
static void follow_answer(struct service *service, uint8_t refusal, const char *event) {
    struct pondreszi_sender *sender = &service->sender;
    for (;;) {
        size_t frame_octets = pondreszi_answer_frame_octets(sender->answer);
        done(refusal, event);
        if (pondreszi_answer_alert(sender->answer) != PONDRESZI_ALERT_NONE) {
            fail(pondreszi_alert_text(pondreszi_answer_alert(sender->answer)));
        }
        service->confirmed += (unsigned)pondreszi_answer_confirmed(sender->answer);
        if (frame_octets == 0) {
            return;
        }
        arrive(sender->output, frame_octets);
        event = "accept of the lower layer";
        refusal = pondreszi_sender_on_lower_layer(sender, pondreszi_accept_of(pondreszi_answer_kind(sender->answer)));
    }
}

/* On the ground: offers units until one waits in the sender. */
static void offer(struct service *service) {
    while (service->offered < UNITS && !pondreszi_sender_is_set(&service->sender, PONDRESZI_SENDER_UNIT_WAITS)) {
        char unit[LINE_OCTETS];
        size_t count = write_unit(service, service->offered, unit);
        service->offered++;
        follow_answer(service, pondreszi_sender_on_request_ad(&service->sender, (const uint8_t *)unit, count), "request");
    }
}

/* On the ground: time passes. Some frames that were discarded are sent again only when the timer expires. */
static void tick(struct service *service) {
    follow_answer(service, pondreszi_sender_on_tick(&service->sender), "tick");
}

/* The control word of a channel comes down to its sender, which sends again what was discarded, as soon as the channel does not wait. */
static void report(struct service *service) {
    uint8_t word[PONDRESZI_CLCW_OCTETS];
    done(pondreszi_channels_control_word(&receiver, service->channel, word), "control word");
    follow_answer(service, pondreszi_sender_on_control_word(&service->sender, word, sizeof word), "control word at the sender");
}

/* Both ends of a service at their start. */
static void begin(struct service *service) {
    struct pondreszi_sender_settings settings = {
        .k = K, .t1_initial = T1, .transmission_limit = TRANSMISSION_LIMIT, .timeout_type = PONDRESZI_TIMEOUT_ALERT,
        .spacecraft = SPACECRAFT, .channel = service->channel, .vs = FIRST_NUMBER};
    done(pondreszi_channels_add(&receiver, service->channel, WINDOW, FIRST_NUMBER), "record");
    done(pondreszi_sender_start(&service->sender, &settings, service->store, sizeof service->store), "sender");
    follow_answer(service, pondreszi_sender_on_directive(&service->sender, PONDRESZI_INITIATE_WITHOUT_CHECK, 0), "directive");
}

/* A service has its turn, in which the application is done with one of its units. A free buffer goes to whoever comes first. */
static void take_turn(struct service *service, int busy) {
    offer(service);
    report(service);
    tick(service);
    if (!busy && held_by(service) > 0) {
        release(service);
    }
}

static int is_confirmed(void) {
    size_t i = 0;
    while (i < SERVICES && services[i].confirmed == UNITS) {
        i++;
    }
    return i == SERVICES;
}

int main(void) {
    size_t i;
    unsigned turn;
    done(pondreszi_channels_start(&receiver, SPACECRAFT, POOL), "receiver");
    for (i = 0; i < SERVICES; i++) {
        begin(&services[i]);
    }
    for (turn = 0; !is_confirmed(); turn++) {
        if (turn == MOST_TURNS) {
            fail("too many turns");
        }
        take_turn(&services[turn % SERVICES], turn < BUSY_TURNS);
    }
    for (i = 0; i < SERVICES; i++) {
        printf("%s: %u units on board in order, %u confirmed\n", services[i].name, services[i].on_board, services[i].confirmed);
    }
    return 0;
}
