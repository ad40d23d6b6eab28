#include "check.h"

#include <stdio.h>
#include <string.h>

#include "events.h"
#include "random.h"

#define SEED 23
#define REFUSALS 14
#define EVENTS_OF_A_RUN 60

static struct memory of_library, of_baseline;

/* What the events met. */
static struct {
    uint32_t news, kinds[EVENT_KINDS], refusals[REFUSALS], k[PONDRESZI_LARGEST_K + 1], cells[256][7];
    uint32_t suspended, damaged_refused, damaged_taken;
} met;

/* The buffer in which the sides differ, or NULL. */
static const char *difference(void) {
    const struct memory *a = &of_library, *b = &of_baseline;
    if (memcmp(a->state, b->state, sizeof a->state) != 0)
        return "state";
    if (memcmp(a->answer, b->answer, sizeof a->answer) != 0)
        return "answer";
    if (memcmp(a->output, b->output, sizeof a->output) != 0)
        return "output";
    if (memcmp(a->store, b->store, sizeof a->store) != 0)
        return "store";
    return NULL;
}

static void print_octets(const char *name, const uint8_t *octets, size_t count) {
    fprintf(stderr, "  %s:", name);
    for (size_t i = 0; i < count; i++)
        fprintf(stderr, " %u", octets[i]);
    fprintf(stderr, "\n");
}

static void print_difference(const char *call, const char *where, uint8_t library, uint8_t baseline, const uint8_t *before) {
    fprintf(stderr, "%s: the sides differ in the %s; library answers %u, baseline %u\n", call, where, library, baseline);
    print_octets("state before", before, 40);
    print_octets("state, library", of_library.state, 40);
    print_octets("state, baseline", of_baseline.state, 40);
    print_octets("answer, library", of_library.answer, PONDRESZI_ANSWER_OCTETS);
    print_octets("answer, baseline", of_baseline.answer, PONDRESZI_ANSWER_OCTETS);
}

/* After a call of both sides. */
static bool same_after(const char *call, uint8_t library, uint8_t baseline, const uint8_t *before) {
    const char *where = library == baseline ? difference() : "number";
    if (where == NULL)
        return true;
    print_difference(call, where, library, baseline, before);
    return false;
}

static void copy_lengths(void) {
    of_baseline.state_len = of_library.state_len;
    of_baseline.store_len = of_library.store_len;
    of_baseline.output_len = of_library.output_len;
    of_baseline.answer_len = of_library.answer_len;
}

/* A new sender on both sides. */
static bool start_anew(bool *started) {
    struct settings settings;
    uint8_t before[sizeof of_library.state];
    random_settings(&settings);
    uint64_t need = PONDRESZI_STORE_OCTETS(settings.k <= PONDRESZI_LARGEST_K ? settings.k : 1);
    of_library.store_len = once_in(8) ? need - 1 : once_in(8) ? below((uint32_t)need) : need;
    of_library.state_len = once_in(12) ? between(0, PONDRESZI_SENDER_STATE_OCTETS + BEHIND) : PONDRESZI_SENDER_STATE_OCTETS;
    copy_lengths();
    memcpy(before, of_library.state, sizeof before);
    uint8_t library = do_new(&library_side, &settings, &of_library);
    uint8_t baseline = do_new(&baseline_side, &settings, &of_baseline);
    met.news++;
    met.refusals[library % REFUSALS]++;
    *started = library == PONDRESZI_DONE;
    return same_after("new", library, baseline, before);
}

static void meet(const struct sender_event *event, uint8_t number, const uint8_t *before, bool is_damaged) {
    met.kinds[event->kind]++;
    met.refusals[number % REFUSALS]++;
    if (is_damaged) {
        if (number == PONDRESZI_SETTING)
            met.damaged_refused++;
        else
            met.damaged_taken++;
        return;
    }
    met.k[before[PONDRESZI_SENDER_K]]++;
    met.suspended += before[PONDRESZI_SENDER_SUSPEND_STATE] != 0;
    if (number == PONDRESZI_DONE || of_library.answer[PONDRESZI_ANSWER_EVENT] == 40)
        met.cells[of_library.answer[PONDRESZI_ANSWER_EVENT]][before[PONDRESZI_SENDER_STATE]]++;
}

/* One event on both sides. Where the state was damaged, it is the one before again. */
static bool compare_event(void) {
    struct sender_event event;
    uint8_t kept[sizeof of_library.state], before[sizeof of_library.state];
    bool is_damaged = once_in(12);
    random_event(&event, of_library.state);
    random_lengths(&of_library, &event);
    memcpy(kept, of_library.state, sizeof kept);
    if (is_damaged)
        damage_state(&of_library);
    memcpy(before, of_library.state, sizeof before);
    memcpy(of_baseline.state, before, sizeof before);
    copy_lengths();
    uint8_t library = do_event(&library_side, &event, &of_library);
    uint8_t baseline = do_event(&baseline_side, &event, &of_baseline);
    meet(&event, library, before, is_damaged);
    if (!same_after(event_name(event.kind), library, baseline, before))
        return false;
    if (is_damaged) {
        memcpy(of_library.state, kept, sizeof kept);
        memcpy(of_baseline.state, kept, sizeof kept);
    }
    return true;
}

static uint32_t events_met(void) {
    uint32_t all = 0;
    for (int i = 0; i < EVENT_KINDS; i++)
        all += met.kinds[i];
    return all;
}

/* A run from a new sender, or from any state. */
static bool compare_run(uint32_t count) {
    bool started = false;
    if (once_in(4)) {
        if (!start_anew(&started))
            return false;
    }
    if (!started) {
        random_sender_state(of_library.state);
        memcpy(of_baseline.state, of_library.state, sizeof of_library.state);
    }
    for (uint32_t n = between(1, EVENTS_OF_A_RUN); n > 0 && events_met() < count; n--)
        if (!compare_event())
            return false;
    return true;
}

static uint32_t cells_of(int row) {
    uint32_t cells = 0;
    for (int state = 1; state <= 6; state++)
        cells += met.cells[row][state] > 0;
    return cells;
}

/* Every row, refusal and K was met. */
static bool met_enough(void) {
    bool enough = met.suspended > 0 && met.damaged_refused > 0 && met.damaged_taken > 0;
    static const int refusals[] = {PONDRESZI_DONE, PONDRESZI_ADDRESS, PONDRESZI_LENGTH, PONDRESZI_ROOM, PONDRESZI_SETTING};
    for (size_t i = 0; i < sizeof refusals / sizeof refusals[0]; i++)
        enough = enough && met.refusals[refusals[i]] > 0;
    for (int k = 1; k <= PONDRESZI_LARGEST_K; k++)
        enough = enough && met.k[k] > 0;
    for (int row = 1; row <= 104; row++)
        if ((row <= 46 || row > 100) && cells_of(row) == 0) {
            fprintf(stderr, "row E%d was not met\n", row);
            enough = false;
        }
    return enough;
}

static void print_met(void) {
    uint32_t cells = 0;
    for (int row = 1; row <= 104; row++)
        cells += cells_of(row);
    printf("Both sides gave the same number, state, store, output and answer at %u new senders and %u events:", met.news, events_met());
    for (int i = 0; i < EVENT_KINDS; i++)
        printf(" %s %u%s", event_name((enum event_kind)i), met.kinds[i], i + 1 < EVENT_KINDS ? "," : ".\n");
    printf("Numbers: 0 %u, 7 %u, 10 %u, 11 %u, 12 %u. All 50 rows of table 7-8, %u pairs of row and state, every K from 1 to %d;\n",
           met.refusals[0], met.refusals[7], met.refusals[10], met.refusals[11], met.refusals[12], cells, PONDRESZI_LARGEST_K);
    printf("%u events of suspended senders; %u of damaged states answered with 12, %u of changed ones that are still a state.\n\n",
           met.suspended, met.damaged_refused, met.damaged_taken);
}

bool sides_agree(uint32_t count) {
    random_state = SEED;
    random_octets(of_library.store, sizeof of_library.store);
    random_octets(of_library.state, sizeof of_library.state);
    random_octets(of_library.output, sizeof of_library.output);
    random_octets(of_library.answer, sizeof of_library.answer);
    of_baseline = of_library;
    while (events_met() < count)
        if (!compare_run(count))
            return false;
    if (!met_enough()) {
        fprintf(stderr, "%u events are too few: not every row, refusal and K was met\n", count);
        return false;
    }
    print_met();
    return true;
}
