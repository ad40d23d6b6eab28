/*
 * Measures each event of the sender, the library's beside the baseline's (fop1.c), behind the same boundary:
 *
 *   bench                                       times, as a table
 *   bench --check [COUNT]                       the comparison alone
 *   bench --scenes                              the events by name, their functions and their titles
 *   bench --count SIDE SCENE K UNIT TIMES       an event so many times, to count instructions: callgrind is told to collect in its function
 *
 * Before any figure both sides must give the same on random events (check.c), and before each row on its own event. Otherwise
 * the program ends with a message, no figure and status 1.
 */
#define _POSIX_C_SOURCE 199309L
#include <stdio.h>
#include <stdlib.h>
#include <string.h>
#include <time.h>

#include "check.h"
#include "scenes.h"

#define CHECKED 500000
#define ROUNDS 9
#define ROUND_NS 50e6

static const uint32_t ks[] = {1, 32, 127};
static const uint64_t units[] = {1, 1017};

static struct stage of_library, of_baseline;

static double now(void) {
    struct timespec time;
    clock_gettime(CLOCK_MONOTONIC, &time);
    return 1e9 * (double)time.tv_sec + (double)time.tv_nsec;
}

/* What two readings of the clock take. */
static double clock_takes(void) {
    double taken = 0;
    for (int i = 0; i < 1000000; i++) {
        double begin = now();
        taken += now() - begin;
    }
    return taken / 1000000;
}

static void fail(const char *what, const struct scene *scene) {
    fprintf(stderr, "%s: %s\n", scene->name, what);
    exit(1);
}

/* What an event takes: at least 50 ms of them. Putting the states back is not counted. */
static double round_of(const struct scene *scene, const struct side *side, struct stage *stage, double clock) {
    double taken = 0, events = 0;
    while (taken < ROUND_NS) {
        restore(stage);
        double begin = now();
        int all_done = perform(scene, side, stage);
        taken += now() - begin - clock;
        events += SENDERS;
        if (!all_done)
            fail("an event was refused", scene);
    }
    return taken / events;
}

static int compare_numbers(const void *a, const void *b) {
    double x = *(const double *)a, y = *(const double *)b;
    return (x > y) - (x < y);
}

/* The median of the rounds, which are then in order. */
static double median(double rounds[ROUNDS]) {
    qsort(rounds, ROUNDS, sizeof rounds[0], compare_numbers);
    return rounds[ROUNDS / 2];
}

static void print_rounds(double rounds[ROUNDS], int digits) {
    double of_all = median(rounds);
    printf(" %.*f (%.*f to %.*f) |", digits, of_all, digits, rounds[0], digits, rounds[ROUNDS - 1]);
}

/* The ratio is that of each round, since what else runs disturbs both sides of a round alike. */
static void measure(const struct scene *scene, uint32_t k, uint64_t unit, double clock) {
    double library[ROUNDS], baseline[ROUNDS], ratio[ROUNDS];
    prepare(scene, &library_side, k, unit, &of_library);
    prepare(scene, &baseline_side, k, unit, &of_baseline);
    if (!scene_agrees(scene, k, &of_library, &of_baseline))
        fail("the sides differ, or the event is not the one that the row names", scene);
    for (int i = 0; i < ROUNDS; i++) { /* the first side changes at each round */
        if (i % 2 == 0)
            library[i] = round_of(scene, &library_side, &of_library, clock);
        baseline[i] = round_of(scene, &baseline_side, &of_baseline, clock);
        if (i % 2 != 0)
            library[i] = round_of(scene, &library_side, &of_library, clock);
        ratio[i] = library[i] / baseline[i];
    }
    printf("| %s | %u | %u |", scene->name, k, (unsigned)unit);
    print_rounds(library, 0);
    print_rounds(baseline, 0);
    print_rounds(ratio, 2);
    printf("\n");
    fflush(stdout);
}

static void measure_all(void) {
    double clock = clock_takes();
    printf("| Event | K | Unit, octets | Library, ns | Baseline, ns | Library / baseline |\n|---|---:|---:|---:|---:|---:|\n");
    for (unsigned i = 0; i < scene_count; i++)
        for (int j = 0; j < 3; j++)
            for (int l = 0; l < 2; l++)
                measure(&scenes[i], ks[j], units[l], clock);
    printf("\nMedian of %d rounds of at least %.0f ms, in brackets the lowest and the highest; %.1f ns of the clock taken off %d events.\n",
           ROUNDS, ROUND_NS / 1e6, clock, SENDERS);
}

/* The sender is prepared by the other side, so that the side's function does nothing but the event. */
static int count(char **words) {
    const struct side *side = strcmp(words[0], library_side.name) == 0 ? &library_side : &baseline_side;
    const struct side *other = side == &library_side ? &baseline_side : &library_side;
    uint32_t k = (uint32_t)strtoul(words[2], NULL, 10);
    uint64_t unit = strtoul(words[3], NULL, 10);
    unsigned long times = strtoul(words[4], NULL, 10);
    for (unsigned i = 0; i < scene_count; i++) {
        if (strcmp(words[1], scenes[i].word) != 0)
            continue;
        prepare(&scenes[i], other, k, unit, &of_library);
        for (; times >= SENDERS; times -= SENDERS) {
            restore(&of_library);
            if (!perform(&scenes[i], side, &of_library))
                fail("an event was refused", &scenes[i]);
        }
        return 0;
    }
    return 2;
}

static void list_scenes(void) {
    for (unsigned i = 0; i < scene_count; i++)
        printf("%s %s %s\n", scenes[i].word, event_name(scenes[i].kind), scenes[i].name);
}

int main(int argc, char **argv) {
    if (argc == 7 && strcmp(argv[1], "--count") == 0)
        return count(argv + 2);
    if (argc == 2 && strcmp(argv[1], "--scenes") == 0) {
        list_scenes();
        return 0;
    }
    int check_alone = argc >= 2 && strcmp(argv[1], "--check") == 0;
    if (argc > 3 || (argc >= 2 && !check_alone)) {
        fprintf(stderr, "usage: bench [--check [COUNT] | --scenes | --count SIDE SCENE K UNIT TIMES]\n");
        return 2;
    }
    if (!sides_agree(argc == 3 ? (uint32_t)strtoul(argv[2], NULL, 10) : CHECKED)) {
        fprintf(stderr, "no figures\n");
        return 1;
    }
    if (!check_alone)
        measure_all();
    return 0;
}
