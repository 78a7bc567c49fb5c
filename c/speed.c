/* What a step costs by the core for C, in ns: in a table, by ref_world_play, and by a call of its own, by
 * ref_world_step. Each line is the least of many goes; `./measure c` prints them beside World::step, which does these
 * lists of steps in crates/ref_bench/src/step_runs.rt.
 *
 *   speed [--once]    with --once one small go of each, and no times
 *
 * Exit status: 0; 1 where a step was refused, or there is no memory. */
#define _POSIX_C_SOURCE 200809L
#include "ref.h"
#include <stdio.h>
#include <string.h>
#include <time.h>

enum { OBJECTS = 1024, PAIRS = 256, CELLS = 4096, MOST = 4096, GOES = 9, ROUNDS = 100 };
/* Slots: the last of a chain, what was made last, what was reached along the chain, and a referent. */
enum { LAST, NEWEST, HERE, TARGET };
enum { M = 0, W = 0, QUEUE = 0 };

static struct ref_world world;
static struct ref_step steps[MOST];
static struct ref_reply replies[MOST];
static size_t count;

static void add(uint32_t kind, uint32_t a, uint32_t b, uint32_t n) {
    struct ref_step step = {kind, kind < REF_BEGIN ? M : W, a, b, QUEUE, n, 0};
    steps[count++] = step;
}

static void add_times(size_t times, uint32_t kind) {
    while (times-- > 0) add(kind, 0, 0, 0);
}

/* ---- The lists. */

/* Makes a chain: each but the first is a weak reference to the one before it, and has it in a field. */
static void list_chain(void) {
    add(REF_NEW, LAST, 0, 1);
    for (int i = 1; i < OBJECTS; i++) {
        add(REF_WEAK, NEWEST, LAST, 1);
        add(REF_STORE, NEWEST, LAST, 0);
        add(REF_COPY, LAST, NEWEST, 0);
    }
}

/* Goes along the chain, by loads and gets in turn. */
static void list_reads(void) {
    add(REF_COPY, HERE, LAST, 0);
    for (int i = 1; i < OBJECTS; i++) add(i % 2 == 0 ? REF_GET : REF_LOAD, HERE, HERE, 0);
}

static void list_sweeps(void) {
    add_times(PAIRS / 64 + 1, REF_SWEEP);
    add(REF_END_SWEEP, 0, 0, 0);
}

/* Objects, each with a weak reference in a chain, die in a cycle that hands the notices on; the chain dies in a second
 * one. Then nothing is left. */
static void list_cycles(void) {
    for (int i = 0; i < PAIRS; i++) {
        add(REF_NEW, TARGET, 0, 0);
        add(REF_WEAK, NEWEST, TARGET, 1);
        add(REF_STORE, NEWEST, LAST, 0);
        add(REF_COPY, LAST, NEWEST, 0);
    }
    add(REF_DROP, TARGET, 0, 0);
    add(REF_DROP, NEWEST, 0, 0);
    add(REF_BEGIN, 0, 0, 0);
    add_times(PAIRS + 1, REF_SCAN);
    add(REF_END_MARK, 0, 0, 0);
    add_times(PAIRS + 1, REF_CLEAR_NEXT);
    add(REF_END_CLEAR, 0, 0, 0);
    for (int i = 0; i < PAIRS; i++) {
        add(REF_HAND, 0, 0, 0);
        add(REF_WORKER_RELEASE, 0, 0, 0);
    }
    list_sweeps();
    add(REF_DROP, LAST, 0, 0);
    add(REF_BEGIN, 0, 0, 0);
    add(REF_SCAN, 0, 0, 0);
    add(REF_END_MARK, 0, 0, 0);
    add(REF_END_CLEAR, 0, 0, 0);
    list_sweeps();
}

/* ---- The two ways. */

static void play(void) {
    uint64_t none;
    ref_world_play(&world, steps, count, replies, count, &none, 0);
}

static void call_each(void) {
    uint64_t none;
    for (size_t i = 0; i < count; i++) ref_world_step(&world, &steps[i], &replies[i], &none, 0);
}

static double now(void) {
    struct timespec t;
    clock_gettime(CLOCK_MONOTONIC, &t);
    return (double)t.tv_sec * 1e9 + (double)t.tv_nsec;
}

/* How many steps the last round refused. */
static int refused(void) {
    int some = 0;
    for (size_t i = 0; i < count; i++) some += replies[i].kind >= REF_IS_REFUSED;
    return some;
}

/* Does the list in goes of many rounds, in a new world, and prints the least time of a step. Returns whether all steps
 * were done. */
static int measure(const char *name, void (*list_first)(void), void (*list)(void), void (*way)(void), int is_once) {
    struct ref_config config = {8, 1, 1, CELLS, 0, 0};
    double least = 1e18;
    if (ref_world_new(&world, &config) != 0) return 0;
    count = 0;
    if (list_first != NULL) list_first();
    play();
    if (refused() != 0) return 0;
    count = 0;
    list();
    for (int go = 0; go < (is_once ? 1 : GOES); go++) {
        double begin = now();
        for (int round = 0; round < (is_once ? 2 : ROUNDS); round++) way();
        double time = (now() - begin) / ROUNDS / (double)count;
        if (time < least) least = time;
    }
    if (is_once) printf("%s\n", name);
    else printf("%-54s %8.1f ns\n", name, least);
    return refused() == 0;
}

int main(int argc, char **argv) {
    int is_once = argc > 1 && strcmp(argv[1], "--once") == 0;
    int is_well = measure("loads and gets along a chain, in a table", list_chain, list_reads, play, is_once) &&
                  measure("loads and gets along a chain, by a call each", list_chain, list_reads, call_each,
                          is_once) &&
                  measure("cycles of weak references, in a table", NULL, list_cycles, play, is_once) &&
                  measure("cycles of weak references, by a call each", NULL, list_cycles, call_each, is_once);
    ref_world_end(&world);
    if (!is_well) printf("a step was refused, or there is no memory\n");
    return !is_well;
}
