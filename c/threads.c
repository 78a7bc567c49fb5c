/* Threads that share one world behind a lock of their own. Each is a mutator that makes weak references, lets what they
 * refer to go, and polls. One that finds the heap full collects, as worker 0, unless another does. What was put into
 * the queue is taken, and once.
 *
 *   threads [ROUNDS]    of each thread, 20000 where it isn't said
 *
 * Prints the counts. Exit status: 0 each count is the one that is due; 1 one isn't. */
#include "ref.h"
#include <pthread.h>
#include <stdio.h>
#include <stdlib.h>

enum { THREADS = 4, CELLS = 256, MOST = 1 << 20 };

static pthread_mutex_t lock = PTHREAD_MUTEX_INITIALIZER;
/* What the lock is for. */
static struct ref_world world;
static unsigned char taken[MOST]; /* how often the reference of this number was taken */
static long put, twice;

static long rounds = 20000;
/* What each thread counts for itself. */
static long took[THREADS], refused[THREADS];

/* One turn: a step under the lock. */
static struct ref_reply step(uint32_t kind, uint32_t by, uint32_t a, uint32_t b) {
    struct ref_step step = {kind, by, a, b, 0, 0, 0};
    pthread_mutex_lock(&lock);
    struct ref_reply reply = ref_do(&world, step);
    if (kind == REF_WORKER_PUT && reply.kind == REF_IS_ADDED) put++;
    if (reply.kind == REF_IS_TOOK && taken[reply.object % MOST]++ != 0) twice++;
    pthread_mutex_unlock(&lock);
    return reply;
}

static void poll_all(uint32_t me) {
    while (step(REF_POLL, me, 0, 0).kind == REF_IS_TOOK) {
        took[me]++;
        step(REF_RELEASE, me, 0, 0);
    }
}

/* A whole cycle, beside the steps of the other threads. Where a cycle runs, a begin is refused. */
static void collect(void) {
    if (step(REF_BEGIN, 0, 0, 0).kind != REF_IS_CYCLE) return;
    do {
        while (step(REF_SCAN, 0, 0, 0).kind == REF_IS_SCANNED) {}
    } while (step(REF_END_MARK, 0, 0, 0).kind != REF_IS_DOOMED);
    while (step(REF_CLEAR_NEXT, 0, 0, 0).kind != REF_IS_NOTHING) {}
    step(REF_END_CLEAR, 0, 0, 0);
    while (step(REF_HAND, 0, 0, 0).kind == REF_IS_NOTICE)
        if (step(REF_WORKER_PUT, 0, 0, 0).kind != REF_IS_ADDED) step(REF_WORKER_RELEASE, 0, 0, 0);
    while (step(REF_SWEEP, 0, 0, 0).kind == REF_IS_SWEPT) {}
    step(REF_END_SWEEP, 0, 0, 0);
}

static void *run(void *number) {
    uint32_t me = (uint32_t)(size_t)number;
    for (long round = 0; round < rounds; round++) {
        uint32_t slot = 1 + (uint32_t)(round % 8);
        if (step(REF_NEW, me, 0, 0).kind != REF_IS_OBJECT || step(REF_WEAK, me, slot, 0).kind != REF_IS_OBJECT) {
            refused[me]++;
            collect();
        }
        step(REF_DROP, me, 0, 0);
        if (round % 16 == 0) poll_all(me);
    }
    return NULL;
}

int main(int argc, char **argv) {
    struct ref_config config = {THREADS, 1, 1, CELLS, 0, 0};
    pthread_t threads[THREADS];
    long all = 0;
    if (argc > 1) rounds = strtol(argv[1], NULL, 10);
    if (ref_world_new(&world, &config) != 0) return 1;
    for (size_t i = 0; i < THREADS; i++)
        if (pthread_create(&threads[i], NULL, run, (void *)i) != 0) return 1;
    for (size_t i = 0; i < THREADS; i++) pthread_join(threads[i], NULL);
    collect();
    poll_all(0);
    for (int i = 0; i < THREADS; i++) {
        printf("thread %d: took %ld, %ld rounds found the heap full\n", i, took[i], refused[i]);
        all += took[i];
    }
    printf("put in %ld, taken %ld, twice %ld\n", put, all, twice);
    ref_world_end(&world);
    return put == 0 || all != put || twice != 0;
}
