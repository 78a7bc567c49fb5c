/* No memory: each request is refused in turn. `ref_world_new` answers 3 then and leaves the handle as it was; a put is
 * refused with 3 and can be made again; no other step asks. A judge says that memory was refused, and judges the row
 * when it is told again. A text that is run or listed is told so, and nothing is written. What was given is given back.
 *
 * It is linked with --wrap=malloc, --wrap=realloc and --wrap=free, so that it sees each request.
 * Prints the counts. Exit status: 0 each is the one that is due; 1 one isn't. */
#include "ref.h"
#include "ref_text.h"
#include <stdio.h>
#include <stdlib.h>
#include <string.h>

void *__real_malloc(size_t size);
void *__real_realloc(void *at, size_t size);
void __real_free(void *at);
void *__wrap_malloc(size_t size);
void *__wrap_realloc(void *at, size_t size);
void __wrap_free(void *at);

/* How many requests are still met (below 0: all), how many were made, and how many blocks are out. */
static long left = -1, asked, out;

static int is_refused(void) {
    asked++;
    if (left > 0) left--;
    return left == 0;
}

void *__wrap_malloc(size_t size) {
    void *at = is_refused() ? NULL : __real_malloc(size);
    out += at != NULL;
    return at;
}

void *__wrap_realloc(void *at, size_t size) {
    void *to = is_refused() ? NULL : __real_realloc(at, size);
    out += at == NULL && to != NULL;
    return to;
}

void __wrap_free(void *at) {
    out -= at != NULL;
    __real_free(at);
}

/* From now on, `met` requests are met and the next ones refused; below 0, all are met. */
static void meet(long met) {
    left = met < 0 ? -1 : met + 1;
    asked = 0;
}

static int wrong(const char *what, long at, uint32_t told) {
    meet(-1);
    printf("wrong: %s, at %ld: %u, and %ld blocks are out\n", what, at, told, out);
    return 1;
}

static const struct ref_config config = {8, 8, 16, 4096, 10, 0};

/* Each request of `ref_world_new` is refused in turn: by a handle with no world, and by one that has a world. */
static int try_new(void) {
    long met = 0;
    for (;; met++) {
        struct ref_world world = {0}, other = {0};
        long before;
        uint32_t fault;
        if (ref_world_new(&other, &config) != 0) return wrong("a second world", met, 0);
        ref_new(&other, 0, 0, 0);
        before = out;
        meet(met);
        fault = ref_world_new(&world, &config);
        meet(-1);
        if (fault == 0) {
            ref_world_end(&world);
            ref_world_end(&other);
            break;
        }
        if (fault != 3 || world.at != NULL || out != before) return wrong("a first world", met, fault);
        meet(met);
        fault = ref_world_new(&other, &config);
        meet(-1);
        if (fault != 3 || out != before) return wrong("a world instead of another", met, fault);
        if (ref_new(&other, 0, 0, 0).object != 2) return wrong("the world that stays", met, 0);
        ref_world_end(&other);
    }
    if (out != 0) return wrong("a world that is ended", met, 0);
    printf("new: %ld requests, each refused in turn, and nothing is left\n", met);
    return 0;
}

/* Each request of 2,000 puts is refused once. */
static int try_puts(struct ref_world *world) {
    long again = 0;
    for (uint32_t i = 0; i < 2000; i++) {
        struct ref_reply reply;
        ref_weak(world, 0, 1, 0, 0, 0);
        if (ref_unhook(world, 0, 1).kind != REF_IS_OWN_NOTICE) return wrong("unhook", i, 0);
        meet(0);
        reply = ref_put(world, 0);
        meet(-1);
        if (reply.kind == REF_IS_REFUSED) {
            if (reply.fault != 3) return wrong("a put", i, reply.fault);
            again++;
            reply = ref_put(world, 0);
        }
        if (reply.kind != REF_IS_ADDED || reply.number != i) return wrong("a put", i, reply.kind);
    }
    printf("2000 puts: %ld refused once, and then made\n", again);
    return again == 0;
}

/* No other step asks for memory: a mutator's, and those of a whole cycle. */
static int try_others(struct ref_world *world) {
    meet(0);
    for (uint32_t i = 0; i < 1000; i++) {
        struct ref_reply reply = ref_poll(world, 0, 0);
        if (reply.kind != REF_IS_TOOK) return wrong("a poll", i, reply.kind);
        ref_release(world, 0);
        ref_new(world, 0, 2, 3);
        ref_soft(world, 0, 3, 2, 1, 0);
        ref_phantom(world, 0, 4, 2, 2, 0);
        ref_store(world, 0, 2, 1, 3);
        ref_load(world, 0, 5, 2, 1);
        ref_get(world, 0, 6, 5);
        if (i % 100 == 0) {
            ref_begin(world, i, 0);
            while (ref_scan(world, 0).kind == REF_IS_SCANNED) {}
            ref_end_mark(world);
            while (ref_clear_next(world, 0).kind != REF_IS_NOTHING) {}
            ref_end_clear(world);
            while (ref_hand(world, 0).kind == REF_IS_NOTICE) ref_worker_release(world, 0);
            while (ref_sweep(world, 0).kind == REF_IS_SWEPT) {}
            if (ref_end_sweep(world).kind != REF_IS_DONE) return wrong("a cycle", i, 0);
        }
    }
    if (asked != 0) return wrong("a step that is no put asked for memory", asked, 0);
    meet(-1);
    printf("other steps: no request\n");
    return 0;
}

/* Each request of `ref_judge_new` is refused in turn. */
static int try_new_judge(struct ref_judge *judge) {
    struct ref_profile strict = {0, 0, 0};
    for (long met = 0;; met++) {
        long before = out;
        uint32_t fault;
        meet(met);
        fault = ref_judge_new(judge, &config, &strict);
        meet(-1);
        if (fault == 0) return 0;
        if (fault != 3 || judge->at != NULL || out != before) return wrong("a judge", met, fault);
    }
}

/* The row is legal. Where memory is refused it is told again. */
static int is_legal(struct ref_judge *judge, struct ref_step step, struct ref_reply reply, long *again) {
    struct ref_verdict verdict;
    meet(0);
    verdict = ref_judged(judge, step, reply);
    meet(-1);
    if (verdict.kind == REF_SAYS_NO_MEMORY) {
        ++*again;
        verdict = ref_judged(judge, step, reply);
    }
    return verdict.kind == REF_SAYS_LEGAL;
}

/* The first request of each of 2,000 puts is refused to a judge of them. */
static int try_judged_puts(struct ref_judge *judge) {
    long again = 0;
    struct ref_step made = {REF_NEW, 0, 0, 0, 0, 0, 0}, refer = {REF_WEAK, 0, 1, 0, 0, 0, 0};
    struct ref_step unhook = {REF_UNHOOK, 0, 1, 0, 0, 0, 0}, puts = {REF_PUT, 0, 0, 0, 0, 0, 0};
    struct ref_reply object = {REF_IS_OBJECT, 0, 1, 0, 0, 0, 0}, added = {REF_IS_ADDED, 0, 0, 0, 0, 0, 0};
    if (!is_legal(judge, made, object, &again)) return wrong("a judged object", 0, 0);
    for (uint32_t i = 0; i < 2000; i++) {
        struct ref_reply notice = {REF_IS_OWN_NOTICE, 0, i + 2, 0, 0, 0, 0};
        object.object = i + 2;
        added.number = i;
        if (!is_legal(judge, refer, object, &again) || !is_legal(judge, unhook, notice, &again) ||
            !is_legal(judge, puts, added, &again))
            return wrong("a judged put", i, 0);
    }
    printf("2000 judged puts: memory refused to %ld, which were then judged\n", again);
    return again == 0;
}

typedef void text_call(const uint8_t *text, size_t length, uint8_t *buffer, size_t room, struct ref_text *told);

/* Each request of a call with this text is refused in turn, and all behind it. */
static int try_text(text_call *call, const char *text, const char *prints) {
    uint8_t buffer[256];
    struct ref_text told;
    for (long met = 0;; met++) {
        memset(buffer, '~', sizeof buffer);
        meet(met);
        call((const uint8_t *)text, strlen(text), buffer, sizeof buffer, &told);
        meet(-1);
        if (out != 0) return wrong("a text", met, told.status);
        if (told.status == REF_TEXT_PRINTED && told.length == strlen(prints) && !memcmp(buffer, prints, told.length)) {
            printf("a text: %ld requests, each refused in turn\n", met);
            return met == 0;
        }
        if (told.status != REF_TEXT_NO_MEMORY || buffer[0] != '~') return wrong("a text", met, told.status);
    }
}

static int try_texts(void) {
    return try_text(ref_text_run, "refscript 1\nconfig 1 1 1 8 10\nm0 new s0 0\n",
                    "reftrace 1\n1 m0 new s0 0 : object 1\n") ||
           try_text(ref_text_strength, "refgraph 1\nroot 1\nplain 1 2\nplain 2\n", "1 strong\n2 strong\n");
}

int main(void) {
    struct ref_judge judge = {0};
    struct ref_world world = {0};
    int is_wrong;
    setvbuf(stdout, NULL, _IONBF, 0); /* so that no request is the printer's */
    if (try_new() != 0) return 1;
    if (ref_world_new(&world, &config) != 0) return wrong("a world", 0, 0);
    ref_new(&world, 0, 0, 0);
    is_wrong = try_puts(&world) != 0 || try_others(&world) != 0;
    ref_world_end(&world);
    is_wrong = is_wrong || try_new_judge(&judge) != 0 || try_judged_puts(&judge) != 0;
    ref_judge_end(&judge);
    is_wrong = is_wrong || try_texts() != 0;
    if (out != 0) is_wrong = wrong("the end", 0, 0);
    return is_wrong;
}
