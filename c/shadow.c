/* A shadow heap. A toy collector is told to the core as well, and each of its collections is compared with the core's.
 *
 *   shadow [more] [FAULT]
 *
 * The toy has a heap of its own, whose objects have addresses and not numbers: 8 roots, fields, and soft, weak and
 * phantom references, of which some are reported. The core is told each allocation, store, load, get and clear, and
 * each change of a root, as the program makes it. At a collection it plays a whole cycle. What its scans don't tell is
 * dead for it.
 *
 * With `more` the toy also keeps what was made since its last collection. Then one way alone is compared: what it freed
 * is dead for the core, and so is what a reference that it cleared refers to.
 *
 * Faults of the toy:
 *   field      the mark forgets the last field of an object that has four
 *   soft       a soft reference keeps nothing, however fresh it is
 *   weak       a weak reference keeps what it refers to
 *   phantom    a phantom reference isn't cleared
 *   report     one cleared reference in four isn't reported
 *   early      a reference is reported whose referent lives
 *
 * Prints what it found. Exit status: 0 all collections agree; 1 one doesn't; 2 the shadow went wrong, or
 * there is no such fault. */
#include "ref.h"
#include <stdio.h>
#include <stdlib.h>
#include <string.h>

enum { ROOTS = 8, CELLS = 2000, FIELDS = 4, ROUNDS = 40000, SPAN = 3 };
enum { A = 8, B = 9, M = 0, W = 0, QUEUE = 0 }; /* slots that a root's change uses on its way; who; where to */

/* ---- The toy. */

enum strength { PLAIN, SOFT, WEAK, PHANTOM };

struct thing {
    struct thing *next, *fields[FIELDS], *referent;
    enum strength strength;
    uint64_t stamp;
    int count, is_queued, is_marked, is_new, is_cleared, is_reported;
    uint32_t number; /* the core's */
};

static struct thing *roots[ROOTS], *all;
static uint64_t now;
static int living, keeps_more, cleared_before;
static const char *fault = "";

/* Whether there is a fault of this name, which the toy then has. */
static int takes_fault(const char *name) {
    static const char *const faults[] = {"field", "soft", "weak", "phantom", "report", "early"};
    for (size_t i = 0; i < sizeof faults / sizeof *faults; i++)
        if (strcmp(faults[i], name) == 0) fault = faults[i];
    return *fault != '\0';
}

static int has_fault(const char *name) {
    return strcmp(fault, name) == 0;
}

/* Whether a collection marks the referent of this reference. */
static int keeps(const struct thing *t) {
    if (t->strength == SOFT) return now - t->stamp <= SPAN && !has_fault("soft");
    return t->strength == WEAK && has_fault("weak");
}

static void mark(struct thing *t) {
    if (t == NULL || t->is_marked) return;
    t->is_marked = 1;
    for (int i = 0; i < t->count - (t->count == FIELDS && has_fault("field")); i++) mark(t->fields[i]);
    if (keeps(t)) mark(t->referent);
}

/* Marks what lives, and settles which references are cleared and reported. Nothing is freed yet. */
static void find_dead(void) {
    for (int i = 0; i < ROOTS; i++) mark(roots[i]);
    for (struct thing *t = all; keeps_more && t != NULL; t = t->next)
        if (t->is_new) mark(t);
    for (struct thing *t = all; t != NULL; t = t->next) {
        if (!t->is_marked || t->referent == NULL) continue;
        t->is_cleared = !t->referent->is_marked && !(t->strength == PHANTOM && has_fault("phantom"));
        t->is_reported = t->is_cleared && t->is_queued && !(has_fault("report") && cleared_before % 4 == 3);
        cleared_before += t->is_cleared;
        if (has_fault("early") && t->is_queued && t->strength == WEAK) t->is_reported = 1;
    }
}

static void free_dead(void) {
    for (struct thing *t = all; t != NULL; t = t->next)
        if (t->is_cleared) t->referent = NULL;
    for (struct thing **p = &all; *p != NULL;) {
        struct thing *t = *p;
        if (t->is_marked) {
            t->is_marked = t->is_new = t->is_cleared = t->is_reported = 0;
            p = &t->next;
        } else {
            *p = t->next;
            free(t);
            living--;
        }
    }
}

/* ---- The shadow. */

static struct ref_world world;
static uint32_t made; /* the greatest number */
/* What this cycle of the core did, by number. */
static struct { unsigned char is_kept, is_cleared, is_reported; } *did;

static void want(struct ref_reply reply, uint32_t kind, const char *what) {
    if (reply.kind == kind) return;
    printf("the shadow went wrong: %s answered kind %u, fault %u\n", what, reply.kind, reply.fault);
    exit(2);
}

/* What the core's scans told is there after its sweeps, and no other object. */
static void ask_what_is_there(void) {
    for (const struct thing *t = all; t != NULL; t = t->next) {
        uint32_t is_there = ref_world_is_there(&world, t->number);
        if (is_there == did[t->number].is_kept) continue;
        printf("the shadow went wrong: object %u is %s\n", t->number, is_there ? "there" : "freed");
        exit(2);
    }
}

/* The core's cycle. What it reports is let go of. */
static void play_cycle(void) {
    struct ref_reply reply;
    memset(did, 0, (made + 1) * sizeof *did);
    want(ref_begin(&world, now, 0), REF_IS_CYCLE, "begin");
    while ((reply = ref_scan(&world, W)).kind == REF_IS_SCANNED) did[reply.object].is_kept = 1;
    want(ref_end_mark(&world), REF_IS_DOOMED, "endmark");
    while ((reply = ref_clear_next(&world, W)).kind != REF_IS_NOTHING)
        if (reply.kind == REF_IS_CLEARED) did[reply.object].is_cleared = 1;
    want(ref_end_clear(&world), REF_IS_DONE, "endclear");
    while ((reply = ref_hand(&world, W)).kind == REF_IS_NOTICE) {
        did[reply.object].is_reported = 1;
        want(ref_worker_release(&world, W), REF_IS_DONE, "release");
    }
    while (ref_sweep(&world, W).kind == REF_IS_SWEPT) {}
    want(ref_end_sweep(&world), REF_IS_DONE, "endsweep");
    ask_what_is_there();
}

/* Prints what is wrong of an object, if anything is told. */
static int is_wrong(const struct thing *t, const char *what) {
    if (what == NULL) return 0;
    printf("collection %llu: %s %u %s\n", (unsigned long long)now, t->strength == PLAIN ? "object" : "reference",
           t->number, what);
    return 1;
}

/* Whether the two differ about this object. */
static int differs(const struct thing *t) {
    const char *what = NULL;
    if (t->is_marked != did[t->number].is_kept)
        what = t->is_marked ? "is kept, and the core's isn't" : "isn't kept, and the core's is";
    else if (t->is_cleared != did[t->number].is_cleared)
        what = t->is_cleared ? "is cleared, and the core's isn't" : "isn't cleared, and the core's is";
    else if (t->is_reported != did[t->number].is_reported)
        what = t->is_reported ? "is reported, and the core's isn't" : "isn't reported, and the core's is";
    return is_wrong(t, what);
}

/* The same where the toy may keep more. What it freed is dead for the core, and so is what a reference that it cleared
 * or reported refers to. It has cleared each reference to what it freed. */
static int differs_one_way(const struct thing *t) {
    const char *what = NULL;
    if (!t->is_marked && did[t->number].is_kept)
        what = "is freed, and the core's is kept";
    else if ((t->is_cleared || t->is_reported) && did[t->referent->number].is_kept)
        what = "is cleared or reported, and what it refers to is kept by the core";
    else if (t->is_marked && t->referent != NULL && !t->referent->is_marked && !t->is_cleared)
        what = "isn't cleared, and what it refers to is freed";
    return is_wrong(t, what);
}

/* Collects in both. Returns whether they agree. */
static int collect(void) {
    now++;
    play_cycle();
    find_dead();
    for (const struct thing *t = all; t != NULL; t = t->next)
        if (keeps_more ? differs_one_way(t) : differs(t)) return 0;
    free_dead();
    return 1;
}

/* ---- The program: each change is made in the toy and told to the core. */

/* A root's change: the core's slot gets what slot `from` has. */
static void set_root(int i, struct thing *t, uint32_t from) {
    roots[i] = t;
    want(ref_copy(&world, M, (uint32_t)i, from), t != NULL ? REF_IS_OBJECT : REF_IS_NULL, "copy");
    want(ref_drop(&world, M, from), REF_IS_DONE, "drop");
}

static struct ref_reply make_reference(enum strength strength, int of, int is_queued) {
    uint32_t source = (uint32_t)of;
    if (strength == SOFT)
        return is_queued ? ref_soft(&world, M, A, source, QUEUE, 1) : ref_soft_unqueued(&world, M, A, source, 1);
    if (strength == WEAK)
        return is_queued ? ref_weak(&world, M, A, source, QUEUE, 1) : ref_weak_unqueued(&world, M, A, source, 1);
    return is_queued ? ref_phantom(&world, M, A, source, QUEUE, 1) : ref_phantom_unqueued(&world, M, A, source, 1);
}

/* Makes an object in root i, or a reference to what root `of` has. */
static void make(int i, int count, enum strength strength, int of, int is_queued) {
    struct thing *t = calloc(1, sizeof *t);
    struct ref_reply reply;
    if (t == NULL) exit(2);
    t->count = strength == PLAIN ? count : 1;
    t->strength = strength;
    t->is_queued = strength != PLAIN && is_queued;
    t->is_new = 1;
    t->stamp = now;
    if (strength != PLAIN) t->referent = roots[of];
    reply = strength == PLAIN ? ref_new(&world, M, A, (uint32_t)count) : make_reference(strength, of, is_queued);
    want(reply, REF_IS_OBJECT, "new");
    t->number = made = reply.object;
    did = realloc(did, (made + 1) * sizeof *did);
    if (did == NULL) exit(2);
    t->next = all;
    all = t;
    living++;
    set_root(i, t, A);
}

static void store(int i, int field, int k) {
    roots[i]->fields[field] = roots[k];
    want(ref_store(&world, M, (uint32_t)i, (uint32_t)field, (uint32_t)k), REF_IS_DONE, "store");
}

static void load(int k, int i, int field) {
    struct thing *t = roots[i]->fields[field];
    want(ref_load(&world, M, B, (uint32_t)i, (uint32_t)field), t != NULL ? REF_IS_OBJECT : REF_IS_NULL, "load");
    set_root(k, t, B);
}

/* A get. What the toy keeps and the core freed can't be told any more: the program then lets it be. */
static void get(int k, int i) {
    struct thing *r = roots[i], *t = r->strength == PHANTOM ? NULL : r->referent;
    struct ref_reply reply = ref_get(&world, M, B, (uint32_t)i);
    if (t != NULL && reply.kind == REF_IS_NULL && keeps_more) return;
    want(reply, t != NULL ? REF_IS_OBJECT : REF_IS_NULL, "get");
    if (t != NULL) r->stamp = now;
    set_root(k, t, B);
}

static void clear(int i) {
    roots[i]->referent = NULL;
    want(ref_clear(&world, M, (uint32_t)i), REF_IS_DONE, "clear");
}

static void drop(int i) {
    roots[i] = NULL;
    want(ref_drop(&world, M, (uint32_t)i), REF_IS_DONE, "drop");
}

static unsigned seed = 1;

static int any(int n) {
    seed = seed * 1103515245u + 12345u;
    return (int)((seed >> 16) % (unsigned)n);
}

/* One change, drawn at random. */
static void change(void) {
    int i = any(ROOTS), k = any(ROOTS), what = any(20);
    const struct thing *t = roots[i];
    if (what < 5) make(i, any(FIELDS + 1), PLAIN, 0, 0);
    else if (what < 9 && roots[k] != NULL) make(i, 1, (enum strength)(1 + any(3)), k, any(4) != 0);
    else if (what < 13 && t != NULL && t->count != 0) store(i, any(t->count), k);
    else if (what < 16 && t != NULL && t->count != 0) load(k, i, any(t->count));
    else if (what < 18 && t != NULL && t->strength != PLAIN) get(k, i);
    else if (what == 18 && t != NULL && t->strength != PLAIN && any(4) == 0) clear(i);
    else if (what == 19) drop(i);
}

int main(int argc, char **argv) {
    struct ref_config config = {1, 1, 1, CELLS, SPAN, 0};
    int is_well = 1;
    for (int i = 1; i < argc; i++) {
        if (strcmp(argv[i], "more") == 0) {
            keeps_more = 1;
        } else if (!takes_fault(argv[i])) {
            printf("there is no fault %s\n", argv[i]);
            return 2;
        }
    }
    did = calloc(1, sizeof *did);
    if (did == NULL || ref_world_new(&world, &config) != 0) return 2;
    for (int round = 0; is_well && round < ROUNDS; round++)
        if (living > CELLS - 8 || any(200) == 0) is_well = collect();
        else change();
    if (is_well)
        printf("%llu collections over %u objects agree, %d references cleared\n", (unsigned long long)now, made,
               cleared_before);
    for (struct thing *t; (t = all) != NULL;) {
        all = t->next;
        free(t);
    }
    free(did);
    ref_world_end(&world);
    return !is_well;
}
