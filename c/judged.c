/* A collector that is judged as it runs. A toy tells the judge each row of its own trace: what its program does, and
 * what each step of a collection answers. It stops at the first row that isn't legal.
 *
 *   judged [FAULT]
 *
 * The toy has a heap of its own, with 8 roots, fields, and weak and soft references that are reported. Its program goes
 * on while references are cleared.
 *
 * Faults of the toy:
 *   field      the mark forgets the last field of an object
 *   soft       a soft reference keeps nothing, however fresh it is
 *   read       a get answers what is doomed, before its reference is cleared
 *   weak       a reference to what is doomed isn't cleared
 *   order      the references are looked at from the last on
 *
 * Prints how many rows are legal, or which isn't, the rule that it breaks, and the earlier row. Exit status: 0 all are
 * legal; 1 one isn't; 2 the judge couldn't say, or there is no such fault. */
#include "ref.h"
#include <inttypes.h>
#include <stdio.h>
#include <stdlib.h>
#include <string.h>

enum { ROOTS = 8, CELLS = 256, FIELDS = 2, ROUNDS = 20000, SPAN = 2 };

/* ---- What is told. */

static struct ref_judge judge;
static uint64_t rows;
static const char *fault = "";

static int has_fault(const char *name) {
    return strcmp(fault, name) == 0;
}

/* The rules that the toy's faults break. */
static const char *sentence(uint32_t rule) {
    switch (rule) {
    case REF_RULE_ANSWER: return "this step has one answer here";
    case REF_RULE_DOOMED_ROOT: return "no root is doomed";
    case REF_RULE_DOOMED_FIELD: return "no field of what lives on holds what is doomed";
    case REF_RULE_DOOMED_SOFT: return "a soft reference within its span keeps its referent";
    case REF_RULE_LOOK_OBJECT: return "a worker looks at references in the order in which it scanned them";
    case REF_RULE_LOOK_ANSWER: return "a look answers cleared of what the mark's end cleared";
    default: return "see the header";
    }
}

/* Prints which row isn't legal, what it breaks, and the earlier row that settled that. */
static void explain(struct ref_step step, struct ref_reply reply, const struct ref_verdict *v) {
    static const char *const settled[] = {"said so",        "began the cycle", "began the phase",
                                          "ended the mark", "doomed object",   "closed the queue"};
    printf("row %" PRIu64 " isn't legal: step %u, reply %u, object %u, count %u\n", rows, step.kind, reply.kind,
           reply.object, reply.count);
    printf("rule %u: %s\n", v->rule, sentence(v->rule));
    if (v->settled != 0) printf("because: row %" PRIu64 " %s", v->row, settled[v->settled - 1]);
    if (v->settled == REF_SETTLED_DOOMED) printf(" %u", v->object);
    if (v->settled != 0) printf("\n");
    if (v->choice != 0) printf("legal here: reply %u, object %u, count %u\n", v->instead.kind, v->instead.object,
                               v->instead.count);
}

/* Tells a row, and ends the program where it isn't legal. */
static void tell(struct ref_step step, struct ref_reply reply) {
    struct ref_verdict verdict = ref_judged(&judge, step, reply);
    rows++;
    if (verdict.kind == REF_SAYS_LEGAL) return;
    if (verdict.kind == REF_SAYS_ILLEGAL) explain(step, reply, &verdict);
    else printf("row %" PRIu64 ": verdict %u\n", rows, verdict.kind);
    ref_judge_end(&judge);
    exit(verdict.kind == REF_SAYS_ILLEGAL ? 1 : 2);
}

/* A step of mutator 0 or of worker 0, and replies that tell an object, or how many, or nothing. */
static struct ref_step step_of(uint32_t kind, int a, int b, int n) {
    return (struct ref_step){kind, 0, (uint32_t)a, (uint32_t)b, 0, (uint32_t)n, 0};
}

static struct ref_reply object_of(uint32_t kind, uint32_t object) {
    return (struct ref_reply){kind, 0, object, 0, 0, 0, 0};
}

static struct ref_reply count_of(uint32_t kind, uint32_t count) {
    return (struct ref_reply){kind, 0, 0, 0, 0, count, 0};
}

static struct ref_reply bare(uint32_t kind) {
    return object_of(kind, 0);
}

/* ---- The toy. */

struct thing {
    struct thing *next, *fields[FIELDS], *referent;
    uint32_t number;
    int is_reference, is_soft, is_marked;
    uint64_t stamp;
};

static struct thing *roots[ROOTS], *all, *grey[CELLS], *found[CELLS], *cleared[CELLS];
static uint32_t made, living, greys, founds, cleareds;
static uint64_t now, put;

/* What an object answers that holds this, or nothing. */
static struct ref_reply held(const struct thing *t) {
    return t != NULL ? object_of(REF_IS_OBJECT, t->number) : bare(REF_IS_NULL);
}

static void shade(struct thing *t) {
    if (t == NULL || t->is_marked) return;
    t->is_marked = 1;
    grey[greys++] = t;
}

/* Marks what lives, and tells each object that is scanned. Returns how many are doomed. */
static uint32_t mark(void) {
    uint32_t marked = 0;
    founds = 0;
    for (int i = 0; i < ROOTS; i++) shade(roots[i]);
    for (; greys != 0; marked++) {
        struct thing *t = grey[--greys];
        tell(step_of(REF_SCAN, 0, 0, 0), object_of(REF_IS_SCANNED, t->number));
        for (int f = 0; f < FIELDS - has_fault("field"); f++) shade(t->fields[f]);
        if (t->is_soft && now - t->stamp <= SPAN && !has_fault("soft")) shade(t->referent);
        if (t->is_reference) found[founds++] = t;
    }
    return living - marked;
}

/* The program goes on: it reads each reference that a root holds. */
static void read_all(void) {
    for (int i = 0; i < ROOTS; i++) {
        struct thing *t = roots[i], *got;
        if (t == NULL || !t->is_reference) continue;
        got = t->referent != NULL && (t->referent->is_marked || has_fault("read")) ? t->referent : NULL;
        if (got != NULL) t->stamp = now;
        roots[i] = got;
        tell(step_of(REF_GET, i, i, 0), held(got));
    }
}

/* Looks at each reference, and clears those to what is doomed. */
static void look(void) {
    cleareds = 0;
    for (uint32_t i = 0; i < founds; i++) {
        struct thing *t = found[has_fault("order") ? founds - 1 - i : i];
        uint32_t kind = t->referent == NULL ? REF_IS_SKIPPED : REF_IS_KEPT;
        if (t->referent != NULL && !t->referent->is_marked && !has_fault("weak")) {
            kind = REF_IS_CLEARED;
            t->referent = NULL;
            cleared[cleareds++] = t;
        }
        tell(step_of(REF_CLEAR_NEXT, 0, 0, 0), object_of(kind, t->number));
    }
}

/* Hands each notice on, and puts it into the queue. */
static void report(void) {
    for (uint32_t i = 0; i < cleareds; i++) {
        struct ref_reply notice = object_of(REF_IS_NOTICE, cleared[i]->number), added = bare(REF_IS_ADDED);
        notice.number = now;
        added.number = put++;
        tell(step_of(REF_HAND, 0, 0, 0), notice);
        tell(step_of(REF_WORKER_PUT, 0, 0, 0), added);
    }
}

/* Frees what isn't marked. It is told in sweeps of 64. */
static void sweep(uint32_t doomed) {
    for (struct thing **p = &all; *p != NULL;) {
        struct thing *t = *p;
        if (t->is_marked) {
            t->is_marked = 0;
            p = &t->next;
        } else {
            *p = t->next;
            free(t);
            living--;
        }
    }
    for (uint32_t count; doomed != 0; doomed -= count) {
        count = doomed < 64 ? doomed : 64;
        tell(step_of(REF_SWEEP, 0, 0, 0), count_of(REF_IS_SWEPT, count));
    }
}

static void collect(void) {
    struct ref_step begin = step_of(REF_BEGIN, 0, 0, 0);
    struct ref_reply cycle = bare(REF_IS_CYCLE);
    uint32_t doomed;
    begin.clock = cycle.number = ++now;
    tell(begin, cycle);
    doomed = mark();
    tell(step_of(REF_END_MARK, 0, 0, 0), count_of(REF_IS_DOOMED, doomed));
    read_all();
    look();
    tell(step_of(REF_END_CLEAR, 0, 0, 0), bare(REF_IS_DONE));
    report();
    sweep(doomed);
    tell(step_of(REF_END_SWEEP, 0, 0, 0), bare(REF_IS_DONE));
    for (uint32_t i = 0; i < cleareds; i++) { /* the program takes what was reported */
        tell(step_of(REF_POLL, 0, 0, 0), object_of(REF_IS_TOOK, cleared[i]->number));
        tell(step_of(REF_RELEASE, 0, 0, 0), bare(REF_IS_DONE));
    }
}

/* ---- The program. */

/* Makes an object in root i, or a reference to what root `of` has. */
static void make(int i, int of, int is_soft) {
    struct thing *t = calloc(1, sizeof *t);
    if (t == NULL) exit(2);
    t->number = ++made;
    t->stamp = now;
    t->is_reference = of >= 0;
    t->is_soft = is_soft;
    if (of >= 0) t->referent = roots[of];
    t->next = all;
    all = t;
    living++;
    roots[i] = t;
    tell(of < 0 ? step_of(REF_NEW, i, 0, FIELDS) : step_of(is_soft ? REF_SOFT : REF_WEAK, i, of, FIELDS), held(t));
}

static int any(int n) {
    static uint32_t seed = 1;
    seed = seed * 1103515245u + 12345u;
    return (int)((seed >> 16) % (unsigned)n);
}

/* One change, drawn at random. */
static void change(void) {
    int i = any(ROOTS), k = any(ROOTS), f = any(FIELDS), what = any(10);
    if (what < 3) {
        make(i, -1, 0);
    } else if (what < 5 && roots[k] != NULL) {
        make(i, k, what == 4);
    } else if (what < 8 && roots[i] != NULL) {
        roots[i]->fields[f] = roots[k];
        tell(step_of(REF_STORE, i, k, f), bare(REF_IS_DONE));
    } else if (what == 8 && roots[i] != NULL) {
        roots[k] = roots[i]->fields[f];
        tell(step_of(REF_LOAD, k, i, f), held(roots[k]));
    } else if (what == 9) {
        roots[i] = NULL;
        tell(step_of(REF_DROP, i, 0, 0), bare(REF_IS_DONE));
    }
}

/* Whether there is a fault of this name, which the toy then has. */
static int takes_fault(const char *name) {
    static const char *const faults[] = {"field", "soft", "read", "weak", "order"};
    for (size_t i = 0; i < sizeof faults / sizeof *faults; i++)
        if (strcmp(faults[i], name) == 0) fault = faults[i];
    return *fault != '\0';
}

int main(int argc, char **argv) {
    struct ref_config config = {1, 1, 1, CELLS, SPAN, 0};
    struct ref_profile strict = {0, 0, 0};
    if (argc > 2 || (argc == 2 && !takes_fault(argv[1]))) {
        printf("there is no such fault\n");
        return 2;
    }
    if (ref_judge_new(&judge, &config, &strict) != 0) return 2;
    for (int round = 0; round < ROUNDS; round++)
        if (living > CELLS - 8 || any(200) == 0) collect();
        else change();
    printf("%" PRIu64 " rows of %" PRIu64 " collections over %u objects are legal\n", rows, now, made);
    ref_judge_end(&judge);
    for (struct thing *t; (t = all) != NULL;) {
        all = t->next;
        free(t);
    }
    return 0;
}
