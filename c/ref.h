/* The reference processor for C: a world behind a handle, and its steps. And a judge behind another, which is told the
 * steps of a collector of your own with their replies, and says which row is the first that isn't legal.
 *
 * A handle is zero at first, and then only these calls write it. One call at a time uses a handle: a program whose
 * threads share one puts a lock of its own around each call. No call keeps a pointer that it was given. No pointer is
 * null, also where it is to no elements, and what a call writes overlaps nothing else that it is given. No call comes
 * from a signal handler.
 *
 * Any numbers are safe. Link the static library and the toolchain's libc library. */
#ifndef REF_H
#define REF_H
#include <stddef.h>
#include <stdint.h>
#ifdef __cplusplus
extern "C" {
#endif

#define REF_SLOTS 16 /* the slots of a mutator, from 0 on */
#define REF_FIELDS 8 /* the most fields of an object */
#define REF_BATCH 32 /* the most notices in a hand, which one step fills */

/* A world, or none where `at` is null. */
struct ref_world {
    void *at;
};

/* A judge, or none where `at` is null. */
struct ref_judge {
    void *at;
};

/* What a world or a judge is made with. */
struct ref_config {
    uint32_t mutators; /* program threads: 1 to 8 */
    uint32_t workers;  /* threads of the collector: 1 to 8 */
    uint32_t queues;   /* reference queues: 1 to 16 */
    uint32_t cells;    /* objects that fit in at one time: 1 to 65,536 */
    uint64_t span;     /* how old a soft reference may be and keep its referent: the clock of the cycle, less that of
                        * the last cycle that had begun as it was made, or as `ref_get` read it last */
    uint32_t scaled;   /* 0, or another number where the span is scaled by what is free */
};

/* A step: its kind, who does it, and what else it names. What a kind doesn't name may have any number. Fields are best
 * named, as in {.kind = REF_WEAK, .by = 0, .a = 1, .b = 0, .c = 0, .n = 2}. */
struct ref_step {
    uint32_t kind;  /* a ref_step_kind; any other is no step */
    uint32_t by;    /* the mutator or the worker */
    uint32_t a;     /* the slot that is written, or the one that the step is about */
    uint32_t b;     /* the other slot */
    uint32_t c;     /* the queue */
    uint32_t n;     /* how many fields, the field, how many at most, or whether the cycle is urgent */
    uint64_t clock; /* the clock of a cycle's begin */
};

/* A reply: its kind, and what it tells. What a kind doesn't tell is 0. */
struct ref_reply {
    uint32_t kind;   /* a ref_reply_kind */
    uint32_t fault;  /* the number of the fault of a refusal */
    uint32_t object; /* the number of an object */
    uint32_t queue;  /* the queue that a notice is for */
    uint32_t worker; /* the worker that cleared the reference of a notice */
    uint32_t count;  /* how many */
    uint64_t number; /* the number of a cycle, or a place in a queue */
};

/* Beside each kind stands the step of {kind, by 1, a 2, b 3, c 4, n 6, clock 7}, as a script spells it. */
enum ref_step_kind {
    REF_NEW = 0,                /* m1 new s2 6 */
    REF_SOFT = 1,               /* m1 soft s2 s3 q4 6 */
    REF_WEAK = 2,               /* m1 weak s2 s3 q4 6 */
    REF_PHANTOM = 3,            /* m1 phantom s2 s3 q4 6 */
    REF_STORE = 4,              /* m1 store s2 6 s3 */
    REF_LOAD = 5,               /* m1 load s2 s3 6 */
    REF_COPY = 6,               /* m1 copy s2 s3 */
    REF_DROP = 7,               /* m1 drop s2 */
    REF_GET = 8,                /* m1 get s2 s3 */
    REF_CLEAR = 9,              /* m1 clear s2 */
    REF_REFERS = 10,            /* m1 refers s2 s3 */
    REF_UNHOOK = 11,            /* m1 unhook s2 */
    REF_PUT = 12,               /* m1 put */
    REF_PUTS = 13,              /* m1 puts */
    REF_POLL = 14,              /* m1 poll q4 */
    REF_POLLS = 15,             /* m1 polls q4 6 */
    REF_ADOPT = 16,             /* m1 adopt s2 */
    REF_RELEASE = 17,           /* m1 release */
    REF_CLOSE = 18,             /* m1 close q4 */
    REF_BEGIN = 20,             /* begin 7 urgent */
    REF_SCAN = 21,              /* w1 scan */
    REF_END_MARK = 22,          /* endmark */
    REF_CLEAR_NEXT = 23,        /* w1 clearnext */
    REF_END_CLEAR = 24,         /* endclear */
    REF_HAND = 25,              /* w1 hand */
    REF_HANDS = 26,             /* w1 hands 6 */
    REF_WORKER_PUT = 27,        /* w1 put */
    REF_WORKER_PUTS = 28,       /* w1 puts */
    REF_WORKER_RELEASE = 29,    /* w1 release */
    REF_SWEEP = 30,             /* w1 sweep */
    REF_END_SWEEP = 31,         /* endsweep */
    REF_SELECT = 32,            /* select */
    REF_MOVE = 33,              /* w1 move */
    REF_END_MOVE = 34,          /* endmove */
    REF_SOFT_UNQUEUED = 35,     /* m1 soft s2 s3 - 6 */
    REF_WEAK_UNQUEUED = 36,     /* m1 weak s2 s3 - 6 */
    REF_PHANTOM_UNQUEUED = 37,  /* m1 phantom s2 s3 - 6 */
};

/* Kinds of steps and kinds of replies have no number in common. Beside each stands a reply as a trace spells it, and
 * behind a colon what it tells. */
enum ref_reply_kind {
    REF_IS_OBJECT = 64,         /* object 1: the object that was made, or that the slot holds now */
    REF_IS_NULL = 65,           /* null: there is none */
    REF_IS_DONE = 66,           /* ok: it was done */
    REF_IS_TRUE = 67,           /* true */
    REF_IS_FALSE = 68,          /* false */
    REF_IS_NOTICE = 69,         /* notice 2 q1 cycle 1 w1: object, queue, worker, number (the cycle) */
    REF_IS_OWN_NOTICE = 70,     /* notice 2 q1 own: object, queue; the program unhooked it */
    REF_IS_NOTICES = 71,        /* notices 2 6 q1 cycle 1 w1: count, queue, worker, number; lists the objects */
    REF_IS_NOTHING = 72,        /* none: there is nothing to do or to give */
    REF_IS_ADDED = 73,          /* added 0: number: its place among all that were ever put in, from 0 on */
    REF_IS_ALREADY = 74,        /* already: it was put in before */
    REF_IS_CLOSED = 75,         /* closed: the queue is closed */
    REF_IS_OUTS = 76,           /* already, added 1: count; lists two numbers of each */
    REF_IS_TOOK = 77,           /* took 2: object */
    REF_IS_TOOK_SOME = 78,      /* took 2 6: count; lists the objects */
    REF_IS_EMPTY = 79,          /* empty: the queue is open, and nothing stands in it */
    REF_IS_CYCLE = 80,          /* cycle 1: number */
    REF_IS_SCANNED = 81,        /* scanned 2: object */
    REF_IS_DOOMED = 82,         /* doomed 1: count */
    REF_IS_CLEARED = 83,        /* cleared 2: object; its referent is doomed */
    REF_IS_KEPT = 84,           /* kept 2: object; its referent lives */
    REF_IS_SKIPPED = 85,        /* skipped 2: object; it has no referent any more */
    REF_IS_SWEPT = 86,          /* swept 1: count */
    REF_IS_SELECTED = 87,       /* selected 3: count */
    REF_IS_MOVED = 88,          /* moved 1: object */
    REF_IS_REFUSED = 89,        /* refused 9 NoSuchActor: fault; nothing was done */
    REF_IS_NO_STEP = 90,        /* these numbers are no step; nothing was done */
    REF_IS_NO_WORLD = 91,       /* the handle has no world; nothing was done */
};

/* Why a step is refused. */
enum ref_fault {
    REF_FAULT_BAD_CONFIG = 1,      /* 1 BadConfig: a number is outside its limits */
    REF_FAULT_NO_MEMORY = 3,       /* 3 NoMemory: memory was refused */
    REF_FAULT_NO_CELL = 4,         /* 4 NoCell: the heap is full */
    REF_FAULT_NUMBERS_SPENT = 5,   /* 5 NumbersSpent: no number is left for an object, a cycle or a hold */
    REF_FAULT_EMPTY_SLOT = 6,      /* 6 EmptySlot: the slot holds nothing */
    REF_FAULT_BAD_FIELD = 7,       /* 7 BadField: the object hasn't that field, or would have more than 8 */
    REF_FAULT_NOT_A_REFERENCE = 8, /* 8 NotAReference: the slot holds a plain object */
    REF_FAULT_NO_SUCH_ACTOR = 9,   /* 9 NoSuchActor: there is no such mutator or worker, or no such slot */
    REF_FAULT_BAD_QUEUE = 10,      /* 10 BadQueue: there is no such queue */
    REF_FAULT_WRONG_PHASE = 12,    /* 12 WrongPhase: it isn't the step's turn in the cycle */
    REF_FAULT_CLOCK_BACK = 13,     /* 13 ClockBack: the clock is before that of the last cycle */
    REF_FAULT_GREY_LEFT = 14,      /* 14 GreyLeft: an object is left to scan */
    REF_FAULT_CLEARING_LEFT = 15,  /* 15 ClearingLeft: a worker has a reference left to look at */
    REF_FAULT_SWEEP_LEFT = 16,     /* 16 SweepLeft: an object is left to free */
    REF_FAULT_MOVES_LEFT = 17,     /* 17 MovesLeft: an object is left to move */
    REF_FAULT_NO_ROOM = 18,        /* 18 NoRoom: no room would be won by moves */
    REF_FAULT_ADDRESSES_SPENT = 19, /* 19 AddressesSpent: too few new places are left to move to */
    REF_FAULT_HAND_FULL = 23,      /* 23 HandFull: the hand holds a notice */
    REF_FAULT_HAND_EMPTY = 24,     /* 24 HandEmpty: the hand holds none */
};

/* Makes a world, which the handle then has: what it had is ended. Returns 0, or the number of a fault, and then the
 * handle is as it was: 1 BadConfig, 3 NoMemory. */
uint32_t ref_world_new(struct ref_world *world, const struct ref_config *config);

/* Does a step, and tells its reply. `list` has room for `room` numbers. What a batch's reply lists goes there, as far
 * as there is room: 64 are enough. The reply's count tells how many there are, and of OUTS each has two numbers. */
void ref_world_step(struct ref_world *world, const struct ref_step *step, struct ref_reply *reply, uint64_t *list,
                    size_t room);

/* Does the steps one after the other, as ref_world_step does each, and tells their replies in order. Returns how many
 * it did: `count`, or `replies_room` where that is less. A refused step is no end, nor are numbers that are no step.
 * What the batches' replies list stands one behind the other in `list`, as far as there is room. */
size_t ref_world_play(struct ref_world *world, const struct ref_step *steps, size_t count, struct ref_reply *replies,
                      size_t replies_room, uint64_t *list, size_t list_room);

/* Whether an object of this number is there: 1 where it was made and no sweep has freed it, and else 0. Any number may
 * be asked, and numbers are never used again. 0 also where the handle has no world. */
uint32_t ref_world_is_there(struct ref_world *world, uint32_t object);

/* Ends the world, if the handle has one. The handle is zero then. */
void ref_world_end(struct ref_world *world);

/* ---- A judge. It is told the rows of a collector's trace in order, each a step and its reply, and the first that
 * isn't legal is named: so a debug build is judged as it runs. A trace begins with no object. One thread alone calls a
 * judge's handle: it isn't proved that it may go to another. */

/* What a collector may do otherwise than the reference one: 0, or another number where it may. */
struct ref_profile {
    uint32_t keeps_more; /* a cycle may scan, and so keep, any object */
    uint32_t soft_free;  /* a cycle may keep or clear any soft reference, whatever its age */
    uint32_t order;      /* a poll takes: 0 what was put in first, 1 what was put in last, 2 any */
};

/* A verdict: its kind, and what it tells of an illegal row. Else all but the kind is 0. */
struct ref_verdict {
    uint32_t kind;            /* a ref_verdict_kind */
    uint32_t rule;            /* the rule that the row breaks: a ref_rule */
    uint32_t settled;         /* what an earlier row settled, a ref_settled, or 0 where that isn't known */
    uint32_t object;          /* the object that the earlier row doomed, or 0 */
    uint64_t row;             /* the earlier row's number among the legal ones, counted from 1, or 0 */
    uint32_t choice;          /* 0 no answer is named, 1 this one alone is legal, 2 this one is, and perhaps others:
                               * behind it a later row may have no legal answer */
    struct ref_reply instead; /* the answer that would have been legal. What a batch would list isn't told */
};

enum ref_verdict_kind {
    REF_SAYS_LEGAL = 0,     /* the row is legal behind those before it */
    REF_SAYS_ILLEGAL = 1,   /* it isn't; nothing is said of later rows */
    REF_SAYS_NO_STEP = 2,   /* the step's numbers are no step; the row may be told again */
    REF_SAYS_NO_REPLY = 3,  /* the reply's numbers, or its list, are no reply; the row may be told again */
    REF_SAYS_NO_JUDGE = 4,  /* the handle has no judge */
    REF_SAYS_NO_MEMORY = 5, /* memory was refused, and nothing is said of the row: it may be told again */
    REF_SAYS_STOPPED = 6,   /* an earlier row was illegal, and nothing is said of this one */
};

enum ref_rule {
    REF_RULE_ANSWER = 1,
    REF_RULE_REFUSAL = 2,
    REF_RULE_FORM = 3,
    REF_RULE_SCAN_OBJECT = 4,
    REF_RULE_NONE_LEFT = 5,
    REF_RULE_NOTHING_LEFT = 6,
    REF_RULE_SOME_LEFT = 7,
    REF_RULE_DOOMED_COUNT = 8,
    REF_RULE_DOOMED_ROOT = 9,
    REF_RULE_DOOMED_FIELD = 10,
    REF_RULE_DOOMED_SOFT = 11,
    REF_RULE_CLEARED_UNSCANNED = 12,
    REF_RULE_LOOK_OBJECT = 13,
    REF_RULE_LOOK_ANSWER = 14,
    REF_RULE_CLEARED_LEFT = 15,
    REF_RULE_REFERENCE_LEFT = 16,
    REF_RULE_NO_REFERENCE_LEFT = 17,
    REF_RULE_PUT = 18,
    REF_RULE_PUT_COUNT = 19,
    REF_RULE_POLL = 20,
    REF_RULE_MOVE_OBJECT = 21,
};

/* What a rule says. */
static inline const char *ref_rule_text(uint32_t rule) {
    static const char *const texts[] = {
        "no rule",
        "this step has one answer here",
        "this step is refused here, and this is the first fault that applies",
        "this step has other answers",
        "a scan takes an object that was made before the cycle, that a kept path led to in this mark, and "
            "that wasn't scanned in it",
        "that no object is left to scan holds till a load or a get answers an object",
        "that an object is left to scan is said only where one is",
        "that an object is left to scan holds till one is scanned, loaded or got",
        "a mark's end dooms all that was made before the cycle and not scanned in it",
        "no root is doomed: no slot, no notice in a hand or a queue, none that is pending",
        "no field of what lives on holds what is doomed",
        "a soft reference within its span keeps its referent, unless the cycle is urgent",
        "a reference that a mark's end clears was scanned by a worker in this cycle",
        "a worker looks at references that it scanned in this cycle, in that order, and passes none that the "
            "mark's end cleared",
        "a look answers cleared of what this mark's end cleared, else kept with a referent and skipped without",
        "each reference that the mark's end cleared is looked at before clearing ends",
        "that a reference is left to look at holds till one is looked at",
        "that a reference is left to look at is said only where one was scanned and not looked at",
        "a notice is put in once, at the next position, into an open queue, and only want of memory refuses it",
        "a batch tells of each notice of the hand, up to the first for which memory is refused",
        "a poll takes what stands next in its queue, as many as asked for or all, and nothing only where none stands",
        "a move answers an object that is there",
    };
    return texts[rule < sizeof texts / sizeof *texts ? rule : 0];
}

/* What the earlier row did. */
enum ref_settled {
    REF_SETTLED_SAID = 1,   /* said so: that something is left, or that nothing is */
    REF_SETTLED_CYCLE = 2,  /* began the cycle */
    REF_SETTLED_PHASE = 3,  /* began the phase */
    REF_SETTLED_MARK = 4,   /* ended the mark */
    REF_SETTLED_DOOMED = 5, /* doomed object 1: which one, the verdict's `object` tells */
    REF_SETTLED_CLOSED = 6, /* closed the queue */
};

/* Makes a judge of a trace of which no row was told, which the handle then has: what it had is ended. Returns 0, or the
 * number of a fault, and then the handle is as it was: 1 BadConfig, also where the order is none; 3 NoMemory. */
uint32_t ref_judge_new(struct ref_judge *judge, const struct ref_config *config, const struct ref_profile *profile);

/* Judges the next row: a step and its reply. What a kind of reply doesn't tell is 0, and `list` has just the numbers
 * that it lists, as ref_world_step writes them: `listed` is how many, twice the count for OUTS, and 0 for none. Of a
 * legal row the judge is told then. Of later rows than an illegal one nothing is said. A scan, a look and a put may ask
 * for memory. */
void ref_judge_row(struct ref_judge *judge, const struct ref_step *step, const struct ref_reply *reply,
                   const uint64_t *list, size_t listed, struct ref_verdict *verdict);

/* Ends the judge, if the handle has one. The handle is zero then. */
void ref_judge_end(struct ref_judge *judge);

/* What ref_judge_row says of a row whose reply lists nothing. */
static inline struct ref_verdict ref_judged(struct ref_judge *judge, struct ref_step step, struct ref_reply reply) {
    uint64_t none = 0;
    struct ref_verdict verdict;
    ref_judge_row(judge, &step, &reply, &none, 0, &verdict);
    return verdict;
}

/* ---- One call for each step. Each returns the whole reply: one of the kinds that are listed, which begin with
 * REF_IS_, or REF_IS_REFUSED with one of the faults that are, of which the first that applies is told.
 *
 * A cycle: begin; scans, until each worker is answered NOTHING; end of the mark; each worker looks at the references
 * that it found, until NOTHING; end of the clearing; sweeps, until NOTHING; end of the sweep. What a worker cleared it
 * hands on, and puts in, at any time. Between cycles objects may move: a choice, moves until NOTHING, and the end of
 * the moves. The program's steps go on all the while.
 *
 * A hand is filled by one step, which is refused while it holds a notice. What it holds leaves it by puts that add it,
 * by adopts and by releases. */

static inline struct ref_reply ref_listed(struct ref_world *world, struct ref_step step, uint64_t *list, size_t room) {
    struct ref_reply reply;
    ref_world_step(world, &step, &reply, list, room);
    return reply;
}

static inline struct ref_reply ref_do(struct ref_world *world, struct ref_step step) {
    uint64_t none;
    return ref_listed(world, step, &none, 0);
}

/* Makes a plain object with so many fields, all null, in the slot.
 * Replies: OBJECT.
 * Refused: 9 NoSuchActor, 7 BadField (more than 8), 5 NumbersSpent, 4 NoCell. */
static inline struct ref_reply ref_new(struct ref_world *world, uint32_t m, uint32_t slot, uint32_t fields) {
    struct ref_step step = {REF_NEW, m, slot, 0, 0, fields, 0};
    return ref_do(world, step);
}

/* Makes a soft reference to what `source` holds, in the slot, whose notice is for the queue. A cycle that isn't urgent
 * keeps the referent of one that is within the span.
 * Replies: OBJECT.
 * Refused: 9 NoSuchActor, 10 BadQueue, 6 EmptySlot, 7 BadField, 5 NumbersSpent, 4 NoCell. */
static inline struct ref_reply ref_soft(struct ref_world *world, uint32_t m, uint32_t slot, uint32_t source,
                                        uint32_t queue, uint32_t fields) {
    struct ref_step step = {REF_SOFT, m, slot, source, queue, fields, 0};
    return ref_do(world, step);
}

/* What `ref_soft` does, of a weak reference, which keeps no referent. */
static inline struct ref_reply ref_weak(struct ref_world *world, uint32_t m, uint32_t slot, uint32_t source,
                                        uint32_t queue, uint32_t fields) {
    struct ref_step step = {REF_WEAK, m, slot, source, queue, fields, 0};
    return ref_do(world, step);
}

/* What `ref_soft` does, of a phantom reference, which keeps no referent, and of which `ref_get` tells none. */
static inline struct ref_reply ref_phantom(struct ref_world *world, uint32_t m, uint32_t slot, uint32_t source,
                                           uint32_t queue, uint32_t fields) {
    struct ref_step step = {REF_PHANTOM, m, slot, source, queue, fields, 0};
    return ref_do(world, step);
}

/* Makes a soft reference that is for no queue: no notice of it is made.
 * Replies: OBJECT.
 * Refused: 9 NoSuchActor, 6 EmptySlot, 7 BadField, 5 NumbersSpent, 4 NoCell. */
static inline struct ref_reply ref_soft_unqueued(struct ref_world *world, uint32_t m, uint32_t slot, uint32_t source,
                                                 uint32_t fields) {
    struct ref_step step = {REF_SOFT_UNQUEUED, m, slot, source, 0, fields, 0};
    return ref_do(world, step);
}

/* What `ref_soft_unqueued` does, of a weak reference. */
static inline struct ref_reply ref_weak_unqueued(struct ref_world *world, uint32_t m, uint32_t slot, uint32_t source,
                                                 uint32_t fields) {
    struct ref_step step = {REF_WEAK_UNQUEUED, m, slot, source, 0, fields, 0};
    return ref_do(world, step);
}

/* What `ref_soft_unqueued` does, of a phantom reference. */
static inline struct ref_reply ref_phantom_unqueued(struct ref_world *world, uint32_t m, uint32_t slot,
                                                    uint32_t source, uint32_t fields) {
    struct ref_step step = {REF_PHANTOM_UNQUEUED, m, slot, source, 0, fields, 0};
    return ref_do(world, step);
}

/* The field of the object in slot `object` then holds what slot `value` holds, or null.
 * Replies: DONE.
 * Refused: 9 NoSuchActor, 6 EmptySlot, 7 BadField (a field that the object hasn't). */
static inline struct ref_reply ref_store(struct ref_world *world, uint32_t m, uint32_t object, uint32_t field,
                                         uint32_t value) {
    struct ref_step step = {REF_STORE, m, object, value, 0, field, 0};
    return ref_do(world, step);
}

/* The slot then holds what the field of the object in slot `object` holds.
 * Replies: OBJECT, NULL.
 * Refused: 9 NoSuchActor, 6 EmptySlot, 7 BadField. */
static inline struct ref_reply ref_load(struct ref_world *world, uint32_t m, uint32_t slot, uint32_t object,
                                        uint32_t field) {
    struct ref_step step = {REF_LOAD, m, slot, object, 0, field, 0};
    return ref_do(world, step);
}

/* The slot then holds what `source` holds.
 * Replies: OBJECT, NULL.
 * Refused: 9 NoSuchActor. */
static inline struct ref_reply ref_copy(struct ref_world *world, uint32_t m, uint32_t slot, uint32_t source) {
    struct ref_step step = {REF_COPY, m, slot, source, 0, 0, 0};
    return ref_do(world, step);
}

/* The slot then holds nothing.
 * Replies: DONE.
 * Refused: 9 NoSuchActor. */
static inline struct ref_reply ref_drop(struct ref_world *world, uint32_t m, uint32_t slot) {
    struct ref_step step = {REF_DROP, m, slot, 0, 0, 0, 0};
    return ref_do(world, step);
}

/* The slot then holds the referent of the reference in slot `reference`, or nothing: so of each phantom reference.
 * Replies: OBJECT, NULL.
 * Refused: 9 NoSuchActor, 6 EmptySlot, 8 NotAReference. */
static inline struct ref_reply ref_get(struct ref_world *world, uint32_t m, uint32_t slot, uint32_t reference) {
    struct ref_step step = {REF_GET, m, slot, reference, 0, 0, 0};
    return ref_do(world, step);
}

/* Clears the reference in the slot, without a notice.
 * Replies: DONE.
 * Refused: 9 NoSuchActor, 6 EmptySlot, 8 NotAReference. */
static inline struct ref_reply ref_clear(struct ref_world *world, uint32_t m, uint32_t reference) {
    struct ref_step step = {REF_CLEAR, m, reference, 0, 0, 0, 0};
    return ref_do(world, step);
}

/* Whether the reference in the first slot refers to what the other holds, or to nothing where that is empty.
 * Replies: TRUE, FALSE.
 * Refused: 9 NoSuchActor, 6 EmptySlot, 8 NotAReference. */
static inline struct ref_reply ref_refers(struct ref_world *world, uint32_t m, uint32_t reference, uint32_t other) {
    struct ref_step step = {REF_REFERS, m, reference, other, 0, 0, 0};
    return ref_do(world, step);
}

/* Clears the reference in the slot. Its notice goes into the mutator's hand, if it is for a queue.
 * Replies: OWN_NOTICE, NOTHING.
 * Refused: 9 NoSuchActor, 23 HandFull, 6 EmptySlot, 8 NotAReference, 5 NumbersSpent. */
static inline struct ref_reply ref_unhook(struct ref_world *world, uint32_t m, uint32_t reference) {
    struct ref_step step = {REF_UNHOOK, m, reference, 0, 0, 0, 0};
    return ref_do(world, step);
}

/* Puts the first notice of the mutator's hand into its own queue. One that isn't added stays in the hand.
 * Replies: ADDED, ALREADY, CLOSED.
 * Refused: 9 NoSuchActor, 24 HandEmpty, 3 NoMemory. */
static inline struct ref_reply ref_put(struct ref_world *world, uint32_t m) {
    struct ref_step step = {REF_PUT, m, 0, 0, 0, 0, 0};
    return ref_do(world, step);
}

/* Puts all notices of the mutator's hand into their queue. The hand then holds those that weren't added.
 * Replies: OUTS, which lists two numbers of each: ADDED and the place, ALREADY and 0, CLOSED and 0, or REFUSED and
 * 3.
 * Refused: 9 NoSuchActor, 24 HandEmpty. */
static inline struct ref_reply ref_puts(struct ref_world *world, uint32_t m, uint64_t *list, size_t room) {
    struct ref_step step = {REF_PUTS, m, 0, 0, 0, 0, 0};
    return ref_listed(world, step, list, room);
}

/* Takes the first notice of the queue into the mutator's hand.
 * Replies: TOOK, EMPTY, CLOSED.
 * Refused: 9 NoSuchActor, 10 BadQueue, 23 HandFull. */
static inline struct ref_reply ref_poll(struct ref_world *world, uint32_t m, uint32_t queue) {
    struct ref_step step = {REF_POLL, m, 0, 0, queue, 0, 0};
    return ref_do(world, step);
}

/* Takes the first notices of the queue into the mutator's hand, so many at most.
 * Replies: TOOK_SOME, which lists the references that they report; EMPTY, CLOSED.
 * Refused: 9 NoSuchActor, 10 BadQueue, 1 BadConfig (0, or more than 32 less what the hand holds), 23 HandFull. */
static inline struct ref_reply ref_polls(struct ref_world *world, uint32_t m, uint32_t queue, uint32_t most,
                                         uint64_t *list, size_t room) {
    struct ref_step step = {REF_POLLS, m, 0, 0, queue, most, 0};
    return ref_listed(world, step, list, room);
}

/* The slot then holds the reference that the hand's first notice reports. The notice is spent.
 * Replies: OBJECT.
 * Refused: 9 NoSuchActor, 24 HandEmpty. */
static inline struct ref_reply ref_adopt(struct ref_world *world, uint32_t m, uint32_t slot) {
    struct ref_step step = {REF_ADOPT, m, slot, 0, 0, 0, 0};
    return ref_do(world, step);
}

/* Gives the first notice of the mutator's hand up.
 * Replies: DONE.
 * Refused: 9 NoSuchActor, 24 HandEmpty. */
static inline struct ref_reply ref_release(struct ref_world *world, uint32_t m) {
    struct ref_step step = {REF_RELEASE, m, 0, 0, 0, 0, 0};
    return ref_do(world, step);
}

/* Closes the queue, which then takes nothing more.
 * Replies: DONE, or CLOSED where it was closed already.
 * Refused: 9 NoSuchActor, 10 BadQueue. */
static inline struct ref_reply ref_close(struct ref_world *world, uint32_t m, uint32_t queue) {
    struct ref_step step = {REF_CLOSE, m, 0, 0, queue, 0, 0};
    return ref_do(world, step);
}

/* Begins a cycle at this clock. An urgent one keeps no soft reference.
 * Replies: CYCLE.
 * Refused: 12 WrongPhase, 13 ClockBack, 5 NumbersSpent. */
static inline struct ref_reply ref_begin(struct ref_world *world, uint64_t clock, int urgent) {
    struct ref_step step = {REF_BEGIN, 0, 0, 0, 0, urgent != 0, clock};
    return ref_do(world, step);
}

/* Scans one object that was reached.
 * Replies: SCANNED, or NOTHING where none is left.
 * Refused: 9 NoSuchActor, 12 WrongPhase. */
static inline struct ref_reply ref_scan(struct ref_world *world, uint32_t worker) {
    struct ref_step step = {REF_SCAN, worker, 0, 0, 0, 0, 0};
    return ref_do(world, step);
}

/* Ends the mark: what was made before the cycle and wasn't scanned in it is doomed.
 * Replies: DOOMED.
 * Refused: 12 WrongPhase, 14 GreyLeft. */
static inline struct ref_reply ref_end_mark(struct ref_world *world) {
    struct ref_step step = {REF_END_MARK, 0, 0, 0, 0, 0, 0};
    return ref_do(world, step);
}

/* Looks at the next reference that the worker found, and clears it where its referent is doomed. It found those that it
 * scanned before their referents were marked, but for soft ones that the cycle keeps: not each that lives is told KEPT.
 * Replies: CLEARED, KEPT, SKIPPED (it has no referent), or NOTHING where the worker has none left.
 * Refused: 9 NoSuchActor, 12 WrongPhase. */
static inline struct ref_reply ref_clear_next(struct ref_world *world, uint32_t worker) {
    struct ref_step step = {REF_CLEAR_NEXT, worker, 0, 0, 0, 0, 0};
    return ref_do(world, step);
}

/* Ends the clearing.
 * Replies: DONE.
 * Refused: 12 WrongPhase, 15 ClearingLeft. */
static inline struct ref_reply ref_end_clear(struct ref_world *world) {
    struct ref_step step = {REF_END_CLEAR, 0, 0, 0, 0, 0, 0};
    return ref_do(world, step);
}

/* The notice of the next reference that the worker cleared goes into its hand.
 * Replies: NOTICE, or NOTHING where it has none.
 * Refused: 9 NoSuchActor, 23 HandFull, 5 NumbersSpent. */
static inline struct ref_reply ref_hand(struct ref_world *world, uint32_t worker) {
    struct ref_step step = {REF_HAND, worker, 0, 0, 0, 0, 0};
    return ref_do(world, step);
}

/* The notices of the next references that the worker cleared go into its hand, so many at most, of one queue and
 * cycle.
 * Replies: NOTICES, which lists the references, or NOTHING where it has none.
 * Refused: 9 NoSuchActor, 1 BadConfig, 23 HandFull, 5 NumbersSpent. */
static inline struct ref_reply ref_hands(struct ref_world *world, uint32_t worker, uint32_t most, uint64_t *list,
                                         size_t room) {
    struct ref_step step = {REF_HANDS, worker, 0, 0, 0, most, 0};
    return ref_listed(world, step, list, room);
}

/* What `ref_put` does, of a worker's hand. */
static inline struct ref_reply ref_worker_put(struct ref_world *world, uint32_t worker) {
    struct ref_step step = {REF_WORKER_PUT, worker, 0, 0, 0, 0, 0};
    return ref_do(world, step);
}

/* What `ref_puts` does, of a worker's hand. */
static inline struct ref_reply ref_worker_puts(struct ref_world *world, uint32_t worker, uint64_t *list, size_t room) {
    struct ref_step step = {REF_WORKER_PUTS, worker, 0, 0, 0, 0, 0};
    return ref_listed(world, step, list, room);
}

/* What `ref_release` does, of a worker's hand. */
static inline struct ref_reply ref_worker_release(struct ref_world *world, uint32_t worker) {
    struct ref_step step = {REF_WORKER_RELEASE, worker, 0, 0, 0, 0, 0};
    return ref_do(world, step);
}

/* Frees the 64 of least number of the doomed, or all.
 * Replies: SWEPT, or NOTHING where none is left.
 * Refused: 9 NoSuchActor, 12 WrongPhase. */
static inline struct ref_reply ref_sweep(struct ref_world *world, uint32_t worker) {
    struct ref_step step = {REF_SWEEP, worker, 0, 0, 0, 0, 0};
    return ref_do(world, step);
}

/* Ends the sweep, and the cycle.
 * Replies: DONE.
 * Refused: 12 WrongPhase, 16 SweepLeft. */
static inline struct ref_reply ref_end_sweep(struct ref_world *world) {
    struct ref_step step = {REF_END_SWEEP, 0, 0, 0, 0, 0, 0};
    return ref_do(world, step);
}

/* Chooses the objects that are to move to other pages.
 * Replies: SELECTED.
 * Refused: 12 WrongPhase, 18 NoRoom, 19 AddressesSpent. */
static inline struct ref_reply ref_select(struct ref_world *world) {
    struct ref_step step = {REF_SELECT, 0, 0, 0, 0, 0, 0};
    return ref_do(world, step);
}

/* Moves the next of them.
 * Replies: MOVED, or NOTHING where none is left.
 * Refused: 9 NoSuchActor, 12 WrongPhase. */
static inline struct ref_reply ref_move(struct ref_world *world, uint32_t worker) {
    struct ref_step step = {REF_MOVE, worker, 0, 0, 0, 0, 0};
    return ref_do(world, step);
}

/* Ends the move.
 * Replies: DONE.
 * Refused: 12 WrongPhase, 17 MovesLeft. */
static inline struct ref_reply ref_end_move(struct ref_world *world) {
    struct ref_step step = {REF_END_MOVE, 0, 0, 0, 0, 0, 0};
    return ref_do(world, step);
}

#ifdef __cplusplus
}
#endif
#endif
