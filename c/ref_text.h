/* Texts for C: a script in and its trace out, a graph in and its listing out, as `refrun run` and `refrun strength`
 * have them. What the texts say, docs/FORMATS.md tells.
 *
 * Any bytes are safe. No call keeps a pointer that it was given, and all memory that it takes it gives back. No pointer
 * is null, also where it is to no bytes, and what a call writes overlaps nothing else that it is given. Several threads
 * may call at once. Link the static library and the toolchain's libc library. */
#ifndef REF_TEXT_H
#define REF_TEXT_H
#include <stddef.h>
#include <stdint.h>
#ifdef __cplusplus
extern "C" {
#endif

/* What is told of a text. What a status doesn't tell is 0. */
struct ref_text {
    uint32_t status; /* a ref_text_status */
    uint32_t fault;  /* FAULTY: a ref_text_fault, of the first faulty line */
    uint64_t line;   /* FAULTY: the line, counted from 1 */
    size_t length;   /* PRINTED, NO_ROOM: how many bytes the text prints */
};

enum ref_text_status {
    REF_TEXT_PRINTED = 0,   /* all that it prints stands at the buffer's front */
    REF_TEXT_NO_ROOM = 1,   /* it prints more bytes than the buffer has */
    REF_TEXT_FAULTY = 2,    /* a line is faulty */
    REF_TEXT_TOO_LONG = 3,  /* it has more than 4,194,304 bytes */
    REF_TEXT_NO_MEMORY = 4, /* memory ran out */
};

/* Beside each stands what `refrun` says of it. */
enum ref_text_fault {
    REF_TEXT_LINE_TOO_LONG = 1,  /* line too long: more than 200 bytes */
    REF_TEXT_NOT_ASCII = 2,      /* not ASCII */
    REF_TEXT_BAD_HEADER = 3,     /* bad header */
    REF_TEXT_BAD_CONFIG = 4,     /* bad config */
    REF_TEXT_UNKNOWN_STEP = 5,   /* unknown step */
    REF_TEXT_UNKNOWN_LINE = 6,   /* unknown line */
    REF_TEXT_MISSING_WORD = 7,   /* missing word */
    REF_TEXT_BAD_WORD = 8,       /* bad word */
    REF_TEXT_EXTRA_WORD = 9,     /* extra word */
    REF_TEXT_DOUBLE_OBJECT = 10, /* double object */
};

/* What a fault says. */
static inline const char *ref_text_fault_text(uint32_t fault) {
    static const char *const texts[] = {
        "no fault", "line too long", "not ASCII", "bad header", "bad config", "unknown step",
        "unknown line", "missing word", "bad word", "extra word", "double object",
    };
    return texts[fault < sizeof texts / sizeof *texts ? fault : 0];
}

/* Reads a script and runs it. Its trace goes to the front of the buffer where that has room for all of it, and what is
 * behind stays. Else the buffer stays as it was. Its jobs are those of `refrun run`: job a, from 0 to 63, answers
 * a + 1000. In the time of the script, and with memory for its steps, its world, and the trace twice. */
void ref_text_run(const uint8_t *script, size_t script_length, uint8_t *trace, size_t room, struct ref_text *told);

/* Reads a graph and lists how strongly each of its objects is reachable, as ref_text_run does with a script. */
void ref_text_strength(const uint8_t *graph, size_t graph_length, uint8_t *listing, size_t room,
                       struct ref_text *told);

#ifdef __cplusplus
}
#endif
#endif
