/* Prints what a script or a graph on standard input prints, as `refrun run` and `refrun strength` do.
 *
 *   text run < SCRIPT
 *   text strength < GRAPH
 *
 * Exit status: 0 done; 2 a wrong command line; 3 a fault of the text; 5 no memory. */
#include "ref_text.h"
#include <stdio.h>
#include <stdlib.h>
#include <string.h>

#define MOST 4194304 /* the most bytes of a text: one more is read, so that a longer one is told as too long */

static int fail(int status, const char *words) {
    fprintf(stderr, "refrun: %s\n", words);
    return status;
}

int main(int count, char **words) {
    static uint8_t text[MOST + 1], small[4096];
    const char *name = count == 2 ? words[1] : "";
    int is_run = strcmp(name, "run") == 0;
    struct ref_text told;
    uint8_t *output = small;
    size_t length, room = sizeof small;
    if (!is_run && strcmp(name, "strength") != 0) return 2;
    length = fread(text, 1, sizeof text, stdin);
    for (;;) {
        if (is_run) ref_text_run(text, length, output, room, &told);
        else ref_text_strength(text, length, output, room, &told);
        if (told.status != REF_TEXT_NO_ROOM) break;
        room = told.length; /* and once more, with just so much */
        output = (uint8_t *)malloc(room);
        if (!output) return fail(5, "no memory");
    }
    if (told.status == REF_TEXT_PRINTED) fwrite(output, 1, told.length, stdout);
    if (output != small) free(output);
    if (told.status == REF_TEXT_FAULTY) {
        fprintf(stderr, "refrun: line %llu: %s\n", (unsigned long long)told.line, ref_text_fault_text(told.fault));
        return 3;
    }
    if (told.status == REF_TEXT_TOO_LONG) return fail(3, "script too long");
    if (told.status == REF_TEXT_NO_MEMORY) return fail(5, "no memory");
    return 0;
}
