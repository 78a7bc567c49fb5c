/* A death: an object dies, its weak reference is cleared and put into a queue, and the program polls it.
 * Prints each step with its reply. Exit status: 0; 1 where a reply has another kind or object than is due. */
#include "ref.h"
#include <stdio.h>
#include <stdlib.h>

/* Prints a row, and ends the program where the reply has another kind or object than the row tells. */
static void told(const char *row, struct ref_reply reply, uint32_t kind, uint32_t object) {
    printf("%s\n", row);
    if (reply.kind != kind || reply.object != object) {
        printf("wrong: kind %u, object %u, fault %u\n", reply.kind, reply.object, reply.fault);
        exit(1);
    }
}

int main(void) {
    struct ref_world world = {0};
    struct ref_config config = {1, 1, 1, 8, 10, 0};
    if (ref_world_new(&world, &config) != 0) return 1;
    told("m0 new s0 0 : object 1", ref_new(&world, 0, 0, 0), REF_IS_OBJECT, 1);
    told("m0 weak s1 s0 q0 0 : object 2", ref_weak(&world, 0, 1, 0, 0, 0), REF_IS_OBJECT, 2);
    told("m0 drop s0 : ok", ref_drop(&world, 0, 0), REF_IS_DONE, 0);
    told("begin 5 normal : cycle 1", ref_begin(&world, 5, 0), REF_IS_CYCLE, 0);
    told("w0 scan : scanned 2", ref_scan(&world, 0), REF_IS_SCANNED, 2);
    told("w0 scan : none", ref_scan(&world, 0), REF_IS_NOTHING, 0);
    told("endmark : doomed 1", ref_end_mark(&world), REF_IS_DOOMED, 0);
    told("m0 get s2 s1 : null", ref_get(&world, 0, 2, 1), REF_IS_NULL, 0);
    told("w0 clearnext : cleared 2", ref_clear_next(&world, 0), REF_IS_CLEARED, 2);
    told("endclear : ok", ref_end_clear(&world), REF_IS_DONE, 0);
    told("w0 hand : notice 2 q0 cycle 1 w0", ref_hand(&world, 0), REF_IS_NOTICE, 2);
    told("w0 put : added 0", ref_worker_put(&world, 0), REF_IS_ADDED, 0);
    told("w0 sweep : swept 1", ref_sweep(&world, 0), REF_IS_SWEPT, 0);
    told("endsweep : ok", ref_end_sweep(&world), REF_IS_DONE, 0);
    told("m0 poll q0 : took 2", ref_poll(&world, 0, 0), REF_IS_TOOK, 2);
    told("m0 adopt s2 : object 2", ref_adopt(&world, 0, 2), REF_IS_OBJECT, 2);
    ref_world_end(&world);
    ref_world_end(&world);
    told("no world", ref_drop(&world, 0, 0), REF_IS_NO_WORLD, 0);
    return 0;
}
