/* The C engine as functions that a caller in another file calls, so that it pays a call for each, as it does for those of our archive. */
#define main baseline_main
#include "../baseline.c"
#undef main

#include "engine.h"

struct engine *c_built(void) {
    build(&engine, 2, 64);
    return &engine;
}

int c_check(const struct engine *e, unsigned session, unsigned op, unsigned obj, int *yes, unsigned *looked) {
    return check(e, session, op, obj, 0, yes, looked);
}

int c_grant(struct engine *e, unsigned op, unsigned obj, unsigned r) { return grant(e, op, obj, r); }

int c_assign(struct engine *e, unsigned u, unsigned r) { return assign(e, u, r); }

int c_deassign(struct engine *e, unsigned u, unsigned r) { return deassign(e, u, r); }

u64 c_save(const struct engine *e, u8 *out, u64 room) {
    u64 length;
    return save(e, out, room, &length) == DONE ? length : 0;
}

int c_nothing(const struct engine *e, unsigned session, unsigned op, unsigned obj, int *yes, unsigned *looked) {
    (void)e, (void)session, (void)op, (void)obj;
    *yes = 0;
    *looked = 0;
    return DONE;
}
