/* The C engine of speed/baseline.c for a caller in another file. */
#ifndef ENGINE_H
#define ENGINE_H

struct engine;

/* The engine with the school's policy: 64 users, depth 2. */
struct engine *c_built(void);

/* Each gives the answer number. */
int c_check(const struct engine *e, unsigned session, unsigned op, unsigned obj, int *yes, unsigned *looked);
int c_grant(struct engine *e, unsigned op, unsigned obj, unsigned r);
int c_assign(struct engine *e, unsigned u, unsigned r);
int c_deassign(struct engine *e, unsigned u, unsigned r);

/* Writes the policy file and gives its length, 0 where there is no room. */
unsigned long c_save(const struct engine *e, unsigned char *out, unsigned long room);

/* Does nothing and answers 0: what a call alone costs. */
int c_nothing(const struct engine *e, unsigned session, unsigned op, unsigned obj, int *yes, unsigned *looked);

#endif
