/* The work of crates/speed in C, to compare its speed with: an engine that keeps for each role the
   set of roles it inherits, the closure, and brings it up to date when a line comes or goes. It takes
   the same request and writes the same checksum. One engine in memory, changed in place; the paper's
   refusals in the paper's order. It is as fast as plain C makes it, and nothing is proved of it. It
   uses no headers, since the toolchain has none. */

typedef unsigned char u8;
typedef unsigned short u16;
typedef unsigned long u64;

long read(int fd, void *buf, u64 n);
long write(int fd, const void *buf, u64 n);

enum {
    DONE, BEYOND, MISSING, OTHER_OWNER, ALREADY, NOT_THERE, ITSELF, BAD_CARD, IN_SET, NOT_AUTHORISED,
    STATIC, DYNAMIC, FULL, UNUSED, FORM, SHORT, HAS_OPEN
};

struct set { u8 there; u16 card; u64 roles; };
struct session { u8 live; u8 owner; u64 active; };

struct engine {
    u8 users[256];
    u64 roles;
    u64 juniors[64];     /* the recorded lines */
    u64 closure[64];     /* each role and all it inherits */
    u64 assigned[256];
    u64 holders[4096];
    struct set ssd[16], dsd[16];
    struct session sessions[64];
    unsigned lines, assignments, grants;
};

static struct engine engine, scratch;

static int has(u64 set, unsigned r) { return r < 64 && (set >> r & 1); }
static u64 one(unsigned r) { return 1ul << r; }
static unsigned lowest(u64 set) { return (unsigned)__builtin_ctzl(set); }
static unsigned count(u64 set) { return (unsigned)__builtin_popcountl(set); }

/* The roles of a set and all they inherit. */
static u64 reached(const struct engine *e, u64 set) {
    u64 all = set;
    for (; set; set &= set - 1) all |= e->closure[lowest(set)];
    return all;
}

/* The same by the recorded lines alone: what `check` costs with no closure. */
static u64 walked(const struct engine *e, u64 set) {
    u64 all = set, front = set;
    while (front) {
        unsigned r = lowest(front);
        front &= front - 1;
        u64 new = e->juniors[r] & ~all;
        all |= new;
        front |= new;
    }
    return all;
}

static int breaks(const struct set *sets, u64 held) {
    for (int n = 0; n < 16; n++)
        if (sets[n].there && count(sets[n].roles & held) >= sets[n].card) return 1;
    return 0;
}

static void shed(struct engine *e) {
    for (int k = 0; k < 64; k++)
        if (e->sessions[k].live) e->sessions[k].active &= reached(e, e->assigned[e->sessions[k].owner]);
}

static int user(struct engine *e, unsigned u) {
    if (u >= 256) return BEYOND;
    if (e->users[u]) return ALREADY;
    e->users[u] = 1;
    return DONE;
}

static int role(struct engine *e, unsigned r) {
    if (r >= 64) return BEYOND;
    if (has(e->roles, r)) return ALREADY;
    e->roles |= one(r);
    e->closure[r] = one(r);
    return DONE;
}

static int assign(struct engine *e, unsigned u, unsigned r) {
    if (u >= 256 || r >= 64) return BEYOND;
    if (!e->users[u] || !has(e->roles, r)) return MISSING;
    if (has(e->assigned[u], r)) return ALREADY;
    if (breaks(e->ssd, reached(e, e->assigned[u] | one(r)))) return STATIC;
    if (e->assignments >= 2048) return FULL;
    e->assigned[u] |= one(r);
    e->assignments++;
    return DONE;
}

static int deassign(struct engine *e, unsigned u, unsigned r) {
    if (u >= 256 || r >= 64) return BEYOND;
    if (!e->users[u] || !has(e->roles, r)) return MISSING;
    if (!has(e->assigned[u], r)) return NOT_THERE;
    e->assigned[u] &= ~one(r);
    e->assignments--;
    shed(e);
    return DONE;
}

static int grant(struct engine *e, unsigned op, unsigned obj, unsigned r) {
    if (op >= 16 || obj >= 256 || r >= 64) return BEYOND;
    if (!has(e->roles, r)) return MISSING;
    u64 *holders = &e->holders[op * 256 + obj];
    if (has(*holders, r)) return ALREADY;
    if (e->grants >= 2048) return FULL;
    *holders |= one(r);
    e->grants++;
    return DONE;
}

static int revoke(struct engine *e, unsigned op, unsigned obj, unsigned r) {
    if (op >= 16 || obj >= 256 || r >= 64) return BEYOND;
    if (!has(e->roles, r)) return MISSING;
    u64 *holders = &e->holders[op * 256 + obj];
    if (!has(*holders, r)) return NOT_THERE;
    *holders &= ~one(r);
    e->grants--;
    return DONE;
}

static int end_all(struct engine *e, unsigned u) {
    if (u >= 256) return BEYOND;
    if (!e->users[u]) return MISSING;
    for (int k = 0; k < 64; k++)
        if (e->sessions[k].live && e->sessions[k].owner == u) e->sessions[k] = (struct session){ 0, 0, 0 };
    return DONE;
}

static int nouser(struct engine *e, unsigned u) {
    if (u >= 256) return BEYOND;
    if (!e->users[u]) return MISSING;
    for (int k = 0; k < 64; k++)
        if (e->sessions[k].live && e->sessions[k].owner == u) return HAS_OPEN;
    e->assignments -= count(e->assigned[u]);
    e->assigned[u] = 0;
    e->users[u] = 0;
    return DONE;
}

static int inherit(struct engine *e, unsigned senior, unsigned junior) {
    if (senior >= 64 || junior >= 64) return BEYOND;
    if (!has(e->roles, senior) || !has(e->roles, junior)) return MISSING;
    if (has(e->juniors[senior], junior)) return ALREADY;
    if (has(e->closure[junior], senior)) return ITSELF;
    /* every role at or above the senior gains what the junior reaches */
    u64 gained = e->closure[junior];
    u64 above = 0;
    for (int r = 0; r < 64; r++)
        if (has(e->closure[r], senior)) above |= one(r);
    for (int u = 0; u < 256; u++) {
        if (!e->users[u] || !e->assigned[u]) continue;
        u64 held = reached(e, e->assigned[u]);
        if (e->assigned[u] & above) held |= gained;
        if (breaks(e->ssd, held)) return STATIC;
    }
    for (int k = 0; k < 64; k++) {
        if (!e->sessions[k].live) continue;
        u64 held = reached(e, e->sessions[k].active);
        if (e->sessions[k].active & above) held |= gained;
        if (breaks(e->dsd, held)) return DYNAMIC;
    }
    if (e->lines >= 512) return FULL;
    e->juniors[senior] |= one(junior);
    e->lines++;
    for (; above; above &= above - 1) e->closure[lowest(above)] |= gained;
    return DONE;
}

/* The closure anew for some roles: a role's closure is itself and those of its juniors. */
static u64 closed(struct engine *e, unsigned r, u64 *todo) {
    if (has(*todo, r)) {
        *todo &= ~one(r);
        u64 all = one(r);
        for (u64 j = e->juniors[r]; j; j &= j - 1) all |= closed(e, lowest(j), todo);
        e->closure[r] = all;
    }
    return e->closure[r];
}

static int disinherit(struct engine *e, unsigned senior, unsigned junior) {
    if (senior >= 64 || junior >= 64) return BEYOND;
    if (!has(e->roles, senior) || !has(e->roles, junior)) return MISSING;
    if (!has(e->juniors[senior], junior)) return NOT_THERE;
    e->juniors[senior] &= ~one(junior);
    e->lines--;
    u64 above = 0;
    for (int r = 0; r < 64; r++)
        if (has(e->closure[r], senior)) above |= one(r);
    while (above) closed(e, lowest(above), &above);
    shed(e);
    return DONE;
}

/* A role goes: its assignments, grants and lines, and then the closure of what was above it. */
static int norole(struct engine *e, unsigned r) {
    if (r >= 64) return BEYOND;
    if (!has(e->roles, r)) return MISSING;
    for (int n = 0; n < 16; n++)
        if (has(e->ssd[n].roles | e->dsd[n].roles, r)) return IN_SET;
    u64 above = 0;
    for (int k = 0; k < 64; k++) {
        if (k != (int)r && has(e->closure[k], r)) above |= one(k);
        if (has(e->juniors[k], r)) e->lines--;
        e->juniors[k] &= ~one(r);
    }
    e->lines -= count(e->juniors[r]);
    e->juniors[r] = 0;
    e->closure[r] = 0;
    while (above) closed(e, lowest(above), &above);
    for (int u = 0; u < 256; u++) {
        if (has(e->assigned[u], r)) e->assignments--;
        e->assigned[u] &= ~one(r);
    }
    for (int p = 0; p < 4096; p++) {
        if (has(e->holders[p], r)) e->grants--;
        e->holders[p] &= ~one(r);
    }
    e->roles &= ~one(r);
    shed(e);
    return DONE;
}

static int ascending(const u16 *list, unsigned n) {
    for (unsigned i = 1; i < n; i++)
        if (list[i] <= list[i - 1]) return 0;
    return 1;
}

/* Is the rule of a set broken, for some user or in some session? The answer, or DONE. */
static int set_rule(const struct engine *e, int dynamic, u64 roles, unsigned card) {
    if (dynamic) {
        for (int k = 0; k < 64; k++)
            if (e->sessions[k].live && count(reached(e, e->sessions[k].active) & roles) >= card) return DYNAMIC;
        return DONE;
    }
    for (int u = 0; u < 256; u++)
        if (e->assigned[u] && count(reached(e, e->assigned[u]) & roles) >= card) return STATIC;
    return DONE;
}

static struct set *sets_of(struct engine *e, int dynamic) { return dynamic ? e->dsd : e->ssd; }

static int make_set(struct engine *e, int dynamic, unsigned name, unsigned card, const u16 *list, unsigned n) {
    u64 roles = 0;
    if (!ascending(list, n)) return FORM;
    if (name >= 16) return BEYOND;
    for (unsigned i = 0; i < n; i++) {
        if (list[i] >= 64) return BEYOND;
        roles |= one(list[i]);
    }
    if (roles & ~e->roles) return MISSING;
    struct set *set = sets_of(e, dynamic) + name;
    if (set->there) return ALREADY;
    if (card < 2 || card > n) return BAD_CARD;
    int broken = set_rule(e, dynamic, roles, card);
    if (broken) return broken;
    *set = (struct set){ 1, (u16)card, roles };
    return DONE;
}

static int drop_set(struct engine *e, int dynamic, unsigned name) {
    if (name >= 16) return BEYOND;
    struct set *set = sets_of(e, dynamic) + name;
    if (!set->there) return MISSING;
    *set = (struct set){ 0, 0, 0 };
    return DONE;
}

static int add_member(struct engine *e, int dynamic, unsigned name, unsigned r) {
    if (name >= 16 || r >= 64) return BEYOND;
    struct set *set = sets_of(e, dynamic) + name;
    if (!set->there || !has(e->roles, r)) return MISSING;
    if (has(set->roles, r)) return ALREADY;
    int broken = set_rule(e, dynamic, set->roles | one(r), set->card);
    if (broken) return broken;
    set->roles |= one(r);
    return DONE;
}

static int drop_member(struct engine *e, int dynamic, unsigned name, unsigned r) {
    if (name >= 16 || r >= 64) return BEYOND;
    struct set *set = sets_of(e, dynamic) + name;
    if (!set->there || !has(e->roles, r)) return MISSING;
    if (!has(set->roles, r)) return NOT_THERE;
    if (set->card > count(set->roles) - 1) return BAD_CARD;
    set->roles &= ~one(r);
    return DONE;
}

static int set_cardinality(struct engine *e, int dynamic, unsigned name, unsigned card) {
    if (name >= 16) return BEYOND;
    struct set *set = sets_of(e, dynamic) + name;
    if (!set->there) return MISSING;
    if (card < 2 || card > count(set->roles)) return BAD_CARD;
    int broken = set_rule(e, dynamic, set->roles, card);
    if (broken) return broken;
    set->card = (u16)card;
    return DONE;
}

static int open_session(struct engine *e, unsigned u, const u16 *list, unsigned n, unsigned *number) {
    u64 roles = 0;
    *number = 0;
    if (!ascending(list, n)) return FORM;
    if (u >= 256) return BEYOND;
    for (unsigned i = 0; i < n; i++) {
        if (list[i] >= 64) return BEYOND;
        roles |= one(list[i]);
    }
    if (!e->users[u] || roles & ~e->roles) return MISSING;
    if (roles & ~reached(e, e->assigned[u])) return NOT_AUTHORISED;
    if (breaks(e->dsd, reached(e, roles))) return DYNAMIC;
    unsigned free = 0;
    while (free < 64 && e->sessions[free].live) free++;
    if (free == 64) return FULL;
    e->sessions[free] = (struct session){ 1, (u8)u, roles };
    *number = free;
    return DONE;
}

static int end_session(struct engine *e, unsigned u, unsigned x) {
    if (u >= 256 || x >= 64) return BEYOND;
    if (!e->users[u] || !e->sessions[x].live) return MISSING;
    if (e->sessions[x].owner != u) return OTHER_OWNER;
    e->sessions[x] = (struct session){ 0, 0, 0 };
    return DONE;
}

static int activate(struct engine *e, unsigned u, unsigned x, unsigned r) {
    if (u >= 256 || x >= 64 || r >= 64) return BEYOND;
    struct session *s = &e->sessions[x];
    if (!e->users[u] || !s->live || !has(e->roles, r)) return MISSING;
    if (s->owner != u) return OTHER_OWNER;
    if (has(s->active, r)) return ALREADY;
    if (!has(reached(e, e->assigned[u]), r)) return NOT_AUTHORISED;
    if (breaks(e->dsd, reached(e, s->active | one(r)))) return DYNAMIC;
    s->active |= one(r);
    return DONE;
}

static int drop(struct engine *e, unsigned u, unsigned x, unsigned r) {
    if (u >= 256 || x >= 64 || r >= 64) return BEYOND;
    struct session *s = &e->sessions[x];
    if (!e->users[u] || !s->live || !has(e->roles, r)) return MISSING;
    if (s->owner != u) return OTHER_OWNER;
    if (!has(s->active, r)) return NOT_THERE;
    s->active &= ~one(r);
    return DONE;
}

/* The roles up to and including the lowest of those that hold the grant; all of them where none does. */
static u64 up_to_first(u64 roles, u64 holding) {
    u64 first = holding & -holding;
    return holding ? roles & (first | (first - 1)) : roles;
}

static int check(const struct engine *e, unsigned x, unsigned op, unsigned obj, int walk, int *yes, unsigned *looked) {
    *yes = 0;
    *looked = 0;
    if (x >= 64 || op >= 16 || obj >= 256) return BEYOND;
    if (!e->sessions[x].live) return MISSING;
    u64 active = e->sessions[x].active;
    u64 effective = walk ? walked(e, active) : reached(e, active);
    u64 holding = effective & e->holders[op * 256 + obj];
    *yes = holding != 0;
    *looked = count(up_to_first(effective, holding));
    return DONE;
}

/* ---- the policy file */

static u8 *put(u8 *at, unsigned x) {
    at[0] = (u8)x;
    at[1] = (u8)(x >> 8);
    return at + 2;
}

static u8 *put_roles(u8 *at, u64 set) {
    at = put(at, count(set));
    for (; set; set &= set - 1) at = put(at, lowest(set));
    return at;
}

static u8 *put_sets(u8 *at, const struct set *sets) {
    unsigned n = 0;
    for (int k = 0; k < 16; k++) n += sets[k].there;
    at = put(at, n);
    for (int k = 0; k < 16; k++)
        if (sets[k].there) at = put_roles(put(put(at, (unsigned)k), sets[k].card), sets[k].roles);
    return at;
}

static u8 *put_pairs(u8 *at, const u64 *table, unsigned n, unsigned total) {
    at = put(at, total);
    for (unsigned k = 0; k < n; k++)
        for (u64 set = table[k]; set; set &= set - 1) at = put(put(at, k), lowest(set));
    return at;
}

/* The grants stand role by role, and the engine has them by permission: counted first, then placed. */
static u8 *put_grants(u8 *at, const struct engine *e) {
    unsigned many[64] = { 0 };
    u8 *place[64];
    at = put(at, e->grants);
    for (int p = 0; p < 4096; p++)
        for (u64 set = e->holders[p]; set; set &= set - 1) many[lowest(set)]++;
    for (int r = 0; r < 64; r++) {
        place[r] = at;
        at += 6 * many[r];
    }
    for (unsigned p = 0; p < 4096; p++)
        for (u64 set = e->holders[p]; set; set &= set - 1) {
            unsigned r = lowest(set);
            place[r] = put(put(put(place[r], r), p / 256), p % 256);
        }
    return at;
}

/* What the file will take; then it is written. */
static u64 size_of(const struct engine *e) {
    u64 n = 16 + 2 * count(e->roles) + 4 * e->lines + 4 * e->assignments + 6 * e->grants;
    for (int u = 0; u < 256; u++) n += 2 * e->users[u];
    for (int k = 0; k < 16; k++) {
        if (e->ssd[k].there) n += 6 + 2 * count(e->ssd[k].roles);
        if (e->dsd[k].there) n += 6 + 2 * count(e->dsd[k].roles);
    }
    for (int k = 0; k < 64; k++)
        if (e->sessions[k].live) n += 6 + 2 * count(e->sessions[k].active);
    return n;
}

static int save(const struct engine *e, u8 *out, u64 room, u64 *length) {
    unsigned n = 0;
    u8 *at = out;
    *length = 0;
    if (size_of(e) > room) return SHORT;
    for (int u = 0; u < 256; u++) n += e->users[u];
    at = put(at, n);
    for (unsigned u = 0; u < 256; u++)
        if (e->users[u]) at = put(at, u);
    at = put_roles(at, e->roles);
    at = put_pairs(at, e->juniors, 64, e->lines);
    at = put_pairs(at, e->assigned, 256, e->assignments);
    at = put_grants(at, e);
    at = put_sets(at, e->ssd);
    at = put_sets(at, e->dsd);
    n = 0;
    for (int k = 0; k < 64; k++) n += e->sessions[k].live;
    at = put(at, n);
    for (unsigned k = 0; k < 64; k++)
        if (e->sessions[k].live) at = put_roles(put(put(at, k), e->sessions[k].owner), e->sessions[k].active);
    *length = (u64)(at - out);
    return DONE;
}

struct reader { const u8 *at, *end; int bad; };

static unsigned word(struct reader *f) {
    if (f->end - f->at < 2) {
        f->bad = 1;
        return 0;
    }
    unsigned x = f->at[0] + 256u * f->at[1];
    f->at += 2;
    return x;
}

/* A count, 0 where it is beyond its limit. */
static unsigned counted(struct reader *f, unsigned most) {
    unsigned n = word(f);
    if (n > most) f->bad = 1;
    return f->bad ? 0 : n;
}

static u64 take_roles(struct reader *f, u64 listed) {
    u64 set = 0;
    int last = -1;
    for (unsigned n = counted(f, 64); n && !f->bad; n--) {
        unsigned r = word(f);
        if (r >= 64 || (int)r <= last || !has(listed, r)) {
            f->bad = 1;
            return 0;
        }
        last = (int)r;
        set |= one(r);
    }
    return set;
}

static void take_sets(struct reader *f, struct set *sets, u64 roles) {
    int last = -1;
    for (unsigned n = counted(f, 16); n && !f->bad; n--) {
        unsigned name = word(f);
        if (name >= 16 || (int)name <= last) {
            f->bad = 1;
            return;
        }
        last = (int)name;
        sets[name].there = 1;
        sets[name].card = (u16)word(f);
        sets[name].roles = take_roles(f, roles);
    }
}

static void take_tables(struct reader *f, struct engine *e) {
    long last = -1;
    e->lines = counted(f, 512);
    for (unsigned n = e->lines; n && !f->bad; n--) {
        unsigned senior = word(f), junior = word(f);
        if (!has(e->roles, senior) || !has(e->roles, junior) || (long)(senior * 64 + junior) <= last) f->bad = 1;
        else e->juniors[senior] |= one(junior);
        last = senior * 64 + junior;
    }
    last = -1;
    e->assignments = counted(f, 2048);
    for (unsigned n = e->assignments; n && !f->bad; n--) {
        unsigned u = word(f), r = word(f);
        if (u >= 256 || !e->users[u] || !has(e->roles, r) || (long)(u * 64 + r) <= last) f->bad = 1;
        else e->assigned[u] |= one(r);
        last = u * 64 + r;
    }
    last = -1;
    e->grants = counted(f, 2048);
    for (unsigned n = e->grants; n && !f->bad; n--) {
        unsigned r = word(f), op = word(f), obj = word(f);
        long now = (long)r * 4096 + op * 256 + obj;
        if (!has(e->roles, r) || op >= 16 || obj >= 256 || now <= last) f->bad = 1;
        else e->holders[op * 256 + obj] |= one(r);
        last = now;
    }
}

static void take_sessions(struct reader *f, struct engine *e) {
    int last = -1;
    for (unsigned n = counted(f, 64); n && !f->bad; n--) {
        unsigned k = word(f), owner = word(f);
        if (k >= 64 || (int)k <= last || owner >= 256 || !e->users[owner]) {
            f->bad = 1;
            return;
        }
        last = (int)k;
        e->sessions[k] = (struct session){ 1, (u8)owner, take_roles(f, e->roles) };
    }
}

/* The closures of all roles from the bottom up; is there a circle? */
static int circular(struct engine *e) {
    u64 left = e->roles;
    while (left) {
        u64 before = left;
        for (u64 try = left; try; try &= try - 1) {
            unsigned r = lowest(try);
            if (e->juniors[r] & left) continue;
            u64 all = one(r);
            for (u64 j = e->juniors[r]; j; j &= j - 1) all |= e->closure[lowest(j)];
            e->closure[r] = all;
            left &= ~one(r);
        }
        if (left == before) return 1;
    }
    return 0;
}

static int bad_sets(const struct set *sets) {
    for (int k = 0; k < 16; k++)
        if (sets[k].there && (sets[k].card < 2 || sets[k].card > count(sets[k].roles))) return 1;
    return 0;
}

static int rules(struct engine *e) {
    u64 held[256];
    if (circular(e)) return ITSELF;
    if (bad_sets(e->ssd) || bad_sets(e->dsd)) return BAD_CARD;
    for (int u = 0; u < 256; u++) held[u] = reached(e, e->assigned[u]);
    for (int k = 0; k < 64; k++)
        if (e->sessions[k].live && e->sessions[k].active & ~held[e->sessions[k].owner]) return NOT_AUTHORISED;
    for (int u = 0; u < 256; u++)
        if (held[u] && breaks(e->ssd, held[u])) return STATIC;
    for (int k = 0; k < 64; k++)
        if (e->sessions[k].live && breaks(e->dsd, reached(e, e->sessions[k].active))) return DYNAMIC;
    return DONE;
}

static int load(struct engine *e, const u8 *bytes, u64 n) {
    struct reader f = { bytes, bytes + n, 0 };
    struct engine *new = &scratch;
    int last = -1;
    __builtin_memset(new, 0, sizeof *new);
    for (unsigned k = counted(&f, 256); k && !f.bad; k--) {
        unsigned u = word(&f);
        if (u >= 256 || (int)u <= last) f.bad = 1;
        else new->users[u] = 1;
        last = (int)u;
    }
    new->roles = take_roles(&f, ~0ul);
    take_tables(&f, new);
    take_sets(&f, new->ssd, new->roles);
    take_sets(&f, new->dsd, new->roles);
    take_sessions(&f, new);
    if (f.bad || f.at != f.end) return FORM;
    int answer = rules(new);
    if (answer == DONE) *e = *new;
    return answer;
}

/* ---- the policies that are measured, as in crates/speed/src/school.rt */

static unsigned top(unsigned depth, unsigned u) {
    switch (depth) {
    case 4: return u % 16 * 4 + 3;
    case 8: return u % 8 * 8 + 7;
    case 16: return u % 4 * 16 + 15;
    case 32: return u % 2 * 32 + 31;
    case 63: return 62 + u % 2;
    default: return u % 16 * 4 + 3;
    }
}

static void pair_of(int dynamic, unsigned b, u16 *pair) {
    pair[0] = (u16)(dynamic ? b == 15 ? 2 : b * 4 + 1 : b * 4);
    pair[1] = (u16)(dynamic ? b == 15 ? 61 : b * 4 + 6 : b * 4 + 2);
}

static void build(struct engine *e, unsigned depth, unsigned users) {
    int school = depth < 3;
    unsigned number;
    for (unsigned u = 0; u < users; u++) user(e, u);
    for (unsigned r = 0; r < 64; r++) role(e, r);
    for (unsigned r = 0; r < 64; r++) {
        if (school && r % 4 == 3) {
            inherit(e, r, r - 3);
            inherit(e, r, r - 2);
        }
        if (!school && r % depth) inherit(e, r, r - 1);
    }
    for (unsigned n = 0; n < 768; n++) grant(e, n / 16 % 3, n / 48 * 16 + n % 16, n / 48 * 4 + n / 16 % 3);
    for (unsigned n = 0; n < 16; n++) {
        u16 pair[2] = { (u16)n, 63 };
        if (school) pair_of(0, n, pair);
        make_set(e, 0, n, 2, pair, 2);
        if (school) {
            pair_of(1, n, pair);
            make_set(e, 1, n, 2, pair, 2);
        }
    }
    for (unsigned u = 0; u < users; u++) {
        assign(e, u, top(depth, u));
        if (school) assign(e, u, (u % 16 + 1) % 16 * 4 + 2);
    }
    for (unsigned u = 0; u < 16; u++) {
        u16 list[1] = { (u16)top(depth, u) };
        open_session(e, u, list, 1, &number);
    }
}

/* ---- single moves, as in crates/speed/src/moves.rt */

static int of_users(struct engine *e, unsigned m, unsigned b) {
    switch (m) {
    case 0: return user(e, 255);
    case 1: return nouser(e, 255);
    case 2: return user(e, b);
    case 3: return norole(e, 63);
    case 4: return role(e, 63);
    case 5: return role(e, b);
    case 6: return norole(e, b * 4);
    case 7: return nouser(e, b);
    case 8: return end_all(e, b + 16);
    default: return DONE;
    }
}

static unsigned spare(unsigned depth, unsigned b) { return depth < 3 ? (b + 2) % 16 * 4 + 1 : 17; }

static int of_assignments(struct engine *e, unsigned m, unsigned depth, unsigned b) {
    unsigned r = spare(depth, b);
    switch (m) {
    case 10: return assign(e, b, r);
    case 11: return deassign(e, b, r);
    case 12: return assign(e, b, top(depth, b));
    case 13: return assign(e, b, b * 4 + 2);
    case 14: return assign(e, 255, r);
    case 15: return deassign(e, b, r);
    default: return DONE;
    }
}

static int of_grants(struct engine *e, unsigned m, u64 i, unsigned b) {
    unsigned obj = i % 256;
    switch (m) {
    case 20: return grant(e, 5, obj, b);
    case 21: return revoke(e, 5, obj, b);
    case 22: return grant(e, 0, b * 16, b * 4);
    case 23: return revoke(e, 6, obj, b);
    default: return DONE;
    }
}

static int of_lines(struct engine *e, unsigned m, unsigned depth, unsigned b) {
    unsigned r = spare(depth, b), s = depth < 3 ? b * 4 + 3 : depth - 1;
    switch (m) {
    case 30: return inherit(e, s, r);
    case 31: return disinherit(e, s, r);
    case 32: return inherit(e, b * 4 + 3, b * 4);
    case 33: return inherit(e, b * 4, b * 4 + 3);
    case 34: return inherit(e, b * 4 + 3, b * 4 + 2);
    case 35: return disinherit(e, s, r);
    case 36: return inherit(e, b * 4 + 3, (b + 1) * 4 + 2);
    default: return DONE;
    }
}

static int of_sets(struct engine *e, unsigned m, int dynamic, unsigned b) {
    unsigned other = (b + 5) % 16 * 4;
    u16 pair[2];
    pair_of(dynamic, b, pair);
    switch (m) {
    case 0: return drop_set(e, dynamic, b);
    case 1: return make_set(e, dynamic, b, 2, pair, 2);
    case 2: return add_member(e, dynamic, b, other);
    case 3: return drop_member(e, dynamic, b, other);
    case 4: return set_cardinality(e, dynamic, b, 2);
    case 5: return add_member(e, dynamic, b, b * 4 + 3);
    case 6: return drop_member(e, dynamic, b, other);
    case 7: return set_cardinality(e, dynamic, b, 3);
    default: return DONE;
    }
}

static int of_sessions(struct engine *e, unsigned m, unsigned depth, unsigned b) {
    unsigned lead = top(depth, b), number;
    u16 list[1] = { (u16)lead }, pair[2];
    switch (m) {
    case 60: return open_session(e, b, list, 1, &number);
    case 61: return end_session(e, b, 16);
    case 62: return activate(e, b, b, b * 4);
    case 63: return drop(e, b, b, b * 4);
    case 64: return open_session(e, b + 1, list, 1, &number);
    case 65: return end_session(e, b + 1, b);
    case 66: return activate(e, b, b, lead);
    case 67: return drop(e, b, b, b * 4 + 2);
    case 68:
        pair_of(1, b, pair);
        return open_session(e, b, pair, 2, &number);
    case 69: return open_session(e, b + 16, list, 1, &number);
    default: return DONE;
    }
}

static int moved(struct engine *e, u64 m, unsigned depth, u64 i) {
    unsigned b = i % 8 * 2, n = (unsigned)m;
    switch (m / 10) {
    case 0: return of_users(e, n, b);
    case 1: return of_assignments(e, n, depth, b);
    case 2: return of_grants(e, n, i, b);
    case 3: return of_lines(e, n, depth, b);
    case 4: return of_sets(e, n % 10, 0, b);
    case 5: return of_sets(e, n % 10, 1, b);
    case 6: return of_sessions(e, n, depth, b);
    default: return DONE;
    }
}

/* ---- the rounds, as in crates/speed/src/rounds.rt and files.rt */

static u64 mix(u64 sum, int answer, u64 result) { return (sum << 1 | sum >> 63) + (u64)answer + result; }

static u64 checks(struct engine *e, u64 rounds, int walk) {
    u64 sum = 1;
    for (u64 i = 0; i < rounds; i++) {
        int yes;
        unsigned looked;
        int answer = check(e, i % 8 * 2, i / 8 % 4, i % 8 * 32 + i / 32 % 32, walk, &yes, &looked);
        sum = mix(sum, answer, (u64)looked + (yes ? 65536 : 0));
    }
    return sum;
}

static u64 moves(struct engine *e, u64 first, u64 second, unsigned depth, u64 rounds) {
    u64 sum = 1;
    for (u64 i = 0; i < rounds; i++) {
        sum = mix(sum, moved(e, first, depth, i), 0);
        if (second != 99) sum = mix(sum, moved(e, second, depth, i), 0);
    }
    return sum;
}

static u8 file[65536];

static u64 loads(struct engine *e, u64 rounds) {
    u64 sum = 1, n;
    save(e, file, sizeof file, &n);
    for (u64 i = 0; i < rounds; i++) {
        int answer = load(e, file, n);
        sum = mix(sum, answer, e->assigned[i % 256]);
    }
    return sum;
}

static u64 saves(struct engine *e, u64 rounds) {
    u64 sum = 1, n;
    for (u64 i = 0; i < rounds; i++) {
        int answer = save(e, file, sizeof file, &n);
        sum = mix(mix(sum, answer, n), answer, file[i % 4096]);
    }
    return sum;
}

/* 93 is `check` again, by a walk instead of the closure: its checksum is that of 90. */
static u64 run(struct engine *e, u64 first, u64 second, unsigned depth, u64 rounds) {
    switch (first) {
    case 90: return checks(e, rounds, 0);
    case 91: return loads(e, rounds);
    case 92: return saves(e, rounds);
    case 93: return checks(e, rounds, 1);
    default: return moves(e, first, second, depth, rounds);
    }
}

/* The request: FIRST SECOND DEPTH USERS ROUNDS. */
int main(void) {
    u8 text[64];
    long n = read(0, text, sizeof text);
    u64 asked[5] = { 0 };
    int k = 0;
    for (long i = 0; i < n && k < 5; i++) {
        if (text[i] >= '0' && text[i] <= '9') asked[k] = (asked[k] * 10 + text[i] - '0') % 1000000000000;
        else k++;
    }
    unsigned depth = (unsigned)(asked[2] % 64), users = (unsigned)(asked[3] % 257);
    build(&engine, depth, users);
    u64 sum = run(&engine, asked[0], asked[1], depth, asked[4]);
    u8 out[24], *at = out + sizeof out;
    *--at = '\n';
    do *--at = (u8)('0' + sum % 10); while (sum /= 10);
    write(1, at, (u64)(out + sizeof out - at));
    return 0;
}
