/* What a call of our archive costs a C program, beside a call of the C engine. Both have the same policy: the C engine builds the school's, and ours
   loads the file that it saves. For each row both make rounds for 20 ms or more, in turn, fifteen times, and the medians are printed. The checksum of as
   many rounds must be equal in both, and so must the files that both save at the end. A time is the processor time of this process. No text goes to the
   C engine, which has no reader of lines: its command is called directly. */
#define _POSIX_C_SOURCE 199309L
#include <stdio.h>
#include <stdlib.h>
#include <string.h>
#include <time.h>

#include "engine.h"
#include "marruskil.h"

enum { LINES = 1024, TIMES = 15, SHORT_ROOM = 64 };

struct line { char text[15]; uint8_t length; };

struct row {
    const char *name;
    uint64_t (*ours)(uint64_t rounds), (*c)(uint64_t rounds);
    void (*write)(unsigned i); /* puts the lines of round i, if ours takes lines */
    unsigned answer;           /* what each line is answered */
};

static marruskil_state state;
static struct engine *engine;
static char out[MARRUSKIL_LONGEST_ANSWER];
static size_t room;              /* what of `out` is lent */
static struct line table[LINES]; /* the lines of a row, made before it is measured */
static unsigned written;

static void must(int so, const char *what) {
    if (so) return;
    fflush(stdout);
    fprintf(stderr, "caller: %s\n", what);
    exit(1);
}

/* ---- the arguments of round i, as in speed/baseline.c */

static unsigned bench(uint64_t i) { return i % 8 * 2; }
static unsigned op(uint64_t i) { return i / 8 % 4; }
static unsigned obj(uint64_t i) { return i % 8 * 32 + i / 32 % 32; }
static unsigned spare(uint64_t i) { return (bench(i) + 2) % 16 * 4 + 1; }

static void put_line(const char *form, unsigned a, unsigned b, unsigned c) {
    char text[64];
    int n = snprintf(text, sizeof text, form, a, b, c);
    must(written < LINES && n > 0 && (size_t)n <= sizeof table->text, "a line is too long for its place");
    memcpy(table[written].text, text, (size_t)n);
    table[written++].length = (uint8_t)n;
}

static void write_check(unsigned i) { put_line("check %u %u %u", bench(i), op(i), obj(i)); }
static void write_grant(unsigned i) { put_line("grant 0 %u %u", bench(i) * 16, bench(i) * 4, 0); }

static void write_assign(unsigned i) {
    put_line("assign %u %u", bench(i), spare(i), 0);
    put_line("deassign %u %u", bench(i), spare(i), 0);
}

/* ---- the rounds: each gives a checksum of the answers and results */

/* Several results as one number. */
static unsigned with_next(unsigned results, unsigned next) { return results * 128 + next; }

static uint64_t mix(uint64_t sum, unsigned answer, unsigned result) { return sum * 31 + answer * 2 + result; }

static uint64_t our_checks(uint64_t rounds) {
    uint64_t sum = 1;
    for (uint64_t i = 0; i < rounds; i++) {
        uint8_t yes = 0;
        uint16_t looked = 0;
        unsigned answer = marruskil_check(&state, bench(i), op(i), obj(i), &yes, &looked);
        sum = mix(sum, answer, with_next(yes, looked));
    }
    return sum;
}

/* The answer number of an answer line, and the results after it, 0 where there is none. */
static unsigned answer_in(size_t n, unsigned *results) {
    unsigned answer = 0;
    size_t at = 0;
    *results = 0;
    for (; at < n && out[at] >= '0'; at++) answer = answer * 10 + (unsigned)(out[at] - '0');
    while (at < n && out[at] == ' ') {
        unsigned next = 0;
        for (at++; at < n && out[at] >= '0'; at++) next = next * 10 + (unsigned)(out[at] - '0');
        *results = with_next(*results, next);
    }
    return answer;
}

/* The lines of the table in turn, whose number is a power of two: `many` lines in all. */
static uint64_t our_lines(uint64_t many) {
    uint64_t sum = 1;
    for (uint64_t i = 0; i < many; i++) {
        const struct line *line = &table[i & (written - 1)];
        unsigned result, answer = answer_in(marruskil_obey(&state, line->text, line->length, out, room), &result);
        sum = mix(sum, answer, result);
    }
    return sum;
}

static uint64_t our_pairs(uint64_t rounds) { return our_lines(2 * rounds); }

static uint64_t c_checks(uint64_t rounds) {
    uint64_t sum = 1;
    for (uint64_t i = 0; i < rounds; i++) {
        int yes = 0;
        unsigned looked = 0;
        int answer = c_check(engine, bench(i), op(i), obj(i), &yes, &looked);
        sum = mix(sum, (unsigned)answer, with_next((unsigned)yes, looked));
    }
    return sum;
}

static uint64_t c_grants(uint64_t rounds) {
    uint64_t sum = 1;
    for (uint64_t i = 0; i < rounds; i++) sum = mix(sum, (unsigned)c_grant(engine, 0, bench(i) * 16, bench(i) * 4), 0);
    return sum;
}

static uint64_t c_pairs(uint64_t rounds) {
    uint64_t sum = 1;
    for (uint64_t i = 0; i < rounds; i++) {
        sum = mix(sum, (unsigned)c_assign(engine, bench(i), spare(i)), 0);
        sum = mix(sum, (unsigned)c_deassign(engine, bench(i), spare(i)), 0);
    }
    return sum;
}

static uint64_t nothings(uint64_t rounds) {
    uint64_t sum = 1;
    for (uint64_t i = 0; i < rounds; i++) {
        int yes = 0;
        unsigned looked = 0;
        int answer = c_nothing(engine, bench(i), op(i), obj(i), &yes, &looked);
        sum = mix(sum, (unsigned)answer, with_next((unsigned)yes, looked));
    }
    return sum;
}

/* ---- measuring */

/* The processor time of this process, in ns. */
static double now(void) {
    struct timespec t;
    must(clock_gettime(CLOCK_PROCESS_CPUTIME_ID, &t) == 0, "there is no clock");
    return (double)t.tv_sec * 1e9 + (double)t.tv_nsec;
}

static double took(uint64_t (*work)(uint64_t), uint64_t rounds, uint64_t *sum) {
    double from = now();
    *sum = work(rounds);
    return now() - from;
}

static int by_size(const void *a, const void *b) {
    double x = *(const double *)a, y = *(const double *)b;
    return (x > y) - (x < y);
}

static double median(double *times) {
    qsort(times, TIMES, sizeof *times, by_size);
    return times[TIMES / 2];
}

/* As many rounds as take the work 20 ms. */
static uint64_t enough(uint64_t (*work)(uint64_t)) {
    uint64_t rounds = 1024, sum;
    while (took(work, rounds, &sum) < 2e7) rounds *= 2;
    return rounds;
}

/* Makes the lines of a row, and obeys them once to see that they are answered as the row says. They leave the policy as it was. */
static void prepare(const struct row *row) {
    written = 0;
    if (!row->write) return;
    for (unsigned i = 0; written < LINES; i++) row->write(i);
    for (unsigned i = 0; i < written; i++) {
        unsigned result, answer = answer_in(marruskil_obey(&state, table[i].text, table[i].length, out, room), &result);
        must(answer == row->answer, "a line is answered otherwise than its row says");
    }
}

static void measure(const struct row *row) {
    double ours[TIMES], c[TIMES], ratios[TIMES], a, b;
    uint64_t rounds, more, expected, sum;
    prepare(row);
    rounds = enough(row->ours);
    more = enough(row->c);
    expected = row->c(rounds);
    for (int k = 0; k < TIMES; k++) {
        ours[k] = took(row->ours, rounds, &sum) / (double)rounds;
        must(sum == expected, "the checksums differ");
        c[k] = took(row->c, more, &sum) / (double)more;
        ratios[k] = ours[k] / c[k];
    }
    a = median(ours);
    b = median(c);
    median(ratios);
    printf("| %-58s | %8.1f | %8.1f | %6.1f | %.1f to %.1f |\n", row->name, a, b, a / b, ratios[0], ratios[TIMES - 1]);
    fflush(stdout);
}

/* Do both save the same file? */
static void same_files(void) {
    static uint8_t ours[MARRUSKIL_LONGEST_FILE], c[MARRUSKIL_LONGEST_FILE];
    size_t length = 0, other = c_save(engine, c, sizeof c);
    must(marruskil_save(&state, ours, sizeof ours, &length) == 0 && length > 16 && length == other, "the files have other lengths");
    must(memcmp(ours, c, length) == 0, "the files differ");
}

int main(void) {
    static const struct row calls[] = {
        { "`marruskil_check`", our_checks, c_checks, NULL, 0 },
        { "the line `check s op obj`", our_lines, c_checks, write_check, 0 },
        { "the line `grant op obj r`, refused with 4", our_lines, c_grants, write_grant, 4 },
        { "the lines `assign u r` and `deassign u r`", our_pairs, c_pairs, write_assign, 0 },
    };
    static const struct row lent_less = { "the line `check s op obj`, with a room of 64 bytes", our_lines, c_checks, write_check, 0 };
    static uint8_t file[MARRUSKIL_LONGEST_FILE];
    double alone[TIMES];
    uint64_t rounds = enough(nothings), sum;

    engine = c_built();
    marruskil_start(&state);
    must(marruskil_load(&state, file, c_save(engine, file, sizeof file)) == 0, "the policy is not loaded");
    same_files();
    printf("| %-58s | %8s | %8s | %6s | %s |\n|---|---|---|---|---|\n", "ns for a round", "Rattle", "C", "ratio", "least to most");
    room = sizeof out;
    for (size_t k = 0; k < sizeof calls / sizeof *calls; k++) measure(&calls[k]);
    room = SHORT_ROOM;
    measure(&lent_less);
    same_files();
    for (int k = 0; k < TIMES; k++) alone[k] = took(nothings, rounds, &sum) / (double)rounds;
    printf("\nA round whose call does nothing takes %.1f ns.\n", median(alone));
    return 0;
}
