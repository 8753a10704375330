/* Calls every function on states that no call made, all bits random, with random arguments. Every lent block ends right before memory that nobody may
   touch, and bytes that are not to be written are compared. Takes the number of rounds, 2,000 where none is given, and prints how many calls of each kind there were. Ends with status 1 and a word on standard
   error where an answer is no number of the sheet, a refusal changes something, or something is written that should not be. */
#define _DEFAULT_SOURCE
#include <stdio.h>
#include <stdlib.h>
#include <string.h>
#include <sys/mman.h>

#include "marruskil.h"

enum { UNTOUCHED = 0xa5, FENCE = 65536, MOST_FILE = 65000 };

typedef char a_size_is_64_bits[sizeof(size_t) == 8 ? 1 : -1];
typedef char a_state_is_its_numbers[sizeof(marruskil_state) == 8 * MARRUSKIL_PLACES ? 1 : -1];

static uint64_t seed = 88172645463325252u;
static marruskil_state before;
static uint8_t keep[MOST_FILE];
static unsigned long answers[17], unfit, saved_long;

static void must(int kept, const char *what)
{
    if (!kept) {
        fprintf(stderr, "random: %s\n", what);
        exit(1);
    }
}

static uint64_t random64(void)
{
    seed ^= seed << 13;
    seed ^= seed >> 7;
    seed ^= seed << 17;
    return seed;
}

static size_t below(size_t n)
{
    return (size_t)(random64() % n);
}

/* A number of any size, small ones often. */
static uint64_t any_number(void)
{
    return random64() >> below(64);
}

/* The last `size` bytes before memory that nobody may touch. */
static uint8_t *fenced(uint8_t *end, size_t size)
{
    return end - size;
}

static uint8_t *fence(void)
{
    uint8_t *all = (uint8_t *)mmap(NULL, 3 * FENCE, PROT_NONE, MAP_PRIVATE | MAP_ANONYMOUS, -1, 0);

    must(all != (uint8_t *)MAP_FAILED && mprotect(all + FENCE, FENCE, PROT_READ | PROT_WRITE) == 0, "there is no memory");
    return all + 2 * FENCE;
}

/* All bits random, or few of them set, or few of them not; at times one number stands everywhere. */
static void fill(marruskil_state *state)
{
    size_t i;
    unsigned kind = (unsigned)below(5);
    uint64_t one = any_number();

    for (i = 0; i < MARRUSKIL_PLACES; i++) {
        uint64_t r = random64();
        state->numbers[i] = kind == 0 ? r : kind == 1 ? r & random64() & random64() & random64() : kind == 2 ? r | random64() | random64() : kind == 3 ? any_number() : one;
    }
}

static const char *const words[] = {
    "user", "role", "nouser", "norole", "assign", "deassign", "grant", "revoke", "inherit", "disinherit", "ssd", "nossd", "ssd-add", "ssd-drop", "ssd-card",
    "dsd", "nodsd", "dsd-add", "dsd-drop", "dsd-card", "session", "activate", "drop", "end", "check", "assigned-users", "assigned-roles", "auth-users",
    "auth-roles", "role-perms", "user-perms", "session-roles", "session-perms", "role-ops", "user-ops", "ssd-sets", "ssd-roles", "ssd-count", "dsd-sets",
    "dsd-roles", "dsd-count", "end-all",
};

/* A line: a word and numbers, or any bytes. Gives its length. */
static size_t make_line(char *line)
{
    size_t length, i, numbers = below(5), least = 0;

    if (below(8) == 0) {
        length = below(600);
        for (i = 0; i < length; i++)
            line[i] = (char)random64();
        return length;
    }
    length = (size_t)sprintf(line, "%s", words[below(sizeof words / sizeof *words)]);
    for (i = 0; i < numbers; i++) {
        least = below(3) == 0 ? below(300) : least + below(20);
        length += (size_t)sprintf(line + length, " %lu", (unsigned long)least);
    }
    return length;
}

static int untouched(const uint8_t *bytes, size_t from, size_t to)
{
    for (; from < to; from++)
        if (bytes[from] != UNTOUCHED)
            return 0;
    return 1;
}

/* The numbers of the answer sheet. */
static const unsigned char sheet[] = {0, 1, 2, 3, 4, 5, 6, 7, 8, 9, 10, 11, 12, 14, 15, 16};

static void count(unsigned long number)
{
    must(number < sizeof answers / sizeof *answers && memchr(sheet, (int)number, sizeof sheet) != NULL, "an answer is no number of the sheet");
    answers[number]++;
}

static void try_obey(marruskil_state *state, uint8_t *line_end, uint8_t *out_end)
{
    char text[1024];
    size_t length = make_line(text), room = below(4) == 0 ? MARRUSKIL_LONGEST_ANSWER + below(100) : below(3) == 0 ? below(2000) : below(8), n;
    uint8_t *line = fenced(line_end, length), *out = fenced(out_end, room);

    memcpy(line, text, length);
    memset(out, UNTOUCHED, room);
    before = *state;
    n = marruskil_obey(state, (const char *)line, length, (char *)out, room);
    must(n <= room && untouched(out, n, room), "obey writes past its answer line");
    must(memcmp(line, text, length) == 0, "obey writes to the line");
    if (n == 0) {
        must(room < MARRUSKIL_LONGEST_ANSWER, "a buffer for the longest answer line is too short");
        unfit++;
    } else {
        must(n > 1 && out[n - 1] == '\n', "an answer line does not end in LF");
        count(strtoul((const char *)out, NULL, 10));
    }
    if (n == 0 || out[0] != '0')
        must(memcmp(state, &before, sizeof before) == 0, "a refused line changes the state");
}

static void try_check(const marruskil_state *state)
{
    uint8_t result = UNTOUCHED;
    uint16_t looked = UNTOUCHED;
    uint64_t session = below(2) ? below(64) : any_number(), operation = below(2) ? below(16) : any_number(), object = below(2) ? below(256) : any_number();
    uint16_t answer;

    before = *state;
    answer = marruskil_check(state, session, operation, object, &result, &looked);
    count(answer);
    must(answer == 0 ? result <= 1 : result == UNTOUCHED, "check stores another result than 0 or 1, or one on a refusal");
    must(answer == 0 ? looked <= 64 : looked == UNTOUCHED, "check looks at more than 64 roles, or stores how many on a refusal");
    must((answer == 1) == (session > 63 || operation > 15 || object > 255), "check answers 1 for numbers in their ranges, or not for one beyond");
    must(memcmp(state, &before, sizeof before) == 0, "check changes the state");
}

/* Saves the state, in a buffer of any length, and loads what was saved, whole or damaged, or any bytes. */
static void try_file(marruskil_state *state, uint8_t *file_end)
{
    size_t room = below(2) ? (size_t)MOST_FILE : below(MOST_FILE), length = 12345, i;
    uint8_t *out = fenced(file_end, room), *file;
    uint16_t answer;

    before = *state;
    memset(out, UNTOUCHED, room);
    answer = marruskil_save(state, out, room, &length);
    count(answer);
    must(memcmp(state, &before, sizeof before) == 0, "save changes the state");
    must(answer == 0 || answer == 15, "save answers neither 0 nor 15");
    must(answer == 0 ? length <= room && untouched(out, length, room) : length == 12345 && untouched(out, 0, room), "save writes past the file, or on a refusal");
    saved_long += answer == 0 && length > MARRUSKIL_LONGEST_FILE;
    if (answer != 0 || below(4) == 0) {
        length = below(MARRUSKIL_LONGEST_FILE + 10);
        for (i = 0; i < length; i++)
            keep[i] = (uint8_t)(random64() & random64() & random64());
    } else {
        memcpy(keep, out, length);
        for (i = below(3); length > 0 && i > 0; i--)
            keep[below(length)] = (uint8_t)random64();
    }
    file = fenced(file_end, length);
    memcpy(file, keep, length);
    answer = marruskil_load(state, file, length);
    count(answer);
    must(answer == 0 || memcmp(state, &before, sizeof before) == 0, "a refused load changes the state");
}

int main(int words_given, char **given)
{
    unsigned long round, rounds = words_given > 1 ? strtoul(given[1], NULL, 10) : 2000;
    uint8_t *state_end = fence(), *line_end = fence(), *out_end = fence(), *file_end = fence();
    marruskil_state *state = (marruskil_state *)(void *)fenced(state_end, sizeof *state);
    unsigned i;

    for (round = 0; round < rounds; round++) {
        if (below(50) == 0)
            marruskil_start(state);
        else
            fill(state);
        for (i = 0; i < 8; i++) {
            try_obey(state, line_end, out_end);
            try_check(state);
        }
        try_file(state, file_end);
    }
    printf("%lu lines were too long for their buffer, %lu states for a file of %d bytes; answers:", unfit, saved_long, MARRUSKIL_LONGEST_FILE);
    for (i = 0; i < sizeof sheet; i++)
        printf(" %d: %lu", sheet[i], answers[sheet[i]]);
    printf("\n");
    return 0;
}
