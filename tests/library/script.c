/* Does what the program bench does, by the C library, and at each line tries more: buffers that are too short, `check` beside the line `check`, and
   from time to time a save and a load. Ends with status 1 and a word on standard error where the library does not keep its promise. */
#include <stdio.h>
#include <stdlib.h>
#include <string.h>

#include "marruskil.h"

enum { LONGEST = 32768, UNTOUCHED = 0xa5 };

static marruskil_state state, before, other;
static char script[LONGEST + 1], out[MARRUSKIL_LONGEST_ANSWER + 1], answer[MARRUSKIL_LONGEST_ANSWER + 1];
static uint8_t file[MARRUSKIL_LONGEST_FILE + 1], again[MARRUSKIL_LONGEST_FILE + 1];

static void must(int kept, const char *what)
{
    if (!kept) {
        fprintf(stderr, "script: %s\n", what);
        exit(1);
    }
}

static int same(const marruskil_state *a, const marruskil_state *b)
{
    return memcmp(a, b, sizeof *a) == 0;
}

/* Are the bytes from a place on as they were? */
static int untouched(const void *bytes, size_t from, size_t to)
{
    const unsigned char *b = (const unsigned char *)bytes;

    for (; from < to; from++)
        if (b[from] != UNTOUCHED)
            return 0;
    return 1;
}

/* A buffer that is shorter than the answer line: nothing is obeyed, nothing is put. */
static void try_short(const char *line, size_t length, size_t room)
{
    memset(out, UNTOUCHED, sizeof out);
    must(marruskil_obey(&state, line, length, out, room) == 0, "a short buffer gives another length than 0");
    must(same(&state, &before), "a short buffer changes the state");
    must(untouched(out, 0, sizeof out), "a short buffer is written to");
}

/* The line `check`, asked by the function: the same answer and results, and on a refusal the places of the results are untouched. */
static void try_check(const char *line, size_t length, size_t answered)
{
    char text[64], told[16];
    unsigned session, operation, object;
    uint8_t result = UNTOUCHED;
    uint16_t number, looked = UNTOUCHED;

    if (length >= sizeof text)
        return;
    memcpy(text, line, length);
    text[length] = 0;
    if (sscanf(text, "check %5u %5u %5u", &session, &operation, &object) != 3 || memcmp(answer, "14\n", 3) == 0)
        return;
    number = marruskil_check(&before, session, operation, object, &result, &looked);
    if (number == 0)
        sprintf(told, "0 %u %u\n", (unsigned)result, (unsigned)looked);
    else
        sprintf(told, "%u\n", (unsigned)number);
    must(number == 0 || (result == UNTOUCHED && looked == UNTOUCHED), "a refused check stores a result");
    must(strlen(told) == answered && memcmp(told, answer, answered) == 0, "the function check and the line check differ");
    must(marruskil_check(&before, session + 65536u, operation, object, &result, &looked) == 1, "a session number is cut to sixteen bits");
}

static void try_file(void)
{
    size_t length = 12345, length2 = 12345;

    memset(file, UNTOUCHED, sizeof file);
    must(marruskil_save(&state, file, MARRUSKIL_LONGEST_FILE, &length) == 0, "a policy of ours is not saved");
    must(untouched(file, length, sizeof file), "bytes past the file are written to");
    memset(again, UNTOUCHED, sizeof again);
    must(marruskil_save(&state, again, length - 1, &length2) == 15 && length2 == 12345, "a buffer that is a byte too short is no 15");
    must(untouched(again, 0, sizeof again), "a refused save writes");
    must(marruskil_save(&state, again, length, &length2) == 0 && length2 == length, "a buffer of the file's length is refused");
    must(memcmp(file, again, sizeof file) == 0, "two saves differ");
    must(marruskil_load(&other, file, length) == 0 && same(&other, &state), "a saved policy is not loaded as itself");
    must(marruskil_load(&other, file, length - 1) == 14 && same(&other, &state), "a refused load changes the state, or is no 14");
}

static size_t obey(const char *line, size_t length)
{
    size_t answered;

    before = state;
    other = state;
    answered = marruskil_obey(&other, line, length, answer, MARRUSKIL_LONGEST_ANSWER);
    must(answered > 1 && answer[answered - 1] == '\n', "there is no answer line");
    try_short(line, length, 0);
    try_short(line, length, answered - 1);
    must(marruskil_obey(&state, line, length, out, answered) == answered, "a buffer of the answer's length is refused");
    must(memcmp(out, answer, answered) == 0 && untouched(out, answered, sizeof out), "another buffer gives another answer");
    must(same(&state, &other), "another buffer gives another state");
    must(answer[0] == '0' || same(&state, &before), "a refusal changes the state");
    try_check(line, length, answered);
    return answered;
}

int main(void)
{
    size_t size = fread(script, 1, sizeof script, stdin), at = 0, length, answered;
    unsigned done = 0, others = 0;

    memset(&state, UNTOUCHED, sizeof state);
    marruskil_start(&state);
    if (size > LONGEST) {
        fputs("14\ntotal 0 1\n", stdout);
        return 0;
    }
    while (at < size) {
        for (length = 0; at + length < size && script[at + length] != '\n';)
            length++;
        answered = obey(script + at, length);
        fwrite(answer, 1, answered, stdout);
        if (answer[0] == '0')
            done++;
        else
            others++;
        if ((done + others) % 64 == 0)
            try_file();
        at += length + 1;
    }
    try_file();
    printf("total %u %u\n", done, others);
    return 0;
}
