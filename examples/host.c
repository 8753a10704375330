/* A host of the engine: reads lines from standard input, obeys each, prints the answer lines as they come, and at the end the total. It prints what
   the program bench prints, which takes scripts of up to 32,768 bytes; this one takes lines as long as they come. */
#include <stdio.h>

#include "marruskil.h"

static marruskil_state state;
static char out[MARRUSKIL_LONGEST_ANSWER];

/* Reads a line without its LF. A line of more than 512 bytes is not of the form, so of a longer one 513 are kept. Gives 0 at the end of the input. */
static int read_line(char line[513], size_t *length)
{
    int c = getchar();

    *length = 0;
    if (c == EOF)
        return 0;
    for (; c != EOF && c != '\n'; c = getchar())
        if (*length < 513)
            line[(*length)++] = (char)c;
    return 1;
}

int main(void)
{
    char line[513];
    size_t length, printed;
    unsigned long done = 0, others = 0;

    marruskil_start(&state);
    while (read_line(line, &length)) {
        printed = marruskil_obey(&state, line, length, out, sizeof out);
        fwrite(out, 1, printed, stdout);
        if (out[0] == '0')
            done++;
        else
            others++;
    }
    printf("total %lu %lu\n", done, others);
    if (ferror(stdin) || fflush(stdout) != 0 || ferror(stdout)) {
        fputs("host: not all was read or printed\n", stderr);
        return 1;
    }
    return 0;
}
