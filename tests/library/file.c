/* Does what the program reload does, by the C library: loads a policy file from standard input into the empty state, prints the answer number and,
   after a 0, the file as it is saved again. */
#include <stdio.h>

#include "marruskil.h"

static marruskil_state state;
static uint8_t file[MARRUSKIL_LONGEST_FILE + 1];

int main(void)
{
    size_t length = fread(file, 1, sizeof file, stdin);
    unsigned answer;

    marruskil_start(&state);
    answer = marruskil_load(&state, file, length);
    printf("%u\n", answer);
    if (answer == 0 && marruskil_save(&state, file, sizeof file, &length) == 0)
        fwrite(file, 1, length, stdout);
    return 0;
}
