/* Marruskil, the role-based access engine, for C and C++.

   The caller owns the state and every buffer. No pointer is kept after a call, and nothing is allocated: a state may be copied, stored and moved as
   plain memory, and each process or thread may have its own. Text and files are bytes with a length; nothing ends in a zero byte.

   Proved of each function, on the language's abstract machine: what is said of it below, for any numbers, any bytes, any buffers and any state,
   one that no call made included; and that it ends, reading and writing nothing but what it was lent.
   Not proved: this header (tests/library.sh compares it with the functions); that the pointers of a call are good, which means not null (not even
   for length 0), aligned, with as much memory behind each as is said, no two of them overlapping where one is written, and not used by another
   thread during the call; that the stack has room, of which a call takes less than 128 KB; the compiler. */
#ifndef MARRUSKIL_H
#define MARRUSKIL_H

#include <stddef.h>
#include <stdint.h>

#define MARRUSKIL_PLACES 4616          /* numbers of a state */
#define MARRUSKIL_LONGEST_ANSWER 24582 /* no answer line has more bytes */
#define MARRUSKIL_LONGEST_COMMAND 12   /* no command's answer line has more bytes */
#define MARRUSKIL_LONGEST_FILE 36048   /* a policy of ours never needs more bytes */

#ifdef __cplusplus
extern "C" {
#endif

/* The policy and the sessions. */
typedef struct marruskil_state {
    uint64_t numbers[MARRUSKIL_PLACES];
} marruskil_state;

/* Makes the state the empty policy with no session, whatever it held. */
void marruskil_start(marruskil_state *state);

/* Obeys one line of a script, given without its LF: a command or a question, any bytes. Its answer line is put at the front of `out`, which has
   `room` bytes: the answer number and then the results, one space between, and LF. Bytes past it are untouched. Gives its length.
   Where `out` is shorter than the answer line it gives 0: nothing is obeyed and nothing is put. With a room of MARRUSKIL_LONGEST_ANSWER that never
   happens, nor for a command with one of MARRUSKIL_LONGEST_COMMAND. */
size_t marruskil_obey(marruskil_state *state, const char *line, size_t length, char *out, size_t room);

/* May the session do the operation on the object? Yes exactly when some effective role of the session holds the grant.
   Gives the answer number: 0, with `*result` 1 for yes or 0 for no, and `*looked` the number of effective roles looked at, at most 64: in ascending
   order up to and including the first that holds the grant, or all of them where none does; 1 where a number is beyond its range, 2 where the
   session does not exist. A refusal leaves both as they were, so set both to 0 before. Neither may be NULL. Nothing is copied. */
uint16_t marruskil_check(const marruskil_state *state, uint64_t session, uint64_t operation, uint64_t object, uint8_t *result, uint16_t *looked);

/* Loads a policy file, any bytes. Gives the answer number: 0, and the policy and sessions are replaced whole; 14 where the bytes are not of the form;
   6, 7, 9, 10 or 11, the lowest, where the file breaks a rule. A refusal changes nothing. */
uint16_t marruskil_load(marruskil_state *state, const uint8_t *file, size_t length);

/* Saves the policy and sessions as a file in `out`, which has `room` bytes. Gives the answer number: 0, with the file's length in `*length` and bytes
   past it untouched; 15 where `out` is shorter than the file, and then nothing is stored. */
uint16_t marruskil_save(const marruskil_state *state, uint8_t *out, size_t room, size_t *length);

#ifdef __cplusplus
}
#endif

#endif
