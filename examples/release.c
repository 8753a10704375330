/* An afternoon on the record server: it holds the policy and the sessions, and asks the engine before it lets a pressure map be released. In the moment
   in which the role is taken away, the open session releases nothing more. */
#include <stdio.h>
#include <string.h>

#include "marruskil.h"

enum { RECORD = 0, RELEASE = 1 }; /* operations */
enum { MAP = 9 };                 /* the object */

static marruskil_state state;

/* May the session release the map? A refusal of the question is no. */
static int may_release(uint64_t session)
{
    uint8_t yes = 0;
    uint16_t looked = 0;

    return marruskil_check(&state, session, RELEASE, MAP, &yes, &looked) == 0 && yes == 1;
}

/* Somebody asks the server to release the map, in a session. */
static void release(const char *time, uint64_t session)
{
    if (may_release(session))
        printf("%s  session %lu asks to release map %d: it is released for cutting\n", time, (unsigned long)session, MAP);
    else
        printf("%s  session %lu asks to release map %d: NO\n", time, (unsigned long)session, MAP);
}

/* Somebody gives the server a command. */
static void say(const char *time, const char *line, const char *why)
{
    char answer[MARRUSKIL_LONGEST_COMMAND];
    size_t length = marruskil_obey(&state, line, strlen(line), answer, sizeof answer);

    printf("%s  %-13s %-4.*s %s\n", time, line, length > 0 ? (int)length - 1 : 1, length > 0 ? answer : "?", why);
}

int main(void)
{
    marruskil_start(&state);
    say("13:00", "user 1", "she records");
    say("13:00", "user 2", "he is to be the bench lead");
    say("13:00", "role 0", "record a pressure map");
    say("13:00", "role 1", "release a map for cutting");
    say("13:00", "role 2", "bench lead");
    say("13:00", "inherit 2 1", "the lead inherits the release");
    say("13:00", "grant 0 9 0", "to record is operation 0 on object 9, the map");
    say("13:00", "grant 1 9 1", "to release is operation 1 on it");
    say("13:00", "ssd 0 2 0 1", "nobody may both record and release");
    say("13:05", "assign 1 0", "user 1 records");
    say("13:05", "assign 1 2", "refused: as the lead she would release too");
    say("13:05", "assign 2 2", "user 2 is the lead");
    say("13:10", "session 1 0", "user 1 opens session 0");
    say("13:10", "session 2 2", "user 2 opens session 1");
    release("14:00", 0);
    release("14:00", 1);
    release("14:29", 1);
    say("14:30", "deassign 2 2", "the role is taken away; the session stays open");
    release("14:30", 1);
    release("14:31", 1);
    release("14:32", 64);
    say("15:00", "end 2 1", "he goes home");
    release("15:01", 1);
    return 0;
}
