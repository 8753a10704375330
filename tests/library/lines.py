#!/usr/bin/env python3
"""Writes a random script of up to 32,768 bytes:  lines.py SEED
Most lines are commands and questions with small numbers, so that they meet each other; some are not of the form."""
import random
import sys

LONGEST = 32768
# Each word with the ranges of its numbers (u user, r role, s session, n set, c cardinality, o operation, b object), and * for a list of roles.
WORDS = {
    "user": "u", "role": "r", "nouser": "u", "norole": "r", "assign": "ur", "deassign": "ur", "grant": "obr", "revoke": "obr", "inherit": "rr",
    "disinherit": "rr", "ssd": "nc*", "nossd": "n", "ssd-add": "nr", "ssd-drop": "nr", "ssd-card": "nc", "dsd": "nc*", "nodsd": "n", "dsd-add": "nr",
    "dsd-drop": "nr", "dsd-card": "nc", "session": "u*", "activate": "usr", "drop": "usr", "end": "us", "check": "sob", "assigned-users": "r",
    "assigned-roles": "u", "auth-users": "r", "auth-roles": "u", "role-perms": "r", "user-perms": "u", "session-roles": "s", "session-perms": "s",
    "role-ops": "rb", "user-ops": "ub", "ssd-sets": "", "ssd-roles": "n", "ssd-count": "n", "dsd-sets": "", "dsd-roles": "n", "dsd-count": "n",
    "end-all": "u",
}
OFTEN = ["user", "role", "assign", "grant", "inherit", "session", "check", "check", "deassign", "session-perms"]
SMALL = {"u": 6, "r": 8, "s": 4, "n": 3, "c": 4, "o": 3, "b": 3}
LAST = {"u": 255, "r": 63, "s": 63, "n": 15, "c": 65535, "o": 15, "b": 255}


def number(draw, kind):
    if draw.random() < 0.9:
        return draw.randrange(SMALL[kind])
    return draw.choice([LAST[kind], LAST[kind] + 1, draw.randrange(65536), 65535, 65536])


def line(draw):
    word = draw.choice(OFTEN) if draw.random() < 0.5 else draw.choice(list(WORDS))
    parts = [word]
    for kind in WORDS[word]:
        roles = [number(draw, "r") for _ in range(draw.randrange(4))]
        parts += [str(number(draw, kind))] if kind != "*" else map(str, sorted(set(roles)) if draw.random() < 0.95 else roles)
    text = " ".join(parts)
    if draw.random() < 0.03:
        at = draw.randrange(len(text) + 1)
        text = text[:at] + draw.choice([" ", "0", "x", "\0", "\r", "é", " 7", "-", "9" * 500]) + text[at:]
    return text.encode("utf-8") + b"\n"


def main():
    draw = random.Random(int(sys.argv[1]))
    script, size = b"", draw.randrange(20000, LONGEST)
    while True:
        more = line(draw)
        if len(script) + len(more) > size:
            break
        script += more
    sys.stdout.buffer.write(script)


main()
