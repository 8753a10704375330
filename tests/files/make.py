#!/usr/bin/env python3
"""Writes the stored policy files of tests/files.sh, each with the answer that loading it must give: NAME.bin and NAME.answer.
Written from the paper alone; the tests use the committed files and not this script."""
import os, struct

here = os.path.dirname(os.path.abspath(__file__))

def words(numbers):
    return b''.join(struct.pack('<H', n) for n in numbers)

def build(users=(), roles=(), lines=(), assigned=(), grants=(), ssd=(), dsd=(), sessions=()):
    """The eight sections, each after its count. A set is (name, cardinality, members), a session (number, owner, roles)."""
    out = [len(users), *users, len(roles), *roles]
    for section in (lines, assigned, grants):
        out.append(len(section))
        for entry in section:
            out += entry
    for section in (ssd, dsd, sessions):
        out.append(len(section))
        for first, second, members in section:
            out += [first, second, len(members), *members]
    return words(out)

def keep(name, answer, data):
    open(os.path.join(here, name + '.bin'), 'wb').write(data)
    open(os.path.join(here, name + '.answer'), 'w').write(f'{answer}\n')

# the paper's example after its first ten lines
example = dict(users=[7], roles=[0, 1, 2], lines=[(2, 0)], assigned=[(7, 2)], grants=[(0, 4, 30)], ssd=[(0, 2, [0, 1])], sessions=[(0, 7, [2])])
keep('empty', 0, build())
keep('example', 0, build(**example))

# the longest chain there is: all 64 roles, from 0 down to 63
roles = list(range(64))
chain = dict(users=[7], roles=roles, lines=[(r, r + 1) for r in range(63)], assigned=[(7, 0)], grants=[(63, 4, 30)], sessions=[(0, 7, [0, 63])])
keep('chain_of_64', 0, build(**chain))

# every table at its limit, 36,048 bytes but for what the rules forbid: a chain of all roles, all users assigned, full sets
lines = sorted([(a, b) for a in roles for b in roles if a < b])
lines = sorted(lines[:512])
full = dict(
    users=list(range(256)),
    roles=roles,
    lines=lines,
    assigned=[(u, r) for u in range(256) for r in range(56, 64)],
    grants=[(r, op, obj) for r in roles for op in range(2) for obj in range(16)],
    ssd=[(n, 64, roles) for n in range(16)],
    dsd=[(n, 64, roles) for n in range(16)],
    sessions=[(s, s, list(range(56, 64))) for s in range(64)],
)
keep('full', 0, build(**full))
# the longest file there is: every session has all 64 roles, which breaks the rule of answer 9 and no form
longest = dict(full, sessions=[(s, s, roles) for s in range(64)])
assert len(build(**longest)) == 36048
keep('longest', 9, build(**longest))

# 14: early end, bytes left over, a number or count beyond its limit, a wrong order, an entry naming what is not listed
data = build(**example)
keep('nothing', 14, b'')
keep('early_end', 14, data[:-1])
keep('early_end_word', 14, data[:-2])
keep('early_end_section', 14, build()[:-2])
keep('left_over', 14, data + b'\0')
keep('left_over_word', 14, data + b'\0\0')
keep('user_beyond', 14, build(users=[256]))
keep('role_beyond', 14, build(roles=[64]))
keep('operation_beyond', 14, build(roles=[0], grants=[(0, 16, 0)]))
keep('object_beyond', 14, build(roles=[0], grants=[(0, 0, 256)]))
keep('set_beyond', 14, build(roles=[0, 1], ssd=[(16, 2, [0, 1])]))
keep('session_beyond', 14, build(users=[0], sessions=[(64, 0, [])]))
keep('lines_beyond', 14, build(roles=roles, lines=sorted([(a, b) for a in roles for b in roles if a < b])[:513]))
keep('assignments_beyond', 14, build(users=list(range(256)), roles=roles, assigned=sorted([(u, r) for u in range(256) for r in range(8)] + [(255, 8)])))
keep('grants_beyond', 14, build(roles=roles, grants=sorted([(r, op, obj) for r in roles for op in range(2) for obj in range(16)] + [(63, 15, 255)])))
keep('count_beyond', 14, words([65535]) + build()[2:])
keep('users_descending', 14, build(users=[1, 0]))
keep('users_repeated', 14, build(users=[1, 1]))
keep('lines_descending', 14, build(roles=[0, 1, 2], lines=[(2, 0), (1, 0)]))
keep('members_descending', 14, build(roles=[0, 1], ssd=[(0, 2, [1, 0])]))
keep('sessions_repeated', 14, build(users=[0], sessions=[(0, 0, []), (0, 0, [])]))
keep('line_unlisted', 14, build(roles=[0], lines=[(0, 1)]))
keep('assignment_unlisted_user', 14, build(roles=[0], assigned=[(0, 0)]))
keep('assignment_unlisted_role', 14, build(users=[0], assigned=[(0, 0)]))
keep('grant_unlisted', 14, build(grants=[(0, 0, 0)]))
keep('member_unlisted', 14, build(roles=[0], dsd=[(0, 2, [0, 1])]))
keep('owner_unlisted', 14, build(sessions=[(0, 0, [])]))
keep('owner_wide', 14, build(users=[0], sessions=[(0, 256, [])]))
keep('active_unlisted', 14, build(users=[0], sessions=[(0, 0, [0])]))
keep('high_byte_first', 14, b''.join(struct.pack('>H', n) for n in struct.unpack('<%dH' % (len(data) // 2), data)))
keep('too_long', 14, data + bytes(66000 - len(data)))

# the rules, lowest first
keep('self_line', 6, build(roles=[0], lines=[(0, 0)]))
keep('circle', 6, build(roles=[0, 1, 2], lines=[(0, 1), (1, 2), (2, 0)]))
keep('circle_of_64', 6, build(**dict(chain, lines=chain['lines'] + [(63, 0)])))
keep('chain_of_64_self_line', 6, build(**dict(chain, lines=chain['lines'] + [(63, 63)])))
keep('circle_of_64_first', 6, build(**dict(chain, lines=chain['lines'] + [(63, 0)], ssd=[(0, 0, [])])))
keep('circle_first', 6, build(roles=[0, 1], lines=[(0, 1), (1, 0)], ssd=[(0, 0, [])]))
keep('cardinality_0', 7, build(ssd=[(0, 0, [])]))
keep('cardinality_1', 7, build(roles=[0, 1], ssd=[(3, 1, [0, 1])]))
keep('cardinality_above', 7, build(roles=[0, 1], dsd=[(3, 3, [0, 1])]))
keep('cardinality_65535', 7, build(roles=[0, 1], dsd=[(15, 65535, [0, 1])]))
keep('unauthorised', 9, build(users=[7], roles=[0, 1], assigned=[(7, 0)], sessions=[(0, 7, [1])]))
keep('static', 10, build(users=[7], roles=[0, 1, 2], lines=[(2, 0)], assigned=[(7, 1), (7, 2)], ssd=[(0, 2, [0, 1])]))
keep('dynamic', 11, build(users=[7], roles=[0, 1], assigned=[(7, 0), (7, 1)], dsd=[(0, 2, [0, 1])], sessions=[(5, 7, [0, 1])]))
# a session with two seniors active, 2 over 0 and 3 over 1: it loaded before request 2, and is 11 since; with the seniors in two sessions it loads
seniors = dict(users=[7], roles=[0, 1, 2, 3], lines=[(2, 0), (3, 1)], assigned=[(7, 2), (7, 3)], grants=[(0, 0, 30), (1, 2, 30)], dsd=[(0, 2, [0, 1])])
keep('dynamic_inherited', 11, build(**seniors, sessions=[(0, 7, [2, 3])]))
keep('dynamic_in_two_sessions', 0, build(**seniors, sessions=[(0, 7, [2]), (1, 7, [3])]))
