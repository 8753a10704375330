//! Themes. Each begins a script; random steps fill it up.

use super::checks::checks;
use super::seniors::seniors;
use super::{named, Draft, LONGEST_SCRIPT};
use crate::words::{Takes, WORDS};

/// Scripts take these in turn.
pub const THEMES: &[fn(&mut Draft)] = &[
    mixed,
    deep,
    full_assignments,
    crowded,
    full_grants,
    malformed,
    full_lines,
    seniors,
    mixed,
    full_sessions,
    leavers,
    wide,
    checks,
];

fn mixed(draft: &mut Draft) {
    draft.users = draft.random().number(2, 12);
    draft.roles = draft.random().number(3, 16);
}

/// Users and roles from 0 up, in as long a script as may be.
pub fn begin(draft: &mut Draft, users: u16, roles: u16) {
    draft.room = LONGEST_SCRIPT;
    draft.users = users;
    draft.roles = roles;
    draft.add_users(0..users);
    draft.add_roles(0..roles);
}

/// Adds entries until their table is full, and more: one that has no room (12), one that is there already, and what else is to be
/// said then. After that it removes one entry and uses its room.
fn fill<const N: usize>(
    draft: &mut Draft,
    [add, remove]: [&str; 2],
    (within, beyond): (&[[u16; N]], &[[u16; N]]),
    while_full: impl Fn(&mut Draft),
) {
    within.iter().for_each(|entry| draft.say(add, entry));
    draft.say(add, &beyond[0]);
    draft.say(add, &within[0]);
    while_full(draft);
    draft.aim_at_full();
    draft.say(remove, &within[1]);
    draft.say(add, &beyond[1]);
    draft.say(add, &beyond[2]);
}

/// Deletes a user in two moves, and asks after each what stands of the assignments and of all sessions. While a session of the
/// user's is open, the first line is refused (16) and changes nothing.
fn leave(draft: &mut Draft, user: u16) {
    let open = Takes::Session.existing(&draft.state).unwrap_or_default();
    for word in ["nouser", "end-all", "nouser"] {
        draft.say(word, &[user]);
        draft.say("assigned-roles", &[user]);
        open.iter().for_each(|&session| draft.say("session-roles", &[session]));
    }
}

/// Few users and roles, so that rules are always close.
fn crowded(draft: &mut Draft) {
    begin(draft, 3, 6);
    // A line that would break an SSD rule too, if it did not close a circle.
    draft.say("assign", &[0, 0]);
    draft.say("inherit", &[1, 0]);
    draft.say("ssd", &[0, 2, 0, 1]);
    draft.say("inherit", &[0, 1]);
    draft.say("nossd", &[0]);
}

/// A chain of all 64 roles, drawn up in any order.
fn deep(draft: &mut Draft) {
    begin(draft, 8, 64);
    let order = draft.shuffled(0..64);
    let mut lines: Vec<[u16; 2]> = order.windows(2).map(|pair| [pair[0], pair[1]]).collect();
    draft.random().shuffle(&mut lines);
    for line in lines {
        draft.say("inherit", &line);
    }
    let (top, bottom) = (order[0], order[63]);
    draft.say("inherit", &[bottom, top]);
    draft.say("grant", &[4, 30, bottom]);
    draft.say("assign", &[3, top]);
    draft.say("auth-roles", &[3]);
    draft.say("auth-users", &[bottom]);
    draft.say("session", &[3, top]);
    draft.say("check", &[0, 4, 30]);
    for role in order {
        draft.say("activate", &[3, 0, role]);
    }
    draft.say("session-roles", &[0]);
    let middle = draft.random().from(1, 62);
    let cut = draft.state.lines.iter().nth(middle).copied();
    if let Some((senior, junior)) = cut {
        draft.say("disinherit", &[senior.number(), junior.number()]);
        draft.say("session-roles", &[0]);
        draft.say("check", &[0, 4, 30]);
    }
}

/// All 2,048 assignments, with an SSD set that every user comes close to breaking.
fn full_assignments(draft: &mut Draft) {
    begin(draft, 34, 64);
    let spare = draft.random().number(0, 63);
    let others: Vec<u16> = (0..64).filter(|&role| role != spare).collect();
    let mut members = draft.random().some(&others, 3);
    members.push(spare);
    members.sort_unstable();
    draft.say("ssd", &[&[0, 4], members.as_slice()].concat());
    let mut pairs: Vec<[u16; 2]> = (0..33).flat_map(|user| others.iter().map(move |&role| [user, role])).collect();
    draft.random().shuffle(&mut pairs);
    fill(draft, ["assign", "deassign"], pairs.split_at(2048), |draft| {
        draft.say("assign", &[33, others[0]]);
        draft.say("assign", &[200, others[0]]);
        (0..6).for_each(|user| draft.say("assign", &[user, spare]));
    });
    // A deletion that is refused leaves no room for another assignment.
    let leaver = pairs[0][0];
    draft.say("session", &[leaver]);
    draft.say("nouser", &[leaver]);
    draft.say("assign", &[33, others[1]]);
    leave(draft, leaver);
    draft.say("assign", &[33, others[1]]);
    draft.say("assigned-users", &[others[1]]);
}

/// All 2,048 grants, of different permissions, on four roles of which one inherits the others.
fn full_grants(draft: &mut Draft) {
    begin(draft, 3, 6);
    draft.say("assign", &[0, 0]);
    draft.say("session", &[0, 0]);
    for junior in 1..4 {
        draft.say("inherit", &[junior - 1, junior]);
    }
    let mut grants: Vec<[u16; 3]> = (0..16).flat_map(|operation| (0..129).map(move |object| [operation, object, 0])).collect();
    draft.random().shuffle(&mut grants);
    grants.iter_mut().for_each(|grant| grant[2] = draft.random().number(0, 3));
    fill(draft, ["grant", "revoke"], grants.split_at(2048), |draft| {
        draft.say("grant", &[3, 3, 60]);
        draft.say("role-perms", &[0]);
        draft.say("user-perms", &[0]);
        draft.say("session-perms", &[0]);
    });
    draft.say("norole", &[2]);
    draft.say("grant", &[15, 255, 5]);
    draft.say("role-perms", &[0]);
    draft.say("role-perms", &[3]);
}

/// All 512 lines: a chain of 63 roles with shortcuts, in any order, so that there are very many ways down.
fn full_lines(draft: &mut Draft) {
    begin(draft, 6, 64);
    let order = draft.shuffled(0..63);
    let spare = 63;
    draft.say("assign", &[0, order[0]]);
    draft.say("assign", &[1, order[30]]);
    draft.say("assign", &[2, spare]);
    draft.say("session", &[0, order[0]]);
    let mut lines: Vec<[u16; 2]> = Vec::new();
    for gap in 1..63 {
        lines.extend((gap..63).map(|place| [order[place - gap], order[place]]));
    }
    draft.random().shuffle(&mut lines[..512]);
    let mut members = [order[40], spare];
    members.sort_unstable();
    fill(draft, ["inherit", "disinherit"], lines.split_at(512), |draft| {
        draft.say("auth-roles", &[0]);
        draft.say("auth-users", &[order[62]]);
        draft.say("dsd", &[0, 2, members[0], members[1]]);
        draft.say("inherit", &[order[10], spare]);
        draft.say("ssd", &[0, 2, members[0], members[1]]);
        draft.say("inherit", &[lines[0][1], lines[0][0]]);
        draft.say("inherit", &[order[62], order[0]]);
        draft.say("inherit", &[order[10], spare]);
        draft.say("inherit", &[spare, order[50]]);
        draft.say("assign", &[1, spare]);
    });
    draft.say("norole", &[order[20]]);
    draft.say("auth-roles", &[0]);
    draft.say("auth-roles", &[1]);
}

/// All 64 sessions, with a DSD set and roles to shed.
fn full_sessions(draft: &mut Draft) {
    begin(draft, 5, 8);
    for line in [[0, 1], [1, 2], [3, 4]] {
        draft.say("inherit", &line);
    }
    draft.say("dsd", &[0, 2, 2, 4]);
    for user in 0..4 {
        draft.say("assign", &[user, 0]);
        draft.say("assign", &[user, 3]);
    }
    draft.open_all_sessions();
    draft.say("session", &[0, 0]);
    draft.say("session", &[0, 0, 3]);
    draft.say("session", &[0, 2, 4]);
    draft.say("session", &[0, 5]);
    draft.say("session", &[4]);
    draft.say("session", &[9]);
    for _ in 0..4 {
        for _ in 0..3 {
            draft.aim(named("end"), 0);
        }
        draft.open_all_sessions();
    }
    draft.say("norole", &[1]);
    draft.say("deassign", &[1, 3]);
    draft.say("disinherit", &[3, 4]);
    leave(draft, 2);
    draft.open_all_sessions();
}

/// All 64 sessions, the last that of a user with no other. Then all users leave, one after another; and one who came back, when
/// `end` has ended the only session.
fn leavers(draft: &mut Draft) {
    begin(draft, 4, 5);
    for user in 0..4 {
        draft.say("assign", &[user, user]);
        draft.say("assign", &[user, 4]);
    }
    for _ in 0..63 {
        let owner = draft.random().number(0, 2);
        draft.say("session", &[owner, 4]);
    }
    draft.say("session", &[3, 3, 4]);
    // A line that would break a DSD rule in the last session alone.
    draft.say("dsd", &[0, 2, 2, 3]);
    draft.say("inherit", &[3, 2]);
    draft.say("nodsd", &[0]);
    for user in [3, 0, 1, 2] {
        leave(draft, user);
    }
    draft.say("user", &[0]);
    draft.say("session", &[0]);
    draft.say("nouser", &[0]);
    draft.say("end", &[0, 0]);
    draft.say("nouser", &[0]);
    draft.add_users(0..4);
}

/// Every kind of line that is not of the form, many times.
fn malformed(draft: &mut Draft) {
    for word in WORDS {
        draft.write(format!("{} ", word.text).as_bytes());
    }
    while !draft.full {
        draft.step();
        draft.malformed_line();
    }
}

/// All 256 users and all 64 roles.
fn wide(draft: &mut Draft) {
    begin(draft, 256, 64);
    for user in 0..256 {
        let role = draft.random().number(1, 63);
        draft.say("assign", &[user, role]);
    }
    for senior in 1..64 {
        draft.say("inherit", &[senior, 0]);
    }
    draft.say("auth-users", &[0]);
}
