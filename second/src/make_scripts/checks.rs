//! The theme of how far a check looks: sessions with all roles effective, with some and with none.

use super::themes::begin;
use super::Draft;

const TEACHER: u16 = 0;
const STUDENT: u16 = 1;
/// The operation of all checks. The permissions differ by their objects.
const OPERATION: u16 = 6;

/// Checks that look far and checks that end early.
pub fn checks(draft: &mut Draft) {
    begin(draft, 3, 64);
    // Every line leads from an earlier role to a later one.
    let order = draft.shuffled(0..64);
    all_effective(draft, &order);
    some_effective(draft, &order[55..]);
}

/// Session 0: the first role is active and inherits all others. The grant comes to role 63, then to lower and lower ones, and then
/// to the active one; and role 0 loses it.
fn all_effective(draft: &mut Draft, order: &[u16]) {
    for place in 1..order.len() {
        let senior = draft.random().below(place);
        draft.say("inherit", &[order[senior], order[place]]);
    }
    draft.say("assign", &[TEACHER, order[0]]);
    draft.say("session", &[TEACHER, order[0]]);
    let holders = [63, draft.random().number(32, 62), draft.random().number(1, 31), 0, order[0]];
    let object = draft.random().number(100, 255);
    draft.say("check", &[0, OPERATION, object]);
    for holder in holders {
        draft.say("grant", &[OPERATION, object, holder]);
        draft.say("check", &[0, OPERATION, object]);
    }
    draft.say("revoke", &[OPERATION, object, 0]);
    draft.say("check", &[0, OPERATION, object]);
}

/// Sessions 1 to 7 over nine roles, the first with none active, and permissions that some of the roles hold. Every session is asked
/// about every permission and about one that nobody holds, before and after a role in the middle is deleted.
fn some_effective(draft: &mut Draft, nine: &[u16]) {
    for [senior, junior] in [[0, 3], [0, 4], [1, 4], [1, 5], [3, 6], [4, 7], [6, 8]] {
        draft.say("inherit", &[nine[senior], nine[junior]]);
    }
    nine[..3].iter().for_each(|&role| draft.say("assign", &[STUDENT, role]));
    let mut ascending = nine.to_vec();
    ascending.sort_unstable();
    for (object, count) in (0..6).zip([1, 1, 2, 3, 5, 9]) {
        let holders = draft.random().some(&ascending, count);
        holders.into_iter().for_each(|role| draft.say("grant", &[OPERATION, object, role]));
    }
    for count in [0, 1, 1, 2, 2, 3, 3] {
        let active = draft.random().some(&ascending, count);
        draft.say("session", &[&[STUDENT], active.as_slice()].concat());
    }
    check_all(draft);
    draft.say("norole", &[nine[4]]);
    check_all(draft);
}

fn check_all(draft: &mut Draft) {
    for session in 1..8 {
        (0..7).for_each(|object| draft.say("check", &[session, OPERATION, object]));
    }
}
