//! The theme of the student who activated two senior roles, and so used capture and release together.

use super::themes::begin;
use super::Draft;

const STUDENT: u16 = 0;
const TEACHER: u16 = 1;
const HELPER: u16 = 2;
/// Has no roles.
const GUEST: u16 = 3;

/// The roles, numbered at random. Lines lead from the head to the lead and to the keeper, from the keeper over the feeder to
/// capture, from the warden to release, and from the tutor to the guide.
struct Roles {
    head: u16,
    lead: u16,
    keeper: u16,
    feeder: u16,
    capture: u16,
    warden: u16,
    release: u16,
    tutor: u16,
    guide: u16,
    notes: u16,
    spare: u16,
}

/// DSD sets of roles that sessions mostly have by inheritance: every word that asks their rule, where it is kept and where not.
pub fn seniors(draft: &mut Draft) {
    begin(draft, 4, 11);
    let order = draft.shuffled(0..11);
    let [head, lead, keeper, feeder, capture, warden, release, tutor, guide, notes, spare] = order[..] else { return };
    let roles = Roles { head, lead, keeper, feeder, capture, warden, release, tutor, guide, notes, spare };
    for line in [[head, lead], [head, keeper], [keeper, feeder], [feeder, capture], [warden, release], [tutor, guide]] {
        draft.say("inherit", &line);
    }
    say_with_roles(draft, "dsd", &[15, 2], &[capture, release]);
    for (user, role) in [(STUDENT, keeper), (STUDENT, warden), (TEACHER, head), (HELPER, release), (HELPER, guide)] {
        draft.say("assign", &[user, role]);
    }
    sessions_of_seniors(draft, &roles);
    lines_below_seniors(draft, &roles);
    sets_below_seniors(draft, &roles);
    // What a line taken away makes room for.
    draft.say("activate", &[STUDENT, 1, warden]);
    draft.say("disinherit", &[feeder, capture]);
    draft.say("activate", &[STUDENT, 1, warden]);
}

/// Opens sessions 0 to 6 and activates roles, up to the rule and beyond.
fn sessions_of_seniors(draft: &mut Draft, roles: &Roles) {
    let &Roles { head, keeper, feeder, capture, warden, release, guide, .. } = roles;
    say_with_roles(draft, "session", &[STUDENT], &[keeper, warden]);
    say_with_roles(draft, "session", &[STUDENT], &[keeper, release]);
    say_with_roles(draft, "session", &[GUEST], &[keeper, warden]);
    draft.say("session", &[TEACHER, head]);
    draft.say("session", &[STUDENT, keeper]);
    draft.say("session", &[STUDENT, warden]);
    say_with_roles(draft, "session", &[STUDENT], &[keeper, feeder]);
    draft.say("session", &[STUDENT]);
    draft.say("session", &[HELPER, release]);
    draft.say("session", &[HELPER, guide]);
    draft.say("activate", &[STUDENT, 1, warden]);
    draft.say("activate", &[STUDENT, 1, release]);
    draft.say("activate", &[HELPER, 5, feeder]);
    for role in [keeper, feeder, capture, warden] {
        draft.say("activate", &[STUDENT, 4, role]);
    }
}

/// Adds lines that give roles to the open sessions.
fn lines_below_seniors(draft: &mut Draft, roles: &Roles) {
    let &Roles { lead, feeder, warden, release, tutor, guide, notes, .. } = roles;
    draft.say("inherit", &[warden, feeder]);
    draft.say("inherit", &[lead, release]);
    say_with_roles(draft, "dsd", &[2, 3], &[release, guide, notes]);
    draft.say("inherit", &[warden, notes]);
    draft.say("inherit", &[feeder, notes]);
    say_with_roles(draft, "dsd", &[1, 2], &[guide, notes]);
    draft.say("inherit", &[guide, notes]);
    say_with_roles(draft, "ssd", &[0, 2], &[guide, notes]);
    draft.say("inherit", &[guide, notes]);
    say_with_roles(draft, "dsd", &[3, 2], &[tutor, guide]);
    draft.say("inherit", &[guide, tutor]);
}

/// Lays sets over the effective roles of the open sessions.
fn sets_below_seniors(draft: &mut Draft, roles: &Roles) {
    let &Roles { head, capture, release, spare, .. } = roles;
    say_with_roles(draft, "dsd", &[4, 2], &[head, capture]);
    say_with_roles(draft, "dsd", &[4, 2], &[head, release]);
    draft.say("dsd-add", &[4, capture]);
    say_with_roles(draft, "dsd", &[5, 3], &[head, capture, release]);
    draft.say("dsd-card", &[5, 2]);
    // Each session has one of the two, some of the student's sessions together have both.
    say_with_roles(draft, "dsd", &[6, 2], &[capture, release]);
    say_with_roles(draft, "dsd", &[7, 2], &[release, spare]);
    draft.say("dsd-add", &[7, capture]);
    say_with_roles(draft, "dsd", &[8, 3], &[capture, release, spare]);
    draft.say("dsd-card", &[8, 2]);
}

/// Says a word with a list, which is put in order.
fn say_with_roles(draft: &mut Draft, word: &str, before: &[u16], roles: &[u16]) {
    let mut list = roles.to_vec();
    list.sort_unstable();
    draft.say(word, &[before, &list].concat());
}
