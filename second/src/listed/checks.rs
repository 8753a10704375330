//! What a comparison must reach so that it surely notices an engine whose `check` looks at other roles, takes them in another order
//! or ends elsewhere.

use super::{dynamic, Tally};
use crate::engine::{Role, Session, SessionNumber, State};
use std::collections::{BTreeSet, VecDeque};

const YES: &str = "check, yes";
const NO: &str = "check, no";

/// Roles other than the effective ones that some engine might look at, in ascending order: it gives another number.
const OTHER_ROLES: &[(&str, dynamic::Count)] = &[
    ("not the count of the active roles alone", dynamic::active_alone),
    ("not the count of the active roles and their direct juniors", dynamic::with_direct_juniors),
    ("not the count of the inherited roles alone", dynamic::inherited_alone),
    ("not the count of all roles that the owner is authorised for", dynamic::all_of_the_owner),
    ("not the count of the roles of all sessions of the owner", dynamic::all_sessions_of_the_owner),
    ("not the count of roles taken again for each active role", dynamic::counted_again),
    ("not the count of all roles that exist", |state, _| state.roles.iter().copied().collect()),
    ("not the count of all role numbers", |_, _| (0..=Role::HIGHEST).flat_map(Role::new).collect()),
];

/// How many of the effective roles some engine might look at, where the answer is yes.
type Count = fn(&Question) -> usize;

/// Other orders of the effective roles and other ends, by which an engine gives another number.
const OTHER_ORDERS_AND_ENDS: &[(&str, Count)] = &[
    ("not the count with active roles first", active_first),
    ("not the count with inherited roles first", inherited_first),
    ("not the count in falling order", falling),
    ("not the count of a walk that goes down first", depth_first),
    ("not the count of a walk that goes across first", breadth_first),
    ("not the count of a walk that comes to seniors last", seniors_last),
    ("not the count up to the first active role that holds the grant", up_to_active),
    ("not the count up to the first role that holds or inherits the grant", up_to_inheriting),
    ("not the count up to the last role that holds the grant", up_to_last),
    ("not the count of all effective roles", |question| question.effective.len()),
];

fn active_first(question: &Question) -> usize {
    let active = &question.session.active;
    question.up_to_holder(active.iter().chain(&(&question.effective - active)))
}

fn inherited_first(question: &Question) -> usize {
    let inherited: BTreeSet<Role> = dynamic::inherited_alone(question.state, question.session).into_iter().collect();
    question.up_to_holder(inherited.iter().chain(&(&question.effective - &inherited)))
}

fn falling(question: &Question) -> usize {
    question.up_to_holder(question.effective.iter().rev())
}

fn depth_first(question: &Question) -> usize {
    let mut walked = Vec::new();
    question.session.active.iter().for_each(|&role| go_down(question.state, role, &mut walked));
    question.up_to_holder(&walked)
}

/// Adds the role and then those below it.
fn go_down(state: &State, role: Role, walked: &mut Vec<Role>) {
    if !walked.contains(&role) {
        walked.push(role);
        state.direct_juniors(role).into_iter().for_each(|junior| go_down(state, junior, walked));
    }
}

fn breadth_first(question: &Question) -> usize {
    let mut walked = Vec::new();
    let mut to_visit: VecDeque<Role> = question.session.active.iter().copied().collect();
    while let Some(role) = to_visit.pop_front() {
        if !walked.contains(&role) {
            walked.push(role);
            to_visit.extend(question.state.direct_juniors(role));
        }
    }
    question.up_to_holder(&walked)
}

fn seniors_last(question: &Question) -> usize {
    let mut walked = Vec::new();
    question.session.active.iter().for_each(|&role| come_up(question.state, role, &mut walked));
    question.up_to_holder(&walked)
}

/// Adds those below the role and then the role.
fn come_up(state: &State, role: Role, walked: &mut Vec<Role>) {
    if !walked.contains(&role) {
        state.direct_juniors(role).into_iter().for_each(|junior| come_up(state, junior, walked));
        walked.push(role);
    }
}

fn up_to_active(question: &Question) -> usize {
    let active_holders = &question.holders & &question.session.active;
    active_holders.first().map_or(question.looked_at(), |&role| question.up_to_role(role))
}

fn up_to_inheriting(question: &Question) -> usize {
    let has = |role: Role| !question.state.with_inherited(&BTreeSet::from([role])).is_disjoint(&question.holders);
    up_to(&question.effective, has)
}

fn up_to_last(question: &Question) -> usize {
    let holders = &question.holders & &question.effective;
    holders.last().map_or(question.looked_at(), |&role| question.up_to_role(role))
}

/// Every other count: the comparison must reach them all, those of other roles with yes and with no.
pub fn events() -> impl Iterator<Item = (&'static str, &'static str)> {
    let roles = |row| OTHER_ROLES.iter().map(move |&(event, _)| (row, event));
    let orders_and_ends = OTHER_ORDERS_AND_ENDS.iter().map(|&(event, _)| (YES, event));
    roles(YES).chain(orders_and_ends).chain(roles(NO))
}

/// How many roles there are up to and including the first with which the search ends, or all.
fn up_to<'a>(roles: impl IntoIterator<Item = &'a Role>, ends: impl Fn(Role) -> bool) -> usize {
    let roles: Vec<Role> = roles.into_iter().copied().collect();
    roles.iter().position(|&role| ends(role)).map_or(roles.len(), |place| place + 1)
}

/// What a line asks of an open session.
struct Question<'a> {
    state: &'a State,
    session: &'a Session,
    effective: BTreeSet<Role>,
    /// All roles that hold the grant themselves.
    holders: BTreeSet<Role>,
}

impl<'a> Question<'a> {
    fn of_line(state: &'a State, asked: &[u16]) -> Option<Self> {
        let session = state.sessions.get(&SessionNumber::new(asked[0]).ok()?)?;
        let granted = state.grants.iter().filter(|(_, operation, object)| [operation.number(), object.number()] == asked[1..]);
        let holders = granted.map(|&(role, _, _)| role).collect();
        Some(Question { state, session, effective: state.effective_roles(session), holders })
    }

    fn up_to_holder<'r>(&self, roles: impl IntoIterator<Item = &'r Role>) -> usize {
        up_to(roles, |role| self.holders.contains(&role))
    }

    fn up_to_role(&self, role: Role) -> usize {
        self.effective.range(..=role).count()
    }

    fn looked_at(&self) -> usize {
        self.up_to_holder(&self.effective)
    }
}

impl Tally {
    /// What a `check` that is answered 0 shows of how far it looked.
    pub fn check_line(&mut self, before: &State, asked: &[u16], results: &[u16]) {
        let Some(question) = Question::of_line(before, asked) else { return };
        let (row, looked_at) = (if results[0] == 1 { YES } else { NO }, usize::from(results[1]));
        let mut other_count = |event, count| {
            if count != looked_at {
                *self.other_counts.entry((row, event)).or_default() += 1;
            }
        };
        for &(event, roles) in OTHER_ROLES {
            let mut roles = roles(before, question.session);
            roles.sort_unstable();
            other_count(event, question.up_to_holder(&roles));
        }
        if row == YES {
            OTHER_ORDERS_AND_ENDS.iter().for_each(|&(event, count)| other_count(event, count(&question)));
            self.check_yes(&question, looked_at);
        } else {
            self.check_no(&question, looked_at);
        }
    }

    fn check_yes(&mut self, question: &Question, looked_at: usize) {
        let Question { session, effective, holders, .. } = question;
        let more_to_come = looked_at < effective.len();
        self.event_if(looked_at == 1 && more_to_come, "check: yes at the first of several roles");
        self.event_if(looked_at > 1 && more_to_come, "check: yes after several roles, with more to come");
        self.event_if(looked_at > 1 && !more_to_come, "check: yes at the last of several roles");
        self.event_if(looked_at >= 16, "check: yes after 16 roles or more");
        self.event_if(looked_at == 64, "check: yes after all 64 roles");
        let active_holders = holders & &session.active;
        self.event_if(active_holders.is_empty(), "check: yes through an inherited role alone");
        let first = effective.intersection(holders).next().expect("a role that holds the grant");
        let at_inherited = !session.active.contains(first);
        let higher_active = at_inherited && !active_holders.is_empty();
        self.event_if(higher_active, "check: yes at an inherited role, with a higher one active that holds the grant too");
        let lower_inherited = effective.range(..first).any(|role| !session.active.contains(role));
        self.event_if(!at_inherited && lower_inherited, "check: yes at an active role, with a lower one inherited");
    }

    fn check_no(&mut self, question: &Question, looked_at: usize) {
        self.event_if(looked_at > 1, "check: no after several roles");
        self.event_if(looked_at >= 16, "check: no after 16 roles or more");
        self.event_if(looked_at == 64, "check: no after all 64 roles");
        let none_active = question.session.active.is_empty();
        let held = !question.holders.is_empty();
        self.event_if(none_active && held, "check: no with none active, though some role holds the grant");
    }
}
