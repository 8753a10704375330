//! What a comparison must reach so that it surely notices an engine whose DSD sets count other roles than the effective ones.

use super::Tally;
use crate::engine::{Kind, Role, RoleSet, Session, SessionNumber, State, User, MOST_LINES};
use crate::script::Reply;
use std::collections::BTreeSet;

/// The words that ask the rule, and the files.
const ROWS: [&str; 7] = ["session", "activate", "inherit", "dsd", "dsd-add", "dsd-card", "file"];

/// Roles of a session, as some engine might count them.
pub type Count = fn(&State, &Session) -> Vec<Role>;

/// Counts other than the rule's, and what happens where an engine with that count gives another answer: 11 where it counts fewer
/// roles, done (0) where it counts more.
const OTHER_COUNTS: &[(u8, &str, Count)] = &[
    (11, "11, though the active roles alone keep the rule", active_alone),
    (11, "11, though the active roles and their direct juniors keep the rule", with_direct_juniors),
    (11, "11, though the inherited roles alone keep the rule", inherited_alone),
    (0, "done, though all roles that the owner is authorised for break the rule", all_of_the_owner),
    (0, "done, though all sessions of the owner together break the rule", all_sessions_of_the_owner),
    (0, "done, though roles counted again for each active role break the rule", counted_again),
];

pub fn active_alone(_: &State, session: &Session) -> Vec<Role> {
    session.active.iter().copied().collect()
}

pub fn with_direct_juniors(state: &State, session: &Session) -> Vec<Role> {
    (&session.active | &direct_juniors(state, session)).into_iter().collect()
}

pub fn inherited_alone(state: &State, session: &Session) -> Vec<Role> {
    state.with_inherited(&direct_juniors(state, session)).into_iter().collect()
}

pub fn all_of_the_owner(state: &State, session: &Session) -> Vec<Role> {
    state.authorised_roles(session.owner).into_iter().collect()
}

pub fn all_sessions_of_the_owner(state: &State, session: &Session) -> Vec<Role> {
    let owned = state.sessions.values().filter(|other| other.owner == session.owner);
    let active = owned.fold(session.active.clone(), |all, other| &all | &other.active);
    state.with_inherited(&active).into_iter().collect()
}

pub fn counted_again(state: &State, session: &Session) -> Vec<Role> {
    session.active.iter().flat_map(|&role| state.with_inherited(&BTreeSet::from([role]))).collect()
}

fn direct_juniors(state: &State, session: &Session) -> BTreeSet<Role> {
    session.active.iter().flat_map(|&role| state.direct_juniors(role)).collect()
}

/// Every row with every other count: the comparison must reach them all.
pub fn events() -> impl Iterator<Item = (&'static str, &'static str)> {
    ROWS.into_iter().flat_map(|row| OTHER_COUNTS.iter().map(move |&(_, event, _)| (row, event)))
}

/// What a line or a file asks: whether the rule of these sets is kept in these sessions. The state is the one that would be.
struct Question {
    state: State,
    sessions: Vec<Session>,
    sets: Vec<RoleSet>,
}

impl Question {
    /// The question about every session and every set.
    fn whole(state: &State) -> Question {
        let (sessions, sets) = (state.sessions.values().cloned().collect(), state.dsd.values().cloned().collect());
        Question { state: state.clone(), sessions, sets }
    }

    /// The question of a line whose numbers all name what is there, if its word asks one.
    fn of_line(before: &State, word: &str, asked: &[u16]) -> Option<Question> {
        let role = |place: usize| Role::new(asked[place]).ok();
        let roles = |from: usize| asked[from..].iter().map(|&number| Role::new(number).ok()).collect::<Option<_>>();
        let set = || before.dsd.iter().find(|(name, _)| name.number() == asked[0]).map(|(_, set)| set.clone());
        let mut question = Question::whole(before);
        match word {
            "session" => question.sessions = vec![Session { owner: User::new(asked[0]).ok()?, active: roles(1)? }],
            "activate" => {
                let session = question.state.sessions.get_mut(&SessionNumber::new(asked[1]).ok()?)?;
                session.active.insert(role(2)?);
                question.sessions = vec![session.clone()];
            }
            "inherit" => {
                question.state.lines.insert((role(0)?, role(1)?));
                let after = &question.state;
                question.sessions.retain(|session| before.effective_roles(session) != after.effective_roles(session));
            }
            "dsd" => question.sets = vec![RoleSet { cardinality: asked[1], roles: roles(2)? }],
            "dsd-add" => {
                let mut set = set()?;
                set.roles.insert(role(1)?);
                question.sets = vec![set];
            }
            "dsd-card" => question.sets = vec![RoleSet { cardinality: asked[1], ..set()? }],
            _ => return None,
        }
        Some(question)
    }

    /// Whether the rule would be broken by this count.
    fn broken_by(&self, count: Count) -> bool {
        self.sessions.iter().any(|session| {
            let roles = count(&self.state, session);
            let held = |set: &RoleSet| roles.iter().filter(|role| set.roles.contains(role)).count();
            self.sets.iter().any(|set| held(set) >= usize::from(set.cardinality))
        })
    }

    fn rule_broken(&self) -> bool {
        self.broken_by(|state, session| state.effective_roles(session).into_iter().collect())
    }
}

impl Tally {
    /// What a line shows of the rule.
    pub fn dynamic_line(&mut self, before: &State, line: &[u8], (word, asked): (&'static str, &[u16]), reply: &Reply) {
        self.had_11_before(line, word, reply);
        // At the other answers the rule is no matter, and the numbers may name nothing.
        if !ROWS.contains(&word) || !matches!(reply.answer, 0 | 6 | 9..=12) {
            return;
        }
        let Some(question) = Question::of_line(before, word, asked) else { return };
        self.other_counts(word, &question, reply.answer);
        match word {
            "session" => {
                self.event_if(reply.answer == 9 && question.rule_broken(), "session: 9 where 11 applies too");
                let full = reply.answer == 11 && before.sessions.len() == 64;
                let inherited = full && !question.broken_by(active_alone);
                self.event_if(inherited, "session: 11 while 64 are open, though the active roles alone keep the rule");
            }
            "activate" => self.activate(before, &question, asked, reply.answer),
            "inherit" => self.inherit(before, &question, asked, reply.answer),
            _ => {}
        }
    }

    /// What a file of the form shows of the rule.
    pub fn dynamic_file(&mut self, state: &State, answer: u8) {
        let question = Question::whole(state);
        self.other_counts("file", &question, answer);
        self.event_if(answer == 9 && question.rule_broken(), "file: 9 where 11 applies too");
        self.event_if(answer == 10 && question.rule_broken(), "file: 10 where 11 applies too");
    }

    fn other_counts(&mut self, row: &'static str, question: &Question, answer: u8) {
        for &(_, event, count) in OTHER_COUNTS.iter().filter(|(given, _, _)| *given == answer) {
            if question.broken_by(count) == (answer == 0) {
                *self.other_counts.entry((row, event)).or_default() += 1;
            }
        }
    }

    /// Keeps the lines that had 11, until a command other than `disinherit` is done.
    fn had_11_before(&mut self, line: &[u8], word: &str, reply: &Reply) {
        if reply.answer == 11 {
            self.had_11.insert(line.to_vec());
        }
        if reply.after.is_some() {
            self.event_if(self.had_11.contains(line), "disinherit: a line that had 11 is done after it");
            if word != "disinherit" {
                self.had_11.clear();
            }
        }
    }

    fn activate(&mut self, before: &State, question: &Question, asked: &[u16], answer: u8) {
        let role = Role::new(asked[2]).expect("a role that exists");
        let named = BTreeSet::from([role]);
        let others = &question.sessions[0].active - &named;
        let effective = before.with_inherited(&others);
        let kept = |roles: &BTreeSet<Role>| !before.rule_broken_by(Kind::Dsd, roles);
        match answer {
            9 => self.event_if(question.rule_broken(), "activate: 9 where 11 applies too"),
            11 => {
                self.event_if(kept(&(&effective | &named)), "activate: 11 because of roles that the role named inherits");
                let without = &others | &before.with_inherited(&named);
                self.event_if(kept(&without), "activate: 11 because of roles that those active before inherit");
            }
            0 => {
                let one_below = before.dsd.values().any(|set| set.roles.contains(&role) && set.one_below(&effective));
                let counted_before = effective.contains(&role) && one_below;
                self.event_if(counted_before, "activate: done one below the cardinality, as the role counted already");
            }
            _ => {}
        }
    }

    fn inherit(&mut self, before: &State, question: &Question, asked: &[u16], answer: u8) {
        match answer {
            6 => self.event_if(question.rule_broken(), "inherit: 6 where 11 applies too"),
            10 => self.event_if(question.rule_broken(), "inherit: 10 where 11 applies too"),
            11 => {
                self.event_if(before.lines.len() == MOST_LINES, "inherit: 11 while 512 lines stand");
                self.inherit_breaks(before, &question.state, asked);
            }
            0 => {
                let senior = Role::new(asked[0]).expect("a role that exists");
                let one_below = question.sessions.iter().filter(|session| session.active.contains(&senior)).any(|session| {
                    let (then, now) = (before.effective_roles(session), question.state.effective_roles(session));
                    before.dsd.values().any(|set| set.held(&then) < set.held(&now) && set.one_below(&now))
                });
                self.event_if(one_below, "inherit: done up to one below the cardinality, with the senior active");
            }
            _ => {}
        }
    }

    /// In which sessions a line, refused for it, would break the rule, and by what.
    fn inherit_breaks(&mut self, before: &State, after: &State, asked: &[u16]) {
        let (senior, junior) = (Role::new(asked[0]).expect("it exists"), Role::new(asked[1]).expect("it exists"));
        let breaks = |session: &Session| after.rule_broken_by(Kind::Dsd, &after.effective_roles(session));
        let (broken, kept): (Vec<_>, Vec<_>) = after.sessions.iter().partition(|(_, session)| breaks(session));
        let only_inherited = broken.iter().all(|(_, session)| !session.active.contains(&senior));
        self.event_if(only_inherited, "inherit: 11 where the senior is not active, but inherited");
        let with_junior = |session| &before.effective_roles(session) | &BTreeSet::from([junior]);
        let further_down = broken.iter().all(|(_, session)| !before.rule_broken_by(Kind::Dsd, &with_junior(session)));
        self.event_if(further_down, "inherit: 11 because of roles that the junior inherits");
        let other_owner = kept.iter().any(|(_, other)| broken.iter().all(|(_, session)| session.owner != other.owner));
        self.event_if(other_owner, "inherit: 11 for a session while those of another user keep the rule");
        let numbers: Vec<u16> = broken.iter().map(|(number, _)| number.number()).collect();
        self.event_if(numbers == [0], "inherit: 11 for session 0 alone");
        self.event_if(numbers == [63], "inherit: 11 for session 63 alone");
        let set_broken = |set: &RoleSet| broken.iter().any(|(_, session)| set.broken_by(&after.effective_roles(session)));
        let names = after.dsd.iter().filter(|(_, set)| set_broken(set)).map(|(name, _)| name.number());
        self.event_if(names.eq([15]), "inherit: 11 for DSD set 15 alone");
    }
}
