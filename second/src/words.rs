//! The words of a script, one row each. A new word is a row here and its function in `engine`: from the row follow how a line
//! is read, how random lines are made, and what a comparison must reach.

use crate::engine::{Change, Kind, Object, Operation, Refusal, Review, Role, SessionNumber, SetName, State, User};

/// What a place after a word takes; in the order in which the numbers of a random line are drawn.
#[derive(Clone, Copy, PartialEq, Eq, PartialOrd, Ord, Debug)]
pub enum Takes {
    Session,
    User,
    Ssd,
    Dsd,
    Role,
    /// A list of roles up to the end of the line.
    Roles,
    Operation,
    Object,
    Cardinality,
}

/// The function that obeys a word: it changes the state, changes it and gives a number, or asks.
pub enum Obeys {
    Changes(fn(&State, &[u16]) -> Change),
    Opens(fn(&State, &[u16]) -> Result<(State, u16), Refusal>),
    Asks(fn(&State, &[u16]) -> Review),
}

pub struct Word {
    pub text: &'static str,
    pub takes: &'static [Takes],
    /// The refusals that the paper lists, but for 14: that one a line not of the form has with every word.
    pub refusals: &'static [u8],
    /// How often random lines have the word, beside the other words.
    pub often: usize,
    pub obeys: Obeys,
}

const fn word(text: &'static str, takes: &'static [Takes], refusals: &'static [u8], often: usize, obeys: Obeys) -> Word {
    Word { text, takes, refusals, often, obeys }
}

/// The refusals of every review.
const REVIEW: &[u8] = &[1, 2, 15];

pub const WORDS: &[Word] = {
    use Kind as K;
    use Obeys::*;
    use Takes::*;
    &[
        word("user", &[User], &[1, 4], 5, Changes(|s, n| s.add_user(n[0]))),
        word("role", &[Role], &[1, 4], 5, Changes(|s, n| s.add_role(n[0]))),
        word("nouser", &[User], &[1, 2, 16], 2, Changes(|s, n| s.delete_user(n[0]))),
        word("norole", &[Role], &[1, 2, 8], 3, Changes(|s, n| s.delete_role(n[0]))),
        word("assign", &[User, Role], &[1, 2, 4, 10, 12], 15, Changes(|s, n| s.assign(n[0], n[1]))),
        word("deassign", &[User, Role], &[1, 2, 5], 6, Changes(|s, n| s.deassign(n[0], n[1]))),
        word("grant", &[Operation, Object, Role], &[1, 2, 4, 12], 15, Changes(|s, n| s.grant(n[0], n[1], n[2]))),
        word("revoke", &[Operation, Object, Role], &[1, 2, 5], 2, Changes(|s, n| s.revoke(n[0], n[1], n[2]))),
        word("inherit", &[Role, Role], &[1, 2, 4, 6, 10, 11, 12], 15, Changes(|s, n| s.inherit(n[0], n[1]))),
        word("disinherit", &[Role, Role], &[1, 2, 5], 6, Changes(|s, n| s.disinherit(n[0], n[1]))),
        word("ssd", &[Ssd, Cardinality, Roles], &[1, 2, 4, 7, 10], 5, Changes(|s, n| s.add_set(K::Ssd, n[0], n[1], &n[2..]))),
        word("nossd", &[Ssd], &[1, 2], 2, Changes(|s, n| s.delete_set(K::Ssd, n[0]))),
        word("ssd-add", &[Ssd, Role], &[1, 2, 4, 10], 5, Changes(|s, n| s.add_to_set(K::Ssd, n[0], n[1]))),
        word("ssd-drop", &[Ssd, Role], &[1, 2, 5, 7], 2, Changes(|s, n| s.drop_from_set(K::Ssd, n[0], n[1]))),
        word("ssd-card", &[Ssd, Cardinality], &[1, 2, 7, 10], 5, Changes(|s, n| s.set_cardinality(K::Ssd, n[0], n[1]))),
        word("dsd", &[Dsd, Cardinality, Roles], &[1, 2, 4, 7, 11], 5, Changes(|s, n| s.add_set(K::Dsd, n[0], n[1], &n[2..]))),
        word("nodsd", &[Dsd], &[1, 2], 2, Changes(|s, n| s.delete_set(K::Dsd, n[0]))),
        word("dsd-add", &[Dsd, Role], &[1, 2, 4, 11], 5, Changes(|s, n| s.add_to_set(K::Dsd, n[0], n[1]))),
        word("dsd-drop", &[Dsd, Role], &[1, 2, 5, 7], 2, Changes(|s, n| s.drop_from_set(K::Dsd, n[0], n[1]))),
        word("dsd-card", &[Dsd, Cardinality], &[1, 2, 7, 11], 5, Changes(|s, n| s.set_cardinality(K::Dsd, n[0], n[1]))),
        word("session", &[User, Roles], &[1, 2, 9, 11, 12], 15, Opens(|s, n| s.open_session(n[0], &n[1..]))),
        word("activate", &[User, Session, Role], &[1, 2, 3, 4, 9, 11], 10, Changes(|s, n| s.activate(n[0], n[1], n[2]))),
        word("drop", &[User, Session, Role], &[1, 2, 3, 5], 2, Changes(|s, n| s.drop_role(n[0], n[1], n[2]))),
        word("end", &[User, Session], &[1, 2, 3], 3, Changes(|s, n| s.end_session(n[0], n[1]))),
        word("check", &[Session, Operation, Object], &[1, 2], 6, Asks(|s, n| s.check(n[0], n[1], n[2]))),
        word("assigned-users", &[Role], REVIEW, 2, Asks(|s, n| s.assigned_users(n[0]))),
        word("assigned-roles", &[User], REVIEW, 2, Asks(|s, n| s.assigned_roles(n[0]))),
        word("auth-users", &[Role], REVIEW, 2, Asks(|s, n| s.auth_users(n[0]))),
        word("auth-roles", &[User], REVIEW, 2, Asks(|s, n| s.auth_roles(n[0]))),
        word("role-perms", &[Role], REVIEW, 2, Asks(|s, n| s.role_perms(n[0]))),
        word("user-perms", &[User], REVIEW, 2, Asks(|s, n| s.user_perms(n[0]))),
        word("session-roles", &[Session], REVIEW, 2, Asks(|s, n| s.session_roles(n[0]))),
        word("session-perms", &[Session], REVIEW, 2, Asks(|s, n| s.session_perms(n[0]))),
        word("role-ops", &[Role, Object], REVIEW, 2, Asks(|s, n| s.role_ops(n[0], n[1]))),
        word("user-ops", &[User, Object], REVIEW, 2, Asks(|s, n| s.user_ops(n[0], n[1]))),
        word("ssd-sets", &[], REVIEW, 2, Asks(|s, _| s.set_names(K::Ssd))),
        word("ssd-roles", &[Ssd], REVIEW, 2, Asks(|s, n| s.set_roles(K::Ssd, n[0]))),
        word("ssd-count", &[Ssd], REVIEW, 2, Asks(|s, n| s.set_count(K::Ssd, n[0]))),
        word("dsd-sets", &[], REVIEW, 2, Asks(|s, _| s.set_names(K::Dsd))),
        word("dsd-roles", &[Dsd], REVIEW, 2, Asks(|s, n| s.set_roles(K::Dsd, n[0]))),
        word("dsd-count", &[Dsd], REVIEW, 2, Asks(|s, n| s.set_count(K::Dsd, n[0]))),
        word("end-all", &[User], &[1, 2], 2, Changes(|s, n| s.end_all_sessions(n[0]))),
    ]
};

pub fn word_of(text: &[u8]) -> Option<&'static Word> {
    WORDS.iter().find(|word| word.text.as_bytes() == text)
}

impl Word {
    /// How many numbers stand before the list, where the word takes a list.
    pub fn before_list(&self) -> Option<usize> {
        (self.takes.last() == Some(&Takes::Roles)).then(|| self.takes.len() - 1)
    }
}

impl Takes {
    /// The highest number of the kind; a cardinality has no range.
    pub fn highest(self) -> Option<u16> {
        match self {
            Takes::User => Some(User::HIGHEST),
            Takes::Role | Takes::Roles => Some(Role::HIGHEST),
            Takes::Session => Some(SessionNumber::HIGHEST),
            Takes::Ssd | Takes::Dsd => Some(SetName::HIGHEST),
            Takes::Operation => Some(Operation::HIGHEST),
            Takes::Object => Some(Object::HIGHEST),
            Takes::Cardinality => None,
        }
    }

    /// The numbers of the kind's things that exist; nothing for a kind whose things need not be created.
    pub fn existing(self, state: &State) -> Option<Vec<u16>> {
        match self {
            Takes::User => Some(state.users.iter().map(|user| user.number()).collect()),
            Takes::Role | Takes::Roles => Some(state.roles.iter().map(|role| role.number()).collect()),
            Takes::Session => Some(state.sessions.keys().map(|number| number.number()).collect()),
            Takes::Ssd => Some(state.ssd.keys().map(|name| name.number()).collect()),
            Takes::Dsd => Some(state.dsd.keys().map(|name| name.number()).collect()),
            Takes::Operation | Takes::Object | Takes::Cardinality => None,
        }
    }
}
