//! The policy file: eight sections of sixteen-bit numbers, low byte first.

use crate::engine::{Kind, Object, Operation, Refusal, Role, RoleSet, Session, SessionNumber, SetName, State, User};
use std::collections::{BTreeMap, BTreeSet};

/// What an entry of a section holds, number by number, and how many entries the section may have.
struct Shape {
    most: usize,
    /// How many numbers stand before the inner list, or all of them where there is none.
    numbers: usize,
    inner_list: bool,
}

const fn plain(most: usize, numbers: usize) -> Shape {
    Shape { most, numbers, inner_list: false }
}

const fn with_list(most: usize) -> Shape {
    Shape { most, numbers: 2, inner_list: true }
}

/// Users; roles; lines; assignments; grants; SSD sets; DSD sets; sessions.
const SHAPES: [Shape; 8] =
    [plain(256, 1), plain(64, 1), plain(512, 2), plain(2048, 2), plain(2048, 3), with_list(16), with_list(16), with_list(64)];
const MOST_IN_INNER_LIST: usize = 64;

pub const USERS: usize = 0;
pub const ROLES: usize = 1;
pub const LINES: usize = 2;
pub const ASSIGNMENTS: usize = 3;
pub const GRANTS: usize = 4;
pub const SSD: usize = 5;
pub const DSD: usize = 6;
pub const SESSIONS: usize = 7;

/// A file's entries as they stand in it, without the counts. Nothing is promised about their order or their numbers.
pub type Sections = [Vec<Vec<u16>>; 8];

pub fn save(state: &State) -> Vec<u8> {
    write(&sections_of(state))
}

/// 14 for a file that is not of the form, then the lowest of 6, 7, 9, 10 and 11 that applies.
pub fn load(file: &[u8]) -> Result<State, Refusal> {
    let state = state_in(file).ok_or(Refusal::Form)?;
    if state.circle_stands() {
        Err(Refusal::Circle)
    } else if state.set_misshapen() {
        Err(Refusal::Cardinality)
    } else if state.active_role_not_authorised() {
        Err(Refusal::NotAuthorised)
    } else if state.rule_broken(Kind::Ssd) {
        Err(Refusal::StaticBroken)
    } else if state.rule_broken(Kind::Dsd) {
        Err(Refusal::DynamicBroken)
    } else {
        Ok(state)
    }
}

/// The state that a file of the form describes, which may break the rules.
pub fn state_in(file: &[u8]) -> Option<State> {
    read(file).and_then(|sections| state_of(&sections))
}

pub fn sections_of(state: &State) -> Sections {
    let sets = |kind| -> Vec<Vec<u16>> {
        let sets = state.sets(kind).iter();
        sets.map(|(name, set)| entry_with_list(name.number(), set.cardinality, &set.roles)).collect()
    };
    [
        state.users.iter().map(|user| vec![user.number()]).collect(),
        state.roles.iter().map(|role| vec![role.number()]).collect(),
        state.lines.iter().map(|(senior, junior)| vec![senior.number(), junior.number()]).collect(),
        state.assignments.iter().map(|(user, role)| vec![user.number(), role.number()]).collect(),
        state.grants.iter().map(|(role, operation, object)| vec![role.number(), operation.number(), object.number()]).collect(),
        sets(Kind::Ssd),
        sets(Kind::Dsd),
        state.sessions.iter().map(|(number, one)| entry_with_list(number.number(), one.owner.number(), &one.active)).collect(),
    ]
}

fn entry_with_list(first: u16, second: u16, roles: &BTreeSet<Role>) -> Vec<u16> {
    [first, second].into_iter().chain(roles.iter().map(|role| role.number())).collect()
}

pub fn write(sections: &Sections) -> Vec<u8> {
    (0..8).flat_map(|section| write_section(section, &sections[section])).collect()
}

/// The bytes of one section, its count first.
pub fn write_section(section: usize, entries: &[Vec<u16>]) -> Vec<u8> {
    let shape = &SHAPES[section];
    let mut numbers = vec![entries.len() as u16];
    for entry in entries {
        let (leading, inner) = entry.split_at(shape.numbers);
        numbers.extend(leading);
        if shape.inner_list {
            numbers.push(inner.len() as u16);
            numbers.extend(inner);
        }
    }
    numbers.into_iter().flat_map(u16::to_le_bytes).collect()
}

/// The entries of a file; nothing at an early end, with bytes left over or where a count is beyond its limit.
pub fn read(file: &[u8]) -> Option<Sections> {
    let mut rest = file;
    let mut sections = Sections::default();
    for (section, shape) in SHAPES.iter().enumerate() {
        for _ in 0..take_count(&mut rest, shape.most)? {
            let mut entry = take(&mut rest, shape.numbers)?;
            if shape.inner_list {
                let count = take_count(&mut rest, MOST_IN_INNER_LIST)?;
                entry.extend(take(&mut rest, count)?);
            }
            sections[section].push(entry);
        }
    }
    rest.is_empty().then_some(sections)
}

fn take_count(rest: &mut &[u8], most: usize) -> Option<usize> {
    let count = usize::from(take(rest, 1)?[0]);
    (count <= most).then_some(count)
}

fn take(rest: &mut &[u8], count: usize) -> Option<Vec<u16>> {
    if rest.len() < 2 * count {
        return None;
    }
    let (taken, left) = rest.split_at(2 * count);
    *rest = left;
    Some(taken.chunks(2).map(|pair| u16::from(pair[0]) + 256 * u16::from(pair[1])).collect())
}

/// The state that the entries describe; nothing for a number beyond its limit, a wrong order or a user or role not listed.
pub fn state_of(sections: &Sections) -> Option<State> {
    let mut state = State::default();
    for entry in ascending(&sections[USERS], 1)? {
        state.users.insert(User::new(entry[0]).ok()?);
    }
    for entry in ascending(&sections[ROLES], 1)? {
        state.roles.insert(Role::new(entry[0]).ok()?);
    }
    for entry in ascending(&sections[LINES], 2)? {
        state.lines.insert((listed_role(&state, entry[0])?, listed_role(&state, entry[1])?));
    }
    for entry in ascending(&sections[ASSIGNMENTS], 2)? {
        state.assignments.insert((listed_user(&state, entry[0])?, listed_role(&state, entry[1])?));
    }
    for entry in ascending(&sections[GRANTS], 3)? {
        let role = listed_role(&state, entry[0])?;
        state.grants.insert((role, Operation::new(entry[1]).ok()?, Object::new(entry[2]).ok()?));
    }
    state.ssd = sets_of(&state, &sections[SSD])?;
    state.dsd = sets_of(&state, &sections[DSD])?;
    for entry in ascending(&sections[SESSIONS], 1)? {
        let (owner, active) = (listed_user(&state, entry[1])?, listed_roles(&state, &entry[2..])?);
        state.sessions.insert(SessionNumber::new(entry[0]).ok()?, Session { owner, active });
    }
    Some(state)
}

fn sets_of(state: &State, entries: &[Vec<u16>]) -> Option<BTreeMap<SetName, RoleSet>> {
    let mut sets = BTreeMap::new();
    for entry in ascending(entries, 1)? {
        let set = RoleSet { cardinality: entry[1], roles: listed_roles(state, &entry[2..])? };
        sets.insert(SetName::new(entry[0]).ok()?, set);
    }
    Some(sets)
}

/// The entries, where they rise strictly by their leading numbers.
fn ascending(entries: &[Vec<u16>], leading: usize) -> Option<&[Vec<u16>]> {
    entries.windows(2).all(|pair| pair[0][..leading] < pair[1][..leading]).then_some(entries)
}

fn listed_user(state: &State, number: u16) -> Option<User> {
    User::new(number).ok().filter(|user| state.users.contains(user))
}

fn listed_role(state: &State, number: u16) -> Option<Role> {
    Role::new(number).ok().filter(|role| state.roles.contains(role))
}

fn listed_roles(state: &State, numbers: &[u16]) -> Option<BTreeSet<Role>> {
    if numbers.windows(2).any(|pair| pair[0] >= pair[1]) {
        return None;
    }
    numbers.iter().map(|&number| listed_role(state, number)).collect()
}
