//! Random policy files: as saved from random states, and damaged in every way that the paper answers.

use crate::engine::{numbers, Kind, Object, Operation, Role, RoleSet, Session, SessionNumber, SetName, State, User};
use crate::policy_file::{save, sections_of, state_of, write, write_section, Sections};
use crate::policy_file::{ASSIGNMENTS, DSD, GRANTS, LINES, ROLES, SESSIONS, SSD, USERS};
use crate::random::Random;
use std::collections::{BTreeMap, BTreeSet};

const STATES_KEPT: usize = 200;

pub struct File {
    pub bytes: Vec<u8>,
    pub event: &'static str,
}

pub struct FileMaker {
    random: Random,
    /// States that scripts came to.
    kept: Vec<State>,
    made: usize,
}

/// Changes the entries of a file; nothing where they have no place for it.
type Damage = fn(&mut Random, &mut Sections) -> Option<()>;

const DAMAGES: &[(&str, Damage)] = &[
    ("file: a number beyond its limit", number_beyond),
    ("file: two entries change places", entries_swapped),
    ("file: an entry repeated", entry_repeated),
    ("file: a first number repeated", first_number_repeated),
    ("file: an inner list out of order", inner_list_swapped),
    ("file: an inner list repeats", inner_list_repeats),
    ("file: a user not listed", user_not_listed),
    ("file: a role not listed", role_not_listed),
    ("file: a circle", circle),
    ("file: a line from a role to itself", self_line),
    ("file: a cardinality out of shape", cardinality_out_of_shape),
    ("file: an active role not authorised", active_not_authorised),
    ("file: a static rule broken", static_broken),
    ("file: a dynamic rule broken", dynamic_broken),
    ("file: a dynamic rule broken by inherited roles", dynamic_broken_by_inherited),
    ("file: several faults at once", several),
];

/// Faults that are answered 6 to 11, and so can stand beside each other.
const FAULTS: &[Damage] = &[
    circle,
    self_line,
    cardinality_out_of_shape,
    active_not_authorised,
    static_broken,
    dynamic_broken,
    dynamic_broken_by_inherited,
];

/// Changes the bytes of a file.
type Spoiling = fn(&mut Random, &Sections) -> Option<Vec<u8>>;

const SPOILINGS: &[(&str, Spoiling)] = &[
    ("file: cut short", cut_short),
    ("file: bytes left over", bytes_left_over),
    ("file: a count changed", count_changed),
    ("file: an inner count changed", inner_count_changed),
    ("file: any number replaced", number_replaced),
    ("file: any byte replaced", byte_replaced),
    ("file: random bytes", random_bytes),
];

impl FileMaker {
    pub fn new(seed: u64) -> Self {
        FileMaker { random: Random::new(seed), kept: Vec::new(), made: 0 }
    }

    pub fn keep(&mut self, state: &State) {
        if self.kept.contains(state) {
            return;
        }
        if self.kept.len() < STATES_KEPT {
            self.kept.push(state.clone());
        } else {
            let place = self.random.below(STATES_KEPT);
            self.kept[place] = state.clone();
        }
    }

    /// Files as saved, and files of each kind of damage, in turn.
    pub fn file(&mut self) -> File {
        const AS_SAVED: usize = 6;
        let turn = self.made % (AS_SAVED + DAMAGES.len() + SPOILINGS.len());
        self.made += 1;
        if turn < AS_SAVED / 2 && !self.kept.is_empty() {
            let state = self.random.pick(&self.kept).expect("states are kept");
            return File { bytes: save(&state), event: "file: as saved by a script's state" };
        }
        if turn < AS_SAVED {
            return File { bytes: save(&random_state(&mut self.random)), event: "file: as saved by another state" };
        }
        loop {
            let mut sections = self.sections();
            let turn = turn - AS_SAVED;
            if turn < DAMAGES.len() {
                let (event, damage) = DAMAGES[turn];
                if damage(&mut self.random, &mut sections).is_some() {
                    return File { bytes: write(&sections), event };
                }
            } else {
                let (event, spoil) = SPOILINGS[turn - DAMAGES.len()];
                if let Some(bytes) = spoil(&mut self.random, &sections) {
                    return File { bytes, event };
                }
            }
        }
    }

    fn sections(&mut self) -> Sections {
        match self.random.pick(&self.kept) {
            Some(state) if self.random.one_in(3) => sections_of(&state),
            _ => sections_of(&random_state(&mut self.random)),
        }
    }
}

/// Files that are always compared: the smallest and the largest, and one small file damaged at every place.
pub fn fixed_files() -> Vec<File> {
    let file = |bytes: Vec<u8>, event| File { bytes, event };
    let mut files = vec![
        file(save(&State::default()), "file: as saved by another state"),
        file(save(&fullest()), "file: 35,920 bytes, the longest that the rules leave room for"),
    ];
    let small = save(&small_state());
    files.push(file(small.clone(), "file: as saved by another state"));
    files.extend((0..small.len()).map(|end| file(small[..end].to_vec(), "file: cut short at every place of a small file")));
    for place in (0..small.len()).step_by(2) {
        let with_high_byte = u16::from(small[place]) + 256;
        for value in [0, 1, 2, 3, 15, 16, 63, 64, 65, 255, 256, 257, 512, 513, 2048, 2049, 32768, 65535, with_high_byte] {
            let mut bytes = small.clone();
            put(&mut bytes, place, value);
            files.push(file(bytes, "file: every number of a small file replaced"));
        }
    }
    let mut random = Random::new(0);
    for section in [LINES, ASSIGNMENTS, GRANTS] {
        files.push(file(write(&with_one_more(&mut random, section)), "file: one entry more than a table holds"));
    }
    files.extend(hierarchies().iter().map(|state| file(save(state), "file: a small hierarchy under a DSD set")));
    for (length, event) in [
        (65_535, "file: bytes left over"),
        (65_536, "file: 65,536 bytes"),
        (65_537, "file: over 65,536 bytes"),
        (200_000, "file: over 65,536 bytes"),
    ] {
        for mut bytes in [small.clone(), save(&fullest())] {
            bytes.resize(length, 0);
            files.push(file(bytes, event));
        }
    }
    files
}

fn user(number: u16) -> User {
    User::new(number).expect("a user's number")
}

fn role(number: u16) -> Role {
    Role::new(number).expect("a role's number")
}

fn roles(numbers: impl IntoIterator<Item = u16>) -> BTreeSet<Role> {
    numbers.into_iter().map(role).collect()
}

fn set_name(number: u16) -> SetName {
    SetName::new(number).expect("a set's number")
}

fn grant(to: u16, permission: u16) -> (Role, Operation, Object) {
    (role(to), Operation::new(permission / 256).expect("an operation"), Object::new(permission % 256).expect("an object"))
}

fn session_number(number: u16) -> SessionNumber {
    SessionNumber::new(number).expect("a session's number")
}

/// A state with something in every section.
pub fn small_state() -> State {
    State {
        users: BTreeSet::from([user(7), user(9)]),
        roles: roles([0, 1, 2]),
        lines: BTreeSet::from([(role(2), role(0))]),
        assignments: BTreeSet::from([(user(7), role(2)), (user(9), role(0))]),
        grants: BTreeSet::from([grant(0, 4 * 256 + 30)]),
        ssd: BTreeMap::from([(set_name(0), RoleSet { cardinality: 2, roles: roles([0, 1]) })]),
        dsd: BTreeMap::from([(set_name(3), RoleSet { cardinality: 2, roles: roles([1, 2]) })]),
        sessions: BTreeMap::from([(session_number(0), Session { owner: user(7), active: roles([0, 2]) })]),
    }
}

/// States with lines from 2 over 1 to 0 and a DSD set. The first obeys every rule, though its sessions together have both roles of
/// the set. The second breaks the DSD rule by an inherited role, and the others a lower one too (10 and 9).
pub fn hierarchies() -> [State; 4] {
    let set = |members| RoleSet { cardinality: 2, roles: roles(members) };
    let session = |active: &[u16]| Session { owner: user(7), active: roles(active.iter().copied()) };
    let kept = State {
        users: BTreeSet::from([user(7), user(9)]),
        roles: roles(0..4),
        lines: BTreeSet::from([(role(2), role(1)), (role(1), role(0))]),
        assignments: BTreeSet::from([(user(7), role(2)), (user(7), role(3))]),
        dsd: BTreeMap::from([(set_name(15), set([0, 3]))]),
        sessions: BTreeMap::from([(session_number(0), session(&[1, 2])), (session_number(63), session(&[3]))]),
        ..State::default()
    };
    let broken = State {
        dsd: BTreeMap::from([(set_name(15), set([0, 2]))]),
        sessions: BTreeMap::from([(session_number(63), session(&[2]))]),
        ..kept.clone()
    };
    let static_too = State { ssd: BTreeMap::from([(set_name(0), set([0, 2]))]), ..broken.clone() };
    let not_authorised_too = State { assignments: BTreeSet::from([(user(9), role(2))]), ..broken.clone() };
    [kept, broken, static_too, not_authorised_too]
}

/// A state that fills every table. Its sets have all roles and a cardinality of 64, so that a session has at most 63 effective: no line leads to the role that it lacks.
pub fn fullest() -> State {
    let set = RoleSet { cardinality: 64, roles: roles(0..=Role::HIGHEST) };
    let sets: BTreeMap<SetName, RoleSet> = (0..=SetName::HIGHEST).map(|name| (set_name(name), set.clone())).collect();
    let pairs = (1..Role::HIGHEST).flat_map(|gap| (gap..Role::HIGHEST).map(move |junior| (role(junior - gap), role(junior))));
    let session = |number| (session_number(number), Session { owner: user(number * 4), active: roles(0..Role::HIGHEST) });
    State {
        users: (0..=User::HIGHEST).map(user).collect(),
        roles: roles(0..=Role::HIGHEST),
        lines: pairs.take(512).collect(),
        assignments: (0..2048).map(|number| (user(number / 8), role(number % 8))).collect(),
        grants: (0..2048).map(|number| grant(number % 64, 2 * number + number % 2)).collect(),
        ssd: sets.clone(),
        dsd: sets,
        sessions: (0..=SessionNumber::HIGHEST).map(session).collect(),
    }
}

/// The fullest state's file with one more entry in the section, so that its count alone is at fault.
fn with_one_more(random: &mut Random, section: usize) -> Sections {
    let mut sections = sections_of(&fullest());
    let before = sections[section].len();
    while sections[section].len() == before {
        let entry = match section {
            LINES => {
                let senior = random.number(0, 40);
                vec![senior, random.number(senior + 1, 62)]
            }
            ASSIGNMENTS => vec![random.number(0, 255), random.number(0, 62)],
            _ => vec![random.number(0, 63), random.number(0, 15), random.number(0, 255)],
        };
        insert(&mut sections[section], entry);
    }
    sections
}

/// Puts an entry at its place, if it is not there.
fn insert(entries: &mut Vec<Vec<u16>>, entry: Vec<u16>) {
    if let Err(place) = entries.binary_search(&entry) {
        entries.insert(place, entry);
    }
}

/// A state that obeys every rule, from a few entries to nearly full tables.
fn random_state(random: &mut Random) -> State {
    let size = random.pick(&[3, 6, 6, 12, 12, 24, 64]).unwrap_or(3);
    let mut state = State::default();
    for _ in 0..random.from(1, 4 * size) {
        state.users.insert(user(random.number(0, User::HIGHEST)));
    }
    for _ in 0..random.from(2, 2 * size) {
        state.roles.insert(role(random.number(0, Role::HIGHEST)));
    }
    let users: Vec<User> = state.users.iter().copied().collect();
    let mut order: Vec<Role> = state.roles.iter().copied().collect();
    random.shuffle(&mut order);
    // Lines lead from left to right in an order drawn at random, so that there is no circle.
    for _ in 0..random.below(8 * size) {
        let (one, other) = (random.below(order.len()), random.below(order.len()));
        if one != other {
            state.lines.insert((order[one.min(other)], order[one.max(other)]));
        }
    }
    let dense = random.pick(&[2, 5, 30]).unwrap_or(2);
    for _ in 0..random.below((dense * size).min(2048)) {
        state.assignments.insert((users[random.below(users.len())], order[random.below(order.len())]));
    }
    for _ in 0..random.below((dense * size).min(2048)) {
        let to = order[random.below(order.len())];
        state.grants.insert(grant(to.number(), random.number(0, 4095)));
    }
    for _ in 0..random.below(size) {
        let owner = users[random.below(users.len())];
        let authorised = numbers(&state.authorised_roles(owner));
        let count = if random.one_in(4) { authorised.len() } else { random.below(4) };
        let active = roles(random.some(&authorised, count));
        let number = session_number(random.number(0, SessionNumber::HIGHEST));
        state.sessions.insert(number, Session { owner, active });
    }
    for kind in [Kind::Ssd, Kind::Dsd] {
        for _ in 0..random.below(size.min(20)) {
            add_random_set(random, &mut state, kind);
        }
    }
    state
}

/// Adds a set that no user or session breaks, if the roles drawn allow one; often it could not be lower.
fn add_random_set(random: &mut Random, state: &mut State, kind: Kind) {
    let all = numbers(&state.roles);
    let count = random.from(2, all.len().max(2));
    let members = roles(random.some(&all, count));
    let mut set = RoleSet { cardinality: 2, roles: members };
    let lowest = most_held(state, kind, &set).max(1) + 1;
    if lowest <= set.roles.len() {
        let highest = if random.one_in(2) { lowest } else { set.roles.len() };
        set.cardinality = random.from(lowest, highest) as u16;
        let name = set_name(random.number(0, SetName::HIGHEST));
        match kind {
            Kind::Ssd => state.ssd.insert(name, set),
            Kind::Dsd => state.dsd.insert(name, set),
        };
    }
}

/// The most roles of the set that count together, of one user or in one session.
fn most_held(state: &State, kind: Kind, set: &RoleSet) -> usize {
    state.counted(kind).iter().map(|roles| set.held(roles)).max().unwrap_or(0)
}

// Damage to the entries.

fn any_section(random: &mut Random, sections: &Sections, least: usize) -> Option<usize> {
    let fitting: Vec<usize> = (0..8).filter(|&section| sections[section].len() >= least).collect();
    random.pick(&fitting)
}

fn any_entry<'a>(random: &mut Random, entries: &'a mut [Vec<u16>]) -> Option<&'a mut Vec<u16>> {
    let count = entries.len();
    (count > 0).then(|| &mut entries[random.below(count)])
}

/// An entry of a section with an inner list that has at least so many roles in it.
fn any_entry_with_list<'a>(random: &mut Random, sections: &'a mut Sections, least: usize) -> Option<&'a mut Vec<u16>> {
    let section = random.pick(&[SSD, DSD, SESSIONS])?;
    any_entry(random, &mut sections[section]).filter(|entry| entry.len() >= 2 + least)
}

fn number_beyond(random: &mut Random, sections: &mut Sections) -> Option<()> {
    let section = any_section(random, sections, 1)?;
    let entry = any_entry(random, &mut sections[section])?;
    // Some place other than a cardinality, whose limit is no matter of form; the last of a list stays in order.
    let place = random.below(entry.len());
    let highest = match (section, place) {
        (SSD | DSD, 1) => return None,
        (SSD | DSD, 0) => SetName::HIGHEST,
        (USERS | ASSIGNMENTS, 0) | (SESSIONS, 1) => User::HIGHEST,
        (SESSIONS, 0) => SessionNumber::HIGHEST,
        (GRANTS, 1) => Operation::HIGHEST,
        (GRANTS, 2) => Object::HIGHEST,
        _ => Role::HIGHEST,
    };
    let place = if place > 1 && section != GRANTS { entry.len() - 1 } else { place };
    // One choice keeps the low byte.
    let choices = [highest + 1, highest + 1, random.number(highest + 1, 65_535), entry[place] + 256];
    entry[place] = random.pick(&choices)?;
    if random.one_in(2) {
        sections[section].sort();
    }
    Some(())
}

fn entries_swapped(random: &mut Random, sections: &mut Sections) -> Option<()> {
    let section = any_section(random, sections, 2)?;
    let place = random.below(sections[section].len() - 1);
    sections[section].swap(place, place + 1);
    Some(())
}

fn entry_repeated(random: &mut Random, sections: &mut Sections) -> Option<()> {
    let section = any_section(random, sections, 1)?;
    let place = random.below(sections[section].len());
    let entry = sections[section][place].clone();
    sections[section].insert(place, entry);
    Some(())
}

/// A second set or session of the same number.
fn first_number_repeated(random: &mut Random, sections: &mut Sections) -> Option<()> {
    let section = random.pick(&[SSD, DSD, SESSIONS])?;
    let entries = &mut sections[section];
    let place = (entries.len() > 1).then(|| random.below(entries.len() - 1))?;
    entries[place + 1][0] = entries[place][0];
    Some(())
}

fn inner_list_swapped(random: &mut Random, sections: &mut Sections) -> Option<()> {
    let entry = any_entry_with_list(random, sections, 2)?;
    let place = random.from(2, entry.len() - 2);
    entry.swap(place, place + 1);
    Some(())
}

fn inner_list_repeats(random: &mut Random, sections: &mut Sections) -> Option<()> {
    let entry = any_entry_with_list(random, sections, 1)?;
    let place = random.from(2, entry.len() - 1);
    entry.insert(place, entry[place]);
    Some(())
}

fn user_not_listed(random: &mut Random, sections: &mut Sections) -> Option<()> {
    let named = sections[ASSIGNMENTS].iter().map(|entry| entry[0]).chain(sections[SESSIONS].iter().map(|entry| entry[1]));
    let named: Vec<u16> = named.collect();
    let gone = random.pick(&named)?;
    sections[USERS].retain(|entry| entry[0] != gone);
    Some(())
}

fn role_not_listed(random: &mut Random, sections: &mut Sections) -> Option<()> {
    let section = random.pick(&[LINES, ASSIGNMENTS, GRANTS, SSD, DSD, SESSIONS])?;
    let entry = any_entry(random, &mut sections[section])?;
    let gone = match section {
        LINES => entry[random.below(2)],
        ASSIGNMENTS => entry[1],
        GRANTS => entry[0],
        _ => random.pick(&entry[2..])?,
    };
    // One section alone names the role, so that a reader that forgets to look there is caught.
    sections[ROLES].retain(|entry| entry[0] != gone);
    for other in [LINES, ASSIGNMENTS, GRANTS, SSD, DSD, SESSIONS].into_iter().filter(|&other| other != section) {
        forget_role(other, &mut sections[other], gone);
    }
    Some(())
}

fn forget_role(section: usize, entries: &mut Vec<Vec<u16>>, gone: u16) {
    match section {
        LINES => entries.retain(|entry| !entry.contains(&gone)),
        ASSIGNMENTS => entries.retain(|entry| entry[1] != gone),
        GRANTS => entries.retain(|entry| entry[0] != gone),
        _ => entries.iter_mut().for_each(|entry| {
            let kept: Vec<u16> = entry[2..].iter().copied().filter(|&role| role != gone).collect();
            entry.truncate(2);
            entry.extend(kept);
        }),
    }
}

/// A line back from a junior, near or far, to its senior.
fn circle(random: &mut Random, sections: &mut Sections) -> Option<()> {
    let start = random.pick(&sections[LINES])?;
    let (top, mut bottom) = (start[0], start[1]);
    for _ in 0..random.below(64) {
        let below: Vec<u16> = sections[LINES].iter().filter(|line| line[0] == bottom).map(|line| line[1]).collect();
        match random.pick(&below) {
            Some(junior) => bottom = junior,
            None => break,
        }
    }
    insert(&mut sections[LINES], vec![bottom, top]);
    Some(())
}

fn self_line(random: &mut Random, sections: &mut Sections) -> Option<()> {
    let role = random.pick(&sections[ROLES])?[0];
    insert(&mut sections[LINES], vec![role, role]);
    Some(())
}

fn cardinality_out_of_shape(random: &mut Random, sections: &mut Sections) -> Option<()> {
    let section = random.pick(&[SSD, DSD])?;
    let entry = any_entry(random, &mut sections[section])?;
    let size = entry.len() as u16 - 2;
    match random.below(6) {
        5 => entry.truncate(random.from(2, 3)),
        choice => entry[1] = [0, 1, size + 1, 256 + size, 65_535][choice],
    }
    Some(())
}

fn active_not_authorised(random: &mut Random, sections: &mut Sections) -> Option<()> {
    if random.one_in(2) {
        let gone = random.pick(&sections[SESSIONS]).filter(|entry| entry.len() > 2)?[1];
        sections[ASSIGNMENTS].retain(|entry| entry[0] != gone);
    } else {
        let role = random.pick(&sections[ROLES])?[0];
        let entry = any_entry(random, &mut sections[SESSIONS])?;
        if let Err(place) = entry[2..].binary_search(&role) {
            entry.insert(2 + place, role);
        }
    }
    Some(())
}

fn static_broken(random: &mut Random, sections: &mut Sections) -> Option<()> {
    add_broken_set(random, sections, SSD)
}

fn dynamic_broken(random: &mut Random, sections: &mut Sections) -> Option<()> {
    add_broken_set(random, sections, DSD)
}

/// A set of roles that one user is assigned to or one session has active, with a cardinality of no more than these.
fn add_broken_set(random: &mut Random, sections: &mut Sections, section: usize) -> Option<()> {
    let held: Vec<u16> = if section == SSD {
        let user = random.pick(&sections[ASSIGNMENTS])?[0];
        sections[ASSIGNMENTS].iter().filter(|entry| entry[0] == user).map(|entry| entry[1]).collect()
    } else {
        random.pick(&sections[SESSIONS])?[2..].to_vec()
    };
    if held.len() < 2 {
        return None;
    }
    let count = random.from(2, held.len());
    let members = random.some(&held, count);
    let cardinality = random.from(2, members.len());
    put_set(random, &mut sections[section], cardinality, &members);
    Some(())
}

/// A set of effective roles of one session, some of them inherited, that no session breaks by its active roles alone.
fn dynamic_broken_by_inherited(random: &mut Random, sections: &mut Sections) -> Option<()> {
    let state = state_of(sections)?;
    let session = random.any(state.sessions.values())?;
    let effective = numbers(&state.effective_roles(session));
    let count = random.from(2, effective.len().max(2));
    let members = random.some(&effective, count);
    let set = RoleSet { cardinality: 0, roles: roles(members.iter().copied()) };
    let lowest = state.sessions.values().map(|session| set.held(&session.active)).max()?.max(1) + 1;
    let cardinality = (lowest <= members.len()).then(|| random.from(lowest, members.len()))?;
    put_set(random, &mut sections[DSD], cardinality, &members);
    Some(())
}

/// Puts a set among the others, at a name drawn at random.
fn put_set(random: &mut Random, sets: &mut Vec<Vec<u16>>, cardinality: usize, members: &[u16]) {
    let name = random.number(0, SetName::HIGHEST);
    sets.retain(|entry| entry[0] != name);
    insert(sets, [&[name, cardinality as u16], members].concat());
}

fn several(random: &mut Random, sections: &mut Sections) -> Option<()> {
    let faults = random.from(2, 4);
    let done = (0..faults).filter(|_| FAULTS[random.below(FAULTS.len())](random, sections).is_some()).count();
    (done >= 2).then_some(())
}

// Damage to the bytes.

fn cut_short(random: &mut Random, sections: &Sections) -> Option<Vec<u8>> {
    let mut bytes = write(sections);
    let most = if random.one_in(2) { bytes.len() } else { bytes.len().min(8) };
    bytes.truncate(bytes.len() - random.from(1, most));
    Some(bytes)
}

fn bytes_left_over(random: &mut Random, sections: &Sections) -> Option<Vec<u8>> {
    let mut bytes = write(sections);
    for _ in 0..random.pick(&[1, 2, 3, 16, 500])? {
        bytes.push(if random.one_in(2) { 0 } else { random.byte() });
    }
    Some(bytes)
}

fn put(bytes: &mut [u8], place: usize, number: u16) {
    bytes[place..place + 2].copy_from_slice(&number.to_le_bytes());
}

fn count_changed(random: &mut Random, sections: &Sections) -> Option<Vec<u8>> {
    let section = random.below(8);
    let place: usize = (0..section).map(|before| write_section(before, &sections[before]).len()).sum();
    let count = sections[section].len() as u16;
    let mut bytes = write(sections);
    put(&mut bytes, place, random.pick(&[count + 1, count.wrapping_sub(1), count + 256, 65_535, 2_049, 513, 257, 65, 17])?);
    Some(bytes)
}

fn inner_count_changed(random: &mut Random, sections: &Sections) -> Option<Vec<u8>> {
    let section = random.pick(&[SSD, DSD, SESSIONS])?;
    let entries = &sections[section];
    let entry = (!entries.is_empty()).then(|| random.below(entries.len()))?;
    let before: usize = (0..section).map(|before| write_section(before, &sections[before]).len()).sum();
    let place = before + write_section(section, &entries[..entry]).len() + 4;
    let count = entries[entry].len() as u16 - 2;
    let mut bytes = write(sections);
    put(&mut bytes, place, random.pick(&[count + 1, count.wrapping_sub(1), count + 256, 65_535, 65])?);
    Some(bytes)
}

fn number_replaced(random: &mut Random, sections: &Sections) -> Option<Vec<u8>> {
    let mut bytes = write(sections);
    let place = 2 * random.below(bytes.len() / 2);
    let number = if random.one_in(2) { random.number(0, 70) } else { random.number(0, 65_535) };
    put(&mut bytes, place, number);
    Some(bytes)
}

fn byte_replaced(random: &mut Random, sections: &Sections) -> Option<Vec<u8>> {
    let mut bytes = write(sections);
    let place = random.below(bytes.len());
    bytes[place] ^= 1 << random.below(8);
    Some(bytes)
}

fn random_bytes(random: &mut Random, _: &Sections) -> Option<Vec<u8>> {
    let length = random.below(200);
    Some((0..length).map(|_| if random.one_in(2) { 0 } else { random.byte() % 8 }).collect())
}
