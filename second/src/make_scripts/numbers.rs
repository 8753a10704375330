//! Numbers to stand after a word. They are drawn by what its places take, until they have the answer that is wanted.

use super::{Draft, TRIES};
use crate::engine::{numbers, Kind, Object, Operation, Role, RoleSet, Session, SessionNumber, SetName, User};
use crate::script::obey;
use crate::words::{Takes, Word};
use std::collections::BTreeSet;

/// What the numbers drawn so far name. The others mostly have to do with it.
#[derive(Default)]
struct Named {
    session: Option<Session>,
    user: Option<User>,
    set: Option<RoleSet>,
    role: Option<Role>,
    /// How many roles the set or the list has.
    size: u16,
    permission: Option<(u16, u16)>,
}

impl Draft<'_> {
    /// Numbers that have the answer, where some tries find them; else the last ones tried. For 1 and 2 they have a fault, and now
    /// and then there is one fault more than wanted.
    pub fn numbers_for(&mut self, word: &Word, wanted: u8) -> Vec<u16> {
        let mut numbers = Vec::new();
        for _ in 0..TRIES {
            numbers = self.drawn(word.takes);
            if wanted == 1 || wanted == 2 {
                self.fault(word, &mut numbers, wanted == 1);
            }
            if wanted != 0 && self.random().one_in(8) {
                let beyond = self.random().one_in(2);
                self.fault(word, &mut numbers, beyond);
            }
            if obey(&self.state, word, &numbers).answer == wanted {
                break;
            }
        }
        numbers
    }

    /// Puts a number beyond its range, or one of a thing that does not exist, at a place drawn at random. (A cardinality has no
    /// range: there it is one that suits few sets.)
    pub fn fault(&mut self, word: &Word, numbers: &mut Vec<u16>, beyond: bool) {
        if word.takes.is_empty() {
            return;
        }
        let place = self.random().below(word.takes.len());
        let take = word.takes[place];
        let number = match take.highest() {
            None => self.odd_cardinality(3),
            Some(highest) if beyond => self.beyond(highest),
            Some(_) => self.missing(take),
        };
        if take == Takes::Roles {
            let mut list = numbers.split_off(place);
            if !list.is_empty() && self.random().one_in(2) {
                let at = self.random().below(list.len());
                list.remove(at);
            }
            numbers.extend(with(list, number));
        } else {
            numbers[place] = number;
        }
    }

    fn beyond(&mut self, highest: u16) -> u16 {
        match self.random().below(4) {
            0 => 65_535,
            1 => self.random().number(highest + 1, 65_535),
            _ => highest + 1,
        }
    }

    /// A number in its range whose thing does not exist, mostly one of those that the script uses.
    fn missing(&mut self, take: Takes) -> u16 {
        let taken = take.existing(&self.state).unwrap_or_default();
        let all = take.highest().map_or(0, |highest| highest + 1);
        let usual = match take {
            Takes::User => self.users,
            Takes::Role | Takes::Roles => self.roles,
            _ => all,
        };
        let free = |end: u16| (0..end).filter(|number| !taken.contains(number)).collect::<Vec<u16>>();
        let near = if self.random().one_in(20) { Vec::new() } else { free(usual) };
        self.random().pick(&near).or_else(|| self.random().pick(&free(all))).unwrap_or(0)
    }

    /// A thing that exists, or now and then one that does not.
    fn mostly_existing(&mut self, take: Takes, one_missing_in: usize) -> u16 {
        let existing = take.existing(&self.state).unwrap_or_default();
        match self.random().pick(&existing) {
            Some(number) if !self.random().one_in(one_missing_in) => number,
            _ => self.missing(take),
        }
    }

    /// Numbers within their ranges. Each kind is drawn after the kinds that say most about it, the places of one kind in any order.
    fn drawn(&mut self, takes: &[Takes]) -> Vec<u16> {
        let mut places: Vec<usize> = (0..takes.len()).collect();
        self.random().shuffle(&mut places);
        places.sort_by_key(|&place| takes[place]);
        let mut named = Named::default();
        let mut numbers = vec![Vec::new(); takes.len()];
        // What is to be added mostly comes first.
        let mut one_missing_in = 4;
        for place in places {
            numbers[place] = self.draw(takes[place], &mut named, one_missing_in);
            one_missing_in = 12;
        }
        numbers.concat()
    }

    fn draw(&mut self, take: Takes, named: &mut Named, one_missing_in: usize) -> Vec<u16> {
        let number = match take {
            Takes::Session => {
                let number = self.mostly_existing(take, one_missing_in);
                named.session = SessionNumber::new(number).ok().and_then(|number| self.state.sessions.get(&number).cloned());
                number
            }
            Takes::User => {
                let owner = named.session.as_ref().map(|session| session.owner.number());
                let number =
                    owner.filter(|_| !self.random().one_in(4)).unwrap_or_else(|| self.mostly_existing(take, one_missing_in));
                named.user = User::new(number).ok();
                number
            }
            Takes::Ssd | Takes::Dsd => {
                let kind = if take == Takes::Ssd { Kind::Ssd } else { Kind::Dsd };
                let number = self.mostly_existing(take, 2);
                named.set = SetName::new(number).ok().and_then(|name| self.state.sets(kind).get(&name).cloned());
                named.size = named.set.as_ref().map_or(0, |set| set.roles.len() as u16);
                number
            }
            Takes::Role => {
                let related = self.related_roles(named);
                let number = self.random().pick(&related).filter(|_| !self.random().one_in(one_missing_in));
                let number = number.unwrap_or_else(|| self.missing(take));
                named.role = Role::new(number).ok();
                number
            }
            Takes::Roles => {
                let list = self.list(named);
                named.size = list.len() as u16;
                return list;
            }
            Takes::Operation => self.permission(named).0,
            Takes::Object => self.permission(named).1,
            Takes::Cardinality => match self.random().below(5) {
                0 => self.odd_cardinality(named.size),
                1 => 2,
                2 => named.size,
                _ => self.random().number(2, named.size.max(2)),
            },
        };
        vec![number]
    }

    fn odd_cardinality(&mut self, size: u16) -> u16 {
        self.random().pick(&[0, 1, size + 1, size + 2, 65_535]).unwrap_or(0)
    }

    /// Roles that have to do with what is named, in a way drawn at random; all roles where that gives none.
    fn related_roles(&mut self, named: &Named) -> Vec<u16> {
        let (random, state) = (&mut self.maker.random, &self.state);
        let related = match (named, random.below(8)) {
            (_, 7) => None,
            (Named { session: Some(session), .. }, 0..=2) => Some(session.active.clone()),
            (Named { session: Some(session), .. }, 3..=5) => Some(&state.authorised_roles(session.owner) - &session.active),
            (Named { user: Some(user), .. }, 0..=2) => Some(state.roles_assigned_to(*user)),
            (Named { user: Some(user), .. }, 3..=5) => Some(state.authorised_roles(*user)),
            (Named { user: Some(_), .. }, _) => None,
            (Named { set: Some(set), .. }, 0..=3) => Some(set.roles.clone()),
            (Named { set: Some(set), .. }, _) => Some(&state.roles - &set.roles),
            (Named { role: Some(role), .. }, 0..=1) => Some(state.direct_juniors(*role)),
            (Named { role: Some(role), .. }, 2..=4) => Some(state.inherited_by(*role)),
            (Named { role: Some(role), .. }, 5) => Some(BTreeSet::from([*role])),
            (Named { role: Some(_), .. }, _) => None,
            // Nothing is named: roles that something is recorded about.
            (_, 0) => random.any(state.ssd.values()).map(|set| set.roles.clone()),
            (_, 1) => random.any(state.dsd.values()).map(|set| set.roles.clone()),
            (_, 2) => random.any(state.users.iter()).map(|&user| state.authorised_roles(user)),
            (_, 3) => random.any(state.sessions.values()).map(|session| session.active.clone()),
            (_, 4) => random.any(state.lines.iter()).map(|&(senior, _)| BTreeSet::from([senior])),
            (_, 5) => random.any(state.grants.iter()).map(|&(role, _, _)| BTreeSet::from([role])),
            _ => None,
        };
        numbers(related.filter(|roles| !roles.is_empty()).as_ref().unwrap_or(&state.roles))
    }

    fn list(&mut self, named: &Named) -> Vec<u16> {
        let related = self.related_roles(named);
        let count = match self.random().below(8) {
            0 => related.len(),
            1 => self.random().below(2),
            _ => self.random().from(1, 5),
        };
        let list = self.random().some(&related, count);
        if self.random().one_in(8) {
            let other = self.mostly_existing(Takes::Role, 4);
            return with(list, other);
        }
        list
    }

    /// An operation and an object, half the time granted to a role that has to do with what is named.
    fn permission(&mut self, named: &mut Named) -> (u16, u16) {
        if let Some(permission) = named.permission {
            return permission;
        }
        let state = &self.state;
        let holders = match named {
            Named { session: Some(session), .. } => state.effective_roles(session),
            Named { user: Some(user), .. } => state.authorised_roles(*user),
            Named { role: Some(role), .. } => BTreeSet::from([*role]),
            _ => state.roles.clone(),
        };
        let held = state.grants.iter().filter(|(role, _, _)| holders.contains(role));
        let held: Vec<(u16, u16)> = held.map(|(_, operation, object)| (operation.number(), object.number())).collect();
        let drawn = self.random().pick(&held).filter(|_| self.random().one_in(2));
        *named.permission.insert(drawn.unwrap_or_else(|| (self.operation(), self.object())))
    }

    fn operation(&mut self) -> u16 {
        if self.random().one_in(4) {
            self.random().number(0, Operation::HIGHEST)
        } else {
            self.random().number(0, 3)
        }
    }

    fn object(&mut self) -> u16 {
        if self.random().one_in(4) {
            self.random().number(0, Object::HIGHEST)
        } else {
            self.random().pick(&[0, 1, 30, 254, 255]).unwrap_or(0)
        }
    }
}

/// The list with one more role, at its place.
fn with(mut list: Vec<u16>, role: u16) -> Vec<u16> {
    list.push(role);
    list.sort_unstable();
    list.dedup();
    list
}
