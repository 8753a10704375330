//! The paper's engine, written plainly: sets, maps and graph search.
//!
//! A command takes a state and hands back the state after it, so that a refusal cannot change anything. Each command tests its
//! refusals in rising order, so that the lowest that applies is the one given.
//!
//! Answer 15 is left out: results are vectors, and no buffer is lent.

use std::collections::{BTreeMap, BTreeSet};

pub const MOST_ASSIGNMENTS: usize = 2048;
pub const MOST_GRANTS: usize = 2048;
pub const MOST_LINES: usize = 512;

#[derive(Clone, Copy, PartialEq, Eq, Debug)]
pub enum Refusal {
    BeyondRange = 1,
    Missing = 2,
    OtherOwner = 3,
    ThereAlready = 4,
    NotThere = 5,
    Circle = 6,
    Cardinality = 7,
    InSet = 8,
    NotAuthorised = 9,
    StaticBroken = 10,
    DynamicBroken = 11,
    Full = 12,
    Form = 14,
    SessionsOpen = 16,
}
use Refusal::*;

/// A kind of number with its range; each kind is a type of its own.
macro_rules! number {
    ($name:ident, $highest:expr) => {
        #[derive(Clone, Copy, PartialEq, Eq, PartialOrd, Ord, Debug)]
        pub struct $name(u16);

        impl $name {
            pub const HIGHEST: u16 = $highest;

            pub fn new(number: u16) -> Result<Self, Refusal> {
                refuse_if(number > Self::HIGHEST, BeyondRange)?;
                Ok(Self(number))
            }

            pub fn number(self) -> u16 {
                self.0
            }
        }
    };
}

number!(User, 255);
number!(Role, 63);
number!(SessionNumber, 63);
number!(SetName, 15);
number!(Operation, 15);
number!(Object, 255);

/// The two kinds of separation, which share all but the rule that a set lays down.
#[derive(Clone, Copy, PartialEq, Eq, Debug)]
pub enum Kind {
    Ssd,
    Dsd,
}

#[derive(Clone, PartialEq, Eq, Debug)]
pub struct RoleSet {
    pub cardinality: u16,
    pub roles: BTreeSet<Role>,
}

#[derive(Clone, PartialEq, Eq, Debug)]
pub struct Session {
    pub owner: User,
    pub active: BTreeSet<Role>,
}

/// The policy and the sessions.
#[derive(Clone, Default, PartialEq, Eq, Debug)]
pub struct State {
    pub users: BTreeSet<User>,
    pub roles: BTreeSet<Role>,
    /// (senior, junior)
    pub lines: BTreeSet<(Role, Role)>,
    pub assignments: BTreeSet<(User, Role)>,
    pub grants: BTreeSet<(Role, Operation, Object)>,
    pub ssd: BTreeMap<SetName, RoleSet>,
    pub dsd: BTreeMap<SetName, RoleSet>,
    pub sessions: BTreeMap<SessionNumber, Session>,
}

pub type Change = Result<State, Refusal>;
pub type Review = Result<Vec<u16>, Refusal>;

fn refuse_if(applies: bool, refusal: Refusal) -> Result<(), Refusal> {
    if applies {
        Err(refusal)
    } else {
        Ok(())
    }
}

/// Answer 14, which comes before all others.
fn need_rising(list: &[u16]) -> Result<(), Refusal> {
    refuse_if(list.windows(2).any(|pair| pair[0] >= pair[1]), Form)
}

fn role_set(list: &[u16]) -> Result<BTreeSet<Role>, Refusal> {
    list.iter().map(|&number| Role::new(number)).collect()
}

impl RoleSet {
    pub fn misshapen(&self) -> bool {
        self.cardinality < 2 || usize::from(self.cardinality) > self.roles.len()
    }

    /// How many of the set's roles are among these.
    pub fn held(&self, roles: &BTreeSet<Role>) -> usize {
        self.roles.intersection(roles).count()
    }

    pub fn broken_by(&self, roles: &BTreeSet<Role>) -> bool {
        self.held(roles) >= usize::from(self.cardinality)
    }

    /// Whether one more of the set's roles would break its rule.
    pub fn one_below(&self, roles: &BTreeSet<Role>) -> bool {
        self.held(roles) + 1 == usize::from(self.cardinality)
    }
}

// What the paper's words mean.
impl State {
    /// These roles and all that they inherit.
    pub fn with_inherited(&self, roles: &BTreeSet<Role>) -> BTreeSet<Role> {
        let mut found = roles.clone();
        let mut to_visit: Vec<Role> = roles.iter().copied().collect();
        while let Some(senior) = to_visit.pop() {
            for junior in self.direct_juniors(senior) {
                if found.insert(junior) {
                    to_visit.push(junior);
                }
            }
        }
        found
    }

    /// All roles that the role inherits; itself among them only where it stands on a circle.
    pub fn inherited_by(&self, role: Role) -> BTreeSet<Role> {
        self.with_inherited(&self.direct_juniors(role))
    }

    pub fn direct_juniors(&self, role: Role) -> BTreeSet<Role> {
        self.lines.range((role, Role(0))..=(role, Role(Role::HIGHEST))).map(|&(_, junior)| junior).collect()
    }

    pub fn roles_assigned_to(&self, user: User) -> BTreeSet<Role> {
        self.assignments.range((user, Role(0))..=(user, Role(Role::HIGHEST))).map(|&(_, role)| role).collect()
    }

    pub fn authorised_roles(&self, user: User) -> BTreeSet<Role> {
        self.with_inherited(&self.roles_assigned_to(user))
    }

    pub fn effective_roles(&self, session: &Session) -> BTreeSet<Role> {
        self.with_inherited(&session.active)
    }

    /// The permissions granted to any of these roles, as operation * 256 + object.
    fn permissions_of(&self, roles: &BTreeSet<Role>) -> BTreeSet<u16> {
        let granted = self.grants.iter().filter(|(role, _, _)| roles.contains(role));
        granted.map(|(_, operation, object)| operation.0 * 256 + object.0).collect()
    }

    /// The operations granted on the object to any of these roles.
    fn operations_of(&self, roles: &BTreeSet<Role>, object: Object) -> BTreeSet<u16> {
        let granted = self.grants.iter().filter(|(role, _, on)| roles.contains(role) && *on == object);
        granted.map(|(_, operation, _)| operation.0).collect()
    }

    pub fn sets(&self, kind: Kind) -> &BTreeMap<SetName, RoleSet> {
        match kind {
            Kind::Ssd => &self.ssd,
            Kind::Dsd => &self.dsd,
        }
    }

    fn sets_mut(&mut self, kind: Kind) -> &mut BTreeMap<SetName, RoleSet> {
        match kind {
            Kind::Ssd => &mut self.ssd,
            Kind::Dsd => &mut self.dsd,
        }
    }

    fn shed(&mut self) {
        let before = self.clone();
        for session in self.sessions.values_mut() {
            let authorised = before.authorised_roles(session.owner);
            session.active.retain(|role| authorised.contains(role));
        }
    }
}

// The rules that every policy of ours obeys.
impl State {
    pub fn circle_stands(&self) -> bool {
        self.roles.iter().any(|&role| self.inherited_by(role).contains(&role))
    }

    pub fn set_misshapen(&self) -> bool {
        self.ssd.values().chain(self.dsd.values()).any(RoleSet::misshapen)
    }

    pub fn active_role_not_authorised(&self) -> bool {
        self.sessions.values().any(|session| !session.active.is_subset(&self.authorised_roles(session.owner)))
    }

    /// The roles that a set counts: for each user those authorised (SSD), for each session the effective ones (DSD: "a session may
    /// have fewer than n effective roles of a dynamic set").
    pub fn counted(&self, kind: Kind) -> Vec<BTreeSet<Role>> {
        match kind {
            Kind::Ssd => self.users.iter().map(|&user| self.authorised_roles(user)).collect(),
            Kind::Dsd => self.sessions.values().map(|session| self.effective_roles(session)).collect(),
        }
    }

    /// Whether the rule of some set of the kind is broken: for some user (SSD) or in some session (DSD).
    pub fn rule_broken(&self, kind: Kind) -> bool {
        !self.sets(kind).is_empty() && self.counted(kind).iter().any(|roles| self.rule_broken_by(kind, roles))
    }

    /// Whether the rule of some set of the kind is broken where these roles are counted.
    pub fn rule_broken_by(&self, kind: Kind, roles: &BTreeSet<Role>) -> bool {
        self.sets(kind).values().any(|set| set.broken_by(roles))
    }

    fn refuse_if_rule_broken(&self, kind: Kind) -> Result<(), Refusal> {
        let refusal = match kind {
            Kind::Ssd => StaticBroken,
            Kind::Dsd => DynamicBroken,
        };
        refuse_if(self.rule_broken(kind), refusal)
    }
}

// Answer 2.
impl State {
    fn need_user(&self, user: User) -> Result<(), Refusal> {
        refuse_if(!self.users.contains(&user), Missing)
    }

    fn need_role(&self, role: Role) -> Result<(), Refusal> {
        refuse_if(!self.roles.contains(&role), Missing)
    }

    fn need_session(&self, session: SessionNumber) -> Result<&Session, Refusal> {
        self.sessions.get(&session).ok_or(Missing)
    }

    fn need_set(&self, kind: Kind, name: SetName) -> Result<&RoleSet, Refusal> {
        self.sets(kind).get(&name).ok_or(Missing)
    }
}

// What the numbers of a line name: each is in its range (1) before any needs to exist (2).
impl State {
    fn user(&self, number: u16) -> Result<User, Refusal> {
        let user = User::new(number)?;
        self.need_user(user).map(|()| user)
    }

    fn role(&self, number: u16) -> Result<Role, Refusal> {
        let role = Role::new(number)?;
        self.need_role(role).map(|()| role)
    }

    fn user_and_role(&self, user: u16, role: u16) -> Result<(User, Role), Refusal> {
        let (user, role) = (User::new(user)?, Role::new(role)?);
        self.need_user(user)?;
        self.need_role(role).map(|()| (user, role))
    }

    fn two_roles(&self, one: u16, other: u16) -> Result<(Role, Role), Refusal> {
        let (one, other) = (Role::new(one)?, Role::new(other)?);
        self.need_role(one)?;
        self.need_role(other).map(|()| (one, other))
    }

    fn grant_to(&self, role: u16, operation: u16, object: u16) -> Result<(Role, Operation, Object), Refusal> {
        let (role, operation, object) = (Role::new(role)?, Operation::new(operation)?, Object::new(object)?);
        self.need_role(role).map(|()| (role, operation, object))
    }

    fn session(&self, number: u16) -> Result<&Session, Refusal> {
        self.need_session(SessionNumber::new(number)?)
    }

    fn set(&self, kind: Kind, name: u16) -> Result<&RoleSet, Refusal> {
        self.need_set(kind, SetName::new(name)?)
    }

    /// The name, a copy of its set, and the role.
    fn set_and_role(&self, kind: Kind, name: u16, role: u16) -> Result<(SetName, RoleSet, Role), Refusal> {
        let (name, role) = (SetName::new(name)?, Role::new(role)?);
        let set = self.need_set(kind, name)?.clone();
        self.need_role(role).map(|()| (name, set, role))
    }
}

// Commands on users, roles, assignments, grants and lines.
impl State {
    pub fn add_user(&self, user: u16) -> Change {
        let user = User::new(user)?;
        refuse_if(self.users.contains(&user), ThereAlready)?;
        let mut after = self.clone();
        after.users.insert(user);
        Ok(after)
    }

    /// `nouser` "works only when none is open" of the user's sessions.
    pub fn delete_user(&self, user: u16) -> Change {
        let user = self.user(user)?;
        refuse_if(self.sessions.values().any(|session| session.owner == user), SessionsOpen)?;
        let mut after = self.clone();
        after.users.remove(&user);
        after.assignments.retain(|&(of, _)| of != user);
        Ok(after)
    }

    pub fn add_role(&self, role: u16) -> Change {
        let role = Role::new(role)?;
        refuse_if(self.roles.contains(&role), ThereAlready)?;
        let mut after = self.clone();
        after.roles.insert(role);
        Ok(after)
    }

    pub fn delete_role(&self, role: u16) -> Change {
        let role = self.role(role)?;
        refuse_if(self.ssd.values().chain(self.dsd.values()).any(|set| set.roles.contains(&role)), InSet)?;
        let mut after = self.clone();
        after.roles.remove(&role);
        after.assignments.retain(|&(_, of)| of != role);
        after.grants.retain(|&(of, _, _)| of != role);
        after.lines.retain(|&(senior, junior)| senior != role && junior != role);
        after.shed();
        Ok(after)
    }

    pub fn assign(&self, user: u16, role: u16) -> Change {
        let (user, role) = self.user_and_role(user, role)?;
        refuse_if(self.assignments.contains(&(user, role)), ThereAlready)?;
        let mut after = self.clone();
        after.assignments.insert((user, role));
        after.refuse_if_rule_broken(Kind::Ssd)?;
        refuse_if(self.assignments.len() >= MOST_ASSIGNMENTS, Full)?;
        Ok(after)
    }

    pub fn deassign(&self, user: u16, role: u16) -> Change {
        let (user, role) = self.user_and_role(user, role)?;
        let mut after = self.clone();
        refuse_if(!after.assignments.remove(&(user, role)), NotThere)?;
        after.shed();
        Ok(after)
    }

    pub fn grant(&self, operation: u16, object: u16, role: u16) -> Change {
        let grant = self.grant_to(role, operation, object)?;
        let mut after = self.clone();
        refuse_if(!after.grants.insert(grant), ThereAlready)?;
        refuse_if(self.grants.len() >= MOST_GRANTS, Full)?;
        Ok(after)
    }

    pub fn revoke(&self, operation: u16, object: u16, role: u16) -> Change {
        let grant = self.grant_to(role, operation, object)?;
        let mut after = self.clone();
        refuse_if(!after.grants.remove(&grant), NotThere)?;
        Ok(after)
    }

    pub fn inherit(&self, senior: u16, junior: u16) -> Change {
        let (senior, junior) = self.two_roles(senior, junior)?;
        refuse_if(self.lines.contains(&(senior, junior)), ThereAlready)?;
        refuse_if(senior == junior || self.inherited_by(junior).contains(&senior), Circle)?;
        let mut after = self.clone();
        after.lines.insert((senior, junior));
        after.refuse_if_rule_broken(Kind::Ssd)?;
        after.refuse_if_rule_broken(Kind::Dsd)?;
        refuse_if(self.lines.len() >= MOST_LINES, Full)?;
        Ok(after)
    }

    pub fn disinherit(&self, senior: u16, junior: u16) -> Change {
        let (senior, junior) = self.two_roles(senior, junior)?;
        let mut after = self.clone();
        refuse_if(!after.lines.remove(&(senior, junior)), NotThere)?;
        after.shed();
        Ok(after)
    }
}

// Commands on SSD and DSD sets.
impl State {
    pub fn add_set(&self, kind: Kind, name: u16, cardinality: u16, roles: &[u16]) -> Change {
        need_rising(roles)?;
        let (name, roles) = (SetName::new(name)?, role_set(roles)?);
        roles.iter().try_for_each(|&role| self.need_role(role))?;
        refuse_if(self.sets(kind).contains_key(&name), ThereAlready)?;
        let set = RoleSet { cardinality, roles };
        refuse_if(set.misshapen(), Cardinality)?;
        self.with_set(kind, name, set)
    }

    pub fn delete_set(&self, kind: Kind, name: u16) -> Change {
        let name = SetName::new(name)?;
        self.need_set(kind, name)?;
        let mut after = self.clone();
        after.sets_mut(kind).remove(&name);
        Ok(after)
    }

    pub fn add_to_set(&self, kind: Kind, name: u16, role: u16) -> Change {
        let (name, mut set, role) = self.set_and_role(kind, name, role)?;
        refuse_if(!set.roles.insert(role), ThereAlready)?;
        self.with_set(kind, name, set)
    }

    pub fn drop_from_set(&self, kind: Kind, name: u16, role: u16) -> Change {
        let (name, mut set, role) = self.set_and_role(kind, name, role)?;
        refuse_if(!set.roles.remove(&role), NotThere)?;
        refuse_if(set.misshapen(), Cardinality)?;
        self.with_set(kind, name, set)
    }

    pub fn set_cardinality(&self, kind: Kind, name: u16, cardinality: u16) -> Change {
        let name = SetName::new(name)?;
        let mut set = self.need_set(kind, name)?.clone();
        set.cardinality = cardinality;
        refuse_if(set.misshapen(), Cardinality)?;
        self.with_set(kind, name, set)
    }

    /// The set added or put in the place of the one of that name, where no rule would be broken.
    fn with_set(&self, kind: Kind, name: SetName, set: RoleSet) -> Change {
        let mut after = self.clone();
        after.sets_mut(kind).insert(name, set);
        after.refuse_if_rule_broken(kind)?;
        Ok(after)
    }
}

// Commands on sessions.
impl State {
    /// The state with the new session, and the session's number.
    pub fn open_session(&self, user: u16, roles: &[u16]) -> Result<(State, u16), Refusal> {
        need_rising(roles)?;
        let (owner, active) = (User::new(user)?, role_set(roles)?);
        self.need_user(owner)?;
        active.iter().try_for_each(|&role| self.need_role(role))?;
        refuse_if(!active.is_subset(&self.authorised_roles(owner)), NotAuthorised)?;
        let session = Session { owner, active };
        refuse_if(self.rule_broken_by(Kind::Dsd, &self.effective_roles(&session)), DynamicBroken)?;
        let mut numbers = (0..=SessionNumber::HIGHEST).map(SessionNumber);
        let free = numbers.find(|number| !self.sessions.contains_key(number)).ok_or(Full)?;
        let mut after = self.clone();
        after.sessions.insert(free, session);
        Ok((after, free.0))
    }

    pub fn activate(&self, user: u16, session: u16, role: u16) -> Change {
        let (user, number, role) = (User::new(user)?, SessionNumber::new(session)?, Role::new(role)?);
        let mut session = self.need_session_of(user, number, Some(role))?;
        refuse_if(!session.active.insert(role), ThereAlready)?;
        refuse_if(!self.authorised_roles(user).contains(&role), NotAuthorised)?;
        let mut after = self.clone();
        after.sessions.insert(number, session);
        after.refuse_if_rule_broken(Kind::Dsd)?;
        Ok(after)
    }

    pub fn drop_role(&self, user: u16, session: u16, role: u16) -> Change {
        let (user, number, role) = (User::new(user)?, SessionNumber::new(session)?, Role::new(role)?);
        let mut session = self.need_session_of(user, number, Some(role))?;
        refuse_if(!session.active.remove(&role), NotThere)?;
        let mut after = self.clone();
        after.sessions.insert(number, session);
        Ok(after)
    }

    pub fn end_session(&self, user: u16, session: u16) -> Change {
        let (user, number) = (User::new(user)?, SessionNumber::new(session)?);
        self.need_session_of(user, number, None)?;
        let mut after = self.clone();
        after.sessions.remove(&number);
        Ok(after)
    }

    /// "`end-all` with no session open is done and changes nothing."
    pub fn end_all_sessions(&self, user: u16) -> Change {
        let user = self.user(user)?;
        let mut after = self.clone();
        after.sessions.retain(|_, session| session.owner != user);
        Ok(after)
    }

    /// A copy of the user's session. Everything named must exist (2) before it matters whose the session is (3).
    fn need_session_of(&self, user: User, number: SessionNumber, role: Option<Role>) -> Result<Session, Refusal> {
        self.need_user(user)?;
        let session = self.need_session(number)?;
        role.map_or(Ok(()), |role| self.need_role(role))?;
        refuse_if(session.owner != user, OtherOwner)?;
        Ok(session.clone())
    }
}

// Questions.
impl State {
    /// Yes (1) or no (0), and the number of effective roles looked at: "taken in ascending order, up to and including the first
    /// that holds the grant, or all of them where none does".
    pub fn check(&self, session: u16, operation: u16, object: u16) -> Review {
        let number = SessionNumber::new(session)?;
        let (operation, object) = (Operation::new(operation)?, Object::new(object)?);
        let effective = self.effective_roles(self.need_session(number)?);
        let mut looked_at = 0;
        // The set gives its roles in ascending order.
        for role in effective {
            looked_at += 1;
            if self.grants.contains(&(role, operation, object)) {
                return Ok(vec![1, looked_at]);
            }
        }
        Ok(vec![0, looked_at])
    }

    pub fn assigned_users(&self, role: u16) -> Review {
        let role = self.role(role)?;
        Ok(self.users.iter().filter(|&&user| self.assignments.contains(&(user, role))).map(|user| user.0).collect())
    }

    pub fn assigned_roles(&self, user: u16) -> Review {
        let user = self.user(user)?;
        Ok(numbers(&self.roles_assigned_to(user)))
    }

    pub fn auth_users(&self, role: u16) -> Review {
        let role = self.role(role)?;
        Ok(self.users.iter().filter(|&&user| self.authorised_roles(user).contains(&role)).map(|user| user.0).collect())
    }

    pub fn auth_roles(&self, user: u16) -> Review {
        let user = self.user(user)?;
        Ok(numbers(&self.authorised_roles(user)))
    }

    pub fn role_perms(&self, role: u16) -> Review {
        let role = self.role(role)?;
        Ok(self.permissions_of(&self.with_inherited(&BTreeSet::from([role]))).into_iter().collect())
    }

    pub fn user_perms(&self, user: u16) -> Review {
        let user = self.user(user)?;
        Ok(self.permissions_of(&self.authorised_roles(user)).into_iter().collect())
    }

    pub fn session_roles(&self, session: u16) -> Review {
        let session = self.session(session)?;
        Ok(numbers(&session.active))
    }

    pub fn session_perms(&self, session: u16) -> Review {
        let session = self.session(session)?;
        Ok(self.permissions_of(&self.effective_roles(session)).into_iter().collect())
    }

    pub fn role_ops(&self, role: u16, object: u16) -> Review {
        let (role, object) = (Role::new(role)?, Object::new(object)?);
        self.need_role(role)?;
        Ok(self.operations_of(&self.with_inherited(&BTreeSet::from([role])), object).into_iter().collect())
    }

    pub fn user_ops(&self, user: u16, object: u16) -> Review {
        let (user, object) = (User::new(user)?, Object::new(object)?);
        self.need_user(user)?;
        Ok(self.operations_of(&self.authorised_roles(user), object).into_iter().collect())
    }

    pub fn set_names(&self, kind: Kind) -> Review {
        Ok(self.sets(kind).keys().map(|name| name.0).collect())
    }

    pub fn set_roles(&self, kind: Kind, name: u16) -> Review {
        Ok(numbers(&self.set(kind, name)?.roles))
    }

    pub fn set_count(&self, kind: Kind, name: u16) -> Review {
        Ok(vec![self.set(kind, name)?.cardinality])
    }
}

pub fn numbers(roles: &BTreeSet<Role>) -> Vec<u16> {
    roles.iter().map(|role| role.0).collect()
}
