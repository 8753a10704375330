//! What a comparison must reach: the pairs of word and answer that the paper lists, and the events named here, in `checks` and in
//! `dynamic`.

mod checks;
mod dynamic;

use crate::engine::{numbers, Kind, Role, State, MOST_ASSIGNMENTS, MOST_GRANTS, MOST_LINES};
use crate::policy_file::state_in;
use crate::script::{first_word, parse, Reply};
use crate::words::{Takes, Word, WORDS};
use std::collections::{BTreeMap, BTreeSet};

/// Stands in the table for lines that begin with no word of the paper's.
const NO_WORD: &str = "(no word)";
/// Stands in the table for a script that is too long to be read line by line.
const SCRIPT: &str = "(script)";
/// Stands in the table for a policy file that is loaded.
const FILE: &str = "(file)";

/// The refusals of loading and saving, but for 14.
const FILE_REFUSALS: &[u8] = &[6, 7, 9, 10, 11, 15];

/// Why no script and no file can reach an answer that the paper lists for a word with these places, if none can.
fn out_of_reach(takes: &[Takes], answer: u8) -> Option<&'static str> {
    let empty = State::default();
    match answer {
        1 if takes.iter().all(|take| take.highest().is_none()) => Some("no number after the word has a range"),
        2 if takes.iter().all(|take| take.existing(&empty).is_none()) => Some("the word names nothing that may be missing"),
        15 => Some("the programs' buffers hold the longest result and the longest file"),
        _ => None,
    }
}

/// Everything else that the material must reach at least once.
const EVENTS: &[&str] = &[
    "a chain of 64 roles",
    "2,048 assignments stand",
    "2,048 grants stand",
    "512 lines stand",
    "64 sessions are open",
    "room freed in a full table of assignments is used again",
    "room freed in a full table of grants is used again",
    "room freed in a full table of lines is used again",
    "room freed in a full table of sessions is used again",
    "a session number lower than one in use is given",
    "a user holds one role fewer than an SSD set's cardinality",
    "a session has one effective role fewer than a DSD set's cardinality",
    "a set has all its roles as its cardinality",
    "deassign: a session sheds",
    "deassign: a session keeps the role named",
    "deassign: a session is left with none active",
    "disinherit: a session sheds",
    "disinherit: a session keeps the junior named",
    "norole: a session sheds the role deleted",
    "norole: a session sheds another role",
    "nouser: 16 for session 0 alone",
    "nouser: 16 for session 63 alone",
    "nouser: 16, and done after end-all",
    "nouser: 16, and done after end",
    "nouser: user 0 goes while a session number is free",
    "nouser: assignments go while other users' sessions are open",
    "end-all: several sessions end and other users' stay",
    "end-all: session 63 ends",
    "end-all: the user has none open and other users' stay",
    "inherit: the line was implied already",
    "inherit: 6 through a longer chain",
    "check: yes through an inherited role alone",
    "check: yes at the first of several roles",
    "check: yes after several roles, with more to come",
    "check: yes at the last of several roles",
    "check: yes at an inherited role, with a higher one active that holds the grant too",
    "check: yes at an active role, with a lower one inherited",
    "check: yes after 16 roles or more",
    "check: yes after all 64 roles",
    "check: no after several roles",
    "check: no after 16 roles or more",
    "check: no after all 64 roles",
    "check: no with none active, though some role holds the grant",
    "session: 9 where 11 applies too",
    "session: 11 while 64 are open, though the active roles alone keep the rule",
    "activate: 9 where 11 applies too",
    "activate: 11 because of roles that the role named inherits",
    "activate: 11 because of roles that those active before inherit",
    "activate: done one below the cardinality, as the role counted already",
    "inherit: 6 where 11 applies too",
    "inherit: 10 where 11 applies too",
    "inherit: 11 while 512 lines stand",
    "inherit: 11 where the senior is not active, but inherited",
    "inherit: 11 because of roles that the junior inherits",
    "inherit: 11 for a session while those of another user keep the rule",
    "inherit: 11 for session 0 alone",
    "inherit: 11 for session 63 alone",
    "inherit: 11 for DSD set 15 alone",
    "inherit: done up to one below the cardinality, with the senior active",
    "disinherit: a line that had 11 is done after it",
    "a list of 2,048 permissions",
    "a list of 256 users",
    "a list of 64 roles",
    "script: empty",
    "script: the last line has no LF",
    "script: exactly 32,768 bytes",
    "script: over 32,768 bytes",
    "line: exactly 512 bytes and of the form",
    "line: 513 bytes and else of the form",
    "line: over 512 bytes by far",
    "line: empty",
    "line: unknown word",
    "line: word in other letters",
    "line: too few numbers",
    "line: too many numbers",
    "line: leading zero",
    "line: six digits",
    "line: 65536 to 99999",
    "line: space before",
    "line: space after",
    "line: two spaces",
    "line: tab for a space",
    "line: CR at the end",
    "line: NUL within",
    "line: byte above 127",
    "line: sign, point or comma",
    "line: list falls",
    "line: list repeats",
    "file: as saved by a script's state",
    "file: as saved by another state",
    "file: 35,920 bytes, the longest that the rules leave room for",
    "file: cut short",
    "file: cut short at every place of a small file",
    "file: every number of a small file replaced",
    "file: bytes left over",
    "file: 65,536 bytes",
    "file: over 65,536 bytes",
    "file: a count changed",
    "file: an inner count changed",
    "file: one entry more than a table holds",
    "file: a number beyond its limit",
    "file: two entries change places",
    "file: an entry repeated",
    "file: a first number repeated",
    "file: an inner list out of order",
    "file: an inner list repeats",
    "file: a user not listed",
    "file: a role not listed",
    "file: a circle",
    "file: a line from a role to itself",
    "file: a cardinality out of shape",
    "file: an active role not authorised",
    "file: a static rule broken",
    "file: a dynamic rule broken",
    "file: a dynamic rule broken by inherited roles",
    "file: a small hierarchy under a DSD set",
    "file: 9 where 11 applies too",
    "file: 10 where 11 applies too",
    "file: several faults at once",
    "file: any number replaced",
    "file: any byte replaced",
    "file: random bytes",
];

/// The limit of each table, and the events of filling it and of filling it again.
const TABLES: [(usize, &str, &str); 4] = [
    (MOST_ASSIGNMENTS, "2,048 assignments stand", "room freed in a full table of assignments is used again"),
    (MOST_GRANTS, "2,048 grants stand", "room freed in a full table of grants is used again"),
    (MOST_LINES, "512 lines stand", "room freed in a full table of lines is used again"),
    (64, "64 sessions are open", "room freed in a full table of sessions is used again"),
];

/// The events of other counts, with the row that each belongs to.
fn events_of_other_counts() -> impl Iterator<Item = (&'static str, &'static str)> {
    dynamic::events().chain(checks::events())
}

/// How often each pair and each event came up.
#[derive(Default)]
pub struct Tally {
    pairs: BTreeMap<(&'static str, u8), u64>,
    events: BTreeMap<&'static str, u64>,
    /// How often another count than that of a DSD rule or of `check` would give another answer or number.
    other_counts: BTreeMap<(&'static str, &'static str), u64>,
    pub lines: u64,
    /// The tables that have been full in the script at hand.
    been_full: BTreeSet<&'static str>,
    /// The users that 16 kept in the script at hand, and the word that ended the last session of each.
    kept: BTreeMap<u16, Option<&'static str>>,
    /// The lines that had 11 since a command other than `disinherit` was done in the script at hand.
    had_11: BTreeSet<Vec<u8>>,
}

/// All pairs that the paper lists, with the places that the word has.
fn listed_pairs() -> impl Iterator<Item = (&'static str, &'static [Takes], u8)> {
    let words = WORDS.iter().map(|word| (word.text, word.takes, word.refusals));
    words
        .chain([(FILE, &[] as &[Takes], FILE_REFUSALS)])
        .flat_map(|(row, takes, refusals)| [0, 14].iter().chain(refusals).map(move |&answer| (row, takes, answer)))
}

/// The pairs that a comparison must reach.
fn wanted_pairs() -> BTreeSet<(&'static str, u8)> {
    let within_reach = listed_pairs().filter(|&(_, takes, answer)| out_of_reach(takes, answer).is_none());
    within_reach.map(|(row, _, answer)| (row, answer)).chain([(NO_WORD, 14), (SCRIPT, 14)]).collect()
}

/// Those of them that a line of the form can reach, whatever stands in the tables.
pub fn pairs_to_seek() -> Vec<(&'static Word, u8)> {
    let answers = |word: &'static Word| [0].iter().chain(word.refusals).map(move |&answer| (word, answer));
    let within_reach = |word: &Word, answer: u8| answer != 12 && out_of_reach(word.takes, answer).is_none();
    WORDS.iter().flat_map(answers).filter(|&(word, answer)| within_reach(word, answer)).collect()
}

impl Tally {
    pub fn event(&mut self, event: &'static str) {
        assert!(EVENTS.contains(&event), "an event that is not listed: {event}");
        *self.events.entry(event).or_default() += 1;
    }

    fn event_if(&mut self, happened: bool, event: &'static str) {
        if happened {
            self.event(event);
        }
    }

    fn pair(&mut self, row: &'static str, answer: u8) {
        *self.pairs.entry((row, answer)).or_default() += 1;
    }

    pub fn file(&mut self, file: &[u8], answer: u8) {
        self.pair(FILE, answer);
        if let Some(state) = state_in(file) {
            self.dynamic_file(&state, answer);
        }
    }

    pub fn long_script(&mut self) {
        self.pair(SCRIPT, 14);
        self.lines += 1;
    }

    pub fn begin_script(&mut self) {
        self.been_full.clear();
        self.kept.clear();
        self.had_11.clear();
    }

    /// Counts a line and what it did.
    pub fn line(&mut self, before: &State, line: &[u8], reply: &Reply) {
        self.pair(first_word(line).map_or(NO_WORD, |word| word.text), reply.answer);
        self.lines += 1;
        let Some((word, asked)) = parse(line) else { return };
        match (word.text, reply.answer, reply.results.len()) {
            ("role-perms" | "user-perms" | "session-perms", 0, 2048) => self.event("a list of 2,048 permissions"),
            ("assigned-users" | "auth-users", 0, 256) => self.event("a list of 256 users"),
            ("assigned-roles" | "auth-roles" | "session-roles", 0, 64) => self.event("a list of 64 roles"),
            ("check", 0, _) => self.check_line(before, &asked, &reply.results),
            ("inherit", 6, _) => {
                let line_back = before.lines.iter().any(|(senior, junior)| [junior.number(), senior.number()] == asked[..]);
                self.event_if(asked[0] != asked[1] && !line_back, "inherit: 6 through a longer chain");
            }
            ("nouser", 16, _) => {
                let open = sessions_of(before, asked[0]);
                self.event_if(open == [0], "nouser: 16 for session 0 alone");
                self.event_if(open == [63], "nouser: 16 for session 63 alone");
                self.kept.insert(asked[0], None);
            }
            _ => {}
        }
        self.dynamic_line(before, line, (word.text, &asked), reply);
        if let Some(after) = &reply.after {
            self.tables(before, after);
            self.change(word.text, &asked, before, after, &reply.results);
        }
    }

    /// The tables that a command filled.
    fn tables(&mut self, before: &State, after: &State) {
        let sizes = |state: &State| [state.assignments.len(), state.grants.len(), state.lines.len(), state.sessions.len()];
        for ((&(most, full, again), then), now) in TABLES.iter().zip(sizes(before)).zip(sizes(after)) {
            if then < most && now == most {
                let first = self.been_full.insert(full);
                self.event(if first { full } else { again });
            }
        }
    }

    /// What an accepted command did to lines, assignments and sessions.
    fn change(&mut self, word: &'static str, asked: &[u16], before: &State, after: &State, results: &[u16]) {
        match word {
            "inherit" => {
                let implied = numbers(&before.inherited_by(Role::new(asked[0]).expect("an accepted role"))).contains(&asked[1]);
                self.event_if(implied, "inherit: the line was implied already");
                self.event_if(after.lines.len() >= 63 && longest_chain(after) == 64, "a chain of 64 roles");
            }
            "session" => {
                let lower = before.sessions.keys().any(|number| number.number() > results[0]);
                self.event_if(lower, "a session number lower than one in use is given");
            }
            "nouser" => {
                let (fewer, open) = (before.assignments.len() > after.assignments.len(), after.sessions.len());
                self.event_if(asked[0] == 0 && open < 64, "nouser: user 0 goes while a session number is free");
                self.event_if(fewer && open > 0, "nouser: assignments go while other users' sessions are open");
                let ended_by = self.kept.remove(&asked[0]).flatten();
                self.event_if(ended_by == Some("end-all"), "nouser: 16, and done after end-all");
                self.event_if(ended_by == Some("end"), "nouser: 16, and done after end");
            }
            "end" | "end-all" => {
                let open = sessions_of(before, asked[0]);
                let last_ended = !open.is_empty() && sessions_of(after, asked[0]).is_empty();
                if let Some(ended_by) = self.kept.get_mut(&asked[0]).filter(|_| last_ended) {
                    *ended_by = Some(word);
                }
                if word == "end-all" {
                    let others = !after.sessions.is_empty();
                    self.event_if(open.len() > 1 && others, "end-all: several sessions end and other users' stay");
                    self.event_if(open.contains(&63), "end-all: session 63 ends");
                    self.event_if(open.is_empty() && others, "end-all: the user has none open and other users' stay");
                }
            }
            _ => {}
        }
        for (number, now) in &after.sessions {
            let Some(then) = before.sessions.get(number) else { continue };
            let lost: Vec<u16> = then.active.difference(&now.active).map(|role| role.number()).collect();
            let kept = numbers(&now.active);
            match word {
                "deassign" => {
                    self.event_if(!lost.is_empty(), "deassign: a session sheds");
                    self.event_if(!lost.is_empty() && kept.is_empty(), "deassign: a session is left with none active");
                    self.event_if(
                        now.owner.number() == asked[0] && kept.contains(&asked[1]),
                        "deassign: a session keeps the role named",
                    );
                }
                "disinherit" => {
                    self.event_if(!lost.is_empty(), "disinherit: a session sheds");
                    self.event_if(kept.contains(&asked[1]), "disinherit: a session keeps the junior named");
                }
                "norole" => {
                    self.event_if(lost.contains(&asked[0]), "norole: a session sheds the role deleted");
                    self.event_if(lost.iter().any(|&role| role != asked[0]), "norole: a session sheds another role");
                }
                _ => {}
            }
        }
    }

    /// How close the rules of a state are to being broken.
    pub fn edges(&mut self, state: &State) {
        for (kind, event) in [
            (Kind::Ssd, "a user holds one role fewer than an SSD set's cardinality"),
            (Kind::Dsd, "a session has one effective role fewer than a DSD set's cardinality"),
        ] {
            let counted = state.counted(kind);
            for set in state.sets(kind).values() {
                self.event_if(counted.iter().any(|roles| set.one_below(roles)), event);
            }
        }
        let mut sets = state.ssd.values().chain(state.dsd.values());
        self.event_if(
            sets.any(|set| set.roles.len() == usize::from(set.cardinality)),
            "a set has all its roles as its cardinality",
        );
    }

    /// What is amiss: listed pairs and events that never came up, and pairs that came up and are not listed.
    pub fn amiss(&self) -> Vec<String> {
        let wanted = wanted_pairs();
        let found: BTreeSet<(&str, u8)> = self.pairs.keys().copied().collect();
        let never = wanted.difference(&found).map(|(row, answer)| format!("NEVER CAME UP: {row}: answer {answer}"));
        let not_listed =
            found.difference(&wanted).map(|(row, answer)| format!("CAME UP, BUT IS NOT LISTED: {row}: answer {answer}"));
        let events = EVENTS.iter().filter(|event| !self.events.contains_key(*event)).map(|event| format!("NEVER CAME UP: {event}"));
        let counts = events_of_other_counts().filter(|event| !self.other_counts.contains_key(event));
        let counts = counts.map(|(row, event)| format!("NEVER CAME UP: {row}: {event}"));
        never.chain(not_listed).chain(events).chain(counts).collect()
    }

    pub fn print(&self) {
        let answers: BTreeSet<u8> = wanted_pairs().iter().chain(self.pairs.keys()).map(|&(_, answer)| answer).collect();
        print!("{:<15}", "answer");
        answers.iter().for_each(|answer| print!("{answer:>7}"));
        println!();
        for row in WORDS.iter().map(|word| word.text).chain([NO_WORD, SCRIPT, FILE]) {
            print!("{row:<15}");
            for &answer in &answers {
                match self.pairs.get(&(row, answer)) {
                    Some(count) => print!("{count:>7}"),
                    None => print!("{:>7}", "."),
                }
            }
            println!();
        }
        println!();
        for event in EVENTS {
            println!("{:>7}  {event}", self.events.get(event).unwrap_or(&0));
        }
        for (row, event) in events_of_other_counts() {
            println!("{:>7}  {row}: {event}", self.other_counts.get(&(row, event)).unwrap_or(&0));
        }
        println!();
        println!("listed, but out of reach:");
        let mut reasons: BTreeMap<(u8, &str), Vec<&str>> = BTreeMap::new();
        for (row, takes, answer) in listed_pairs() {
            if let Some(reason) = out_of_reach(takes, answer) {
                reasons.entry((answer, reason)).or_default().push(row);
            }
        }
        for ((answer, reason), rows) in reasons {
            let rows = if rows.len() > 4 { format!("{} rows", rows.len()) } else { rows.join(", ") };
            println!("  {answer} ({rows}): {reason}");
        }
    }
}

/// The numbers of the user's sessions.
fn sessions_of(state: &State, user: u16) -> Vec<u16> {
    let owned = state.sessions.iter().filter(|(_, session)| session.owner.number() == user);
    owned.map(|(number, _)| number.number()).collect()
}

/// The most roles in a chain of lines.
fn longest_chain(state: &State) -> usize {
    fn below(state: &State, role: Role, known: &mut BTreeMap<Role, usize>) -> usize {
        if let Some(&length) = known.get(&role) {
            return length;
        }
        let length = 1 + state.direct_juniors(role).into_iter().map(|junior| below(state, junior, known)).max().unwrap_or(0);
        known.insert(role, length);
        length
    }
    let mut known = BTreeMap::new();
    state.roles.iter().map(|&role| below(state, role, &mut known)).max().unwrap_or(0)
}
