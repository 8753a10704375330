//! Random scripts. Each line is chosen with the state before it in view, aimed at acceptance or at a certain refusal.

mod checks;
mod flaws;
mod numbers;
mod seniors;
mod themes;

use crate::engine::State;
use crate::listed::pairs_to_seek;
use crate::random::Random;
use crate::script::{answer, first_word, obey};
use crate::words::{word_of, Obeys, Word, WORDS};
use std::collections::BTreeMap;
use themes::THEMES;

const LONGEST_SCRIPT: usize = 32_768;

/// A script, and what came up in it that its lines alone do not show.
pub struct Script {
    pub bytes: Vec<u8>,
    pub events: Vec<&'static str>,
}

pub struct ScriptMaker {
    random: Random,
    /// How often each pair of word and answer came up, so that the rare ones can be sought.
    seen: BTreeMap<(&'static str, u8), u64>,
    made: usize,
}

impl ScriptMaker {
    pub fn new(seed: u64) -> Self {
        ScriptMaker { random: Random::new(seed), seen: BTreeMap::new(), made: 0 }
    }

    pub fn script(&mut self) -> Script {
        let theme = THEMES[self.made % THEMES.len()];
        self.made += 1;
        let mut draft = Draft::new(self);
        theme(&mut draft);
        while !draft.full {
            draft.step();
        }
        draft.finish()
    }
}

/// Scripts that are always compared: the ends of what a script may be.
pub fn fixed_scripts() -> Vec<Script> {
    let script = |bytes: Vec<u8>, events: &[&'static str]| Script { bytes, events: events.to_vec() };
    vec![
        script(Vec::new(), &["script: empty"]),
        script(b"\n".to_vec(), &["line: empty"]),
        script(b"\n\n".to_vec(), &["line: empty"]),
        script(b"\0".to_vec(), &["line: NUL within"]),
        script(b"user 7\nuser 7".to_vec(), &["script: the last line has no LF"]),
        script(b"user 7\nuser 7\n\n".to_vec(), &["line: empty"]),
        script(b"user 7\r\nuser 7\n".to_vec(), &["line: CR at the end"]),
        script(b"role 10\n".repeat(LONGEST_SCRIPT / 8), &["script: exactly 32,768 bytes"]),
        script(b"\n".repeat(LONGEST_SCRIPT), &["script: exactly 32,768 bytes", "line: empty"]),
        script(b"7".repeat(LONGEST_SCRIPT), &["script: exactly 32,768 bytes", "line: over 512 bytes by far"]),
        script(b"\n".repeat(LONGEST_SCRIPT + 1), &["script: over 32,768 bytes"]),
        script(b"role 10\n".repeat(LONGEST_SCRIPT / 8 + 1), &["script: over 32,768 bytes"]),
        script(b"user 7\n".repeat(20_000), &["script: over 32,768 bytes"]),
    ]
}

/// A script in the making.
struct Draft<'a> {
    maker: &'a mut ScriptMaker,
    state: State,
    bytes: Vec<u8>,
    events: Vec<&'static str>,
    room: usize,
    /// Set once a line had no room any more.
    full: bool,
    /// New users and roles are drawn below these numbers.
    users: u16,
    roles: u16,
}

/// How many lines are tried for the answer that is wanted.
const TRIES: usize = 40;

impl<'a> Draft<'a> {
    fn new(maker: &'a mut ScriptMaker) -> Self {
        let room = if maker.random.one_in(2) { LONGEST_SCRIPT } else { maker.random.from(2_000, LONGEST_SCRIPT) };
        let (state, bytes, events) = (State::default(), Vec::new(), Vec::new());
        Draft { maker, state, bytes, events, room, full: false, users: 8, roles: 10 }
    }

    fn random(&mut self) -> &mut Random {
        &mut self.maker.random
    }

    /// Writes a line and answers it; nothing where it has no room.
    fn write(&mut self, line: &[u8]) -> Option<u8> {
        if self.bytes.len() + line.len() + 1 > self.room {
            self.full = true;
            return None;
        }
        self.bytes.extend(line);
        self.bytes.push(b'\n');
        let reply = answer(&self.state, line);
        if let Some(word) = first_word(line) {
            *self.maker.seen.entry((word.text, reply.answer)).or_default() += 1;
        }
        if let Some(after) = reply.after {
            let before = std::mem::replace(&mut self.state, after);
            self.look_at_sessions(&before);
        }
        Some(reply.answer)
    }

    /// Asks mostly for the roles of a session that a command changed, before another command may hide what it did.
    fn look_at_sessions(&mut self, before: &State) {
        let sessions = self.state.sessions.iter();
        let changed: Vec<u16> = sessions.filter(|&(n, now)| before.sessions.get(n) != Some(now)).map(|(n, _)| n.number()).collect();
        if let Some(session) = self.random().pick(&changed) {
            if !self.random().one_in(4) {
                self.say("session-roles", &[session]);
            }
        }
    }

    fn say(&mut self, word: &str, numbers: &[u16]) {
        self.write(&line(word, numbers));
    }

    fn shuffled(&mut self, range: std::ops::Range<u16>) -> Vec<u16> {
        let mut all: Vec<u16> = range.collect();
        self.random().shuffle(&mut all);
        all
    }

    fn add_users(&mut self, range: std::ops::Range<u16>) {
        self.shuffled(range).into_iter().for_each(|user| self.say("user", &[user]));
    }

    fn add_roles(&mut self, range: std::ops::Range<u16>) {
        self.shuffled(range).into_iter().for_each(|role| self.say("role", &[role]));
    }

    /// Opens sessions until there is no room for one, in the table or in the script.
    fn open_all_sessions(&mut self) {
        while self.state.sessions.len() < 64 && !self.full {
            self.aim(named("session"), 0);
        }
        self.aim_at_full();
    }

    /// The end of the script: with or without the last LF, and now and then exactly as long as a script may be.
    fn finish(mut self) -> Script {
        match self.random().below(4) {
            0 => {
                self.bytes.pop();
                if !self.bytes.ends_with(b"\n") {
                    self.events.push("script: the last line has no LF");
                }
            }
            1 if self.room == LONGEST_SCRIPT => {
                while self.bytes.len() < LONGEST_SCRIPT {
                    let filler = (LONGEST_SCRIPT - self.bytes.len()).min(300) - 1;
                    self.bytes.extend(b"auth-roles 0 ".iter().cycle().take(filler));
                    self.bytes.push(b'\n');
                }
                self.events.push("script: exactly 32,768 bytes");
            }
            _ => {}
        }
        Script { bytes: self.bytes, events: self.events }
    }

    fn step(&mut self) {
        match self.random().below(100) {
            0..=62 => {
                let word = self.any_word();
                self.aim(word, 0);
            }
            63..=86 => {
                let (word, answer) = self.rare_pair();
                self.aim(word, answer);
            }
            87..=93 => self.several_faults(),
            94 if self.random().one_in(3) => self.review_all(),
            _ => self.malformed_line(),
        }
    }

    /// A word, drawn as often as its row says.
    fn any_word(&mut self) -> &'static Word {
        let words: Vec<&'static Word> = WORDS.iter().flat_map(|word| vec![word; word.often]).collect();
        self.random().pick(&words).expect("there are words")
    }

    /// The rarest of some pairs drawn at random. (Full tables are left to their themes, other lines to `malformed_line`.)
    fn rare_pair(&mut self) -> (&'static Word, u8) {
        let drawn = self.random().some(&pairs_to_seek(), 6);
        drawn.into_iter().min_by_key(|&(word, answer)| self.seen(word, answer)).expect("there are pairs")
    }

    fn seen(&self, word: &Word, answer: u8) -> u64 {
        self.maker.seen.get(&(word.text, answer)).copied().unwrap_or(0)
    }

    /// A line aimed at a refusal from 3 up, with a fault that is answered lower.
    fn several_faults(&mut self) {
        let pairs: Vec<_> = pairs_to_seek().into_iter().filter(|&(_, answer)| answer >= 3).collect();
        let (word, wanted) = self.random().pick(&pairs).expect("there are pairs");
        let mut numbers = self.numbers_for(word, wanted);
        for _ in 0..self.random().from(1, 2) {
            let beyond = self.random().one_in(4);
            self.fault(word, &mut numbers, beyond);
        }
        self.say(word.text, &numbers);
    }

    /// Asks every question about one thing of all such things that a small state holds.
    fn review_all(&mut self) {
        let state = self.state.clone();
        for word in WORDS.iter().filter(|word| matches!(word.obeys, Obeys::Asks(_))) {
            if let [take] = word.takes {
                let existing = take.existing(&state).unwrap_or_default();
                existing.into_iter().take(16).for_each(|number| self.say(word.text, &[number]));
            }
        }
    }

    /// Writes a line with the word that has the answer, where some tries find one; else the last one tried.
    fn aim(&mut self, word: &Word, wanted: u8) {
        let numbers = self.numbers_for(word, wanted);
        self.say(word.text, &numbers);
    }

    /// Writes a line with every word that has the answer 12 now, if some tries find one.
    fn aim_at_full(&mut self) {
        for word in WORDS.iter().filter(|word| word.refusals.contains(&12)) {
            let numbers = self.numbers_for(word, 12);
            if obey(&self.state, word, &numbers).answer == 12 {
                self.say(word.text, &numbers);
            }
        }
    }
}

fn named(word: &str) -> &'static Word {
    word_of(word.as_bytes()).expect("a word of the paper's")
}

/// A line of the form, but that its list may not rise.
fn line(word: &str, numbers: &[u16]) -> Vec<u8> {
    let mut text = word.to_string();
    numbers.iter().for_each(|number| text += &format!(" {number}"));
    text.into_bytes()
}
