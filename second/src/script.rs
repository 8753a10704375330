//! The bench script: from the bytes of a script to the bytes of its answers.

use crate::engine::{Refusal, State};
use crate::words::{word_of, Obeys, Word};

const LONGEST_SCRIPT: usize = 32_768;
const LONGEST_LINE: usize = 512;

/// The answer to a line, its results, and the state after it where it is an accepted command.
pub struct Reply {
    pub answer: u8,
    pub results: Vec<u16>,
    pub after: Option<State>,
}

/// All that the bench prints for a script.
pub fn run(script: &[u8]) -> Vec<u8> {
    let mut output = String::new();
    let (mut done, mut others) = (0, 0);
    let mut note = |reply: &Reply| {
        let numbers = std::iter::once(u16::from(reply.answer)).chain(reply.results.iter().copied());
        output += &(numbers.map(|number| number.to_string()).collect::<Vec<_>>().join(" ") + "\n");
        *(if reply.answer == 0 { &mut done } else { &mut others }) += 1;
    };
    if too_long(script) {
        note(&refused(Refusal::Form));
    } else {
        let mut state = State::default();
        for line in lines(script) {
            let reply = answer(&state, line);
            note(&reply);
            state = reply.after.unwrap_or(state);
        }
    }
    output += &format!("total {done} {others}\n");
    output.into_bytes()
}

pub fn too_long(script: &[u8]) -> bool {
    script.len() > LONGEST_SCRIPT
}

/// The lines without their LF; nothing after the last LF is no line.
pub fn lines(script: &[u8]) -> Vec<&[u8]> {
    script.split_inclusive(|&byte| byte == b'\n').map(|line| line.strip_suffix(b"\n").unwrap_or(line)).collect()
}

pub fn answer(state: &State, line: &[u8]) -> Reply {
    parse(line).map_or_else(|| refused(Refusal::Form), |(word, numbers)| obey(state, word, &numbers))
}

/// The answer to a line of the form.
pub fn obey(state: &State, word: &Word, numbers: &[u16]) -> Reply {
    let done = match word.obeys {
        Obeys::Changes(obey) => obey(state, numbers).map(|after| (Some(after), Vec::new())),
        Obeys::Opens(obey) => obey(state, numbers).map(|(after, number)| (Some(after), vec![number])),
        Obeys::Asks(obey) => obey(state, numbers).map(|results| (None, results)),
    };
    done.map_or_else(refused, |(after, results)| Reply { answer: 0, results, after })
}

fn refused(refusal: Refusal) -> Reply {
    Reply { answer: refusal as u8, results: Vec::new(), after: None }
}

/// The word and the numbers of a line of the form. (That a list rises is left to the engine, which answers 14 before all else.)
pub fn parse(line: &[u8]) -> Option<(&'static Word, Vec<u16>)> {
    if line.len() > LONGEST_LINE {
        return None;
    }
    let word = first_word(line)?;
    let numbers = line.split(|&byte| byte == b' ').skip(1).map(number).collect::<Option<Vec<u16>>>()?;
    let right_count = match word.before_list() {
        Some(least) => numbers.len() >= least,
        None => numbers.len() == word.takes.len(),
    };
    right_count.then_some((word, numbers))
}

/// The word that a line begins with, if it is one.
pub fn first_word(line: &[u8]) -> Option<&'static Word> {
    line.split(|&byte| byte == b' ').next().and_then(word_of)
}

/// 1 to 5 digits, at most 65,535, with no leading zero except 0 itself.
fn number(text: &[u8]) -> Option<u16> {
    let digits = (1..=5).contains(&text.len()) && text.iter().all(u8::is_ascii_digit);
    let leading_zero = text.len() > 1 && text[0] == b'0';
    if !digits || leading_zero {
        return None;
    }
    std::str::from_utf8(text).ok()?.parse().ok()
}
