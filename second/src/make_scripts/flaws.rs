//! Lines that are not of the form.

use super::{line, Draft};
use crate::random::Random;
use crate::words::{Word, WORDS};

impl Draft<'_> {
    /// Writes a line that would mostly be accepted but for one flaw.
    pub fn malformed_line(&mut self) {
        let words: Vec<&'static Word> = WORDS.iter().collect();
        let drawn = self.random().some(&words, 3);
        let word = drawn.into_iter().min_by_key(|word| self.seen(word, 14)).expect("there are words");
        let wanted = if self.random().one_in(4) { 1 } else { 0 };
        let numbers = self.numbers_for(word, wanted);
        let (flawed, event) = self.flawed(word.text, &numbers);
        let answer = self.write(&flawed);
        let of_the_form = event == "line: exactly 512 bytes and of the form";
        if answer.is_some_and(|answer| (answer == 14) != of_the_form) {
            self.events.push(event);
        }
    }

    fn flawed(&mut self, word: &str, numbers: &[u16]) -> (Vec<u8>, &'static str) {
        let sound = line(word, numbers);
        let text = String::from_utf8(sound.clone()).expect("lines are made of ASCII");
        let tail = text[word.len()..].to_string();
        match self.random().below(21) {
            0 => (Vec::new(), "line: empty"),
            1 => {
                let others = [
                    format!("{word}s"),
                    word[..word.len() - 1].into(),
                    format!("{word}-"),
                    "save".into(),
                    "load".into(),
                    "total".into(),
                ];
                let other = self.random().pick(&others).unwrap_or_default();
                ((other + &tail).into(), "line: unknown word")
            }
            2 => {
                let (first, rest) = text.split_at(1);
                let other = if self.random().one_in(2) { text.to_uppercase() } else { first.to_uppercase() + rest };
                (other.into(), "line: word in other letters")
            }
            3 => {
                let left = self.random().below(numbers.len().max(1));
                (line(word, &numbers[..left]), "line: too few numbers")
            }
            4 => ((text + " 0").into(), "line: too many numbers"),
            5 => (self.with_number(word, numbers, |number, _| format!("0{number}")), "line: leading zero"),
            6 => (self.with_number(word, numbers, |_, random| random.from(100_000, 999_999).to_string()), "line: six digits"),
            7 => (self.with_number(word, numbers, |_, random| random.from(65_536, 99_999).to_string()), "line: 65536 to 99999"),
            8 => ((" ".to_string() + &text).into(), "line: space before"),
            9 => ((text + " ").into(), "line: space after"),
            10 => (text.replacen(' ', "  ", 1).into(), "line: two spaces"),
            11 => (text.replacen(' ', "\t", 1).into(), "line: tab for a space"),
            12 => ((text + "\r").into(), "line: CR at the end"),
            13 => (self.with_byte(sound, 0), "line: NUL within"),
            14 => {
                let byte = 128 + self.random().byte() / 2;
                (self.with_byte(sound, byte), "line: byte above 127")
            }
            15 => {
                let mark = self.random().pick(&["+", "-", ".", ",", "#"]).unwrap_or_default();
                (self.with_number(word, numbers, |number, _| format!("{mark}{number}")), "line: sign, point or comma")
            }
            16 => (self.with_list(|list| list.swap(0, 1)), "line: list falls"),
            17 => (self.with_list(|list| list[1] = list[0]), "line: list repeats"),
            18 => (self.of_length(512), "line: exactly 512 bytes and of the form"),
            19 => (self.of_length(513), "line: 513 bytes and else of the form"),
            _ => {
                let length = self.random().from(514, 3_000);
                (self.of_length(length), "line: over 512 bytes by far")
            }
        }
    }

    /// The line with one of its numbers written otherwise.
    fn with_number(&mut self, word: &str, numbers: &[u16], write: impl Fn(u16, &mut Random) -> String) -> Vec<u8> {
        let place = self.random().below(numbers.len().max(1));
        let mut text = word.to_string();
        for (at, &number) in numbers.iter().enumerate() {
            let written = if at == place { write(number, self.random()) } else { number.to_string() };
            text += &format!(" {written}");
        }
        text.into_bytes()
    }

    /// The line with a byte put in or over another one.
    fn with_byte(&mut self, mut line: Vec<u8>, byte: u8) -> Vec<u8> {
        let place = self.random().below(line.len());
        if self.random().one_in(2) {
            line[place] = byte;
        } else {
            line.insert(place, byte);
        }
        line
    }

    /// A word that takes a list, with numbers for it and how many of them stand before the list.
    fn word_with_list(&mut self, wanted: u8) -> (&'static str, Vec<u16>, usize) {
        let words: Vec<(&'static Word, usize)> = WORDS.iter().filter_map(|word| Some((word, word.before_list()?))).collect();
        let (word, leading) = self.random().pick(&words).expect("a word takes a list");
        (word.text, self.numbers_for(word, wanted), leading)
    }

    /// A line with a list of at least two roles, changed; now and then there is more amiss with it.
    fn with_list(&mut self, change: impl Fn(&mut [u16])) -> Vec<u8> {
        let wanted = self.random().pick(&[0, 0, 1, 2]).unwrap_or(0);
        let (word, mut numbers, leading) = self.word_with_list(wanted);
        while numbers.len() < leading + 2 {
            let next = numbers[leading..].last().map_or(0, |last| last + 1);
            numbers.push(next);
        }
        let from = self.random().from(leading, numbers.len() - 2);
        change(&mut numbers[from..]);
        line(word, &numbers)
    }

    /// A line of that length with a long, strictly rising list.
    fn of_length(&mut self, length: usize) -> Vec<u8> {
        let (word, numbers, leading) = self.word_with_list(0);
        let mut text = line(word, &numbers[..leading]);
        // Some numbers of four digits (five bytes with the space), so that numbers of five digits fill the rest.
        let short = (6 - (length - text.len()) % 6) % 6;
        for number in (1_000..).take(short).chain(10_000..) {
            if text.len() >= length {
                break;
            }
            text.extend(format!(" {number}").bytes());
        }
        text
    }
}
