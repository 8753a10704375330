//! The comparison: the proved programs and the second one, on the same random material.

use crate::engine::State;
use crate::listed::Tally;
use crate::make_files::{fixed_files, File, FileMaker};
use crate::make_scripts::{fixed_scripts, Script, ScriptMaker};
use crate::policy_file::{read, write, Sections};
use crate::{reload, script};
use std::io::{Read, Write};
use std::process::{Command, Stdio};
use std::sync::mpsc;
use std::thread;
use std::time::{Duration, Instant};

const LONGEST_RUN: Duration = Duration::from_secs(60);
const LONGEST_SHRINKING: Duration = Duration::from_secs(120);

pub struct Options {
    pub seed: u64,
    /// Random scripts are made until there are so many of them and so many lines in them.
    pub scripts: u64,
    pub lines: u64,
    pub files: u64,
    pub bench: String,
    pub reload: String,
    /// What stands in front of both programs, as an emulator with its arguments.
    pub runner: Vec<String>,
}

/// Compares, prints what came up and any difference, and says whether all is well.
pub fn compare(options: &Options) -> bool {
    let start = Instant::now();
    let bench = Program::new(options, &options.bench);
    let reload = Program::new(options, &options.reload);
    let mut tally = Tally::default();
    let mut file_maker = FileMaker::new(!options.seed);

    let scripts = compare_scripts(options, &bench, &mut tally, &mut file_maker);
    let files = compare_files(options, &reload, &mut tally, &mut file_maker);
    tally.print();
    println!();
    let amiss = tally.amiss();
    amiss.iter().for_each(|what| println!("{what}"));
    let verdict = |count: Option<u64>| count.map_or("a DIFFERENCE (above)".to_string(), |count| format!("{count}, no difference"));
    println!("seed {}; lines answered: {}", options.seed, tally.lines);
    println!("scripts: {}", verdict(scripts));
    println!("files: {}", verdict(files));
    println!("listed pairs and events that never came up, and pairs not listed that did: {}", amiss.len());
    println!("seconds: {}", start.elapsed().as_secs());
    scripts.is_some() && files.is_some() && amiss.is_empty()
}

/// How many scripts were compared, or nothing after a difference.
fn compare_scripts(options: &Options, bench: &Program, tally: &mut Tally, file_maker: &mut FileMaker) -> Option<u64> {
    let mut count = 0;
    for script in fixed_scripts() {
        compare_script(bench, &script, tally, file_maker)?;
        count += 1;
    }
    let mut maker = ScriptMaker::new(options.seed);
    let (mut made, before) = (0, tally.lines);
    while made < options.scripts || tally.lines - before < options.lines {
        compare_script(bench, &maker.script(), tally, file_maker)?;
        made += 1;
    }
    Some(count + made)
}

fn compare_script(bench: &Program, script: &Script, tally: &mut Tally, file_maker: &mut FileMaker) -> Option<()> {
    if bench.differs(&script.bytes, &script::run(&script.bytes)) {
        show_script(bench, &script.bytes);
        return None;
    }
    script.events.iter().for_each(|event| tally.event(event));
    if script::too_long(&script.bytes) {
        tally.long_script();
        return Some(());
    }
    tally.begin_script();
    let mut state = State::default();
    for (place, line) in script::lines(&script.bytes).into_iter().enumerate() {
        let reply = script::answer(&state, line);
        tally.line(&state, line, &reply);
        state = reply.after.unwrap_or(state);
        if place % 200 == 199 {
            tally.edges(&state);
            file_maker.keep(&state);
        }
    }
    file_maker.keep(&state);
    Some(())
}

/// How many files were compared, or nothing after a difference.
fn compare_files(options: &Options, reload: &Program, tally: &mut Tally, file_maker: &mut FileMaker) -> Option<u64> {
    let fixed = fixed_files();
    let count = fixed.len() as u64 + options.files;
    for file in fixed {
        compare_file(reload, &file, tally)?;
    }
    for _ in 0..options.files {
        compare_file(reload, &file_maker.file(), tally)?;
    }
    Some(count)
}

fn compare_file(program: &Program, file: &File, tally: &mut Tally) -> Option<()> {
    let expected = reload(&file.bytes);
    if program.differs(&file.bytes, &expected) {
        show_file(program, file);
        return None;
    }
    tally.event(file.event);
    let answer = expected.split(|&byte| byte == b'\n').next().unwrap_or_default();
    tally.file(&file.bytes, String::from_utf8_lossy(answer).parse().expect("an answer is a number"));
    Some(())
}

/// A program to be compared, as a command.
struct Program {
    command: Vec<String>,
}

/// What a program printed, and how it ended if not well.
struct Outcome {
    output: Vec<u8>,
    trouble: Option<String>,
}

impl Program {
    fn new(options: &Options, path: &str) -> Self {
        Program { command: options.runner.iter().cloned().chain([path.to_string()]).collect() }
    }

    fn differs(&self, input: &[u8], expected: &[u8]) -> bool {
        let outcome = self.run(input);
        outcome.trouble.is_some() || outcome.output != expected
    }

    fn run(&self, input: &[u8]) -> Outcome {
        let mut command = Command::new(&self.command[0]);
        command.args(&self.command[1..]).stdin(Stdio::piped()).stdout(Stdio::piped());
        let mut child = match command.spawn() {
            Ok(child) => child,
            Err(error) => return Outcome { output: Vec::new(), trouble: Some(format!("cannot be started: {error}")) },
        };
        let mut stdin = child.stdin.take().expect("standard input is a pipe");
        let mut stdout = child.stdout.take().expect("standard output is a pipe");
        let input = input.to_vec();
        // A program may end without reading all, so a pipe that breaks is no trouble in itself.
        thread::spawn(move || stdin.write_all(&input).ok());
        let (sender, receiver) = mpsc::channel();
        thread::spawn(move || {
            let mut output = Vec::new();
            let read = stdout.read_to_end(&mut output);
            sender.send((output, read)).ok();
        });
        match receiver.recv_timeout(LONGEST_RUN) {
            Ok((output, read)) => {
                let trouble = match (read, child.wait()) {
                    (Ok(_), Ok(status)) if status.success() => None,
                    (Ok(_), Ok(status)) => Some(format!("ended with {status}")),
                    (Err(error), _) | (_, Err(error)) => Some(error.to_string()),
                };
                Outcome { output, trouble }
            }
            Err(_) => {
                child.kill().and_then(|()| child.wait()).ok();
                Outcome { output: Vec::new(), trouble: Some(format!("did not end within {} seconds", LONGEST_RUN.as_secs())) }
            }
        }
    }
}

/// Leaves out items, many at once and then one by one, as long as the difference stays.
fn shrink<T: Clone>(mut items: Vec<T>, differs: impl Fn(&[T]) -> bool) -> Vec<T> {
    let start = Instant::now();
    let mut chunk = items.len().max(1);
    loop {
        let mut place = 0;
        let before = items.len();
        while place < items.len() && start.elapsed() < LONGEST_SHRINKING {
            let end = (place + chunk).min(items.len());
            let fewer = [&items[..place], &items[end..]].concat();
            if differs(&fewer) {
                items = fewer;
            } else {
                place = end;
            }
        }
        if start.elapsed() >= LONGEST_SHRINKING || (chunk == 1 && items.len() == before) {
            return items;
        }
        chunk = (chunk / 2).max(1);
    }
}

fn show_script(bench: &Program, script: &[u8]) {
    let lines: Vec<Vec<u8>> = script.split_inclusive(|&byte| byte == b'\n').map(<[u8]>::to_vec).collect();
    println!("DIFFERENCE in a script of {} lines and {} bytes; a shorter one that shows it:", lines.len(), script.len());
    let script = shrink(lines, |lines| {
        let script = lines.concat();
        bench.differs(&script, &script::run(&script))
    })
    .concat();
    let (second, outcome) = (script::run(&script), bench.run(&script));
    println!("{:<50} {:<30} {:<30}", "line", "the second program", "the program compared");
    let (lines, second, other) = (script::lines(&script), script::lines(&second), script::lines(&outcome.output));
    for place in 0..lines.len().max(second.len()).max(other.len()) {
        let shown = |column: &[&[u8]]| column.get(place).map_or(String::new(), |text| shorten(&text.escape_ascii().to_string()));
        let mark = if second.get(place) == other.get(place) { "" } else { "  <--" };
        println!("{:<50} {:<30} {:<30}{mark}", shown(&lines), shown(&second), shown(&other));
    }
    println!("the script as one text: \"{}\"", script.escape_ascii());
    outcome.trouble.iter().for_each(|trouble| println!("the program compared {trouble}"));
    println!();
}

fn shorten(text: &str) -> String {
    const MOST: usize = 48;
    if text.len() <= MOST {
        text.to_string()
    } else {
        format!("{}.. ({})", &text[..MOST - 12], text.len())
    }
}

fn show_file(program: &Program, file: &File) {
    println!("DIFFERENCE in a policy file of {} bytes ({}); a shorter one that shows it:", file.bytes.len(), file.event);
    let differs = |bytes: &[u8]| program.differs(bytes, &reload(bytes));
    let bytes = match read(&file.bytes) {
        Some(sections) => {
            let entries = (0..8).flat_map(|section| sections[section].iter().map(move |entry| (section, entry.clone())));
            write(&gather(&shrink(entries.collect(), |entries| differs(&write(&gather(entries))))))
        }
        None => shrink(file.bytes.clone(), differs),
    };
    let numbers: Vec<String> = bytes.chunks_exact(2).map(|pair| u16::from_le_bytes([pair[0], pair[1]]).to_string()).collect();
    let odd = if bytes.len() % 2 == 1 { format!(" and a byte {}", bytes[bytes.len() - 1]) } else { String::new() };
    println!("the file as numbers: {}{odd}", numbers.join(" "));
    let outcome = program.run(&bytes);
    println!("the second program:   \"{}\"", reload(&bytes).escape_ascii());
    println!("the program compared: \"{}\"", outcome.output.escape_ascii());
    outcome.trouble.iter().for_each(|trouble| println!("the program compared {trouble}"));
    println!();
}

fn gather(entries: &[(usize, Vec<u16>)]) -> Sections {
    let mut sections = Sections::default();
    entries.iter().for_each(|(section, entry)| sections[*section].push(entry.clone()));
    sections
}
