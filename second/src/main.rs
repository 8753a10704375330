//! A second program of the paper, written independently of the proved one, and the comparison of the two.

mod compare;
mod engine;
mod listed;
mod make_files;
mod make_scripts;
mod policy_file;
mod random;
mod script;
mod selftest;
mod words;

use std::io::{self, Read, Write};
use std::process::ExitCode;

const USAGE: &str = "usage: second script < SCRIPT
       second reload < POLICY-FILE
       second selftest
       second compare --seed N --scripts K --files F --bench PATH --reload PATH [--lines L] [--runner \"CMD ARGS\"]
compare makes K scripts or more, until they have L lines.";

const LONGEST_FILE: usize = 65_536;

fn main() -> ExitCode {
    let arguments: Vec<String> = std::env::args().skip(1).collect();
    match arguments.iter().map(String::as_str).collect::<Vec<_>>().as_slice() {
        ["script"] => print(&script::run(&input())),
        ["reload"] => print(&reload(&input())),
        ["selftest"] => success_if(selftest::selftest()),
        ["compare", options @ ..] => match compare_options(options) {
            Ok(options) => success_if(compare::compare(&options)),
            Err(fault) => {
                eprintln!("second: {fault}\n{USAGE}");
                ExitCode::from(2)
            }
        },
        _ => {
            eprintln!("{USAGE}");
            ExitCode::from(2)
        }
    }
}

fn input() -> Vec<u8> {
    let mut input = Vec::new();
    io::stdin().read_to_end(&mut input).expect("standard input can be read");
    input
}

fn print(output: &[u8]) -> ExitCode {
    success_if(io::stdout().write_all(output).is_ok())
}

fn success_if(success: bool) -> ExitCode {
    if success {
        ExitCode::SUCCESS
    } else {
        ExitCode::FAILURE
    }
}

/// What `reload` prints: the answer to loading the file, and after a 0 the loaded state as saved.
fn reload(file: &[u8]) -> Vec<u8> {
    let loaded = if file.len() > LONGEST_FILE { Err(engine::Refusal::Form) } else { policy_file::load(file) };
    match loaded {
        Ok(state) => [b"0\n".to_vec(), policy_file::save(&state)].concat(),
        Err(refusal) => format!("{}\n", refusal as u8).into_bytes(),
    }
}

fn compare_options(arguments: &[&str]) -> Result<compare::Options, String> {
    let mut options = compare::Options {
        seed: 1,
        scripts: 0,
        lines: 0,
        files: 0,
        bench: String::new(),
        reload: String::new(),
        runner: Vec::new(),
    };
    for pair in arguments.chunks(2) {
        let [name, value] = pair else { return Err(format!("{} takes a value", pair[0])) };
        let number = || value.parse().map_err(|_| format!("{name} takes a number"));
        match *name {
            "--seed" => options.seed = number()?,
            "--scripts" => options.scripts = number()?,
            "--lines" => options.lines = number()?,
            "--files" => options.files = number()?,
            "--bench" => options.bench = value.to_string(),
            "--reload" => options.reload = value.to_string(),
            "--runner" => options.runner = value.split_whitespace().map(str::to_string).collect(),
            _ => return Err(format!("there is no {name}")),
        }
    }
    if options.bench.is_empty() || options.reload.is_empty() {
        return Err("--bench and --reload are needed".into());
    }
    Ok(options)
}
