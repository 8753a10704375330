//! The paper's own examples and those of the requests that change it, run by the second program.

use crate::make_files::{fullest, hierarchies, small_state};
use crate::policy_file::{load, save, sections_of, write, ASSIGNMENTS, DSD, LINES, SESSIONS, SSD};
use crate::words::{Takes, Word, WORDS};
use crate::{engine::State, reload, script};

const EXAMPLE: &str =
    "user 7\nrole 0\nrole 1\nrole 2\ninherit 2 0\nssd 0 2 0 1\nassign 7 2\nassign 7 1\ngrant 4 30 0\nsession 7 2\n\
                       check 0 4 30\ncheck 0 4 31\ninherit 0 2\ndeassign 7 2\ncheck 0 4 30\nauth-roles 7\n";
const EXAMPLE_OUTPUT: &str = "0\n0\n0\n0\n0\n0\n0\n10\n0\n0 0\n0 1 1\n0 0 2\n6\n0\n0 0 0\n0\ntotal 14 2\n";

/// Name, lines after the example's first ten, and their answers.
const SHEET: &[(&str, &str, &str)] = &[
    ("P1", "assign 7 1", "10"),
    ("P2", "inherit 0 2", "6"),
    ("P3", "inherit 0 0", "6"),
    ("P4", "inherit 2 0", "4"),
    ("P5", "inherit 2 1", "10"),
    ("P6", "activate 7 0 0; session-roles 0", "0; 0 0 2"),
    ("P7", "deassign 7 2; session-roles 0", "0; 0"),
    ("P8", "disinherit 2 0; check 0 4 30; session-roles 0", "0; 0 0 1; 0 2"),
    ("P9", "ssd-drop 0 1; ssd-roles 0", "7; 0 0 1"),
    ("P10", "norole 1", "8"),
    ("P11", "role 63; role 64", "0; 1"),
];

/// Name, lines from the empty state to begin with, lines after them, and the answers to these.
const READINGS: &[(&str, &str, &str, &str)] = &[
    (
        "deleting a line keeps the lines that it implied",
        "role 0; role 1; role 2; user 7; assign 7 2; inherit 2 0; inherit 2 1; inherit 0 1",
        "disinherit 0 1; auth-roles 7; disinherit 2 1; auth-roles 7",
        "0; 0 0 1 2; 0; 0 0 2",
    ),
    (
        "an owner who still reaches the role named keeps it active",
        "role 0; role 2; user 7; inherit 2 0; assign 7 0; assign 7 2; session 7 0",
        "deassign 7 0; session-roles 0; deassign 7 2; session-roles 0",
        "0; 0 0; 0; 0",
    ),
    (
        "users of every senior above gain roles too",
        "role 0; role 1; role 2; role 3; user 7; inherit 3 2; assign 7 3; assign 7 1; ssd 0 2 0 1",
        "inherit 2 0; auth-roles 7",
        "10; 0 1 2 3",
    ),
    (
        "a middle role deleted is not joined up",
        "role 0; role 1; role 2; user 7; inherit 2 1; inherit 1 0; assign 7 2; session 7 0 1 2",
        "norole 1; session-roles 0; auth-roles 7",
        "0; 0 2; 0 2",
    ),
    (
        "the lowest free session number, and 14 before all else",
        "user 7",
        "session 7; session 7; session 7; end 7 1; session 7; session 999 2 1; session 999 1 2; session 7 1",
        "0 0; 0 1; 0 2; 0; 0 1; 14; 1; 2",
    ),
    (
        "numbers, spaces and empty lines",
        "user 9",
        "user 0; user 00; user 65535; user 65536; user 100000; user  1; user 1 ;  user 1; user; ssd 0 2; ssd 0; ; ",
        "0; 14; 1; 14; 14; 14; 14; 14; 14; 7; 14; 14; 14",
    ),
    (
        "nouser with sessions open is refused and changes nothing; after end-all it is done",
        "role 2; user 7; assign 7 2; session 7 2; session 7",
        "nouser 7; assigned-roles 7; session-roles 0; session-roles 1; end-all 7; session-roles 0; session-roles 1; \
         assigned-roles 7; nouser 7; assigned-roles 7; assigned-users 2",
        "16; 0 2; 0 2; 0; 0; 2; 2; 0 2; 0; 2; 0",
    ),
    (
        "end-all leaves the sessions of others open",
        "role 2; user 7; user 8; assign 7 2; assign 8 2; session 7 2; session 8 2; session 7; session 8",
        "end-all 7; session-roles 0; session-roles 1; session-roles 2; session-roles 3; assigned-users 2; nouser 8; nouser 7; \
         session-roles 1; session 8",
        "0; 2; 0 2; 2; 0; 0 7 8; 16; 0; 0 2; 0 0",
    ),
    (
        "end-all with no session open, beyond the range, of a missing user and not of the form",
        "user 7; user 8; session 8",
        "end-all 7; end-all 7; session-roles 0; end-all 256; end-all 255; end-all; end-all 7 8; nouser 256; nouser 255; nouser 8",
        "0; 0; 0; 1; 2; 14; 14; 1; 2; 16",
    ),
    (
        "user 0 is deleted while none of its sessions is open",
        "user 0; user 8",
        "nouser 0; user 0; session 8; nouser 0; user 0; session 0; nouser 0; end 0 1; nouser 0; nouser 0; session-roles 0",
        "0; 0; 0 0; 0; 0; 0 1; 16; 0; 0; 2; 0",
    ),
    (
        "two senior roles do not give capture and release together",
        "role 0; role 1; role 2; role 3; user 7; inherit 2 0; inherit 3 1; assign 7 2; assign 7 3; dsd 0 2 0 1; grant 1 5 0; \
         grant 2 5 1",
        "session 7 2 3; session 7 2; activate 7 0 3; activate 7 0 1; session-roles 0; check 0 1 5; check 0 2 5; session 7 3; \
         drop 7 0 2; activate 7 0 3; check 0 1 5; check 0 2 5",
        "11; 0 0; 11; 11; 0 2; 0 1 1; 0 0 2; 0 1; 0; 0; 0 0 2; 0 1 1",
    ),
    (
        "a role active with its own junior counts beside it, and a role reached twice counts once",
        "role 0; role 1; role 2; role 3; user 7; inherit 2 0; inherit 3 0; assign 7 2; assign 7 3; dsd 0 2 0 2; dsd 1 2 0 1",
        "session 7 2; session 7 0; activate 7 0 2; activate 7 0 3; session-roles 0; nodsd 0; session 7 2 3; activate 7 1 0",
        "11; 0 0; 11; 0; 0 0 3; 0; 0 1; 0",
    ),
    (
        "inherit is asked of every session, and of those with a role above the senior",
        "role 0; role 1; role 2; role 3; user 7; user 8; inherit 3 2; assign 7 3; assign 8 1; dsd 0 2 0 1; session 7 3; \
         session 8 1",
        "inherit 2 0; inherit 2 1; inherit 1 0; auth-roles 7; auth-roles 8; end 8 1; inherit 1 0; auth-roles 8; inherit 2 1; \
         drop 7 0 3; inherit 2 1; activate 7 0 3; session-roles 0",
        "0; 11; 11; 0 0 2 3; 0 1; 0; 0; 0 0 1; 11; 0; 0; 11; 0",
    ),
    (
        "inherit: 6 and 10 before 11, and done one below the cardinality",
        "role 0; role 1; role 2; user 7; inherit 1 0; assign 7 0; session 7 0; ssd 0 2 0 2; dsd 0 2 0 2; dsd 1 2 0 1",
        "inherit 0 2; nossd 0; inherit 0 2; inherit 0 1; nodsd 0; dsd 0 3 0 1 2; inherit 0 2",
        "10; 0; 11; 6; 0; 0; 0",
    ),
    (
        "9 before 11, and assign does not ask the rule of a DSD set",
        "role 0; role 1; role 2; user 7; inherit 2 0; assign 7 1; dsd 0 2 0 1; session 7 1",
        "session 7 1 2; activate 7 0 2; assign 7 2; auth-roles 7; session 7 1 2; activate 7 0 2; session 7 2",
        "9; 9; 0; 0 0 1 2; 11; 11; 0 1",
    ),
    (
        "dsd, dsd-add and dsd-card count inherited roles, and those of a line taken away no more",
        "role 0; role 1; role 2; role 3; user 7; inherit 2 1; inherit 1 0; assign 7 2; session 7 2",
        "dsd 0 2 0 2; dsd 0 2 0 1; dsd 0 2 2 3; dsd-add 0 0; dsd-roles 0; dsd 1 3 0 2 3; dsd-card 1 2; dsd-count 1; \
         disinherit 1 0; dsd-card 1 2; dsd-add 0 0; inherit 1 0",
        "11; 11; 0; 11; 0 2 3; 0; 11; 0 3; 0; 0; 0; 11",
    ),
    (
        "check counts the role that holds the grant, and none after it",
        "role 1; role 3; role 5; user 7; assign 7 1; assign 7 3; assign 7 5; session 7 1 3 5; grant 0 0 1; grant 0 1 3; grant 0 2 5",
        "check 0 0 0; check 0 0 1; check 0 0 2; check 0 0 3; grant 0 0 5; check 0 0 0; revoke 0 0 1; check 0 0 0; drop 7 0 3; \
         check 0 0 0; check 0 0 3",
        "0 1 1; 0 1 2; 0 1 3; 0 0 3; 0; 0 1 1; 0; 0 1 3; 0; 0 1 2; 0 0 2",
    ),
    (
        "check takes active and inherited roles alike in ascending order",
        "role 0; role 2; role 3; role 4; user 7; inherit 2 0; inherit 2 3; assign 7 2; assign 7 4; session 7 2 4; grant 1 0 0; \
         grant 1 0 2; grant 1 1 2; grant 1 2 3; grant 1 2 4; grant 1 3 4",
        "check 0 1 0; check 0 1 1; check 0 1 2; check 0 1 3; check 0 1 4; activate 7 0 3; check 0 1 2; disinherit 2 0; \
         check 0 1 0; check 0 1 3",
        "0 1 1; 0 1 2; 0 1 3; 0 1 4; 0 0 4; 0; 0 1 3; 0; 0 1 1; 0 1 3",
    ),
    (
        "check does not count in the order of the lines, down or up",
        "role 1; role 3; role 5; role 7; role 9; user 7; inherit 5 3; inherit 3 9; inherit 5 7; inherit 7 1; assign 7 5; \
         session 7 5; grant 2 1 1; grant 2 3 3; grant 2 5 5; grant 2 7 7; grant 2 9 9",
        "check 0 2 1; check 0 2 3; check 0 2 5; check 0 2 7; check 0 2 9; check 0 2 2",
        "0 1 1; 0 1 2; 0 1 3; 0 1 4; 0 1 5; 0 0 5",
    ),
    (
        "check looks on until a role holds the grant itself, and counts a role reached twice once",
        "role 0; role 1; role 2; role 3; user 7; inherit 0 3; inherit 1 3; inherit 0 2; assign 7 0; assign 7 1; session 7 0 1; \
         grant 3 0 3",
        "check 0 3 0; check 0 3 1; grant 3 0 2; check 0 3 0; grant 3 0 0; check 0 3 0",
        "0 1 4; 0 0 4; 0; 0 1 3; 0; 0 1 1",
    ),
    (
        "check looks at no other roles of the owner, nor at those of other sessions",
        "role 0; role 1; role 2; role 3; user 7; user 8; inherit 3 1; assign 7 0; assign 7 2; assign 7 3; assign 8 0; session 7 2; \
         session 7 0 3; session 8 0; grant 4 0 0; grant 4 2 2",
        "check 0 4 0; check 0 4 2; check 1 4 0; check 1 4 2; check 2 4 0; check 2 4 2",
        "0 0 1; 0 1 1; 0 1 1; 0 0 3; 0 1 1; 0 0 1",
    ),
    (
        "check with none active gives 0: as opened, dropped and shed",
        "role 0; role 2; user 7; inherit 2 0; assign 7 2; grant 5 0 0; session 7; session 7 2; session 7 0",
        "check 0 5 0; check 1 5 0; check 2 5 0; drop 7 1 2; check 1 5 0; activate 7 1 2; check 1 5 0; check 1 5 1; deassign 7 2; \
         check 1 5 0; check 2 5 0",
        "0 0 0; 0 1 1; 0 1 1; 0; 0 0 0; 0; 0 1 1; 0 0 2; 0; 0 0 0; 0 0 0",
    ),
    (
        "a check that is refused has no results",
        "role 0; user 7; assign 7 0; grant 0 0 0; session 7 0",
        "check 0 0 0; check 64 0 0; check 0 16 0; check 0 0 256; check 63 0 0; check 1 16 0; check 0 0; check 0 0 0 0; check 0 00 0",
        "0 1 1; 1; 1; 1; 2; 1; 14; 14; 14",
    ),
];

/// Name, lines to begin with that fill a table, lines after them, and the answers to these.
fn full_tables() -> Vec<(&'static str, String, &'static str, &'static str)> {
    let lines = &sections_of(&fullest())[LINES];
    let roles: String = (0..64).map(|role| format!("role {role}; ")).collect();
    let lines: String = lines.iter().map(|line| format!("inherit {} {}; ", line[0], line[1])).collect();
    let seniors = "role 0; role 1; role 2; role 3; user 7; inherit 2 0; inherit 3 1; assign 7 2; assign 7 3; dsd 0 2 0 1";
    vec![
        (
            "inherit: 11 before 12",
            format!("{roles}{lines}user 7; assign 7 0; session 7 0; dsd 0 2 1 63"),
            "inherit 1 63; inherit 63 62; nodsd 0; inherit 1 63",
            "11; 12; 0; 12",
        ),
        (
            "session: 11 before 12",
            seniors.to_string() + &"; session 7 2".repeat(64),
            "session 7 2 3; session 7 2; end 7 9; session 7 2 3; session 7 3",
            "11; 12; 0; 11; 0 9",
        ),
    ]
}

/// Name, lines to begin with by which a session has all 64 roles effective, lines after them, and the answers to these.
fn all_effective() -> Vec<(&'static str, String, &'static str, &'static str)> {
    let roles: String = (0..64).map(|role| format!("role {role}; ")).collect();
    let juniors: String = (0..64).filter(|role| *role != 31).map(|junior| format!("inherit 31 {junior}; ")).collect();
    let assignments: String = (0..64).map(|role| format!("assign 7 {role}; ")).collect();
    let list: String = (0..64).map(|role| format!(" {role}")).collect();
    let checks = "check 0 4 30; check 0 4 31; grant 4 31 63; check 0 4 31; grant 4 31 62; check 0 4 31; norole 62; check 0 4 31; \
                  grant 4 31 0; check 0 4 31; check 0 4 30";
    let answers = "0 0 64; 0 0 64; 0; 0 1 64; 0; 0 1 63; 0; 0 1 63; 0; 0 1 1; 0 0 63";
    vec![
        ("check with 63 roles inherited", format!("{roles}{juniors}user 7; assign 7 31; session 7 31"), checks, answers),
        ("check with 64 roles active", format!("{roles}user 7; {assignments}session 7{list}"), checks, answers),
    ]
}

/// Name, a damaged small file, and the answer.
fn files() -> Vec<(&'static str, Vec<u8>, &'static str)> {
    let small = sections_of(&small_state());
    let with = |section: usize, entries: &[&[u16]]| {
        let mut sections = small.clone();
        sections[section] = entries.iter().map(|entry| entry.to_vec()).collect();
        sections
    };
    let mut several = with(SSD, &[&[0, 2, 0, 2]]);
    several[DSD] = vec![vec![3, 2, 0, 2]];
    let dynamic_and_static = several.clone();
    several[ASSIGNMENTS] = vec![vec![9, 0]];
    let unauthorised_too = several.clone();
    several[DSD] = vec![vec![3, 65_535, 0, 2]];
    let misshapen_too = several.clone();
    several[LINES] = vec![vec![0, 2], vec![2, 0]];
    let [_, broken_by_inherited, static_too, not_authorised_too] = hierarchies();
    vec![
        ("no bytes", Vec::new(), "14"),
        ("lines that make a circle", write(&with(LINES, &[&[0, 2], &[2, 0]])), "6"),
        ("a line from a role to itself", write(&with(LINES, &[&[1, 1], &[2, 0]])), "6"),
        ("a line repeated", write(&with(LINES, &[&[2, 0], &[2, 0]])), "14"),
        ("a cardinality of 1", write(&with(SSD, &[&[0, 1, 0, 1]])), "7"),
        ("a cardinality of 65,535", write(&with(DSD, &[&[3, 65_535, 1, 2]])), "7"),
        ("an active role not authorised", write(&with(SESSIONS, &[&[0, 7, 1]])), "9"),
        ("a static rule broken", write(&with(SSD, &[&[0, 2, 0, 2]])), "10"),
        ("a dynamic rule broken", write(&with(DSD, &[&[3, 2, 0, 2]])), "11"),
        ("a dynamic rule broken by an inherited role", save(&broken_by_inherited), "11"),
        ("10 before 11 of an inherited role", save(&static_too), "10"),
        ("9 before 11 of an inherited role", save(&not_authorised_too), "9"),
        ("10 before 11", write(&dynamic_and_static), "10"),
        ("9 before 10", write(&unauthorised_too), "9"),
        ("7 before 9", write(&misshapen_too), "7"),
        ("6 before 7", write(&several), "6"),
        ("a user not listed", write(&with(ASSIGNMENTS, &[&[7, 2], &[8, 0]])), "14"),
        ("bytes left over", [save(&small_state()), vec![0]].concat(), "14"),
    ]
}

/// Whether the row is drawn up well: its word stands in no other row, a list comes last, the refusals rise, and it is made.
fn row_is_well(row: &Word) -> bool {
    let alone = WORDS.iter().filter(|word| word.text == row.text).count() == 1;
    let leading = row.takes.split_last().map_or(&[] as &[Takes], |(_, leading)| leading);
    alone && !leading.contains(&Takes::Roles) && row.refusals.windows(2).all(|pair| pair[0] < pair[1]) && row.often > 0
}

/// Runs every example and says whether all are right.
pub fn selftest() -> bool {
    let (mut right, mut wrong) = (0, 0);
    let mut test = |name: &str, found: &str, expected: &str| {
        if found == expected {
            right += 1;
        } else {
            wrong += 1;
            println!("selftest: WRONG: {name}: \"{}\" and not \"{}\"", found.escape_debug(), expected.escape_debug());
        }
    };
    let run = |script: &str| String::from_utf8_lossy(&script::run(script.as_bytes())).into_owned();

    for row in WORDS {
        test("the row of the word", if row_is_well(row) { "" } else { row.text }, "");
    }
    test("the example", &run(EXAMPLE), EXAMPLE_OUTPUT);
    test("the example without its last LF", &run(EXAMPLE.trim_end()), EXAMPLE_OUTPUT);
    test("the empty script", &run(""), "total 0 0\n");
    test("a script of 32,769 bytes", &run(&"\n".repeat(32_769)), "14\ntotal 0 1\n");
    test("a script of 32,768 bytes", run(&"\n".repeat(32_768)).lines().last().unwrap_or_default(), "total 0 32768");

    // What a script prints for its last lines, the total left out.
    let run_after = |beginning: &str, lines: &str| {
        let beginning = beginning.replace("; ", "\n");
        let output = run(&format!("{beginning}\n{}\n", lines.replace("; ", "\n")));
        let answers: Vec<&str> = output.lines().skip(beginning.lines().count()).collect();
        answers[..answers.len() - 1].join("; ")
    };
    let first_ten = EXAMPLE.lines().take(10).collect::<Vec<_>>().join("\n");
    for (name, lines, answers) in SHEET {
        test(name, &run_after(&first_ten, lines), answers);
    }
    let hex = |bytes: &[u8]| bytes.escape_ascii().to_string();
    test("P12", &hex(&save(&State::default())), &hex(&[0; 16]));
    for (name, beginning, lines, answers) in READINGS {
        test(name, &run_after(beginning, lines), answers);
    }
    for (name, beginning, lines, answers) in full_tables().into_iter().chain(all_effective()) {
        test(name, &run_after(&beginning, lines), answers);
    }

    for (name, bytes, answer) in files() {
        test(name, &hex(&reload(&bytes)), &format!("{answer}\\n"));
    }
    let [kept, ..] = hierarchies();
    for state in [State::default(), small_state(), kept, fullest()] {
        let saved = save(&state);
        test("a saved state loads as it was", &hex(&saved), &load(&saved).map_or("refused".into(), |loaded| hex(&save(&loaded))));
        test("reload prints 0 and the file", &hex(&reload(&saved)), &("0\\n".to_string() + &hex(&saved)));
    }
    test("the longest file", &save(&fullest()).len().to_string(), "35920");

    println!("selftest: {right} right, {wrong} wrong");
    wrong == 0
}
