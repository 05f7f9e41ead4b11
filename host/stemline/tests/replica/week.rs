//! The proved program `week` beside the model's, and its manual page.

use std::fs::{File, OpenOptions};
use std::io::Write;
use std::path::{Path, PathBuf};
use std::process::{Command, Stdio};

use model::week::{self, KEPT, MOST};

use crate::c::say;
use crate::seeds::Seeds;

const PAGE: &str = include_str!("../../../../docs/week.1");
const FORMAT: &str = include_str!("../../../model/src/week.rs");

/// The program, where it is built.
fn program() -> Option<PathBuf> {
    let program = Path::new(env!("CARGO_MANIFEST_DIR")).join("../../target/bin/week");
    if !program.is_file() {
        say("week: NOT played, target/bin/week is missing; `scripts/program week` makes it");
        return None;
    }
    Some(program)
}

fn due(input: &[u8]) -> Vec<u8> {
    let mut output = Vec::new();
    week::run(input, &mut output).unwrap();
    output
}

/// What the program prints, which writes nothing to standard error.
fn printed(program: &Path, input: &[u8]) -> Vec<u8> {
    let mut command = Command::new(program);
    command.stdin(Stdio::piped()).stdout(Stdio::piped());
    let mut child = command.stderr(Stdio::piped()).spawn().unwrap();
    let mut stdin = child.stdin.take().unwrap();
    let text = input.to_vec();
    let writer = std::thread::spawn(move || stdin.write_all(&text));
    let output = child.wait_with_output().unwrap();
    // The program reads no more once the first line is wrong.
    let _ = writer.join().unwrap();
    assert_eq!(
        (output.status.code(), &output.stderr[..]),
        (Some(0), &b""[..])
    );
    output.stdout
}

#[test]
fn random_weeks() {
    let Some(program) = program() else { return };
    Seeds::new(150).each(|seed| {
        let input = week::seeded(seed, 400);
        assert!(printed(&program, &input) == due(&input), "seed {seed}");
    });
}

/// The stored weeks, cut at each of their first bytes and at some later ones.
#[test]
fn cut_weeks() {
    let Some(program) = program() else { return };
    for input in [week::SEVEN.as_bytes().to_vec(), week::forgotten_blocks()] {
        for end in (0..60).chain([input.len() - 2, input.len() - 1, input.len()]) {
            let input = &input[..end.min(input.len())];
            let text = input.escape_ascii().to_string();
            assert_eq!(printed(&program, input), due(input), "{text}");
        }
    }
}

/// First lines that begin a week and such that do not, of any length, and lines longer than any buffer.
#[test]
fn first_and_long_lines() {
    let Some(program) = program() else { return };
    let firsts = "|N|N |N 0|N 1|N 2|N 3|N 4|N 5|N 10|N 02|N +2|N 2 | N 2|N  2|N 2\r|n 2|N2|NN 2|B 0|N 2 0|\0";
    for first in firsts.split('|') {
        for rest in ["", "\n", "\nB 0\nB 1\nB 2\nB 3\nB 4", "\n\n\n"] {
            let input = format!("{first}{rest}");
            assert_eq!(
                printed(&program, input.as_bytes()),
                due(input.as_bytes()),
                "{input:?}"
            );
        }
    }
    for length in (30..70).chain([4_096, 65_530, 65_536, 65_537, 131_072, 200_001]) {
        for line in ["N 2", "B 0", "W 0 1 5 "] {
            let long = format!("{line}{}", "7".repeat(length - line.len()));
            let spaces = format!("{line}{}", " ".repeat(length - line.len()));
            let input = format!("N 2\nB 0\n{long}\n{spaces}\nB 0\n{long}");
            assert_eq!(
                printed(&program, input.as_bytes()),
                due(input.as_bytes()),
                "{line}, {length}"
            );
            assert_eq!(
                printed(&program, long.as_bytes()),
                due(long.as_bytes()),
                "{line}, {length}"
            );
        }
    }
}

/// Input that cannot be read, a folder: the answer is that of no first line, and no line was answered.
#[test]
fn input_that_cannot_be_read() {
    let Some(program) = program() else { return };
    let folder = File::open("/").unwrap();
    let mut command = Command::new(program);
    let ran = command.stdin(Stdio::from(folder)).output().unwrap();
    assert_eq!(ran.stdout, due(b""));
    let said = String::from_utf8(ran.stderr).unwrap();
    let words = "week: cannot read standard input; lines answered: 0\n";
    assert_eq!(said, words);
}

/// On a full disk: one line on standard error, whether the answers are first written at the end of the week,
/// before another read, or when too many are held.
#[test]
fn output_that_cannot_be_written() {
    let Some(program) = program() else { return };
    let full = || OpenOptions::new().write(true).open("/dev/full");
    if full().is_err() {
        say("week on a full disk: NOT tried, there is no /dev/full");
        return;
    }
    let top = Path::new(env!("CARGO_MANIFEST_DIR")).join("../..");
    for stored in [
        "examples/week-none.lines",
        "examples/week-two.lines",
        "examples/week-seven.lines",
        "examples/week-empty.lines",
        "crates/week/stdin",
    ] {
        let input = File::open(top.join(stored)).unwrap();
        let mut command = Command::new(&program);
        command.stdin(Stdio::from(input));
        let ran = command.stdout(Stdio::from(full().unwrap())).output();
        let said = String::from_utf8(ran.unwrap().stderr).unwrap();
        let words = "week: cannot write standard output; lines answered: 0\n";
        assert_eq!(said, words, "{stored}");
    }
}

/// The lines between two comments of the page.
fn between(begin: &str) -> Vec<&'static str> {
    let lines = PAGE.lines().skip_while(|line| !line.ends_with(begin));
    lines
        .skip(1)
        .take_while(|line| !line.starts_with(".\\\""))
        .collect()
}

/// Each line of the format has an entry on the page, which has no others but the first line; and its
/// limits, its version and its example are the program's.
#[test]
fn the_manual_page() {
    let rows = FORMAT
        .lines()
        .filter_map(|line| line.strip_prefix("//! | `"));
    let lines: Vec<&str> = rows.filter_map(|row| row.split('`').next()).collect();
    let entries = PAGE.lines().zip(PAGE.lines().skip(1));
    let entries = entries.filter(|(line, _)| *line == ".TP");
    let entries: Vec<&str> = entries
        .filter_map(|(_, line)| line.strip_prefix(".B "))
        .collect();
    assert_eq!((entries[0], &entries[1..]), ("N n", &lines[..]));
    assert_eq!(lines.len(), 6);
    for words in [
        format!("Replicas: {MOST}."),
        format!("the last {KEPT} that were sent"),
        format!("\"Stemline {}\"", env!("CARGO_PKG_VERSION")),
    ] {
        assert!(PAGE.contains(&words), "{words}");
    }
    let input = format!("{}\n", between("the lines ..").join("\n"));
    assert_eq!(input, week::SEVEN);
    let answers = format!("{}\n", between("and the answers ..").join("\n"));
    assert_eq!(answers.into_bytes(), due(input.as_bytes()));
}
