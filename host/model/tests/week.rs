//! The stored weeks of the program `week`: the model writes the same.

use std::collections::BTreeMap;
use std::path::{Path, PathBuf};

use model::week::{self, Week};

/// What the program reads at once, and from what on it writes the answers that it holds.
const READ: usize = 65_536;
const HELD: usize = 61_440;

/// Where a file of the repository is.
fn path(name: &str) -> PathBuf {
    let top = Path::new(env!("CARGO_MANIFEST_DIR")).join("../..");
    top.join(name)
}

fn file(name: &str) -> Vec<u8> {
    let path = path(name);
    std::fs::read(&path).unwrap_or_else(|error| panic!("{}: {error}", path.display()))
}

fn output(input: &[u8]) -> Vec<u8> {
    let mut output = Vec::new();
    week::run(input, &mut output).unwrap();
    output
}

/// The examples, of which there are no others, and the long week.
#[test]
fn stored_weeks() {
    let mut names = Vec::new();
    for (name, input) in week::examples() {
        let stored_as = format!("examples/week-{name}");
        stored(
            &input,
            &format!("{stored_as}.lines"),
            &format!("{stored_as}.out"),
        );
        names.extend([format!("week-{name}.lines"), format!("week-{name}.out")]);
    }
    stored(&week::stored(), "crates/week/stdin", "crates/week/stdout");
    let files = std::fs::read_dir(path("examples")).unwrap();
    let files = files.map(|file| file.unwrap().file_name().into_string().unwrap());
    let mut files: Vec<String> = files.filter(|name| name.starts_with("week-")).collect();
    files.sort();
    names.sort();
    assert_eq!(files, names);
}

/// The files are the week and what it prints.
fn stored(input: &[u8], stored_as: &str, printed_as: &str) {
    assert!(file(stored_as) == input, "{stored_as}");
    assert!(file(printed_as) == output(input), "{printed_as}");
}

/// The answers to one read are more than the program holds, twice.
#[test]
fn empty_lines() {
    let (input, printed) = (
        file("examples/week-empty.lines"),
        file("examples/week-empty.out"),
    );
    assert!(input.len() < READ, "{}", input.len());
    assert!(printed.len() > 2 * HELD, "{}", printed.len());
}

/// The long week: four replicas that all go on, every number that a week can give, a last line without
/// line feed.
#[test]
fn the_long_week() {
    let input = week::stored();
    assert!(input.starts_with(b"N 4\n") && !input.ends_with(b"\n"));
    // The first read ends within a line, the second just behind one; a third follows.
    assert!(!input[READ - 1..=READ].contains(&b'\n'));
    assert_eq!(input[2 * READ - 1], b'\n');
    let mut lines = input.split(|&byte| byte == b'\n');
    let mut week = Week::begin(lines.next().unwrap()).unwrap();
    let mut seen = BTreeMap::<u8, usize>::new();
    for line in lines {
        *seen.entry(week.answer(line)).or_default() += 1;
    }
    println!("{seen:?}");
    assert!(seen.values().sum::<usize>() > 15_000, "{seen:?}");
    let due = [0, 2, 3, 4, 5, 7, 8, 9, 10, 11, 12, 17, 20, 21, 26, 27];
    assert!(seen.keys().eq(&due), "{seen:?}");
    for replica in week.replicas() {
        let report = replica.report();
        assert!(report.turn > 32 && report.commits > 100, "{report:?}");
    }
}
