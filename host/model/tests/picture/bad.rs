//! Input that cannot be drawn: one line in words, status 2, and no file.

use std::fs;
use std::path::Path;
use std::process::Command;
use std::sync::atomic::{AtomicUsize, Ordering};

use crate::{file, python, room, top};

const CALLS: &str = "M 0 2 0 0\nM 1 2 1 0\nB 0\nW 0 1 5 40\nC 0 1\n";
const ANSWERS: &str = "0\n0\n0 1\n0\n0 0\n";

/// What is said of two files; none where there is no `python3`.
fn said(calls: &str, answers: &str, options: &[&str]) -> Option<String> {
    // Tests run side by side.
    static COUNT: AtomicUsize = AtomicUsize::new(0);
    let count = COUNT.fetch_add(1, Ordering::Relaxed);
    let [one, other, picture] =
        ["calls", "out", "svg"].map(|kind| room(&format!("bad{count}.{kind}")));
    fs::write(&one, calls).unwrap();
    fs::write(&other, answers).unwrap();
    let _ = fs::remove_file(&picture);
    let words = [options, &[&one[..], &other, &picture]].concat();
    let said = python("scripts/picture", &words)?;
    let text = String::from_utf8(said.stderr).unwrap();
    let drawn = Path::new(&picture).exists();
    assert_eq!(
        (said.status.code(), drawn),
        (Some(if text.is_empty() { 0 } else { 2 }), text.is_empty()),
        "{text}"
    );
    assert!(said.stdout.is_empty());
    Some(text)
}

/// That this is said, in one line.
fn refused(calls: &str, answers: &str, options: &[&str], due: &str) {
    if let Some(text) = said(calls, answers, options) {
        assert!(
            text.starts_with("picture: ") && text.contains(due),
            "{due}: {text:?}"
        );
        assert_eq!(
            (text.matches('\n').count(), text.ends_with('\n')),
            (1, true),
            "{text:?}"
        );
    }
}

#[test]
fn answers_that_do_not_fit() {
    assert!(said(CALLS, ANSWERS, &[]).unwrap_or_default().is_empty());
    refused(
        CALLS,
        &ANSWERS[2..],
        &[],
        "has 5 lines, to which 5 answers fit, and",
    );
    refused(CALLS, &format!("{ANSWERS}0\n"), &[], "has 6 lines");
    refused("", "", &[], "has no calls");
    for (call, answer, due) in [
        ("S 0", "0", "line 6 is answered 0, which is no answer to it"),
        (
            "S 0",
            "0 00",
            "line 6 sends, and is not answered by a block",
        ),
        ("B 0", "0 2 3", "which is no answer to it"),
        (
            "B 0",
            "22",
            "line 6 is answered 22, which is no answer to it",
        ),
        ("B 0", "-1", "which is no answer to it"),
        (
            "B 0",
            "21",
            "line 6 is answered 21, which is no answer to it",
        ),
        ("D 0 0", "26", "line 6 is answered 26, which is no answer"),
        ("V 0", "1", "line 6 is answered 1, which is no answer to it"),
        ("B 0", "", "line 6 is answered by an empty line"),
        ("B 5", "5", "line 6 is at a place where nothing is made"),
        ("B 8", "0 1", "line 6 is no call of the format"),
        ("# note", "0", "line 6 is no call of the format"),
        (
            "K 0",
            "0 1 1 1 0",
            "works on ticket 1 of replica 1, which was not delivered there",
        ),
        ("K 0", "0 0 0 1 0", "works on an empty block of replica 0"),
        ("K 0", "0 1 1 1 1", "is said to abort 1, and 0 are named"),
        ("O 0 1 5", "29", "line 6 is answered 29, which is no answer"),
        (
            "U 0 1 5",
            "0 1",
            "line 6 is answered 0 1, which is no answer",
        ),
        ("O 0 1", "0", "line 6 is no call of the format"),
        ("G 0 0 0", "21", "line 6 is answered 21, which is no answer"),
        (
            "G 0 0 0",
            "30 1",
            "line 6 is answered 30 1, which is no answer",
        ),
        ("G 0 0 0", "31", "line 6 is answered 31, which is no answer"),
        (
            "G 0 0 0",
            "0 1",
            "line 6 is answered 0 1, which is no answer",
        ),
        (
            "G 0 0 0",
            "0 1 1",
            "line 6 is answered 0 1 1, which is no answer",
        ),
        ("G 0 0 0 0", "0 1 0", "line 6 tells turns of others"),
        ("G 0 0 0", "0 2 0", "line 6 tells turns of others"),
        (
            "G 0 0 0",
            "19 1 0",
            "is ended by 19, and all that it is about is given",
        ),
        (
            "G 0 0 0",
            "0 1 1 7",
            "aborts ticket 7, which is not open there",
        ),
        ("G 0", "30", "line 6 is no call of the format"),
        (
            "D 0 0",
            "0",
            "delivers block 0, which was not sent before it",
        ),
        ("H 0 00", "0", "delivers 1 bytes, and is accepted"),
        ("W 0 7 5 1", "0", "ticket 7 is not open there"),
        (
            "Z 0 0 0",
            &format!("0 1 {}", "00".repeat(512)),
            "is said to commit 1 blocks",
        ),
    ] {
        refused(
            &format!("{CALLS}{call}\n"),
            &format!("{ANSWERS}{answer}\n"),
            &[],
            due,
        );
    }
}

#[test]
fn weeks_that_do_not_fit() {
    let (calls, answers) = (
        "N 2\nB 0\nW 0 1 5 40\nC 0 1\nS 0\nD 1 0\nK 1\n",
        "0\n0\n0\n0\n0\n0\n0 0 0 1\n1 1 1 0\n",
    );
    assert!(said(calls, answers, &[]).unwrap_or_default().is_empty());
    refused(
        calls,
        &answers[2..],
        &[],
        "has 7 lines, to which 8 answers fit",
    );
    refused(
        calls,
        &answers.replace("1 1 1 0", "1 1 2 0"),
        &[],
        "the answers end with 1 1 2 0, and the calls before them with 1 1 1 0",
    );
    for (call, answer, due) in [
        ("K 0", "0", "no block waits there for turn 0"),
        ("D 0 1", "0", "block 1 is not kept"),
        ("D 0 0", "26", "line 8 is answered 26"),
        ("D 0 1", "20", "line 8 is answered 20"),
        ("S 1", "29", "line 8 is answered 29, which is no answer"),
        ("O 0 1 2", "0", "line 8 is answered 0, and is no call"),
        ("B 2", "5", "line 8 is answered 5, and is no call"),
        ("B 0", "27", "line 8 is answered 27, and is a call"),
        ("B 0", "x", "which is no answer to it"),
        (
            "B 0",
            "26",
            "line 8 is answered 26, which is no answer to it",
        ),
    ] {
        let (before, table) = answers.split_at(12);
        refused(
            &format!("{calls}{call}\n"),
            &format!("{before}{answer}\n{table}"),
            &[],
            due,
        );
    }
}

/// The numbers that each call is refused by are those of the specification.
#[test]
fn refusals_by_call() {
    let text = file("docs/SPECIFICATION.md");
    let rows = text
        .split("| Call | Refused by, in this order |\n|---|---|\n")
        .nth(1);
    let rows = rows
        .unwrap()
        .lines()
        .take_while(|line| line.starts_with('|'));
    let mut due = vec!["J".to_string(), "V".to_string()];
    let mut delivers = Vec::new();
    for row in rows {
        let fields: Vec<&str> = row.split('|').map(str::trim).collect();
        let letters = match fields[1] {
            "make, restart, a station's make" => "MZYA",
            "begin" => "B",
            "read" => "R",
            "write" => "W",
            "ask, withdraw" => "CX",
            "report" => "Q",
            "load" => "P",
            "notice" => "OU",
            "send" => "S",
            "deliver" => "DFH",
            "work" => "K",
            "giving" => "G",
            // No line of a list.
            "who gives" => "",
            other => panic!("{other} is a call that pictures do not know"),
        };
        let in_text = |text: &str| -> Vec<u32> {
            let numbers = text.split(|sign: char| !sign.is_ascii_digit());
            numbers.filter_map(|number| number.parse().ok()).collect()
        };
        let mut numbers = in_text(fields[2]);
        // Behind its own a giving has those of a deliver.
        if letters == "G" {
            numbers = in_text(fields[2].split(';').next().unwrap());
            numbers.extend(&delivers);
        } else if letters == "DFH" {
            delivers.clone_from(&numbers);
        }
        numbers.sort();
        numbers.dedup();
        let numbers: String = numbers.iter().map(|number| format!(" {number}")).collect();
        due.extend(letters.chars().map(|letter| format!("{letter}{numbers}")));
    }
    due.sort();
    let script =
        "import sys; sys.path.insert(0, 'scripts'); from picturing.words import REFUSED_BY\n\
        for letter in sorted(REFUSED_BY): print(letter, *sorted(REFUSED_BY[letter]))";
    let mut command = Command::new("python3");
    let Ok(said) = command
        .args(["-B", "-c", script])
        .current_dir(top())
        .output()
    else {
        return;
    };
    let said = String::from_utf8(said.stdout).unwrap();
    assert!(said.lines().eq(&due), "{said}{due:?}");
}

#[test]
fn options() {
    for (options, due) in [
        (
            &["--from", "0"][..],
            "--from is '0', and not a number from 1 to 5",
        ),
        (&["--from", "6"], "--from is '6'"),
        (
            &["--from", "4", "--to", "3"],
            "--to is '3', and not a number from 4 to 5",
        ),
        (&["--to", "x"], "--to is 'x'"),
        (
            &["--items", "128"],
            "--items is '128', and not a number from 0 to 127",
        ),
        (&["--items", "5,"], "--items is ''"),
        (
            &["--places", "2"],
            "--places names 2, where nothing is made",
        ),
        (
            &["--columns", "9"],
            "--columns is '9', and not a number from 10 to 200",
        ),
        (
            &["--name", "stem of n"],
            "'stem of n' is not an item and its name",
        ),
        (&["--name", "200=stem"], "the item of a name is '200'"),
        (&["--name", "5="], "is not an item and its name"),
        (
            &["--names", "no such file"],
            "no such file cannot be read: No such file or directory",
        ),
        (&["--item", "5"], "unrecognized arguments"),
        (&["--from"], "arguments are required"),
    ] {
        refused(CALLS, ANSWERS, options, due);
    }
    refused("# a note\n", "?\n", &[], "lines 1 to 1 have no calls");
    refused("B 0\n", "?\n", &[], "nothing is made up to line 1");
}

/// Files that are none, a picture that cannot be written, and what `--help` says.
#[test]
fn files() {
    let [calls, answers] = ["files.calls", "files.out"].map(room);
    fs::write(&calls, CALLS).unwrap();
    fs::write(&answers, ANSWERS).unwrap();
    let (none, picture) = (room("none/file"), room("files.svg"));
    for words in [
        &[][..],
        &[&calls, &answers],
        &[&none, &answers, &picture],
        &[&calls, &none, &picture],
        &[&calls, &answers, &none],
    ] {
        let words: Vec<&str> = words.iter().map(|word: &&String| word.as_str()).collect();
        let Some(said) = python("scripts/picture", &words) else {
            return;
        };
        let text = String::from_utf8(said.stderr).unwrap();
        assert_eq!(
            (said.status.code(), text.matches('\n').count()),
            (Some(2), 1),
            "{text}"
        );
    }
    let help = python("scripts/picture", &["--help"]).unwrap();
    let text = String::from_utf8(help.stdout).unwrap();
    for word in [
        "--from",
        "--to",
        "--items",
        "--places",
        "--name ",
        "--names",
        "--columns",
        "--title",
        "CALLS",
    ] {
        assert!(text.contains(word), "{word}");
    }
    let drawn = python("scripts/picture", &[&calls, &answers, "-"]).unwrap();
    assert!(drawn.stdout.starts_with(b"<svg "));
}
