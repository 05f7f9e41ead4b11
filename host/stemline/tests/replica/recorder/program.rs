//! Recorded lists through the proved program, by `scripts/recorded`.

use std::path::{Path, PathBuf};
use std::process::{Command, Output, Stdio};
use std::{fs, iter};

use model::drive::start_values;
use model::samples::Random;
use stemline::{Recorder, StationRecorder};

use super::{altered, drive, journal, stations, text, values};

/// The repository's top folder.
fn top() -> PathBuf {
    Path::new(env!("CARGO_MANIFEST_DIR")).join("../..")
}

/// Plays two files through the proved program.
fn recorded(files: &[&Path]) -> Output {
    let program = top().join("target/bin/replay");
    let words = "target/bin/replay is missing; make it with `scripts/program`";
    assert!(
        program.is_file(),
        "{words}, run in the repository's top folder"
    );
    let mut script = Command::new("bash");
    script.arg(top().join("scripts/recorded")).args(files);
    script.output().unwrap()
}

/// Makes and restarts of all kinds, and a station, in one list.
fn long_list(random: &mut Random) -> (String, String) {
    let lists = [None, Some(10), Some(500), Some(20_000)].map(|calls| {
        let (calls_out, answers_out) = (Vec::new(), Vec::new());
        let mut recorder = match calls {
            None => Recorder::new(3, 2, &values(random), calls_out, answers_out).unwrap(),
            Some(calls) => {
                let journal = journal(3, 2, calls, random);
                let values = start_values();
                let made = Recorder::restart(3, 2, &values, &journal, &[], calls_out, answers_out);
                made.unwrap().0
            }
        };
        drive(&mut recorder, (3, 2), 1_500, random);
        assert_eq!(recorder.stopped(), None);
        text(recorder)
    });
    let made = StationRecorder::new(3, 7, &values(random), Vec::new(), Vec::new());
    let mut station = made.unwrap();
    stations::drive(&mut station, 3, 3_000, random);
    assert_eq!(station.stopped(), None);
    lists.into_iter().chain([stations::text(station)]).unzip()
}

/// What the script says of two lists, and its status. The files have the test's name.
fn told(test: &str, calls: &str, answers: &str) -> (Option<i32>, String) {
    let folder = Path::new(env!("CARGO_TARGET_TMPDIR"));
    let [one, other] = ["calls", "answers"].map(|kind| folder.join(format!("{test}.{kind}")));
    fs::write(&one, calls).unwrap();
    fs::write(&other, answers).unwrap();
    let output = recorded(&[&one, &other]);
    let text = match output.stdout.is_empty() {
        true => output.stderr,
        false => output.stdout,
    };
    (output.status.code(), String::from_utf8(text).unwrap())
}

#[test]
fn the_proved_program_plays_the_same() {
    let (calls, answers) = long_list(&mut Random::new(2));
    let lines = calls.lines().count();
    assert!(lines > 6_000, "{lines}");
    // A make, a restart of each kind, a station.
    let count = |letter| {
        calls
            .lines()
            .filter(|line| line.starts_with(letter))
            .count()
    };
    assert_eq!(['M', 'Y', 'Z', 'A'].map(count), [3, 1, 1, 1]);
    let same = format!("{lines} calls, all answered as by the program\n");
    assert_eq!(told("same", &calls, &answers), (Some(0), same));
    for line in [1, 2, lines / 2, lines] {
        let mut pairs = iter::zip(calls.lines(), answers.lines());
        let (call, answer) = pairs.nth(line - 1).unwrap();
        let words = format!(
            "line {line} differs\n  call:     {call}\n  replica:  {answer}0\n  program:  {answer}\n"
        );
        let altered = altered(&answers, line);
        assert_eq!(told("altered", &calls, &altered), (Some(1), words));
    }
}

/// An answer is missing, or a call.
#[test]
fn lists_of_other_lengths() {
    let calls = "M 0 2 0 0\n".repeat(3);
    for (answers, line) in [(0, 1), (1, 2), (2, 3), (4, 4)] {
        let (code, text) = told("lengths", &calls, &"0\n".repeat(answers));
        assert_eq!(code, Some(2), "{text}");
        let words = match line {
            4 => "an answer and no call",
            _ => "a call and no answer",
        };
        let words = format!("recorded: line {line} has {words}; the lines before it are");
        assert!(text.contains(&words), "{text}");
    }
    assert_eq!(told("lengths", &calls, "0\n0\n0").0, Some(0));
}

#[test]
fn wrong_use_of_the_script() {
    let there = top().join("README.md");
    let none = there.with_file_name("no such file");
    for files in [
        &[][..],
        &[&there],
        &[&there, &none],
        &[&none, &there],
        &[&there, &there, &there],
    ] {
        let files: Vec<&Path> = files.iter().map(|path: &&PathBuf| path.as_path()).collect();
        let output = recorded(&files);
        assert_eq!(output.status.code(), Some(2), "{files:?}");
        let words = String::from_utf8(output.stderr).unwrap();
        assert_eq!(words.lines().count(), 1, "{words}");
    }
}

/// Files of any name, by a script that is called through a link.
#[test]
fn names_of_files() {
    let room = Path::new(env!("CARGO_TARGET_TMPDIR")).join("recorded names");
    let _ = fs::remove_dir_all(&room);
    fs::create_dir_all(&room).unwrap();
    let link = room.join("link");
    std::os::unix::fs::symlink(top().join("scripts/recorded"), &link).unwrap();
    for names in [
        ["-", "answers"],
        ["calls", "-"],
        ["-x", "a=b"],
        ["--", "a\\n"],
    ] {
        fs::write(room.join(names[0]), "M 0 2 0 0\nB 0\n").unwrap();
        fs::write(room.join(names[1]), "0\n0 1\n").unwrap();
        let mut script = Command::new("./link");
        script.current_dir(&room).args(names).stdin(Stdio::null());
        let said = script.output().unwrap();
        let text = String::from_utf8(said.stdout).unwrap();
        assert_eq!(
            text, "2 calls, all answered as by the program\n",
            "{names:?}"
        );
        assert_eq!(said.status.code(), Some(0), "{names:?}");
    }
}
