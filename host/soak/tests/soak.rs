//! The program, and that a killed group is found out if it loses something.

use std::fs::{self, OpenOptions};
use std::panic::{catch_unwind, AssertUnwindSafe};
use std::path::{Path, PathBuf};
use std::process::{Command, Output};

use model::block::BLOCK;
use soak::crash::{journal, Crash};
use soak::studio::lent;
use stemline::HEAD;

const PROGRAM: &str = env!("CARGO_BIN_EXE_soak");

fn soak(words: &[&str]) -> Output {
    Command::new(PROGRAM).args(words).output().unwrap()
}

fn text(bytes: &[u8]) -> &str {
    std::str::from_utf8(bytes).unwrap()
}

#[test]
fn a_short_one() {
    let ran = soak(&["--calls", "20000", "--kills", "2", "--seed", "21"]);
    assert_eq!((ran.status.code(), text(&ran.stderr)), (Some(0), ""));
    let said: Vec<&str> = text(&ran.stdout).lines().collect();
    assert_eq!(said.len(), 4, "{said:?}");
    let calls = said[0]
        .strip_prefix("soak: ")
        .and_then(|line| line.split_once(" calls, "));
    let (calls, rest) = calls.unwrap();
    let calls: u64 = calls.replace(',', "").parse().unwrap();
    assert!((20_000..50_000).contains(&calls), "{said:?}");
    assert!(
        rest.contains(" commits, 2 kills, 0 differences; "),
        "{said:?}"
    );
    assert!(said[1].starts_with("soak: compared: "), "{said:?}");
    assert!(said[2].starts_with("soak: compared: givings: "), "{said:?}");
    assert!(said[3].starts_with("soak: killed: "), "{said:?}");
    assert!(said[3].ends_with("; nothing lost"), "{said:?}");
}

/// A status of 2, and one line in words.
fn cannot_begin(ran: &Output) {
    assert_eq!((ran.status.code(), text(&ran.stdout)), (Some(2), ""));
    let said = text(&ran.stderr);
    let one = said.lines().count() == 1;
    assert!(said.starts_with("soak: ") && one, "{said}");
}

#[test]
fn bad_words() {
    for words in [&["--calls"][..], &["--calls", "x"], &["--hel"], &["1"]] {
        cannot_begin(&soak(words));
    }
    let mut nowhere = Command::new(PROGRAM);
    cannot_begin(&nowhere.env("TMPDIR", "/dev/null").output().unwrap());
    let ran = soak(&["--help"]);
    assert_eq!(ran.status.code(), Some(0));
    assert!(text(&ran.stdout).starts_with("usage: scripts/soak "));
}

/// What cannot be printed is said, with 2, and no folder is left.
#[test]
#[cfg(target_os = "linux")]
fn full_disk() {
    let room = Path::new(env!("CARGO_TARGET_TMPDIR")).join("full");
    fs::create_dir_all(&room).unwrap();
    for words in [&["--help"][..], &["--calls", "1"], &["--kills", "1"]] {
        let full = OpenOptions::new().write(true).open("/dev/full").unwrap();
        let mut command = Command::new(PROGRAM);
        command.args(words).env("TMPDIR", &room).stdout(full);
        let ran = command.output().unwrap();
        let said = text(&ran.stderr);
        assert!(said.starts_with("soak: cannot print: "), "{said}");
        assert_eq!((said.lines().count(), ran.status.code()), (1, Some(2)));
        assert_eq!(fs::read_dir(&room).unwrap().count(), 0, "{words:?}");
    }
}

/// A group that was killed until each replica's journal has some blocks.
fn killed(name: &str) -> (Crash, PathBuf) {
    let room = Path::new(env!("CARGO_TARGET_TMPDIR")).join(name);
    let mut crash = Crash::new(&room, 3);
    let blocks = |k| lent(&journal(&room, k)).len() / BLOCK;
    let mut kills = 0;
    while (0..3).any(|k| blocks(k) < 6) {
        crash.kill(Command::new(PROGRAM));
        kills += 1;
        assert!(kills < 400, "no blocks");
    }
    (crash, room)
}

/// Whether the check of a killed group passes.
fn passes(crash: Crash) -> bool {
    catch_unwind(AssertUnwindSafe(|| crash.rest())).is_ok()
}

#[test]
fn nothing_lost() {
    assert!(passes(killed("kept").0));
}

/// The end of a journal, from the last own block on, with both copies; and the whole of it.
#[test]
fn a_loss_is_found() {
    for whole in [false, true] {
        let (crash, room) = killed("lost");
        let mut file = fs::read(journal(&room, 1)).unwrap();
        file[4_096..HEAD].fill(0);
        let floor = crash.log.observer.journal(1).floor();
        file.truncate(if whole { 0 } else { HEAD + floor - BLOCK });
        fs::write(journal(&room, 1), file).unwrap();
        assert!(!passes(crash), "the whole journal: {whole}");
    }
}

/// The end alone is mended from the copies.
#[test]
fn a_loss_is_mended() {
    let (crash, room) = killed("mended");
    for k in 0..3 {
        let floor = crash.log.observer.journal(k).floor();
        let file = OpenOptions::new().write(true).open(journal(&room, k));
        let left = HEAD + floor - BLOCK - 9;
        file.unwrap().set_len(left as u64).unwrap();
    }
    assert!(passes(crash));
}
