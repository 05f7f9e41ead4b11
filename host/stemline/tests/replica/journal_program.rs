//! The program `journal`: what it prints, and its status.

mod outputs;

use std::ffi::OsStr;
use std::fs;
use std::io::Write;
use std::path::{Path, PathBuf};
use std::process::{Command, Output, Stdio};
use std::sync::atomic::{AtomicU32, Ordering};

use model::block::{put_check, BLOCK};
use model::drive::{start_values, STYLES};
use model::samples::{block_of, damage, Random};
use stemline::{notices_path, Durable, Replica, HEAD};

use crate::looks::{digits, read_through, sizes};
use crate::restarts;
use crate::seeds::Seeds;

fn program(arguments: &[impl AsRef<OsStr>]) -> Command {
    let mut command = Command::new(env!("CARGO_BIN_EXE_journal"));
    command.args(arguments);
    command
}

/// What a run prints, what it says on standard error, and its status.
fn said(output: Output) -> (String, String, i32) {
    let text = |bytes| String::from_utf8(bytes).unwrap();
    let status = output.status.code().expect("a status");
    (text(output.stdout), text(output.stderr), status)
}

fn run(arguments: &[impl AsRef<OsStr>]) -> (String, String, i32) {
    said(program(arguments).output().unwrap())
}

/// A run with this as its standard input.
fn run_on(arguments: &[&str], input: &[u8]) -> (String, String, i32) {
    let mut command = program(arguments);
    command.stdin(Stdio::piped());
    command.stdout(Stdio::piped()).stderr(Stdio::piped());
    let mut child = command.spawn().unwrap();
    child.stdin.take().unwrap().write_all(input).unwrap();
    said(child.wait_with_output().unwrap())
}

/// A file with these bytes, for one test.
fn file(name: &str, bytes: &[u8]) -> PathBuf {
    let path = Path::new(env!("CARGO_TARGET_TMPDIR")).join(name);
    fs::write(&path, bytes).unwrap();
    path
}

/// The head of a new journal of replica 1 of `n`.
fn head(n: u32) -> Vec<u8> {
    static MADE: AtomicU32 = AtomicU32::new(0);
    let name = format!("journal-head-{}", MADE.fetch_add(1, Ordering::Relaxed));
    let path = Path::new(env!("CARGO_TARGET_TMPDIR")).join(name);
    let _ = fs::remove_file(&path);
    drop(Durable::open(&path, "grotesque", n, 1, &start_values()).unwrap());
    let head = fs::read(&path).unwrap();
    fs::remove_file(&path).unwrap();
    head
}

/// What `show` and `check` print of a file: both the first and the last, `show` the lines between.
#[track_caller]
fn prints(path: &Path, first: &[&str], lines: &[&str], last: &str, status: i32) {
    let due = [first, lines, &[last, ""]].concat().join("\n");
    let show = [OsStr::new("show"), path.as_os_str()];
    assert_eq!(run(&show), (due, String::new(), 0));
    let check = [OsStr::new("check"), path.as_os_str()];
    let due = [first, &[last, ""]].concat().join("\n");
    assert_eq!(run(&check), (due, String::new(), status));
}

/// Of the blocks of a journal of 3.
#[track_caller]
fn looks(bytes: &[u8], lines: &[&str], last: &str, status: i32) {
    let path = file("journal-looks", &[&head(3), bytes].concat());
    let first =
        "replica 1 of 3 of the group \"grotesque\", version 1, start 1c1d552adf88173d; no copies";
    prints(&path, &[first], lines, last, status);
}

/// Files with no head, and with one that is not whole.
#[test]
fn heads() {
    let mut head = head(3);
    let at = |bytes: &[u8]| file("journal-heads", bytes);
    prints(&at(b""), &[], &[], "is empty: a journal not yet begun", 0);
    let missing = "is not to be taken up: it is no journal, or of before there were heads: the mark is missing";
    prints(&at(b"stems\n"), &[], &[], missing, 1);
    prints(&at(&block_of(3, 0, &[])), &[], &[], missing, 1);
    let short = "is not to be taken up: it ends within its head";
    prints(&at(&head[..HEAD - 1]), &[], &[], short, 1);
    prints(&at(&head[..100]), &[], &[], short, 1);
    head[40] ^= 1;
    let damaged = "is not to be taken up: its head is damaged: the check does not match";
    prints(&at(&head), &[], &[], damaged, 1);
}

/// The notices beside a journal, the slots that they put out, and what is said where they are lost.
#[test]
fn notices() {
    let path = Path::new(env!("CARGO_TARGET_TMPDIR")).join("journal-notices");
    let beside = notices_path(&path);
    let _ = (fs::remove_file(&path), fs::remove_file(&beside));
    let (mut replica, _) = Durable::open(&path, "grotesque", 2, 1, &start_values()).unwrap();
    replica.out(0, 0).unwrap();
    replica.work().unwrap();
    let block = replica.send().unwrap();
    replica.take(&block).unwrap();
    replica.back(0, 3).unwrap();
    drop(replica);
    let first = "replica 1 of 2 of the group \"grotesque\", version 2, start 1c1d552adf88173d; \
        copies of slots 0 to 1 and 2 to 2";
    let lines = [
        "notice: Out 0 from 0",
        "notice: Back 0 at 3",
        "slot 0 of replica 0 of 2: nothing, out",
        "slot 1 of replica 1 of 2: nothing",
        "slot 2 of replica 0 of 2: nothing, out",
    ];
    let last = "ends after 3 blocks, at byte 13824";
    prints(&path, &[&format!("{first}; 2 notices")], &lines, last, 0);
    let lost = fs::read(&beside).unwrap();
    fs::write(&beside, &lost[..lost.len() - 24]).unwrap();
    let words = format!(
        "{first}; its notices are lost: 2 were taken, and {} has 1",
        beside.display()
    );
    let blocks = [
        "slot 0 of replica 0 of 2: nothing",
        "slot 1 of replica 1 of 2: nothing",
        "slot 2 of replica 0 of 2: nothing",
    ];
    prints(&path, &[&words], &blocks, last, 1);
}

/// The copies of a head: which slots they have, and that the blocks end before them.
#[test]
fn copies() {
    let path = Path::new(env!("CARGO_TARGET_TMPDIR")).join("journal-copies");
    let _ = fs::remove_file(&path);
    let (mut replica, _) = Durable::open(&path, "grotesque", 2, 1, &start_values()).unwrap();
    let mut peer = Replica::new(2, 0, &start_values()).unwrap();
    for slot in 0..6 {
        let block = match slot % 2 {
            0 => peer.send().unwrap(),
            _ => replica.send().unwrap(),
        };
        peer.take(&block).unwrap();
        replica.take(&block).unwrap();
    }
    drop(replica);
    let first = "replica 1 of 2 of the group \"grotesque\", version 1, start 1c1d552adf88173d; \
        copies of slots 4 to 5 and 2 to 3";
    let (said, _, status) = run(&[OsStr::new("check"), path.as_os_str()]);
    let last = "ends after 6 blocks, at byte 15360";
    assert_eq!((said, status), (format!("{first}\n{last}\n"), 0));
    let good = fs::read(&path).unwrap();
    fs::write(&path, &good[..HEAD + 5 * BLOCK]).unwrap();
    let (said, _, status) = run(&[OsStr::new("check"), path.as_os_str()]);
    let last = "ends after 5 blocks, at byte 14848; the head has a copy of slot 5";
    assert_eq!((said, status), (format!("{first}\n{last}\n"), 1));
}

/// Each way in which the blocks of a file stop.
#[test]
fn files() {
    let mut blocks = [
        block_of(3, 0, &[]),
        block_of(3, 1, &[(4, &[(5, 84), (9, -3)]), (6, &[(2, 1)])]),
        block_of(3, 2, &[(1, &[(127, i32::MIN)])]),
    ];
    let lines = [
        "slot 0 of replica 0 of 3: nothing",
        "slot 1 of replica 1 of 3: ticket 4 sets 5 = 84, 9 = -3; ticket 6 sets 2 = 1",
        "slot 2 of replica 2 of 3: ticket 1 sets 127 = -2147483648",
    ];
    looks(b"", &[], "ends after 0 blocks, at byte 12288", 0);
    looks(
        &blocks.concat(),
        &lines,
        "ends after 3 blocks, at byte 13824",
        0,
    );
    looks(
        &blocks[0],
        &lines[..1],
        "ends after 1 block, at byte 12800",
        0,
    );
    looks(
        &blocks.concat()[..BLOCK + 1],
        &lines[..1],
        "stops after 1 block, at byte 12800, 1 byte before the end: the block is torn: 1 of 512 bytes",
        1,
    );
    let mut stops = |block: [u8; BLOCK], why: &str| {
        blocks[1] = block;
        let front = "stops after 1 block, at byte 12800, 1024 bytes before the end: the block";
        looks(&blocks.concat(), &lines[..1], &format!("{front}{why}"), 1);
    };
    let mut damaged = block_of(3, 1, &[]);
    damaged[0] = 3;
    stops(damaged, "'s check does not match (14)");
    put_check(&mut damaged);
    stops(damaged, " is not well formed (15)");
    stops(
        block_of(4, 1, &[]),
        " is of a group of 4, the journal of one of 3",
    );
    stops(block_of(3, 4, &[]), " is of slot 4, in the place of slot 1");
}

/// The values of journals, whole and torn, are those that a restart leaves.
#[test]
fn values() {
    Seeds::new(20).each(|seed| {
        let mut random = Random::new(seed);
        let n = 2 + seed as u32 % 5;
        let bytes = restarts::journal(&mut random, n, STYLES[seed as usize / 5 % 4]);
        let n = sizes(&bytes)[0];
        let path = file("journal-values", &[&head(n), &bytes[..]].concat());
        let (said, complaint, status) = run(&[OsStr::new("values"), path.as_os_str()]);
        let (replica, restarted) = Replica::restart(n, 0, &start_values(), &bytes, &[]).unwrap();
        let lines = replica.values().iter().enumerate();
        let due: String = lines
            .map(|(item, value)| format!("{item} {value}\n"))
            .collect();
        assert_eq!(said, due);
        let whole = bytes.len() == BLOCK * restarted.blocks as usize;
        assert_eq!((complaint.is_empty(), status), (whole, i32::from(!whole)));
        assert!(complaint.lines().count() <= 1 && (whole || complaint.contains(": stops after ")));
    });
    for (bytes, words) in [(&b""[..], "it is empty"), (b"stems", "the mark is missing")] {
        let path = file("journal-values-none", bytes);
        let (said, complaint, status) = run(&[OsStr::new("values"), path.as_os_str()]);
        assert_eq!((&said[..], status), ("", 1));
        assert!(complaint.ends_with(&format!("{words}\n")), "{complaint}");
    }
}

/// As many lines as a restart commits blocks, and the last; the status by whether they are all.
#[test]
fn any_journal() {
    Seeds::new(100).each(|seed| {
        let mut random = Random::new(seed);
        let n = 2 + seed as u32 % 5;
        let bytes = restarts::journal(&mut random, n, STYLES[seed as usize / 5 % 4]);
        // The size that its first block names.
        let sizes = sizes(&bytes);
        let path = file("journal-any", &[&head(sizes[0]), &bytes[..]].concat());
        let (printed, complaints, status) = run(&[OsStr::new("show"), path.as_os_str()]);
        assert_eq!((&complaints[..], status), ("", 0));
        let lines: Vec<&str> = printed.lines().collect();
        let (good, _, _) = read_through(&bytes);
        let due: Vec<String> = good.iter().map(|block| block.to_string()).collect();
        assert_eq!(lines[1..lines.len() - 1], due);
        let restarted = Replica::restart(sizes[0], 0, &start_values(), &bytes, &[]);
        assert_eq!(due.len(), restarted.unwrap().1.blocks as usize);
        let (last, _, status) = run(&[OsStr::new("check"), path.as_os_str()]);
        assert_eq!(last, format!("{}\n{}\n", lines[0], lines[lines.len() - 1]));
        assert_eq!(status, i32::from(due.len() * BLOCK != bytes.len()));
    });
}

/// Blocks as arguments and on standard input: what is good is printed, what is not is said by its number.
#[test]
fn blocks() {
    let good = digits(&block_of(3, 7, &[(4, &[(5, 84)])]));
    let line = "slot 7 of replica 1 of 3: ticket 4 sets 5 = 84\n";
    let next = digits(&block_of(2, 0, &[])).to_uppercase();
    let both = format!("{line}slot 0 of replica 0 of 2: nothing\n");
    let accepted = (both.clone(), String::new(), 0);
    assert_eq!(run(&["block", &good, &next]), accepted);
    for input in [format!("{good}\n{next}\n"), format!("{good}\r\n{next}")] {
        assert_eq!(run_on(&["block", "-"], input.as_bytes()), accepted);
    }
    assert_eq!(
        run_on(&["block", "-"], b""),
        (String::new(), String::new(), 0)
    );
    let mut damaged = block_of(3, 7, &[]);
    damage(&mut Random::new(5), &mut damaged);
    let bad = [&digits(&damaged), &good[1..], "0g", ""];
    let complaints = "journal: block 2: the block's check does not match (14)\n\
        journal: block 3: a block has 1024 hexadecimal digits, and here are 1023\n\
        journal: block 4: 'g' is not a hexadecimal digit\n\
        journal: block 5: a block has 1024 hexadecimal digits, and here are 0\n";
    let refused = (both, complaints.to_string(), 1);
    let all = [&[&good[..]][..], &bad, &[&next[..]]].concat();
    assert_eq!(run(&[&["block"], &all[..]].concat()), refused);
    assert_eq!(run_on(&["block", "-"], all.join("\n").as_bytes()), refused);
    // Bytes that are no text.
    let (printed, complaints, status) = run_on(&["block", "-"], b"\xff\n");
    assert_eq!((&printed[..], status), ("", 1));
    assert!(
        complaints.ends_with("is not a hexadecimal digit\n"),
        "{complaints}"
    );
}
