//! What becomes of what designers do when nodes are killed, disks are full and studios closed.

use std::fs;
use std::io::{BufRead, BufReader};
use std::path::Path;
use std::process::{Command, Stdio};
use std::time::Duration;

use serde_json::Value;
use stemline::{BLOCK, HEAD};

use crate::group::{wait, Group};
use crate::studios::{words, THREE};

#[test]
fn killed_while_a_designer_waits() {
    let mut group = Group::new("killed", 3, 0, false);
    group.start_all(&THREE);
    group.asked("studio-2", &["set", "5", "1"]);
    let stuck = |group: &Group| {
        let waits = "waits for Porto (studio 1), which is not linked";
        assert!(wait(|| group
            .asked("studio-0", &["status"])
            .contains(waits)));
    };
    group.kill("studio-1");
    stuck(&group);
    // Nothing is committed without studio 1: the designer waits until it is back.
    let mut set = group.stemline("studio-0", &["set", "5", "2"]);
    let mut set = set.stdout(Stdio::piped()).spawn().unwrap();
    std::thread::sleep(Duration::from_millis(500));
    assert!(set.try_wait().unwrap().is_none());
    assert_eq!(group.asked("studio-2", &["get", "5"]), "1\n");
    group.start("studio-1");
    let done = set.wait_with_output().unwrap();
    assert_eq!(
        String::from_utf8_lossy(&done.stdout),
        "committed as number 2\n"
    );
    for node in THREE {
        group.comes(node, "5", "2");
    }
    // One whose node is killed is told that nobody knows.
    group.kill("studio-1");
    stuck(&group);
    let mut set = group.stemline("studio-0", &["set", "5", "3"]);
    let mut set = set.stderr(Stdio::piped()).spawn().unwrap();
    std::thread::sleep(Duration::from_millis(500));
    group.kill("studio-0");
    assert_eq!(set.wait().unwrap().code(), Some(4));
}

/// The soft limit on the length of files, of a node or its next one.
fn limit(group: &Group, node: &str, bytes: &str) {
    let status = Command::new("prlimit")
        .arg(format!("--pid={}", group.id(node)))
        .arg(format!("--fsize={bytes}:"))
        .status();
    assert!(status.unwrap().success());
}

/// How many blocks a journal has once it has stood still for a while.
fn settled(journal: &Path) -> u64 {
    let blocks = || (fs::metadata(journal).unwrap().len() - HEAD as u64) / BLOCK as u64;
    let mut before = blocks();
    loop {
        std::thread::sleep(Duration::from_millis(500));
        match blocks() {
            now if now == before => return now,
            now => before = now,
        }
    }
}

#[test]
fn a_disk_that_is_full_for_a_while() {
    let mut group = Group::new("disk", 2, 0, false);
    for node in &THREE[..2] {
        // Nothing moves but by what designers ask for.
        group.edit(node, |text| text.replace("idle_ms = 50", "idle_ms = 60000"));
    }
    group.start_all(&THREE[..2]);
    group.asked("studio-0", &["set", "5", "7"]);
    // The block that is refused room is studio 0's next one: its slots are the even ones.
    let blocks = settled(&group.path("studio-0.journal"));
    let next = blocks.next_multiple_of(2);
    limit(
        &group,
        "studio-0",
        &(HEAD as u64 + next * BLOCK as u64).to_string(),
    );
    let mut set = group.stemline("studio-0", &["set", "5", "1"]);
    let mut set = set
        .stdout(Stdio::null())
        .stderr(Stdio::piped())
        .spawn()
        .unwrap();
    let mut said = String::new();
    let mut told = BufReader::new(set.stderr.take().unwrap());
    told.read_line(&mut said).unwrap();
    assert!(
        said.starts_with("stemline: waits: the disk failed"),
        "{said}"
    );
    let status = group.asked("studio-0", &["status"]);
    assert!(
        status.contains("STOPPED: ") && status.contains("File too large"),
        "{status}"
    );
    let (status, said) = words(&group.ask("studio-0", &["set", "6", "1"]));
    assert_eq!(status, Some(1), "{said}");
    assert!(
        said.starts_with("stemline: refused: the node has stopped: "),
        "{said}"
    );
    assert_eq!(words(&group.ask("studio-0", &["get", "5"])).0, Some(1));
    // There is room again: it goes on by itself, and what was told is true.
    limit(&group, "studio-0", "unlimited");
    let status = set.wait().unwrap().code();
    let mut said = String::new();
    told.read_line(&mut said).unwrap();
    let due = "stemline: refused: the disk failed before it was sent: it is not committed\n";
    assert_eq!((status, &said[..]), (Some(1), due));
    group.asked("studio-0", &["set", "6", "1"]);
    group.comes("studio-1", "6", "1");
    for node in &THREE[..2] {
        assert_eq!(group.asked(node, &["get", "5"]), "7\n");
    }
}

/// Where a node is: its turn, and whose block it waits for.
fn turn(group: &Group, node: &str) -> (u64, u64) {
    let told: Value = serde_json::from_str(&group.asked(node, &["--json", "status"])).unwrap();
    let number = |value: &Value| value.as_u64().unwrap();
    (number(&told["turn"]), number(&told["waits_for"]["number"]))
}

#[test]
fn a_studio_that_is_closed_and_comes_back() {
    let mut group = Group::new("holiday", 3, 0, false);
    fs::write(group.path("notices"), "").unwrap();
    for node in THREE {
        group.edit(node, |text| {
            text.replacen("socket", "notices = \"notices\"\nsocket", 1)
        });
    }
    // Studio 2 keeps its first turn to itself, and nothing of it is sent when it is closed.
    group.edit("studio-2", |text| {
        text.replace("idle_ms = 50", "idle_ms = 60000")
    });
    group.start_all(&THREE);
    assert!(wait(
        || turn(&group, "studio-0") == (2, 2) && turn(&group, "studio-1") == (2, 2)
    ));
    group.terminate("studio-2");
    let say = |group: &Group, words: &str, nodes: &[&str]| {
        fs::write(group.path("notices"), words).unwrap();
        nodes
            .iter()
            .for_each(|node| drop(group.asked(node, &["notices"])));
    };
    say(&group, "Out 2 from 2\n", &THREE[..2]);
    group.asked("studio-0", &["set", "5", "7"]);
    group.comes("studio-1", "5", "7");
    assert!(group
        .asked("studio-1", &["status"])
        .contains("notice taken: Out 2 from 2\n"));
    assert!(
        wait(|| turn(&group, "studio-0").0 > 100),
        "longer than a window"
    );
    // It comes back, is given what it missed, and then its slots count again.
    group.edit("studio-2", |text| {
        text.replace("idle_ms = 60000", "idle_ms = 50")
    });
    group.start("studio-2");
    group.comes("studio-2", "5", "7");
    let back = turn(&group, "studio-0").0 + 60;
    say(&group, &format!("Out 2 from 2\nBack 2 at {back}\n"), &THREE);
    assert!(
        wait(|| turn(&group, "studio-0").0 > back + 3),
        "{}",
        group.log("studio-0")
    );
    group.asked("studio-2", &["set", "5", "8"]);
    for node in THREE {
        group.comes(node, "5", "8");
    }
    // A file that is no list of notices is refused in words.
    fs::write(group.path("notices"), "Out 2\n").unwrap();
    let (status, said) = words(&group.ask("studio-0", &["notices"]));
    assert!(
        status == Some(1) && said.ends_with("line 1: \"Out 2\" is no notice\n"),
        "{said}"
    );
}
