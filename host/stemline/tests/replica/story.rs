//! The example programs: in Rust and in C they play the same story and print the same.

// The example itself, so that what is compared is what a reader runs.
#[allow(dead_code)]
#[path = "../../examples/story.rs"]
mod example;

use std::fs::OpenOptions;
use std::process::{Command, Stdio};

use crate::c::{build, printed};

const C: &str = include_str!("../../../examples/story.c");

#[test]
fn c_and_rust_print_the_same() {
    let mut rust = Vec::new();
    example::tell(&mut rust).unwrap();
    let rust = String::from_utf8(rust).unwrap();
    let program = build("story", &[("program.c", "cc", "-std=c99", C)]);
    assert_eq!(printed(&Command::new(&program).output().unwrap()), rust);
    let last = "  84 84 84  80 80 80  70 70 70\n";
    assert!(rust.contains(last), "{rust}");
    let wide = rust.lines().map(|line| line.chars().count()).max();
    assert!(wide <= Some(100), "{wide:?} columns");
    assert!(
        rust.ends_with("All three replicas hold the same measures: yes\n"),
        "the story's end:\n{rust}"
    );
}

/// Before its turn a block changes no measure; what waits is committed with the block before it.
#[test]
fn an_early_block_waits() {
    let text = example::story().unwrap();
    let (_, after) = text.split_once("before the 86.\n").unwrap();
    let lines: Vec<&str> = after.lines().collect();
    assert!(
        lines[0].starts_with("  replica 1: takes a block   "),
        "{text}"
    );
    assert!(lines[0].contains("  84  0 86  "), "{text}");
    let taken = "  replica 1: takes a block, commits ticket 1 of 2, ticket 2 of 0 ";
    assert!(lines[1].starts_with(taken), "{text}");
    assert!(lines[1].contains("  84 84 86  "), "{text}");
}

/// On a full disk: an error in words, and a status that is not 0.
#[test]
fn a_full_disk() {
    const FULL: &str = "/dev/full";
    let full = || OpenOptions::new().write(true).open(FULL);
    let Ok(mut file) = full() else {
        crate::c::say("the stories on a full disk: NOT tried, there is no /dev/full");
        return;
    };
    let words = "cannot print: No space left on device";
    let said = example::tell(&mut file).unwrap_err();
    assert!(said.starts_with(words), "{said}");
    let program = build("full_story", &[("program.c", "cc", "-std=c99", C)]);
    let mut command = Command::new(&program);
    let ran = command.stdout(Stdio::from(full().unwrap())).output();
    let ran = ran.unwrap();
    assert_eq!(ran.status.code(), Some(1));
    let said = String::from_utf8(ran.stderr).unwrap();
    assert_eq!(said, format!("story: {words}\n"));
}
