//! Three replicas over files in a program that is killed again and again: `soak::crash` says what holds.

use std::path::Path;
use std::process::Command;
use std::time::Instant;

use soak::crash::{program, Crash};

use crate::c::say;

/// The kills, and the blocks that are to be handed out: where the disk is slow, it takes more kills.
const KILLS: u64 = 40;
const BLOCKS: u64 = 100;

/// The program: this test binary, of which it is an ignored test.
fn this() -> Command {
    let mut program = Command::new(std::env::current_exe().unwrap());
    program.args(["crash::killed", "--exact", "--ignored"]);
    program
}

#[test]
fn killed_again_and_again() {
    let room = Path::new(env!("CARGO_TARGET_TMPDIR")).join("crash");
    let mut crash = Crash::new(&room, 1);
    let began = Instant::now();
    let mut kills = 0;
    while kills < KILLS || crash.log.met.blocks < BLOCKS && kills < 10 * KILLS {
        crash.kill(this());
        kills += 1;
    }
    let met = crash.rest();
    assert!(met.blocks >= BLOCKS, "{met}");
    let seconds = began.elapsed().as_secs_f32();
    say(&format!("killed {kills} times in {seconds:.1} s: {met}"));
}

/// What is started and killed; by itself it does nothing.
#[test]
#[ignore = "the program that crash::killed_again_and_again starts"]
fn killed() {
    program::run();
}
