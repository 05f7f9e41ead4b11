//! The program that `scripts/instructions` counts: over the library and over plain C it does the same, case by case.

use std::path::{Path, PathBuf};
use std::process::{Command, Output};

fn top() -> PathBuf {
    Path::new(env!("CARGO_MANIFEST_DIR")).join("../..")
}

/// Compiles it with these arguments more.
fn build(name: &str, more: &[&str]) -> PathBuf {
    let program = Path::new(env!("CARGO_TARGET_TMPDIR")).join(name);
    let mut cc = Command::new("cc");
    cc.current_dir(top()).args(["-std=c99", "-O2"]);
    cc.args(["-Wall", "-Wextra", "-Werror", "-pedantic"]);
    cc.args(["-I", "host/include", "-I", "host/bench/plain"]);
    let made = cc.arg("host/bench/plain/count.c").args(more);
    let made = made.arg("-o").arg(&program).output().unwrap();
    let said = String::from_utf8_lossy(&made.stderr);
    assert!(made.status.success(), "{said}");
    program
}

fn printed(ran: Output) -> String {
    let said = String::from_utf8_lossy(&ran.stderr);
    assert!(ran.status.success(), "{}: {said}", ran.status);
    String::from_utf8(ran.stdout).unwrap()
}

#[test]
fn each_case_does_the_same() {
    let library = build("count_library", &["target/staticlib/libreplica.a"]);
    let plain = build(
        "count_plain",
        &[
            "-DPLAIN",
            "host/bench/plain/plain_block.c",
            "host/bench/plain/plain_client.c",
            "host/bench/plain/plain_turn.c",
            "host/bench/plain/plain_notice.c",
        ],
    );
    let cases = printed(Command::new(&plain).output().unwrap());
    let cases: Vec<&str> = cases.lines().collect();
    assert!(cases.len() > 20 && cases[0].starts_with("empty slot"));
    for case in cases {
        let [library, plain] =
            [&library, &plain].map(|side| printed(Command::new(side).arg(case).output().unwrap()));
        assert_eq!(library, plain, "{case}: library, plain C");
        let times: u32 = plain.split(' ').next().unwrap().parse().unwrap();
        assert!(times >= 50, "{case}: {times} times");
    }
    let none = Command::new(&plain).arg("no such case").output().unwrap();
    assert_eq!(none.status.code(), Some(1));
}

#[test]
fn the_script_in_words() {
    let run = |arguments: &[&str]| {
        let script = top().join("scripts/instructions");
        let ran = Command::new("bash").arg(script).args(arguments).output();
        ran.unwrap()
    };
    assert!(printed(run(&["--help"])).starts_with("usage: scripts/instructions [FLAG..]\n"));
    let ran = run(&["fast"]);
    assert_eq!(ran.status.code(), Some(2));
    let due = "instructions: fast: not a flag of a compiler; --help says what there is\n";
    assert_eq!(String::from_utf8_lossy(&ran.stderr), due);
}
