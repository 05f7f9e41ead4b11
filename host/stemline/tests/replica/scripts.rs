//! What the scripts say: `scripts/library` and `scripts/program` in a folder of their own, with a prover that
//! only prints, and the story as it is printed.

use std::os::unix::fs::{symlink, PermissionsExt};
use std::path::{Path, PathBuf};
use std::process::{Command, Output};
use std::{env, fs};

use crate::c::printed;

fn top() -> PathBuf {
    let top = Path::new(env!("CARGO_MANIFEST_DIR")).join("../..");
    top.canonicalize().unwrap()
}

/// A folder with the scripts, the crates by name, the program as it is built, and `rt`, if there is to be one, in
/// `bin` beside the tools that the scripts use.
fn room(name: &str, rt: Option<&str>) -> PathBuf {
    let room = Path::new(env!("CARGO_TARGET_TMPDIR")).join(name);
    let _ = fs::remove_dir_all(&room);
    for folder in [
        "scripts",
        "examples",
        "crates",
        "bin",
        "crates/replay/out",
        "target/bin",
        "target/rlib",
        "target/stamp",
        "host/include",
        "host/source",
    ] {
        fs::create_dir_all(room.join(folder)).unwrap();
    }
    for line in fs::read_to_string(top().join("crates.txt"))
        .unwrap()
        .lines()
    {
        if let Some(name) = line.split([':', ' ']).next().filter(|name| *name != "#") {
            fs::create_dir_all(room.join("crates").join(name)).unwrap();
        }
    }
    for file in [
        "scripts/library",
        "scripts/program",
        "scripts/story",
        "examples/story.calls",
        "crates.txt",
        "target/bin/replay",
        "host/include/stemline_calls.h",
        "host/source/stemline_version.c",
    ] {
        fs::copy(top().join(file), room.join(file)).unwrap();
    }
    let built = room.join("crates/replay/out/replay");
    fs::copy(top().join("target/bin/replay"), built).unwrap();
    let tools =
        "bash dirname readlink mkdir sed tr sort awk grep tail tee cat rm ln cp ar sh seq touch cc as find wc";
    for tool in tools.split(' ') {
        let paths = env::var_os("PATH").unwrap();
        let found = env::split_paths(&paths).map(|folder| folder.join(tool));
        let found = found.into_iter().find(|path| path.is_file()).expect(tool);
        symlink(found, room.join("bin").join(tool)).unwrap();
    }
    if let Some(text) = rt {
        let path = room.join("bin/rt");
        fs::write(&path, format!("#!/bin/sh\n{text}\n")).unwrap();
        fs::set_permissions(&path, fs::Permissions::from_mode(0o755)).unwrap();
    }
    room
}

fn run(room: &Path, script: &str) -> Output {
    let mut command = Command::new(room.join("bin/bash"));
    command.arg(room.join("scripts").join(script));
    command.env("PATH", room.join("bin")).output().unwrap()
}

/// What was printed, what was said on standard error, and the status.
fn said(ran: Output) -> (String, String, Option<i32>) {
    let text = |bytes| String::from_utf8(bytes).unwrap();
    (text(ran.stdout), text(ran.stderr), ran.status.code())
}

#[test]
fn no_prover() {
    let room = room("no-prover", None);
    for (script, name) in [
        ("library", "library"),
        ("program", "program"),
        ("story", "program"),
    ] {
        let words =
            format!("{name}: 'rt' is not on the PATH; it comes with the Rattle toolchain\n");
        assert_eq!(said(run(&room, script)), (String::new(), words, Some(1)));
    }
}

/// Without a C compiler nothing is proved first.
#[test]
fn no_compiler() {
    let room = room("no-compiler", Some("echo proving; exit 1"));
    fs::remove_file(room.join("bin/cc")).unwrap();
    let words = "library: 'cc' is not on the PATH; it is any C compiler\n";
    assert_eq!(
        said(run(&room, "library")),
        (String::new(), words.to_string(), Some(1))
    );
}

/// Of a library that is written one line; of one that is not what failed.
#[test]
fn library() {
    let notes = "seq 1 9000 | sed 's/^/note: /'";
    let archive = "name=${PWD##*/}; test $1 = lib && mkdir -p out && cd out && touch $name.o && ar rcs lib$name.a $name.o";
    let written = room("library", Some(&format!("{notes}\n{archive}")));
    let line = "library: wrote target/staticlib/libreplica.a\n";
    assert_eq!(
        said(run(&written, "library")),
        (line.to_string(), String::new(), Some(0))
    );
    let archive_bytes = fs::read(written.join("target/staticlib/libreplica.a")).unwrap();
    let symbol = concat!(
        "stemline_version_",
        env!("CARGO_PKG_VERSION_MAJOR"),
        "_",
        env!("CARGO_PKG_VERSION_MINOR"),
        "\0"
    );
    assert!(archive_bytes
        .windows(symbol.len())
        .any(|found| found == symbol.as_bytes()));
    let left = |room: &Path| fs::read_dir(room.join("target/staticlib")).unwrap().count();
    assert_eq!(left(&written), 1, "files beside the archive");

    let wrong = "echo 'fn memory::bump: not proved'";
    let what = "fn memory::bump: not proved\nlibrary: not written; target/library.log says why\n";
    for at in ["replica_make", "replica_block"] {
        let text = format!(
            "{notes}\ntest ${{PWD##*/}} != {at} || {{ {wrong}; {notes}; exit 1; }}\n{archive}"
        );
        let not = room("library-not", Some(&text));
        let (out, err, status) = said(run(&not, "library"));
        assert_eq!((&out[..], &err[..], status), ("", what, Some(1)), "{at}");
        assert_eq!(left(&not), 0, "files with no archive");
    }
}

/// Prover lines are there while something is proved, and not on standard output.
#[test]
fn prover_lines() {
    let still = room("program-still", Some("exit 1"));
    assert_eq!(
        said(run(&still, "program")),
        (String::new(), String::new(), Some(0))
    );
    let memory = "echo 'rt: chose --jobs 2 for memory'; echo 'logic=proved functions=12'";
    let proves = room(
        "program-proves",
        Some(&format!("{memory}; cp ../../target/bin/replay out/replay")),
    );
    let built = proves.join("crates/replay/out/replay");
    fs::remove_file(&built).unwrap();
    let (out, err, status) = said(run(&proves, "program"));
    assert_eq!((&out[..], status), ("", Some(0)));
    assert!(err.starts_with("Proving and building"), "{err}");
    assert!(err.contains("  memory proved, "), "{err}");
    assert_eq!(err.lines().count(), 2, "{err}");
    assert!(built.is_file());
    let wrong = room(
        "program-wrong",
        Some("echo 'fn memory::bump: not proved'; exit 1"),
    );
    // Files of one instant are none newer than the other.
    std::thread::sleep(std::time::Duration::from_millis(50));
    fs::write(wrong.join("crates/memory/lib.rt"), "").unwrap();
    let (_, err, status) = said(run(&wrong, "program"));
    let words =
        "program: replay was not proved; target/program.log says why\nfn memory::bump: not proved\n";
    assert!(err.ends_with(words), "{err}");
    assert_eq!((err.lines().count(), status), (3, Some(1)));
}

/// The story is at most 100 columns wide, and each part has its heads, with names and numbers.
#[test]
fn story() {
    let room = room("story", Some("exit 1"));
    let text = printed(&run(&room, "story"));
    for line in text.lines() {
        assert!(line.chars().count() <= 100, "{line}");
    }
    let parts: Vec<&str> = text.split("\n\n").collect();
    assert_eq!(parts.len(), 16);
    for part in &parts[1..15] {
        let lines: Vec<&str> = part.lines().collect();
        let head = lines.iter().position(|line| line.starts_with("at call "));
        let head = head.expect(part);
        assert!(head == 1 || head == 2, "{part}");
        for kind in [lines[head].split("answer").nth(1).unwrap(), lines[head + 1]] {
            let words = kind.split_whitespace().count();
            assert!(words == 4 || words == 6, "{kind}");
        }
        assert!(lines.len() > head + 3, "{part}");
    }
    assert!(
        parts[1].contains("stem of h     stem of o\n"),
        "{}",
        parts[1]
    );
    assert!(
        text.contains("2  write stem of n (5): 86, ticket 1     accepted   "),
        "{text}"
    );
    assert!(
        text.contains("1  write kern of AV (64): -10, ticket 3  accepted   "),
        "{text}"
    );
    assert_eq!(
        parts[15],
        "All three replicas hold the same 128 measures: yes\n"
    );
}
