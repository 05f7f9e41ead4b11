//! Bad arguments, outputs that are closed or full, and inputs of any length.

use std::ffi::OsStr;
use std::fs;
use std::io::Write;
use std::path::Path;
use std::process::{Command, Stdio};

use model::samples::block_of;

use super::{file, head, program, run, said};
use crate::looks::digits;

/// Arguments that are none, and files that cannot be read: one line, and 2.
#[test]
fn bad_usage() {
    let usage = "journal: usage: journal show FILE | journal check FILE | journal values FILE | \
        journal block HEX.. | journal block - | journal --help | journal --version\n";
    for arguments in [
        &[][..],
        &["show"],
        &["check"],
        &["values"],
        &["values", "a", "b"],
        &["block"],
        &["show", "a", "b"],
        &["check", "a", "b"],
        &["look", "a"],
        &["-x"],
        &["--help", "a"],
        &["--version", "a"],
    ] {
        let due = (String::new(), usage.to_string(), 2);
        assert_eq!(run(arguments), due, "{arguments:?}");
    }
    let help = usage.strip_prefix("journal: ").unwrap();
    for word in ["--help", "-h"] {
        assert_eq!(run(&[word]), (help.to_string(), String::new(), 0));
    }
    let version = concat!("journal of Stemline ", env!("CARGO_PKG_VERSION"), "\n");
    assert_eq!(run(&["--version"]), (version.to_string(), String::new(), 0));
    let folder = env!("CARGO_TARGET_TMPDIR");
    let none = Path::new(folder).join("no-such-journal");
    for path in [Path::new(folder), &none] {
        for verb in ["show", "check", "values"] {
            let (printed, complaint, status) = run(&[OsStr::new(verb), path.as_os_str()]);
            assert_eq!((&printed[..], status), ("", 2));
            let front = format!("journal: cannot read {}: ", path.display());
            assert!(complaint.starts_with(&front), "{complaint}");
            assert_eq!(complaint.lines().count(), 1);
        }
    }
}

/// A reader that goes away ends the program without a word; what a check says by its status it says.
#[test]
fn closed_pipes() {
    let blocks = (0..4_000).flat_map(|slot| block_of(2, slot, &[]));
    let mut bytes = head(2);
    bytes.extend(blocks);
    bytes.push(7);
    let path = file("journal-closed", &bytes);
    for (verb, status) in [("show", 0), ("check", 1)] {
        let mut command = program(&[OsStr::new(verb), path.as_os_str()]);
        command.stdout(Stdio::piped()).stderr(Stdio::piped());
        let mut child = command.spawn().unwrap();
        drop(child.stdout.take());
        let ended = child.wait_with_output().unwrap();
        assert_eq!(
            said(ended),
            (String::new(), String::new(), status),
            "{verb}"
        );
    }
}

/// What cannot be printed is said, with 2.
#[test]
fn full_disk() {
    let full = Path::new("/dev/full");
    if !full.exists() {
        println!("left out: there is no /dev/full here");
        return;
    }
    let path = file("journal-full", &head(2));
    for verb in ["show", "check"] {
        let mut command = program(&[OsStr::new(verb), path.as_os_str()]);
        command.stdout(fs::OpenOptions::new().write(true).open(full).unwrap());
        let (_, complaint, status) = said(command.output().unwrap());
        assert!(
            complaint.starts_with("journal: cannot print: "),
            "{complaint}"
        );
        assert_eq!((complaint.lines().count(), status), (1, 2));
    }
}

/// So is that nobody gave the program a standard output.
#[test]
#[cfg(target_os = "linux")]
fn closed_output() {
    let path = file("journal-no-output", &head(2));
    for verb in ["show", "check", "values"] {
        let mut shell = Command::new("sh");
        shell.args([
            "-c",
            "exec \"$0\" \"$@\" >&-",
            env!("CARGO_BIN_EXE_journal"),
        ]);
        let ended = said(shell.arg(verb).arg(&path).output().unwrap());
        let complaint = "journal: cannot print: standard output is closed\n".to_string();
        assert_eq!(ended, (String::new(), complaint, 2), "{verb}");
    }
}

/// Of a line of any length little is kept, and those behind it count.
#[test]
#[cfg(target_os = "linux")]
fn long_lines() {
    let good = digits(&block_of(2, 0, &[]));
    let mut input = vec![b'0'; 200 << 20];
    input.extend(format!("\n{good}\n{good}{}\n", "0".repeat(2_000)).bytes());
    // In less memory than the first line has.
    let mut shell = Command::new("sh");
    let limited = "ulimit -v 100000; exec \"$0\" block -";
    shell.args(["-c", limited, env!("CARGO_BIN_EXE_journal")]);
    shell.stdin(Stdio::piped());
    shell.stdout(Stdio::piped()).stderr(Stdio::piped());
    let mut child = shell.spawn().unwrap();
    let fed = child.stdin.take().unwrap().write_all(&input);
    let ended = said(child.wait_with_output().unwrap());
    let complaints = "\
        journal: block 1: a block has 1024 hexadecimal digits, and this line has more than 4096\n\
        journal: block 3: a block has 1024 hexadecimal digits, and here are 3024\n";
    let printed = "slot 0 of replica 0 of 2: nothing\n";
    assert_eq!(ended, (printed.to_string(), complaints.to_string(), 1));
    fed.unwrap();
}

/// A device, and a pipe that goes on behind its good blocks for longer than anybody waits.
#[test]
#[cfg(target_os = "linux")]
fn endless_files() {
    let (said_of, _, status) = run(&["check", "/dev/zero"]);
    assert!(said_of.starts_with("is not to be taken up: "), "{said_of}");
    assert_eq!(status, 1);
    let mut command = program(&["check", "/dev/stdin"]);
    command.stdin(Stdio::piped());
    command.stdout(Stdio::piped()).stderr(Stdio::piped());
    let mut child = command.spawn().unwrap();
    let mut pipe = child.stdin.take().unwrap();
    pipe.write_all(&[&head(2)[..], &block_of(2, 0, &[])].concat())
        .unwrap();
    let rest = pipe.write_all(&vec![0; 64 << 20]);
    assert!(rest.is_err(), "all of it was read");
    let (said_of, _, status) = said(child.wait_with_output().unwrap());
    let last = "stops after 1 block, at byte 12800: the block is not well formed (15)\n";
    assert!(said_of.ends_with(last), "{said_of}");
    assert_eq!(status, 1);
}
