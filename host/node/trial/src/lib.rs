//! Nodes as studios run them: processes with certificates, in network namespaces of their own, over lines that lose,
//! delay and are cut; clients that keep what they were told; and a verdict from the journals at the end.
//!
//! Used by the tests of `stemline-node`, and by the program `node-bench`.

pub mod bench;
pub mod certificate;
pub mod client;
pub mod group;
pub mod lines;
pub mod net;
pub mod process;
pub mod space;
pub mod storm;
pub mod verdict;
pub mod worker;

use std::process::Command;
use std::thread::sleep;
use std::time::{Duration, Instant};

/// Runs a program to its end and gives what it printed; where it fails, the command and what it complained of.
pub fn run(program: &str, arguments: &[&str]) -> Result<String, String> {
    let words = |words: &str| format!("{program} {}: {}", arguments.join(" "), words.trim());
    let out = Command::new(program)
        .args(arguments)
        .output()
        .map_err(|error| words(&error.to_string()))?;
    match out.status.success() {
        true => Ok(String::from_utf8_lossy(&out.stdout).into_owned()),
        false => Err(words(&String::from_utf8_lossy(&out.stderr))),
    }
}

/// What a trial needs and does not find here, in a line.
pub fn able() -> Result<(), String> {
    // SAFETY: it has no arguments and cannot fail.
    if unsafe { libc::geteuid() } != 0 {
        return Err("namespaces of the network are made by root alone".to_string());
    }
    if !std::path::Path::new(lines::DEVICE).exists() {
        return Err(format!("this system has no {}", lines::DEVICE));
    }
    for (program, argument, package) in
        [("ip", "-V", "iproute2"), ("openssl", "version", "openssl")]
    {
        run(program, &[argument]).map_err(|_| format!("no {program} here: install {package}"))?;
    }
    Ok(())
}

/// Waits until something holds, and says what was waited for where it does not in so long.
pub fn until(what: &str, most: Duration, mut holds: impl FnMut() -> bool) -> Result<(), String> {
    let began = Instant::now();
    while !holds() {
        if began.elapsed() > most {
            return Err(format!("after {} s not yet: {what}", most.as_secs()));
        }
        sleep(Duration::from_millis(10));
    }
    Ok(())
}
