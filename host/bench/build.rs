//! Compiles the replica in plain C, for the tests and for who compares times.

use std::env;
use std::path::Path;
use std::process::{exit, Command};

const FILES: [&str; 4] = ["plain_block", "plain_client", "plain_turn", "plain_notice"];

fn main() {
    if let Err(words) = archive() {
        eprintln!("error: {words}");
        exit(1);
    }
}

/// Makes an archive of the C files, and has it linked.
fn archive() -> Result<(), String> {
    let out = env::var("OUT_DIR").map_err(|_| "cargo sets OUT_DIR")?;
    let archive = Path::new(&out).join("libplain_c.a");
    let mut ar = Command::new("ar");
    ar.arg("crs").arg(&archive);
    println!("cargo:rerun-if-changed=plain");
    println!("cargo:rerun-if-changed=../include/stemline_calls.h");
    for file in FILES {
        let object = Path::new(&out).join(file).with_extension("o");
        let mut cc = Command::new("cc");
        cc.args(["-std=c99", "-O2", "-fPIC", "-Wall", "-Wextra", "-pedantic"]);
        cc.args(["-I", "../include", "-c", "-o"]).arg(&object);
        run(cc.arg(format!("plain/{file}.c")))?;
        ar.arg(&object);
    }
    run(&mut ar)?;
    println!("cargo:rustc-link-search=native={out}");
    println!("cargo:rustc-link-lib=static=plain_c");
    Ok(())
}

fn run(command: &mut Command) -> Result<(), String> {
    let program = command.get_program().display().to_string();
    match command.status() {
        Ok(status) if status.success() => Ok(()),
        Ok(status) => Err(format!("{program}: {status}")),
        Err(error) => Err(format!("{program}: {error}")),
    }
}
