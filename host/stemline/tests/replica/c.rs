//! C and C++ programs against the header and the static library. They are compiled with all warnings as
//! errors and, where the compiler has them, with the sanitizers for addresses and undefined behaviour.

use std::fs::{self, File};
use std::io::Write;
use std::path::{Path, PathBuf};
use std::process::{Command, Output, Stdio};
use std::sync::OnceLock;

const WARNINGS: [&str; 5] = ["-Wall", "-Wextra", "-Werror", "-pedantic", "-O2"];
const SANITIZERS: [&str; 2] = ["-fsanitize=address,undefined", "-fno-sanitize-recover=all"];

fn host() -> PathBuf {
    Path::new(env!("CARGO_MANIFEST_DIR")).join("..")
}

/// A folder of its own for each program.
fn room(name: &str) -> PathBuf {
    let room = Path::new(env!("CARGO_TARGET_TMPDIR")).join(name);
    fs::create_dir_all(&room).unwrap();
    room
}

/// Says something past the capture of a test that passes.
pub fn say(text: &str) {
    let text = format!("\n{text}\n");
    std::io::stdout().lock().write_all(text.as_bytes()).unwrap();
}

/// Whether a compiler makes a program of these flags that runs.
fn compiles(compiler: &str, flags: &[&str], name: &str) -> bool {
    let room = room(name);
    let (file, program) = (room.join("trial.c"), room.join("trial"));
    fs::write(&file, "int main(void) { return 0; }\n").unwrap();
    let mut command = Command::new(compiler);
    let compiled = command.args(flags).arg(&file).arg("-o").arg(&program);
    let compiled = compiled.output().is_ok_and(|made| made.status.success());
    compiled
        && Command::new(&program)
            .output()
            .is_ok_and(|ran| ran.status.success())
}

/// Whether `cc` has the sanitizers; tried once, and said.
pub fn sanitized() -> bool {
    static TRIED: OnceLock<bool> = OnceLock::new();
    *TRIED.get_or_init(|| {
        let has = compiles("cc", &SANITIZERS, "sanitizers");
        let word = if has { "used" } else { "NOT used, cc has none" };
        say(&format!(
            "C programs: address and undefined-behaviour sanitizers are {word}"
        ));
        has
    })
}

/// Whether there is a C++ compiler, `c++`; tried once, and said.
pub fn has_cpp() -> bool {
    static TRIED: OnceLock<bool> = OnceLock::new();
    *TRIED.get_or_init(|| {
        let has = compiles("c++", &["-x", "c++"], "cpp");
        let word = if has {
            "compiled"
        } else {
            "NOT compiled, there is no c++"
        };
        say(&format!("C++ programs: {word}"));
        has
    })
}

/// Compiles a file of the room to an object.
fn object(room: &Path, compiler: &str, standard: &str, file: &str) -> PathBuf {
    let object = room.join(file).with_extension("o");
    let mut command = Command::new(compiler);
    command.arg(standard).args(WARNINGS);
    if sanitized() {
        command.args(SANITIZERS);
    }
    command.arg("-I").arg(host().join("include"));
    command.arg("-I").arg(host().join("source"));
    command.arg("-I").arg(host().join("stemline/tests/c"));
    command
        .arg("-c")
        .arg(room.join(file))
        .arg("-o")
        .arg(&object);
    let made = command
        .output()
        .expect("cc, the C compiler, is on the PATH");
    let said = String::from_utf8_lossy(&made.stderr);
    assert!(
        made.status.success(),
        "{compiler} {standard} {file}: {said}"
    );
    object
}

/// Makes a program of files, each by a compiler and a standard: name, compiler, standard, text.
pub fn build(name: &str, files: &[(&str, &str, &str, &str)]) -> PathBuf {
    let (program, made) = link(name, files);
    let said = String::from_utf8_lossy(&made.stderr);
    assert!(made.status.success(), "{name}: {said}");
    program
}

/// What is said of a C file that compiles and does not link.
pub fn unlinked(name: &str, source: &str) -> String {
    let (_, made) = link(name, &[("program.c", "cc", "-std=c99", source)]);
    assert!(!made.status.success(), "{name}: it links");
    String::from_utf8_lossy(&made.stderr).into_owned()
}

/// Compiles the files, links them with the library, and gives the program and how that went.
fn link(name: &str, files: &[(&str, &str, &str, &str)]) -> (PathBuf, Output) {
    let room = room(name);
    let mut objects = Vec::new();
    let mut linker = "cc";
    for &(file, compiler, standard, text) in files {
        fs::write(room.join(file), format!("{}\n", text.trim_end())).unwrap();
        objects.push(object(&room, compiler, standard, file));
        if compiler == "c++" {
            linker = compiler;
        }
    }
    let program = room.join("program");
    let mut command = Command::new(linker);
    if sanitized() {
        command.args(SANITIZERS);
    }
    command.args(objects);
    command.arg(host().join("../target/staticlib/libreplica.a"));
    let made = command.arg("-o").arg(&program).output().unwrap();
    (program, made)
}

/// Runs a program on an input.
pub fn run(program: &Path, input: &[u8]) -> Output {
    let file = program.with_extension("input");
    fs::write(&file, input).unwrap();
    let input = Stdio::from(File::open(&file).unwrap());
    Command::new(program).stdin(input).output().unwrap()
}

/// Compiles a program of one C file and gives what it prints.
pub fn run_c(name: &str, source: &str, input: &[u8]) -> String {
    let program = build(name, &[("program.c", "cc", "-std=c99", source)]);
    printed(&run(&program, input))
}

/// What a program that ended well has printed.
pub fn printed(ran: &Output) -> String {
    let said = String::from_utf8_lossy(&ran.stderr);
    assert!(ran.status.success(), "{}: {said}", ran.status);
    String::from_utf8(ran.stdout.clone()).unwrap()
}

/// Both sanitizers stop a program at its fault: a copy of a block with a byte too much, and an item past
/// the last. Up to there the program ends well.
#[test]
fn sanitizers_stop_a_program() {
    let source = r#"
        #include <stdio.h>
        #include <stdlib.h>
        #include "stemline.h"
        int main(void) {
            static stemline_replica r;
            static int32_t start[STEMLINE_ITEMS];
            static uint8_t copy[2 * STEMLINE_BLOCK];
            uint8_t *block = (uint8_t *)malloc(STEMLINE_BLOCK);
            char what = 0;
            int at = 0;
            if (block != NULL && scanf("%c %d", &what, &at) == 2) {
                stemline_replica_make(&r, 2, 0, start);
                stemline_replica_send(&r, block);
                memcpy(copy, block, what == 'b' ? (size_t)at : 0);
                printf("%d %d\n", copy[STEMLINE_BLOCK - 3], (int)r.values[what == 'i' ? at : 0]);
            }
            free(block);
            return 0;
        }
    "#;
    let program = build("fault", &[("program.c", "cc", "-std=c99", source)]);
    assert_eq!(printed(&run(&program, b"b 512")), "2 0\n");
    assert_eq!(printed(&run(&program, b"i 127")), "0 0\n");
    if sanitized() {
        for (input, fault) in [
            ("b 513", "heap-buffer-overflow"),
            ("i 128", "out of bounds"),
        ] {
            let ran = run(&program, input.as_bytes());
            let said = String::from_utf8_lossy(&ran.stderr);
            assert!(!ran.status.success() && said.contains(fault), "{said}");
        }
    }
}
