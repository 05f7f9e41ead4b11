//! The build script: which archive it links, and what it says where there is none.

use std::fs;
use std::os::unix::fs::PermissionsExt;
use std::path::{Path, PathBuf};
use std::process::{Command, Output};

/// The script as a program, in a folder of its own.
fn script(name: &str) -> (PathBuf, PathBuf) {
    let room = Path::new(env!("CARGO_TARGET_TMPDIR")).join(name);
    let _ = fs::remove_dir_all(&room);
    fs::create_dir_all(room.join("bin")).unwrap();
    let source = Path::new(env!("CARGO_MANIFEST_DIR")).join("build.rs");
    let program = room.join("script");
    let rustc = std::env::var_os("RUSTC").unwrap_or("rustc".into());
    let mut command = Command::new(rustc);
    command.args(["--edition", "2021", "--crate-name", "script", "-o"]);
    let made = command.arg(&program).arg(source).output().unwrap();
    assert!(made.status.success(), "{made:?}");
    (room, program)
}

/// Runs it for a crate in this folder.
fn run(program: &Path, crate_folder: &Path, archive: Option<&Path>, path: &Path) -> Output {
    let mut command = Command::new(program);
    command.env("CARGO_MANIFEST_DIR", crate_folder);
    command.env("CARGO_PKG_VERSION_MAJOR", "3");
    command.env("CARGO_PKG_VERSION_MINOR", "1");
    command.env("PATH", path);
    match archive {
        Some(archive) => command.env("STEMLINE_ARCHIVE", archive),
        None => command.env_remove("STEMLINE_ARCHIVE"),
    };
    command.output().unwrap()
}

fn links(ran: &Output, folder: &Path, name: &str) {
    assert!(ran.status.success(), "{ran:?}");
    let said = String::from_utf8_lossy(&ran.stdout);
    let search = format!("cargo:rustc-link-search=native={}\n", folder.display());
    let link = format!("cargo:rustc-link-lib=static={name}\n");
    assert!(said.contains(&search) && said.contains(&link), "{said}");
}

fn refuses(ran: &Output, words: &str) {
    assert_eq!(ran.status.code(), Some(1));
    let said = String::from_utf8_lossy(&ran.stderr);
    assert!(
        said.starts_with("error: ") && said.contains(words),
        "{said}"
    );
    assert_eq!(said.lines().count(), 1);
}

/// What of an archive says that it is of version 3.1.
const SYMBOL: &str = "!<arch>\nstemline_make\0stemline_version_3_1\0";

/// The one that the environment names first, then that of the repository, then that of pkg-config.
#[test]
fn archives() {
    let (room, program) = script("build script");
    let (nowhere, bin) = (room.join("a/b/crate"), room.join("bin"));
    fs::create_dir_all(&nowhere).unwrap();
    let built = room.join("a/target/staticlib");
    refuses(&run(&program, &nowhere, None, &bin), "scripts/library");
    // By pkg-config, which prints where it is.
    let installed = room.join("lib");
    fs::create_dir_all(&installed).unwrap();
    fs::write(installed.join("libstemline.a"), SYMBOL).unwrap();
    let config = bin.join("pkg-config");
    let text = format!("#!/bin/sh\necho '{}'\n", installed.display());
    fs::write(&config, text).unwrap();
    fs::set_permissions(&config, fs::Permissions::from_mode(0o755)).unwrap();
    links(&run(&program, &nowhere, None, &bin), &installed, "stemline");
    // In the repository.
    fs::create_dir_all(&built).unwrap();
    fs::write(built.join("libreplica.a"), SYMBOL).unwrap();
    let ran = run(&program, &nowhere, None, &bin);
    links(&ran, &nowhere.join("../../target/staticlib"), "replica");
    // By the environment.
    let archive = installed.join("libstemline.a");
    let ran = run(&program, &nowhere, Some(&archive), &bin);
    links(&ran, &installed, "stemline");
    let ran = run(&program, &nowhere, Some(&installed.join("libnone.a")), &bin);
    refuses(&ran, "libnone.a, which STEMLINE_ARCHIVE names, is missing");
    fs::write(installed.join("stemline"), SYMBOL).unwrap();
    let ran = run(&program, &nowhere, Some(&installed.join("stemline")), &bin);
    refuses(&ran, "is not named lib..a");
}

/// An archive of another version is refused, and so is one of before there was a symbol for it.
#[test]
fn versions() {
    let (room, program) = script("build script of versions");
    let archive = room.join("libstemline.a");
    for text in [
        "",
        "!<arch>\nstemline_make\0",
        "stemline_version_3_0\0",
        "stemline_version_3_10\0",
        "stemline_version_3_1",
    ] {
        fs::write(&archive, text).unwrap();
        let ran = run(&program, &room, Some(&archive), &room);
        refuses(
            &ran,
            "libstemline.a is not of version 3.1, as this crate is",
        );
    }
    fs::write(&archive, SYMBOL).unwrap();
    let ran = run(&program, &room, Some(&archive), &room);
    links(&ran, &room, "stemline");
}
