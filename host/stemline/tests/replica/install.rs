//! What `scripts/install` puts under a prefix is enough to compile the first C program, by `pkg-config`
//! alone.

use std::fs;
use std::os::unix::fs::symlink;
use std::path::{Path, PathBuf};
use std::process::{Command, Output};
use std::sync::Once;

use crate::c::{printed, say};

const FILES: [&str; 14] = [
    "include/stemline.h",
    "include/stemline_calls.h",
    "include/stemline_window.h",
    "include/stemline_journal.h",
    "share/stemline/stemline_journal.c",
    "share/stemline/journal_head.h",
    "share/stemline/journal_disk.h",
    "share/stemline/journal_notices.h",
    "share/stemline/journal_outcome.h",
    "lib/libstemline.a",
    "lib/pkgconfig/stemline.pc",
    "share/man/man1/replay.1",
    "share/man/man1/week.1",
    "share/stemline/installed",
];

fn top() -> PathBuf {
    Path::new(env!("CARGO_MANIFEST_DIR")).join("../..")
}

/// An empty folder.
fn room(name: &str) -> PathBuf {
    let room = Path::new(env!("CARGO_TARGET_TMPDIR")).join(name);
    let _ = fs::remove_dir_all(&room);
    fs::create_dir_all(&room).unwrap();
    room
}

fn install(words: &[&str], destination: Option<&Path>) -> Output {
    let mut script = Command::new(top().join("scripts/install"));
    script.args(words).env_remove("DESTDIR");
    script.envs(destination.map(|path| ("DESTDIR", path)));
    script.output().unwrap()
}

/// What `pkg-config` says of the package under a prefix; where there is none on this machine, which is
/// said, what the package's file has in the field.
fn package(prefix: &Path, option: &str, field: &str) -> String {
    let folder = prefix.join("lib/pkgconfig");
    let mut command = Command::new("pkg-config");
    command
        .args([option, "stemline"])
        .env("PKG_CONFIG_PATH", &folder);
    match command.output() {
        Ok(said) => printed(&said).trim().to_string(),
        Err(_) => {
            static SAID: Once = Once::new();
            SAID.call_once(|| {
                say("pkg-config: NOT used, there is none; the test reads stemline.pc")
            });
            let text = fs::read_to_string(folder.join("stemline.pc")).unwrap();
            let value = |start: &str| {
                let found = text.lines().find_map(|line| line.strip_prefix(start));
                found.expect(start).to_string()
            };
            let path = |name| value(name).replace("${prefix}", &value("prefix="));
            value(field)
                .replace("${includedir}", &path("includedir="))
                .replace("${libdir}", &path("libdir="))
        }
    }
}

#[test]
fn the_first_program_by_pkg_config() {
    let prefix = room("prefix");
    printed(&install(&[prefix.to_str().unwrap()], None));
    for file in FILES {
        assert!(prefix.join(file).is_file(), "{file}");
    }
    let version = package(&prefix, "--modversion", "Version: ");
    assert_eq!(version, env!("CARGO_PKG_VERSION"));
    let flags = [("--cflags", "Cflags: "), ("--libs", "Libs: ")];
    let [cflags, libs] = flags.map(|(option, field)| package(&prefix, option, field));
    // In a folder of its own, without the source's headers.
    let source = prefix.join("first.c");
    fs::copy(top().join("host/examples/first.c"), &source).unwrap();
    let program = prefix.join("first");
    let mut compiler = Command::new("cc");
    compiler
        .current_dir(&prefix)
        .args(cflags.split_whitespace());
    compiler.arg(&source).args(libs.split_whitespace());
    printed(&compiler.arg("-o").arg(&program).output().unwrap());
    let ran = Command::new(&program).output().unwrap();
    assert_eq!(printed(&ran), "the write: accepted\nitem 5: 40 and 40\n");
}

/// Under DESTDIR, as a packager has it; the program is there where it is built, and can be run.
#[test]
fn a_folder_before_the_prefix() {
    let stage = room("stage");
    let said = printed(&install(&["/prefix"], Some(&stage)));
    let root = stage.join("prefix");
    for file in FILES {
        assert!(root.join(file).is_file(), "{file}");
    }
    let package = fs::read_to_string(root.join("lib/pkgconfig/stemline.pc")).unwrap();
    assert!(package.starts_with("prefix=/prefix\n"), "{package}");
    for (program, built) in [
        ("replay", "target/bin/replay"),
        ("week", "target/bin/week"),
        ("journal", "host/target/release/journal"),
    ] {
        let built = top().join(built).is_file();
        let there = root.join("bin").join(program);
        assert_eq!(there.is_file(), built);
        let left_out = format!("{program} is not built");
        assert_eq!(said.contains(&left_out), !built, "{said}");
        if built {
            let ran = Command::new(there).arg("--version").output().unwrap();
            assert_eq!(ran.status.code(), Some(0));
        }
    }
}

/// Prefix and stage are seen from the folder of the caller, and the script may be called through a link.
#[test]
fn relative_folders_through_a_link() {
    let room = room("relative").canonicalize().unwrap();
    let link = room.join("link");
    symlink(top().join("scripts/install"), &link).unwrap();
    let mut script = Command::new("./link");
    script.current_dir(&room).arg("here").env_remove("DESTDIR");
    printed(&script.output().unwrap());
    let package = room.join("here/lib/pkgconfig/stemline.pc");
    let text = fs::read_to_string(package).unwrap();
    let first = format!("prefix={}/here", room.display());
    assert_eq!(text.lines().next(), Some(&first[..]));
    printed(&script.env("DESTDIR", "stage").output().unwrap());
    let staged = format!("stage{}/here/include/stemline.h", room.display());
    assert!(room.join(staged).is_file());
}

/// What was installed is taken away, and nothing else.
#[test]
fn uninstall() {
    let prefix = room("uninstall");
    let name = prefix.to_str().unwrap();
    let gone = install(&["--uninstall", name], None);
    let none =
        format!("install: nothing to take away: there is no {name}/share/stemline/installed\n");
    assert_eq!(
        (gone.status.code(), &gone.stderr[..]),
        (Some(1), none.as_bytes())
    );
    printed(&install(&[name], None));
    printed(&install(&[name], None));
    let other = prefix.join("include/other.h");
    fs::write(&other, "").unwrap();
    let said = printed(&install(&["--uninstall", name], None));
    for file in FILES {
        assert!(!prefix.join(file).exists(), "{file}");
    }
    assert!(said.contains("took away") && other.is_file());
    assert!(fs::read_dir(prefix.join("bin")).unwrap().next().is_none());
    // A list that somebody changed.
    printed(&install(&[name], None));
    for line in [
        "../other",
        "/etc/passwd",
        "include/stemline/../../../x.h",
        "",
    ] {
        fs::write(prefix.join("share/stemline/installed"), format!("{line}\n")).unwrap();
        let refused = install(&["--uninstall", name], None);
        assert_eq!(refused.status.code(), Some(1), "{line}");
        assert!(prefix.join("include/stemline.h").is_file());
    }
}

/// Of each character of a prefix: what `pkg-config` says of it can be handed to a compiler as it is, or it is
/// refused, and nothing is written.
#[test]
fn characters() {
    let room = room("characters");
    let words =
        "install: the PREFIX, from / on, has a character that no pkg-config file can name; \
        letters, digits and /._-+,@=^~ can be\n";
    for part in ["a-b_c+d,e@g=h^i~j.k0"] {
        let prefix = room.join(part);
        printed(&install(&[prefix.to_str().unwrap()], None));
        let said = package(&prefix, "--cflags", "Cflags: ");
        assert_eq!(said, format!("-I{}/include", prefix.display()));
    }
    for bad in [
        "'", "#", "\\", "&", "${y}", " ", "\t", "\n", "\"", "`", "$", "%", "*", "?", "(", ";", "<",
        "|", "[", "{", "!", ":", "ü",
    ] {
        for part in [format!("a{bad}b"), format!("a{bad}")] {
            let prefix = room.join(&part);
            let ran = install(&[prefix.to_str().unwrap()], None);
            let said = String::from_utf8(ran.stderr).unwrap();
            assert_eq!((ran.status.code(), &said[..]), (Some(2), words), "{part}");
            assert!(!prefix.exists(), "{part}");
            // From a folder of such a name.
            fs::create_dir_all(&prefix).unwrap();
            let mut script = Command::new(top().canonicalize().unwrap().join("scripts/install"));
            script
                .current_dir(&prefix)
                .arg("here")
                .env_remove("DESTDIR");
            assert_eq!(script.output().unwrap().status.code(), Some(2), "{part}");
        }
    }
}

#[test]
fn bad_arguments() {
    let room = room("bad");
    let file = room.join("file");
    fs::write(&file, "").unwrap();
    let under = file.join("prefix");
    let under = under.to_str().unwrap();
    let cannot = format!("cannot write {under}/include/stemline.h");
    for (words, status, says) in [
        (
            &["--what"][..],
            2,
            "--what: not an option; --help says what there is",
        ),
        (
            &["/a", "/b"],
            2,
            "one PREFIX at most; --help says what there is",
        ),
        (&[""], 2, "the PREFIX is empty"),
        (
            &["/a b"],
            2,
            "the PREFIX, from / on, has a character that no pkg-config file can name; letters, digits and /._-+,@=^~ can be",
        ),
        (&[under], 1, &cannot),
    ] {
        let ran = install(words, None);
        let said = String::from_utf8(ran.stderr).unwrap();
        assert_eq!(
            (ran.status.code(), said),
            (Some(status), format!("install: {says}\n"))
        );
        assert_eq!(ran.stdout, b"");
    }
    let help = printed(&install(&["--help"], None));
    assert!(help.starts_with("usage: scripts/install [--uninstall] [PREFIX]\n"));
    assert!(FILES.iter().all(|file| help.contains(file)), "{help}");
}
