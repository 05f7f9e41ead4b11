//! The pictures of `docs/pictures`, and the lists that they are drawn from.

use std::fs;
use std::io::Write;
use std::process::{Command, Stdio};

use crate::lists::List;
use crate::{file, python, room, top};

/// The model answers what is stored, and the wrong replica what is stored of it: it differs where a block that came
/// early is committed at once, and leaves another value.
#[test]
fn answers() {
    for name in ["stems", "early"] {
        let calls = file(&format!("examples/{name}.calls"));
        let list = List::of(calls.lines().map(str::to_string));
        let stored = file(&format!("examples/{name}.out"));
        assert!(stored.lines().eq(&list.answers), "{name}");
    }
    let script = top().join("scripts/picturing/processes_on_arrival.py");
    let mut command = Command::new("python3");
    command.arg("-B").arg(script);
    let Ok(mut ran) = command.stdin(Stdio::piped()).stdout(Stdio::piped()).spawn() else {
        return;
    };
    let mut input = ran.stdin.take().unwrap();
    input
        .write_all(file("examples/early.calls").as_bytes())
        .unwrap();
    drop(input);
    let output = ran.wait_with_output().unwrap();
    let wrong = file("examples/early.on_arrival.out");
    assert_eq!(String::from_utf8(output.stdout).unwrap(), wrong);
    let right = file("examples/early.out");
    let pairs = right.lines().zip(wrong.lines());
    let differing: Vec<(&str, &str)> = pairs.filter(|(right, wrong)| right != wrong).collect();
    assert_eq!(
        differing,
        [("21", "0 1 1 1 0"), ("0 1 1 1 0", "21"), ("0 84", "0 86")]
    );
}

/// The pictures are those that the script draws today, and the README shows each.
#[test]
fn pictures() {
    let folder = room("pictures");
    let _ = fs::remove_dir_all(&folder);
    fs::create_dir_all(&folder).unwrap();
    if python("scripts/picture", &["--help"]).is_none() {
        return;
    }
    let script = top().join("scripts/pictures");
    let said = Command::new("bash")
        .arg(script)
        .arg(&folder)
        .output()
        .unwrap();
    assert!(
        said.status.success(),
        "{}",
        String::from_utf8_lossy(&said.stderr)
    );
    let mut count = 0;
    for entry in fs::read_dir(top().join("docs/pictures")).unwrap() {
        let name = entry.unwrap().file_name().into_string().unwrap();
        let drawn = fs::read_to_string(format!("{folder}/{name}")).unwrap_or_default();
        let stored = file(&format!("docs/pictures/{name}"));
        assert!(
            drawn == stored,
            "docs/pictures/{name} is another today; scripts/pictures writes it anew"
        );
        // An image, which is more than a link.
        let end = format!("](docs/pictures/{name})");
        let readme = file("README.md");
        let mut lines = readme.lines();
        assert!(
            lines.any(|line| line.starts_with("![") && line.ends_with(&end)),
            "{name}"
        );
        count += 1;
    }
    assert_eq!(count, fs::read_dir(&folder).unwrap().count());
}
