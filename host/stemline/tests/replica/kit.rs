//! The program `kit`: what it prints, and its status.

use std::process::Command;

fn run(arguments: &[&str]) -> (String, String, i32) {
    let mut command = Command::new(env!("CARGO_BIN_EXE_kit"));
    let output = command.args(arguments).output().unwrap();
    let text = |bytes| String::from_utf8(bytes).unwrap();
    let status = output.status.code().expect("a status");
    (text(output.stdout), text(output.stderr), status)
}

/// As many runs as asked, from a seed on: the same seeds print the same, but for the seconds.
#[test]
fn runs_by_seed() {
    let counts = |arguments: &[&str]| {
        let (said, errors, status) = run(arguments);
        assert_eq!((errors.as_str(), status), ("", 0));
        let (line, rest) = said.split_once('\n').unwrap();
        assert_eq!(rest, "kit: 0 complaints\n");
        line.rsplit_once(';').unwrap().0.to_string()
    };
    let first = counts(&["--runs", "12", "--seed", "500"]);
    assert!(first.starts_with("kit: 12 runs, "), "{first}");
    assert_eq!(counts(&["--seed", "500", "--runs", "12"]), first);
    assert_ne!(counts(&["--runs", "12", "--seed", "512"]), first);
    assert!(counts(&["--seconds", "0"]).starts_with("kit: 0 runs, "));
}

#[test]
fn other_arguments() {
    let cases = [
        (&["--runs"][..], "kit: --runs wants a number\n"),
        (&["--seed", "x"], "kit: --seed wants a number\n"),
        (
            &["--faster"],
            "kit: there is no option \"--faster\"; --help says which there are\n",
        ),
    ];
    for (arguments, due) in cases {
        assert_eq!(run(arguments), (String::new(), due.to_string(), 2));
    }
    let (help, _, status) = run(&["--help"]);
    assert!(help.starts_with("usage: kit ") && status == 0);
}
