//! What designers do at their studios, and what becomes of it when nodes end and come back.

use std::fs;
use std::io::{BufRead, BufReader, Write};
use std::os::unix::net::UnixStream;
use std::path::Path;
use std::process::{Command, Output, Stdio};
use std::time::Duration;

use serde_json::{json, Value};

use crate::group::{mode, wait, Group};

pub const THREE: [&str; 3] = ["studio-0", "studio-1", "studio-2"];

/// The status, and what was said on standard error.
pub fn words(output: &Output) -> (Option<i32>, String) {
    let words = String::from_utf8_lossy(&output.stderr).into_owned();
    (output.status.code(), words)
}

#[test]
fn set_at_one_and_read_at_another() {
    let mut group = Group::new("three", 3, 1, false);
    group.start_all(&THREE);
    group.start("station-0");
    let mut watch = group.stemline("studio-2", &["watch"]);
    let mut watch = watch.stdout(Stdio::piped()).spawn().unwrap();
    let mut seen = BufReader::new(watch.stdout.take().unwrap()).lines();
    std::thread::sleep(Duration::from_millis(300));
    let told = group.asked("studio-0", &["set", "stem of n", "84"]);
    assert_eq!(told, "committed as number 1\n");
    for node in ["studio-0", "studio-1", "studio-2", "station-0"] {
        group.comes(node, "stem of n", "84");
    }
    let line = seen.next().unwrap().unwrap();
    assert!(
        line.ends_with("Berlin (studio 0): stem of n = 84"),
        "{line}"
    );
    watch.kill().unwrap();
    watch.wait().unwrap();
    // A file of several measures is one transaction, and -20 is no option.
    fs::write(
        group.path("changes"),
        "stem of h = 82\n# and\nkern of AV = -3\n",
    )
    .unwrap();
    let file = group.path("changes");
    group.asked("studio-1", &["apply", file.to_str().unwrap()]);
    group.asked("studio-1", &["set", "64", "-20"]);
    let last = group.asked("station-0", &["get", "--after", "3", "kern of AV"]);
    assert_eq!(last, "-20\n");
    let all = group.asked("station-0", &["get"]);
    assert!(
        all.starts_with("stem of n = 84\nstem of h = 82\nstem of o = 0\nkern of AV = -20\n"),
        "{all}"
    );
    let status = group.asked("studio-0", &["status"]);
    assert!(
        status.starts_with("studio 0 (Berlin), of the group \"grotesque\" of 3 studios\n"),
        "{status}"
    );
    assert!(
        status.contains("3 writesets committed") && status.contains("studio 2 (Lyon): linked"),
        "{status}"
    );
}

#[test]
fn what_is_refused_and_how_it_ends() {
    let mut group = Group::new("refused", 2, 1, false);
    group.start_all(&THREE[..2]);
    group.start("station-0");
    let at = |node: &str, arguments: &[&str]| words(&group.ask(node, arguments));
    let unknown = (
        Some(1),
        "stemline: refused: no measure is called \"stem of m\"\n".to_string(),
    );
    assert_eq!(at("studio-0", &["get", "stem of m"]), unknown);
    assert_eq!(at("studio-0", &["set", "stem of m", "1"]), unknown);
    assert_eq!(at("studio-0", &["set", "stem of n", "x"]).0, Some(2));
    assert_eq!(
        at("studio-0", &["set", "stem of n", "1", "--tries", "0"]).0,
        Some(2)
    );
    assert_eq!(at("studio-0", &["apply", "no such file"]).0, Some(2));
    let (status, said) = at("station-0", &["set", "stem of n", "1"]);
    assert_eq!(status, Some(1));
    assert!(said.ends_with("(25)\n"), "{said}");
    let nine: String = (0..9).map(|item| format!("{item} = 1\n")).collect();
    fs::write(group.path("nine"), nine).unwrap();
    let (status, said) = at("studio-0", &["apply", group.path("nine").to_str().unwrap()]);
    assert_eq!(status, Some(1));
    assert!(said.ends_with("(10)\n"), "{said}");
    let (status, said) = at("studio-7", &["get"]);
    assert_eq!(status, Some(3));
    assert!(said.starts_with("stemline: no node answers at "), "{said}");
    let json = group.ask("studio-0", &["--json", "get", "5"]);
    let told: Value = serde_json::from_slice(&json.stdout).unwrap();
    assert_eq!(
        told["measures"][0],
        json!({"item": 5, "name": "stem of n", "value": 0})
    );
    assert_eq!(mode(&group.path("studio-0.socket")), 0o600);
}

/// A client that goes by steps.
struct Steps(BufReader<UnixStream>);

impl Steps {
    fn at(group: &Group, node: &str) -> Steps {
        let stream = UnixStream::connect(group.path(&format!("{node}.socket"))).unwrap();
        stream
            .set_read_timeout(Some(crate::group::PATIENCE))
            .unwrap();
        Steps(BufReader::new(stream))
    }

    fn call(&mut self, request: Value) -> Value {
        writeln!(self.0.get_mut(), "{request}").unwrap();
        let mut line = String::new();
        self.0.read_line(&mut line).unwrap();
        serde_json::from_str(&line).unwrap()
    }

    fn begin(&mut self) -> Value {
        self.call(json!({"do": "begin"}))["ticket"].clone()
    }
}

#[test]
fn transactions_by_steps() {
    let mut group = Group::new("steps", 2, 0, false);
    group.start_all(&THREE[..2]);
    let (mut a, mut b) = (Steps::at(&group, "studio-0"), Steps::at(&group, "studio-0"));
    let (t, u) = (a.begin(), b.begin());
    let write = |ticket: &Value, value: i32| json!({"do": "write", "ticket": ticket, "measure": "5", "value": value});
    assert_eq!(a.call(write(&t, 40)), json!({"told": "written"}));
    assert_eq!(
        a.call(json!({"do": "read", "ticket": t, "measure": "stem of n"})),
        json!({"told": "read", "value": 40})
    );
    assert_eq!(
        b.call(json!({"do": "read", "ticket": u, "measure": "stem of n"})),
        json!({"told": "read", "value": 0})
    );
    assert_eq!(b.call(write(&u, 41))["number"], 8);
    // Nobody has another's transaction.
    assert_eq!(b.call(write(&t, 41))["number"], 3);
    let committed = a.call(json!({"do": "ask", "ticket": t}));
    assert_eq!(
        (&committed["told"], &committed["place"]),
        (&json!("committed"), &json!(1))
    );
    assert_eq!(
        b.call(write(&u, 41)),
        json!({"told": "aborted", "tries": 1})
    );
    assert_eq!(b.call(write(&u, 41))["number"], 3);
    let u = b.begin();
    assert_eq!(
        b.call(json!({"do": "withdraw", "ticket": u})),
        json!({"told": "withdrawn"})
    );
    // Another studio's change of the measure comes first.
    let t = a.begin();
    assert_eq!(a.call(write(&t, 42)), json!({"told": "written"}));
    group.asked("studio-1", &["set", "5", "43"]);
    group.comes("studio-0", "5", "43");
    assert_eq!(
        a.call(json!({"do": "ask", "ticket": t})),
        json!({"told": "aborted", "tries": 1})
    );
    // What a connection has open ends with it.
    let six: Vec<Value> = (0..6).map(|_| a.begin()).collect();
    assert!(six.iter().all(Value::is_u64));
    assert_eq!(a.call(json!({"do": "begin"}))["number"], 5);
    drop(a);
    assert!(wait(|| b.begin().is_u64()));
    let refused = b.call(json!({"do": "sing"}));
    assert_eq!(refused["told"], "refused");
}

#[test]
fn ended_by_a_signal_and_started_again() {
    let mut group = Group::new("signal", 2, 0, false);
    group.start_all(&THREE[..2]);
    group.asked("studio-0", &["set", "stem of n", "84"]);
    assert!(
        group.terminate("studio-0").success(),
        "{}",
        group.log("studio-0")
    );
    assert!(!group.path("studio-0.socket").exists());
    // The other one waits for it, and says so.
    let waits = "waits for Berlin (studio 0), which is not linked";
    assert!(wait(|| group
        .asked("studio-1", &["status"])
        .contains(waits)));
    group.start("studio-0");
    assert_eq!(group.asked("studio-0", &["get", "stem of n"]), "84\n");
    group.asked("studio-1", &["set", "stem of n", "85"]);
    group.comes("studio-0", "stem of n", "85");
    // Who set what before is read out of the journal.
    group.terminate("studio-0");
    group.start("studio-0");
    let set = || -> Value {
        let told = group.asked("studio-0", &["--json", "get", "stem of n"]);
        serde_json::from_str(&told).unwrap()
    };
    assert!(
        wait(|| set()["measures"][0]["set"]["by"]["name"] == "Porto"),
        "{}",
        set()
    );
}

#[test]
fn journals_and_configurations_that_are_refused() {
    let mut group = Group::new("journal", 2, 0, false);
    group.start_all(&THREE[..2]);
    group.asked("studio-0", &["set", "5", "1"]);
    group.terminate("studio-0");
    let journal = fs::read(group.path("studio-0.journal")).unwrap();
    let refused = |change: &dyn Fn(String) -> String, words: &str| {
        let before = fs::read_to_string(group.path("studio-0.toml")).unwrap();
        group.edit("studio-0", change);
        fs::write(group.path("studio-0.log"), "").unwrap();
        assert_eq!(group.refused("studio-0").code(), Some(1), "{words}");
        let log = group.log("studio-0");
        assert!(
            log.lines().last().is_some_and(|line| line.contains(words)),
            "{words}: {log}"
        );
        fs::write(group.path("studio-0.toml"), before).unwrap();
    };
    let replaced =
        |from: &'static str, to: &'static str| move |text: String| text.replacen(from, to, 1);
    refused(
        &replaced("grotesque", "antiqua"),
        "it is of the group \"grotesque\", not of \"antiqua\"",
    );
    refused(
        &replaced("studio-0.journal", "studio-1.journal"),
        "studio-1.journal",
    );
    refused(
        &replaced("number = 0", "number = 2"),
        "number 2 is not among the 2 of [[replicas]]",
    );
    refused(
        &replaced("number = 0", "number = 1"),
        "`certificate` is not what replica 0 has in its list",
    );
    refused(
        &replaced("socket =", "page = \"0.0.0.0:7780\"\nsocket ="),
        "page: 0.0.0.0:7780 is not on loopback",
    );
    refused(
        &replaced("socket =", "sockets ="),
        "unknown field `sockets`",
    );
    refused(
        &replaced("studio-0.socket", "studio-1.socket"),
        "another node listens there",
    );
    assert_eq!(fs::read(group.path("studio-0.journal")).unwrap(), journal);
    // A key that others may read is none.
    let loose = std::os::unix::fs::PermissionsExt::from_mode(0o640);
    fs::set_permissions(group.path("studio-0.key"), loose).unwrap();
    refused(
        &|text| text,
        "may be read by others than its owner (mode 640)",
    );
}

#[test]
fn a_designer_is_told_what_is_waited_for() {
    let mut group = Group::new("waits", 2, 0, false);
    group.start_all(&THREE[..2]);
    let mut holder = Steps::at(&group, "studio-0");
    let ticket = holder.begin();
    let write = json!({"do": "write", "ticket": ticket, "measure": "5", "value": 1});
    assert_eq!(holder.call(write), json!({"told": "written"}));
    let mut set = group.stemline("studio-0", &["set", "5", "2"]);
    let mut set = set
        .stdout(Stdio::piped())
        .stderr(Stdio::piped())
        .spawn()
        .unwrap();
    let mut said = String::new();
    let mut words = BufReader::new(set.stderr.take().unwrap());
    words.read_line(&mut said).unwrap();
    assert_eq!(
        said,
        "stemline: waits: another open transaction holds the item (8)\n"
    );
    holder.call(json!({"do": "withdraw", "ticket": ticket}));
    let done = set.wait_with_output().unwrap();
    assert_eq!(
        String::from_utf8_lossy(&done.stdout),
        "committed as number 1\n"
    );
    // Nobody set it before the client was gone: it is dropped.
    let ticket = holder.begin();
    holder.call(json!({"do": "write", "ticket": ticket, "measure": "5", "value": 1}));
    let mut set = group.stemline("studio-0", &["set", "5", "3"]);
    let mut set = set.stderr(Stdio::piped()).spawn().unwrap();
    let mut words = BufReader::new(set.stderr.take().unwrap());
    words.read_line(&mut said).unwrap();
    set.kill().unwrap();
    set.wait().unwrap();
    drop(holder);
    group.asked("studio-0", &["set", "6", "1"]);
    assert_eq!(group.asked("studio-0", &["get", "5"]), "2\n");
}

/// As README has them; the first one builds what is tested here.
#[test]
fn five_commands() {
    let readme = concat!(env!("CARGO_MANIFEST_DIR"), "/../../README.md");
    let readme = fs::read_to_string(readme).unwrap();
    let section = readme
        .split("## A studio of three in five commands")
        .nth(1)
        .unwrap();
    let lines = section.lines().filter_map(|line| line.strip_prefix("    "));
    let commands: Vec<&str> = lines.take_while(|line| !line.is_empty()).take(6).collect();
    assert_eq!(commands.len(), 5);
    assert_eq!(
        commands[0],
        "scripts/node && export PATH=$PWD/host/node/target/release:$PATH"
    );
    // At ports that nobody has, and by a machine, which is faster than a block may be.
    let group = Group::new("readme", 2, 0, false);
    let script = commands[1..].join("\n");
    let script = script.replace("init trial", &format!("init trial --port {}", group.port));
    let script = script.replace("get 'stem", "get --after 1 'stem");
    let programs = Path::new(env!("CARGO_BIN_EXE_stemline")).parent().unwrap();
    let path = std::env::var("PATH").unwrap();
    let output = Command::new("bash")
        .args(["-euc", &format!("trap 'kill $(jobs -p)' EXIT\n{script}")])
        .env("PATH", format!("{}:{path}", programs.display()))
        .current_dir(&group.folder)
        .output()
        .unwrap();
    let told = String::from_utf8_lossy(&output.stdout);
    let words = String::from_utf8_lossy(&output.stderr);
    assert!(output.status.success(), "{told}{words}");
    assert!(
        told.ends_with("committed as number 1\n84\n"),
        "{told}{words}"
    );
}
