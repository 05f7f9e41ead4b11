//! Nodes as they are run: processes in network namespaces of their own, with certificates by `openssl`, over lines
//! that lose, delay and are cut; killed, with a full disk, on holiday, among strangers.
//!
//! They need root, `ip` and `openssl`. Where something is missing they fail with a line that says what; with
//! `STEMLINE_TRIALS=skip` they say it and are passed over.

mod disk;
mod holiday;
mod lines;
mod storm;
mod strangers;

use std::fs;
use std::path::{Path, PathBuf};
use std::time::{Duration, Instant};

use trial::client::Told;
use trial::group::{Group, Plan};
use trial::net::Net;
use trial::process::Process;
use trial::verdict::{self, Count};
use trial::worker::Asked;

/// A group that can go on does so in that time.
const MOST: Duration = Duration::from_secs(30);

/// Whether a trial can be made here.
fn able() -> bool {
    let skips = std::env::var("STEMLINE_TRIALS").is_ok_and(|word| word == "skip");
    match trial::able() {
        Ok(()) => true,
        Err(words) if skips => {
            eprintln!("passed over: {words}");
            false
        }
        Err(words) => panic!("{words}; STEMLINE_TRIALS=skip passes the trials over"),
    }
}

/// A number of the environment, or else this one.
fn number(name: &str, otherwise: u64) -> u64 {
    let given = std::env::var(name).ok();
    given.map_or(otherwise, |text| {
        text.parse()
            .unwrap_or_else(|_| panic!("{name} is no number: {text}"))
    })
}

/// A folder for a trial's files. Paths of sockets are short, so it is not among those of the build.
fn folder(name: &str) -> PathBuf {
    std::env::temp_dir().join(format!("stemline-{}-{name}", std::process::id()))
}

/// What a group of three is made of, with waits that are short.
fn plan(name: &str) -> Plan {
    Plan {
        program: env!("CARGO_BIN_EXE_stemline-node").into(),
        journals: folder(name).join("journals"),
        folder: folder(name),
        name: name.to_string(),
        replicas: 3,
        waits: "idle_ms = 100\nresend_ms = 50\nask_ms = 50\nsilent_ms = 1000\nreconnect_ms = 200"
            .to_string(),
    }
}

/// Three nodes in namespaces, with so many stations behind them.
fn group(name: &str, stations: usize) -> Group {
    let net = Net::spaced(3 + stations, 1).unwrap();
    Group::new(plan(name), net).unwrap()
}

/// Sets measures at a node one after the other, all with one value that is new, and keeps what was told.
struct Designer {
    asked: Vec<Asked>,
}

impl Designer {
    fn new() -> Designer {
        Designer { asked: Vec::new() }
    }

    /// What is told within so long; the connection is given up then.
    fn sets(&mut self, group: &Group, node: usize, most: Duration) -> Told {
        let writes = vec![
            (5, self.asked.len() as i32 + 1),
            (9, self.asked.len() as i32 + 1),
        ];
        let told = match group.nodes[node].client(most) {
            Ok(mut client) => client.set(&writes, 100),
            Err(words) => Told::Refused(words),
        };
        self.asked.push(Asked {
            node,
            writes,
            told: told.clone(),
        });
        told
    }

    /// One that must be committed.
    fn commits(&mut self, group: &Group, node: usize) {
        let began = Instant::now();
        let told = self.sets(group, node, MOST);
        assert!(
            matches!(told, Told::Committed(..)),
            "after {:?}: {told:?}; {}",
            began.elapsed(),
            group.tails()
        );
    }

    /// Ends a trial: all nodes go on, come to one place and end well, the program for designers reads there what was
    /// set last, the journals agree, and all that was told is true of them.
    fn verdict(mut self, mut group: Group, journals: &[impl AsRef<Path>]) -> Count {
        group.start().unwrap();
        (0..group.plan.replicas).for_each(|node| self.commits(&group, node));
        group.level(MOST).unwrap();
        for node in &group.nodes {
            let socket = node.socket.to_string_lossy();
            let read = trial::run(
                env!("CARGO_BIN_EXE_stemline"),
                &["--socket", &socket, "get", "9"],
            );
            assert_eq!(read.unwrap().trim(), self.asked.len().to_string());
        }
        group.end().unwrap();
        let sequence = verdict::sequence(&verdict::agreed(journals).unwrap());
        let count = verdict::truth(&self.asked, &sequence).unwrap();
        // What failed is kept, to be looked at.
        fs::remove_dir_all(&group.plan.folder).unwrap();
        count
    }
}

/// What a process says from here on.
fn from_here(process: &Process) -> impl Fn(&Process) -> String {
    let before = process.said().len();
    move |process| process.said()[before..].to_string()
}
