//! One of the two stores, running, and a designer at one of its members.

use std::path::PathBuf;
use std::sync::{Arc, Condvar, Mutex};
use std::thread::sleep;
use std::time::Duration;

use serde_json::{json, Value};

use super::etcd::{self, Etcd};
use crate::client::{self, Told};
use crate::group::{Group, Plan};
use crate::lines::Quality;
use crate::net::Net;

/// Which of the two.
#[derive(Clone, Copy, PartialEq, Debug)]
pub enum System {
    /// A group of `stemline-node`.
    Nodes,
    /// A group of etcd.
    Etcd,
}

/// What is to run, and where.
#[derive(Clone)]
pub struct Setting {
    /// Which of the two.
    pub system: System,
    /// The size of the group.
    pub replicas: usize,
    /// How long a packet is under way; `None` for loopback.
    pub delay: Option<Duration>,
    /// A folder for all that is not measured; it is made anew.
    pub folder: PathBuf,
    /// A folder for journals and data; it is made anew.
    pub data: PathBuf,
    /// The program `stemline-node`.
    pub program: PathBuf,
}

/// A group that runs. It ends when this is dropped.
pub enum Running {
    /// Of nodes.
    Nodes(Group),
    /// Of etcd, with the locks of each member.
    Etcd(Etcd, Vec<Arc<Locks>>),
}

/// Whether a transaction goes on.
#[derive(Clone, Copy, PartialEq, Debug)]
pub enum Step {
    /// It does; behind an ask: it is committed.
    Done,
    /// It is aborted.
    Aborted,
}

/// A client with one connection, and one transaction at a time.
pub trait Designer: Send {
    /// Sets one measure; it is durable and in its place when this comes back.
    fn put(&mut self, item: u32, value: i32) -> Result<(), String>;
    /// Begins a transaction.
    fn begin(&mut self) -> Result<(), String>;
    /// Reads within it.
    fn read(&mut self, item: u32) -> Result<Step, String>;
    /// Writes within it, and waits for others of the same member that hold the item.
    fn write(&mut self, item: u32, value: i32) -> Result<Step, String>;
    /// Asks to commit it, and waits for the outcome.
    fn ask(&mut self) -> Result<Step, String>;
}

impl Running {
    /// Starts a group with nothing in it.
    pub fn start(setting: &Setting) -> Result<Running, String> {
        let _ = std::fs::remove_dir_all(&setting.data);
        let net = match setting.delay {
            None => Net::loopback(setting.replicas)?,
            Some(delay) => {
                let net = Net::spaced(setting.replicas, 1)?;
                let quality = Quality {
                    delay,
                    ..Quality::default()
                };
                net.set_all(quality)?;
                net
            }
        };
        match setting.system {
            System::Nodes => nodes(setting, net).map(Running::Nodes),
            System::Etcd => {
                let etcd = Etcd::start(net, &setting.folder, &setting.data)?;
                let locks = (0..setting.replicas).map(|_| Arc::new(Locks::default()));
                Ok(Running::Etcd(etcd, locks.collect()))
            }
        }
    }

    /// A designer at member k.
    pub fn designer(&self, k: usize) -> Result<Box<dyn Designer>, String> {
        Ok(match self {
            Running::Nodes(group) => Box::new(AtNode {
                client: group.nodes[k].client(Duration::from_secs(60))?,
                ticket: 0,
            }),
            Running::Etcd(etcd, locks) => Box::new(AtEtcd {
                client: etcd::Client::connect(&etcd.sockets[k])?,
                locks: Arc::clone(&locks[k]),
                snapshot: 0,
                writes: Vec::new(),
                since: Vec::new(),
            }),
        })
    }
}

/// A group of nodes with all waits as the program has them.
fn nodes(setting: &Setting, net: Net) -> Result<Group, String> {
    let plan = Plan {
        program: setting.program.clone(),
        folder: setting.folder.clone(),
        journals: setting.data.clone(),
        name: "bench".to_string(),
        replicas: setting.replicas,
        waits: String::new(),
    };
    let mut group = Group::new(plan, net)?;
    group.start()?;
    for node in &group.nodes {
        let told = node.client(Duration::from_secs(30))?.set(&[(0, 0)], 1000);
        if !matches!(told, Told::Committed(..)) {
            return Err(format!("a group that has just begun: {told:?}"));
        }
    }
    Ok(group)
}

struct AtNode {
    client: client::Client,
    ticket: u64,
}

impl AtNode {
    fn told(&mut self, request: Value) -> Result<Value, String> {
        self.client.ask(&request).map_err(|error| error.to_string())
    }

    /// What was told of a step of the transaction, with the number of the refusal behind it.
    fn step(&mut self, request: Value) -> Result<Result<Step, u64>, String> {
        let told = self.told(request)?;
        match (told["told"].as_str(), told["number"].as_u64()) {
            (Some("read" | "written" | "committed" | "readonly"), _) => Ok(Ok(Step::Done)),
            (Some("aborted"), _) | (Some("refused"), Some(3 | 9)) => Ok(Ok(Step::Aborted)),
            (Some("refused"), Some(number)) => Ok(Err(number)),
            _ => Err(told.to_string()),
        }
    }
}

impl Designer for AtNode {
    fn put(&mut self, item: u32, value: i32) -> Result<(), String> {
        match self.client.set(&[(item, value)], 1000) {
            Told::Committed(..) => Ok(()),
            told => Err(format!("{told:?}")),
        }
    }

    fn begin(&mut self) -> Result<(), String> {
        let told = self.told(json!({"do": "begin"}))?;
        self.ticket = told["ticket"].as_u64().ok_or_else(|| told.to_string())?;
        Ok(())
    }

    fn read(&mut self, item: u32) -> Result<Step, String> {
        let request = json!({"do": "read", "ticket": self.ticket, "measure": item.to_string()});
        self.step(request)?
            .map_err(|number| format!("a read is refused by {number}"))
    }

    fn write(&mut self, item: u32, value: i32) -> Result<Step, String> {
        let request = json!({"do": "write", "ticket": self.ticket, "measure": item.to_string(), "value": value});
        loop {
            match self.step(request.clone())? {
                Ok(step) => return Ok(step),
                Err(7 | 8) => sleep(Duration::from_millis(1)),
                Err(number) => return Err(format!("a write is refused by {number}")),
            }
        }
    }

    fn ask(&mut self) -> Result<Step, String> {
        let request = json!({"do": "ask", "ticket": self.ticket});
        self.step(request)?
            .map_err(|number| format!("an ask is refused by {number}"))
    }
}

/// Locks of the items at one member, as the database beneath a certifying replica has them.
#[derive(Default)]
pub struct Locks {
    held: Mutex<Vec<u32>>,
    freed: Condvar,
}

impl Locks {
    fn take(&self, item: u32) {
        let held = self.held.lock().expect("no holder panics");
        let wait = self.freed.wait_while(held, |held| held.contains(&item));
        wait.expect("no holder panics").push(item);
    }

    fn free(&self, writes: &[(u32, i32)]) {
        let mut held = self.held.lock().expect("no holder panics");
        held.retain(|&item| writes.iter().all(|write| write.0 != item));
        self.freed.notify_all();
    }
}

/// Certification over etcd: it orders the writesets of all, and each passes where no item of it was put since it began.
struct AtEtcd {
    client: etcd::Client,
    locks: Arc<Locks>,
    snapshot: u64,
    writes: Vec<(u32, i32)>,
    since: Vec<u64>,
}

impl AtEtcd {
    fn end(&mut self, step: Step) -> Step {
        self.locks.free(&self.writes);
        self.writes.clear();
        self.since.clear();
        step
    }
}

impl Designer for AtEtcd {
    fn put(&mut self, item: u32, value: i32) -> Result<(), String> {
        self.client.put(item, value)
    }

    fn begin(&mut self) -> Result<(), String> {
        self.snapshot = self.client.revision(0)?.0;
        Ok(())
    }

    fn read(&mut self, item: u32) -> Result<Step, String> {
        self.client.revision(item).map(|_| Step::Done)
    }

    fn write(&mut self, item: u32, value: i32) -> Result<Step, String> {
        self.locks.take(item);
        self.writes.push((item, value));
        let changed = self.client.revision(item)?.1;
        self.since.push(changed);
        Ok(match changed > self.snapshot {
            true => self.end(Step::Aborted),
            false => Step::Done,
        })
    }

    fn ask(&mut self) -> Result<Step, String> {
        if self.writes.is_empty() {
            return Ok(Step::Done);
        }
        let passed = self.client.put_unless_changed(&self.writes, &self.since)?;
        Ok(self.end(if passed { Step::Done } else { Step::Aborted }))
    }
}
