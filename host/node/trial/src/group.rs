//! A group of nodes and its stations, as processes on this machine.

use std::fs;
use std::path::{Path, PathBuf};
use std::time::Duration;

use serde_json::Value;

use crate::client::Client;
use crate::net::Net;
use crate::process::Process;
use crate::{certificate, until};

/// What a group is made of.
#[derive(Clone)]
pub struct Plan {
    /// The program `stemline-node`.
    pub program: PathBuf,
    /// Where all is kept: certificates, configurations, sockets, logs. It is made anew.
    pub folder: PathBuf,
    /// Where the journals are.
    pub journals: PathBuf,
    /// The group's name.
    pub name: String,
    /// How many replicas; all other places are stations'.
    pub replicas: usize,
    /// The lines of `[waits]` in the configuration.
    pub waits: String,
}

/// A group of nodes. All goes when this is dropped: first the processes, then what they stand on.
pub struct Group {
    /// The replicas, and behind them the stations.
    pub nodes: Vec<Node>,
    /// What they stand on.
    pub net: Net,
    /// What it was made of.
    pub plan: Plan,
}

/// A node of a group.
pub struct Node {
    /// Its process.
    pub process: Process,
    /// Where clients reach it.
    pub socket: PathBuf,
}

impl Group {
    /// Makes certificates and configurations for all places. Nothing is started yet.
    pub fn new(plan: Plan, net: Net) -> Result<Group, String> {
        let words = |error: std::io::Error| error.to_string();
        let _ = fs::remove_dir_all(&plan.folder);
        fs::create_dir_all(&plan.folder).map_err(words)?;
        fs::create_dir_all(&plan.journals).map_err(words)?;
        for k in 0..net.count() {
            certificate::make(&plan.folder, &k.to_string(), net.host(k))?;
        }
        let nodes = Vec::new();
        let mut group = Group { nodes, net, plan };
        fs::write(group.notices(), "").map_err(words)?;
        for k in 0..group.net.count() {
            let node = group.node(k, &k.to_string(), &group.journal(k))?;
            group.nodes.push(node);
        }
        Ok(group)
    }

    /// What the membership service has said: one file, which all nodes read.
    pub fn notices(&self) -> PathBuf {
        self.plan.folder.join("notices")
    }

    /// The journal of a replica.
    pub fn journal(&self, k: usize) -> PathBuf {
        self.plan.journals.join(format!("{k}.journal"))
    }

    /// The journals of all replicas.
    pub fn journals(&self) -> Vec<PathBuf> {
        (0..self.plan.replicas).map(|k| self.journal(k)).collect()
    }

    /// A node at place k, with this certificate and this journal.
    pub fn node(&self, k: usize, certificate: &str, journal: &Path) -> Result<Node, String> {
        let file = |end| self.plan.folder.join(format!("{k}-{certificate}.{end}"));
        let (config, socket) = (file("toml"), file("socket"));
        let text = self.text(k, certificate, journal, &socket);
        fs::write(&config, text).map_err(|error| error.to_string())?;
        let mut command = self.net.command(k, &self.plan.program);
        command.arg("run").arg(&config);
        Ok(Node {
            process: Process::new(command, &file("log")),
            socket,
        })
    }

    /// The configuration of a node.
    fn text(&self, k: usize, certificate: &str, journal: &Path, socket: &Path) -> String {
        let Plan {
            name,
            replicas,
            waits,
            ..
        } = &self.plan;
        let at = |k| self.net.address(k);
        let own = match k < *replicas {
            true => format!("number = {k}\njournal = {journal:?}\nlisten = {:?}", at(k)),
            false => "station = true".to_string(),
        };
        let files = format!(
            "certificate = \"{certificate}.crt\"\nkey = \"{certificate}.key\"\nsocket = {socket:?}\nnotices = \"notices\""
        );
        let peer = |other: usize| {
            let of = if other == k {
                certificate.to_string()
            } else {
                other.to_string()
            };
            match other < *replicas {
                true => format!(
                    "[[replicas]]\naddress = {:?}\ncertificate = \"{of}.crt\"\n",
                    at(other)
                ),
                false => format!("[[stations]]\ncertificate = \"{of}.crt\"\n"),
            }
        };
        let peers: String = (0..self.net.count()).map(peer).collect();
        format!("group = {name:?}\n{own}\n{files}\n[waits]\n{waits}\n{peers}")
    }

    /// Starts all that do not run, and waits until they answer.
    pub fn start(&mut self) -> Result<(), String> {
        let started = |node: &mut Node| node.process.start();
        self.nodes
            .iter_mut()
            .try_for_each(started)
            .map_err(|error| error.to_string())?;
        let answers = |node: &Node| node.status().is_some();
        let up = until("all nodes answer", Duration::from_secs(20), || {
            self.nodes.iter().all(answers)
        });
        up.map_err(|words| format!("{words}: {}", self.tails()))
    }

    /// Ends all by SIGTERM, and says which does not end well.
    pub fn end(&mut self) -> Result<(), String> {
        for (k, node) in self.nodes.iter_mut().enumerate() {
            let status = node.process.end(Duration::from_secs(10))?;
            if !status.success() {
                return Err(format!(
                    "node {k} ends with {status}: {}",
                    tail(&node.process.said())
                ));
            }
        }
        Ok(())
    }

    /// Waits until all nodes are at one turn with one digest, and gives their commits.
    pub fn level(&self, most: Duration) -> Result<u64, String> {
        let mut seen = Vec::new();
        let level = until("all nodes at one turn with one digest", most, || {
            seen = self.nodes.iter().map(Node::place).collect();
            seen[0].is_some() && seen.iter().all(|place| place == &seen[0])
        });
        level.map_err(|words| format!("{words}: {seen:?}; {}", self.tails()))?;
        Ok(seen[0].as_ref().map_or(0, |place| place.1))
    }

    /// What the nodes said last.
    pub fn tails(&self) -> String {
        let said = |node: &Node| tail(&node.process.said());
        self.nodes
            .iter()
            .map(said)
            .collect::<Vec<_>>()
            .join("\n--\n")
    }
}

impl Node {
    /// A client of it; what takes longer than so long fails.
    pub fn client(&self, most: Duration) -> Result<Client, String> {
        Client::connect(&self.socket, most)
            .map_err(|error| format!("{}: {error}", self.socket.display()))
    }

    /// Where it is, if it answers.
    pub fn status(&self) -> Option<Value> {
        self.client(Duration::from_secs(2)).ok()?.status().ok()
    }

    /// Its turn, commits and digest, if it answers.
    pub fn place(&self) -> Option<(u64, u64, String)> {
        let status = self.status()?;
        let digest = status["digest"].as_str()?.to_string();
        Some((
            status["turn"].as_u64()?,
            status["commits"].as_u64()?,
            digest,
        ))
    }
}

/// The last lines of a log.
pub fn tail(log: &str) -> String {
    let lines: Vec<&str> = log.lines().collect();
    lines[lines.len().saturating_sub(5)..].join("\n")
}
