//! The configuration of a node: one TOML file, whose paths are seen from its own folder.

use std::net::SocketAddr;
use std::path::{Path, PathBuf};
use std::time::Duration;

use serde::Deserialize;
use stemline::driver::{Group, Peer, Waits};
use stemline::{Notice, ITEMS};

use crate::lists::{self, Names};
use crate::pins::{self, Identity, Pin};

/// What a node is told at its start.
pub struct Config {
    /// What all members of the group have in common.
    pub group: Group,
    /// The own number; a station has none.
    pub own: Option<u32>,
    /// The file of the journal; a station has none.
    pub journal: Option<PathBuf>,
    /// Where designers' programs reach the node.
    pub socket: PathBuf,
    /// Where peers reach it, if it is asked to listen.
    pub listen: Option<String>,
    /// Where the page is served, on loopback, if it is asked for.
    pub page: Option<SocketAddr>,
    /// The own certificate with its key.
    pub identity: Identity,
    /// All others: the replicas by their numbers, then the stations.
    pub peers: Vec<Other>,
    /// What the studios are called, by number; empty where one has no name.
    pub studios: Vec<String>,
    /// What the measures are called.
    pub names: Names,
    /// Where the notices of the membership service stand.
    pub notices: Option<PathBuf>,
    /// How long the driver waits.
    pub waits: Waits,
    /// A link on which nothing came for so long is closed.
    pub silent: Duration,
    /// How long it is waited at most before a peer is dialled again.
    pub reconnect: Duration,
}

/// A peer, as the configuration has it.
pub struct Other {
    /// Who it is.
    pub peer: Peer,
    /// What it is called; may be empty.
    pub name: String,
    /// Where it is dialled, if it can be.
    pub address: Option<String>,
    /// Its certificate's fingerprint.
    pub pin: Pin,
}

/// The file as it stands.
#[derive(Deserialize)]
#[serde(deny_unknown_fields)]
struct File {
    group: String,
    number: Option<u32>,
    #[serde(default)]
    station: bool,
    journal: Option<PathBuf>,
    socket: PathBuf,
    listen: Option<String>,
    page: Option<String>,
    certificate: PathBuf,
    key: PathBuf,
    names: Option<PathBuf>,
    values: Option<PathBuf>,
    notices: Option<PathBuf>,
    #[serde(default)]
    waits: Milliseconds,
    #[serde(default)]
    replicas: Vec<Entry>,
    #[serde(default)]
    stations: Vec<Entry>,
}

/// The table `waits`.
#[derive(Deserialize)]
#[serde(deny_unknown_fields, default)]
struct Milliseconds {
    idle_ms: u64,
    resend_ms: u64,
    ask_ms: u64,
    silent_ms: u64,
    reconnect_ms: u64,
}

impl Default for Milliseconds {
    fn default() -> Milliseconds {
        Milliseconds {
            idle_ms: 1_000,
            resend_ms: 200,
            ask_ms: 200,
            silent_ms: 5_000,
            reconnect_ms: 5_000,
        }
    }
}

/// A member of the group.
#[derive(Deserialize)]
#[serde(deny_unknown_fields)]
struct Entry {
    #[serde(default)]
    name: String,
    address: Option<String>,
    certificate: Option<PathBuf>,
    fingerprint: Option<String>,
}

impl Config {
    /// Reads and checks a file, and those that it names. What is wrong is said in a line.
    pub fn read(path: &Path) -> Result<Config, String> {
        let words = |words: String| format!("{}: {words}", path.display());
        let file: File = toml::from_str(&text(path)?).map_err(|error| words(error.to_string()))?;
        let folder = path.parent().unwrap_or(Path::new(""));
        file.check(folder).map_err(words)
    }

    /// The notices that the membership service has said so far.
    pub fn said(&self) -> Result<Vec<Notice>, String> {
        listed(self.notices.as_deref(), lists::notices)
    }

    /// Who a link belongs to, by the certificate that was shown.
    pub fn known(&self, pin: Pin) -> Option<&Other> {
        self.peers.iter().find(|other| other.pin == pin)
    }

    /// Whether this node dials that one. Of two that both can be dialled it is the one with the higher number,
    /// so that there is one link; a station dials whom it can.
    pub fn dials(&self, other: &Other) -> bool {
        let below = match (self.own, other.peer) {
            (Some(own), Peer::Replica(number)) => number < own,
            (own, _) => own.is_none(),
        };
        other.address.is_some() && (below || self.listen.is_none())
    }

    /// What a studio is called.
    pub fn studio(&self, number: u32) -> &str {
        self.studios.get(number as usize).map_or("", String::as_str)
    }
}

impl File {
    fn check(self, folder: &Path) -> Result<Config, String> {
        let at = |path: &Path| folder.join(path);
        let own = self.own()?;
        let values = listed(self.values.as_deref().map(at).as_deref(), lists::values)?;
        let group = Group::new(&self.group, self.replicas.len() as u32, &values)?;
        let identity = Identity::read(&at(&self.certificate), &at(&self.key))?;
        let studios = self.replicas.iter().map(|entry| entry.name.clone());
        let config = Config {
            own,
            journal: self.journal.as_deref().map(at),
            socket: at(&self.socket),
            listen: self.listen.clone(),
            page: self.page.as_deref().map(loopback).transpose()?,
            peers: self.peers(folder, own, identity.pin())?,
            studios: studios.collect(),
            names: listed(self.names.as_deref().map(at).as_deref(), Names::read)?,
            notices: self.notices.as_deref().map(at),
            waits: self.waits.checked()?,
            silent: Duration::from_millis(self.waits.silent_ms),
            reconnect: Duration::from_millis(self.waits.reconnect_ms),
            group,
            identity,
        };
        config.said()?;
        Ok(config)
    }

    /// The own number, which belongs to the list of replicas and to a journal.
    fn own(&self) -> Result<Option<u32>, String> {
        let n = self.replicas.len();
        match (self.number, self.station) {
            (Some(_), true) => Err("a station has no `number`".to_string()),
            (None, false) => Err("`number`, or `station = true`, is missing".to_string()),
            (None, true) if self.journal.is_some() => Err("a station has no `journal`".to_string()),
            (None, true) => Ok(None),
            (Some(_), false) if self.journal.is_none() => Err("`journal` is missing".to_string()),
            (Some(own), false) if own as usize >= n => Err(format!(
                "number {own} is not among the {n} of [[replicas]], which are counted from 0"
            )),
            (Some(own), false) => Ok(Some(own)),
        }
    }

    /// All but this node itself, each with a certificate of its own.
    fn peers(&self, folder: &Path, own: Option<u32>, pin: Pin) -> Result<Vec<Other>, String> {
        let replicas = (0..).map(Peer::Replica).zip(&self.replicas);
        let stations = (0..).map(Peer::Station).zip(&self.stations);
        let mut others: Vec<Other> = Vec::new();
        let mut found = false;
        for (peer, entry) in replicas.chain(stations) {
            let other = entry.check(folder, peer)?;
            if others.iter().any(|before| before.pin == other.pin) {
                return Err(format!("{peer} has the certificate of another"));
            }
            let is_own = match peer {
                Peer::Replica(number) => own == Some(number),
                Peer::Station(_) => own.is_none() && other.pin == pin,
            };
            if is_own != (other.pin == pin) {
                return Err(format!("`certificate` is not what {peer} has in its list"));
            }
            found |= is_own;
            // Stations have nothing to say to each other.
            let between = own.is_none() && matches!(peer, Peer::Station(_));
            if !is_own && !between {
                others.push(other);
            }
        }
        match found {
            true => Ok(others),
            false => Err("`certificate` is none of those of [[stations]]".to_string()),
        }
    }
}

impl Entry {
    fn check(&self, folder: &Path, peer: Peer) -> Result<Other, String> {
        let pin = match (&self.certificate, &self.fingerprint) {
            (Some(file), None) => Pin::of(&pins::certificate(&folder.join(file))?),
            (None, Some(text)) => text.parse().map_err(|words| format!("{peer}: {words}"))?,
            _ => {
                return Err(format!(
                    "{peer}: either `certificate` or `fingerprint` says who it is"
                ))
            }
        };
        if self.name.chars().any(char::is_control) {
            return Err(format!("the name of {peer} has a control character"));
        }
        Ok(Other {
            peer,
            name: self.name.clone(),
            address: self.address.clone(),
            pin,
        })
    }
}

impl Milliseconds {
    fn checked(&self) -> Result<Waits, String> {
        let waits = [self.idle_ms, self.resend_ms, self.ask_ms, self.reconnect_ms];
        // A minute at most: a group whose replicas hardly speak looks like one that is cut off.
        if !waits.iter().all(|wait| (1..=60_000).contains(wait)) {
            return Err("a wait is 1 to 60000 milliseconds".to_string());
        }
        if self.silent_ms < 3 * self.resend_ms {
            return Err("`silent_ms` is three times `resend_ms` at least".to_string());
        }
        let [idle, resend, ask, _] = waits.map(Duration::from_millis);
        Ok(Waits { idle, resend, ask })
    }
}

/// An address of the page.
fn loopback(text: &str) -> Result<SocketAddr, String> {
    let address: SocketAddr = text
        .parse()
        .map_err(|_| format!("page: \"{text}\" is no address and port, as 127.0.0.1:7780"))?;
    match address.ip().is_loopback() {
        true => Ok(address),
        false => Err(format!(
            "page: {address} is not on loopback, and the page is served there alone"
        )),
    }
}

/// What a file has, or what no file has.
fn listed<T>(path: Option<&Path>, read: fn(&str) -> Result<T, String>) -> Result<T, String> {
    match path {
        None => read(""),
        Some(path) => read(&text(path)?).map_err(|words| format!("{}: {words}", path.display())),
    }
}

fn text(path: &Path) -> Result<String, String> {
    std::fs::read_to_string(path).map_err(|error| format!("{}: {error}", path.display()))
}

/// The limits of the engine are those of a list of names.
const _: () = assert!(ITEMS == 128);
