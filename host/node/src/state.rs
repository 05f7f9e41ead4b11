//! What the engine shows, with the names of studios and measures.

use std::time::Duration;

use stemline::driver::{Change, Peer, PeerStatus};
use stemline::{owner, Notice};

use crate::config::Config;
use crate::engine::Look;
use crate::protocol::{Journal, Measure, Member, Setting, State, Studio, Tickets, Told};

/// The whole state, for `status` and the page.
pub fn state(config: &Config, look: &Look) -> State {
    let status = &look.status;
    let (digest, report) = (status.digest, status.report);
    let items = 0..look.contents.len() as u32;
    let shown = |item: &u32| {
        let content = look.contents.get(*item as usize).copied().flatten();
        config.names.name(*item).is_some() || look.setters.of(*item).is_some() || content != Some(0)
    };
    State {
        version: env!("CARGO_PKG_VERSION").to_string(),
        group: config.group.name().to_string(),
        own: status.own,
        turn: digest.turn,
        commits: digest.commits,
        digest: format!("{:016x}", digest.digest),
        waits_for: status.waits_for.map(|number| studio(config, number)),
        studios: studios(config, look),
        stations: stations(config, look),
        journal: journal(config),
        tickets: Tickets {
            given: report.tickets,
            open: report.open_count,
            committed: report.committed,
            read_only: report.read_only,
            aborted: report.aborted,
            withdrawn: report.withdrawn,
        },
        clients: status.clients,
        notices: status.notices.iter().map(ToString::to_string).collect(),
        pending: status.pending.iter().map(ToString::to_string).collect(),
        stopped: status.stopped.clone(),
        measures: items
            .filter(shown)
            .map(|item| measure(config, look, item))
            .collect(),
    }
}

/// These measures, or all that are shown, as a `get` is told.
pub fn measures(config: &Config, look: &Look, asked: &[String]) -> Told {
    if let Some(words) = &look.status.stopped {
        return Told::refused(format!("the node has stopped: {words}"));
    }
    let turn = look.status.digest.turn;
    if asked.is_empty() {
        let measures = state(config, look).measures;
        return Told::Measures { turn, measures };
    }
    let measures = asked.iter().map(|name| {
        let item = config.names.item(name)?;
        Ok(measure(config, look, item))
    });
    match measures.collect::<Result<_, String>>() {
        Ok(measures) => Told::Measures { turn, measures },
        Err(words) => Told::refused(words),
    }
}

/// A writeset, as a watcher is told.
pub fn change(config: &Config, change: &Change) -> Told {
    let set = change.writes.iter().map(|&(item, value)| Measure {
        item,
        name: config.names.name(item).map(str::to_string),
        value,
        set: None,
    });
    Told::Change {
        place: change.place,
        slot: change.slot,
        by: studio(config, change.replica),
        measures: set.collect(),
    }
}

fn measure(config: &Config, look: &Look, item: u32) -> Measure {
    let set = look.setters.of(item).map(|setter| Setting {
        by: studio(config, setter.replica),
        place: setter.place,
        slot: setter.slot,
    });
    Measure {
        item,
        name: config.names.name(item).map(str::to_string),
        value: look.contents.get(item as usize).copied().flatten(),
        set,
    }
}

fn studio(config: &Config, number: u32) -> Studio {
    Studio {
        number,
        name: config.studio(number).to_string(),
    }
}

/// All replicas, the own one among them.
fn studios(config: &Config, look: &Look) -> Vec<Member> {
    let (n, turn) = (config.group.replicas(), look.status.digest.turn);
    let own = |number| Member {
        number,
        name: config.studio(number).to_string(),
        own: true,
        linked: true,
        out: (turn..)
            .take(n as usize)
            .any(|slot| owner(slot, n) == number && Notice::is_out(&look.status.notices, n, slot)),
        turn: Some(turn),
        agrees: Some(true),
        heard_ms: Some(0),
    };
    let member = |number| match look.status.own == Some(number) {
        true => Some(own(number)),
        false => {
            let is = |status: &&PeerStatus| status.peer == Peer::Replica(number);
            let status = look.status.peers.iter().find(is)?;
            Some(other(look, status, number, config.studio(number)))
        }
    };
    (0..n).filter_map(member).collect()
}

/// The stations of the configuration, linked or not.
fn stations(config: &Config, look: &Look) -> Vec<Member> {
    let known = config.peers.iter().filter_map(|known| match known.peer {
        Peer::Station(number) => Some((number, known)),
        Peer::Replica(_) => None,
    });
    let member = |(number, known): (u32, &crate::config::Other)| {
        let is = |status: &&PeerStatus| status.peer == known.peer;
        let gone = PeerStatus {
            peer: known.peer,
            up: false,
            digest: None,
            heard: None,
            out: false,
        };
        let status = look.status.peers.iter().find(is).unwrap_or(&gone);
        other(look, status, number, &known.name)
    };
    known.map(member).collect()
}

fn other(look: &Look, status: &PeerStatus, number: u32, name: &str) -> Member {
    let ours = look.status.digest;
    let told = status.digest;
    let since = |heard| look.now.saturating_sub(heard);
    Member {
        number,
        name: name.to_string(),
        own: false,
        linked: status.up,
        out: status.out,
        turn: told.map(|digest| digest.turn),
        agrees: told
            .filter(|told| told.turn == ours.turn)
            .map(|told| told == ours),
        heard_ms: status.heard.map(since).map(milliseconds),
    }
}

fn milliseconds(time: Duration) -> u64 {
    u64::try_from(time.as_millis()).unwrap_or(u64::MAX)
}

fn journal(config: &Config) -> Option<Journal> {
    let path = config.journal.as_deref()?;
    Some(Journal {
        path: path.display().to_string(),
        bytes: std::fs::metadata(path).map_or(0, |file| file.len()),
    })
}
