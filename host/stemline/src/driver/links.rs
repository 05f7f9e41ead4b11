//! The links to the others, and what comes over them.

use std::sync::Arc;
use std::time::Duration;

use super::{Body, Driver, Event, Frame, Output, Peer};
use crate::Digest;

/// What is known of a peer.
#[derive(Clone, Debug, Default)]
pub(super) struct Link {
    pub up: bool,
    /// What it said last that it has committed.
    pub digest: Option<Digest>,
    pub heard: Option<Duration>,
    /// It was asked for blocks, and gave none.
    pub lacks: bool,
}

impl Driver {
    /// The peers to which there is a link.
    pub(super) fn up(&self) -> impl Iterator<Item = Peer> + '_ {
        let up = self.links.iter().filter(|(_, link)| link.up);
        up.map(|(peer, _)| *peer)
    }

    pub(super) fn link_up(&mut self, peer: Peer) {
        if let Peer::Replica(k) = peer {
            if k >= self.group.replicas() || Some(k) == self.own {
                return self.turn_away(peer, "no other replica has this number".to_string());
            }
        }
        let up = Link {
            up: true,
            ..Link::default()
        };
        self.links.insert(peer, up);
        let hello = Body::Hello {
            name: self.group.name().to_string(),
            replicas: self.group.replicas() as u8,
            from: self.own.map(|own| own as u8),
        };
        self.send_to(peer, hello);
        self.tell_turn(&[peer]);
        self.hand_last(peer);
    }

    pub(super) fn link_down(&mut self, peer: Peer) {
        match peer {
            Peer::Replica(_) => {
                if let Some(link) = self.links.get_mut(&peer) {
                    link.up = false;
                }
            }
            Peer::Station(_) => drop(self.links.remove(&peer)),
        }
        self.asking = self.asking.filter(|asking| asking.peer != peer);
    }

    /// Takes a frame that came over the link of a peer.
    pub(super) fn frame(&mut self, peer: Peer, frame: Frame) -> Result<(), Event> {
        let now = self.now;
        let Some(link) = self.links.get_mut(&peer).filter(|link| link.up) else {
            return Ok(());
        };
        link.heard = Some(now);
        if let Some(words) = self.differs(peer, &frame) {
            self.turn_away(peer, words);
            return Ok(());
        }
        match frame.body {
            Body::Hello { .. } => Ok(()),
            Body::Block { block, digest } => {
                self.came(peer, &block)?;
                self.heard(peer, digest)
            }
            Body::Turn { digest, asked } => {
                if let (Peer::Replica(k), true) = (peer, asked) {
                    self.woken_by(k, digest.turn);
                }
                self.heard(peer, digest)
            }
            Body::Ask { from, to } => {
                self.answer(peer, from, to);
                Ok(())
            }
            Body::Blocks { from, blocks, .. } => self.given(peer, from, &blocks),
        }
    }

    /// What tells a frame from one of this group and this peer, in words.
    fn differs(&self, peer: Peer, frame: &Frame) -> Option<String> {
        if let Body::Hello {
            name,
            replicas,
            from,
        } = &frame.body
        {
            let due = self.group.name();
            if name != due {
                return Some(format!("it is of the group {name:?}, not of {due:?}"));
            }
            let (found, due) = (u32::from(*replicas), self.group.replicas());
            if found != due {
                return Some(format!(
                    "its group has {found} replicas, and this one {due}"
                ));
            }
            match (peer, *from) {
                (Peer::Replica(k), Some(from)) if k == from.into() => {}
                (Peer::Station(_), None) => {}
                (_, Some(from)) => return Some(format!("it says that it is replica {from}")),
                (_, None) => return Some("it says that it is a station".to_string()),
            }
        }
        (frame.group != self.mark)
            .then(|| "it is of another group, or of another start".to_string())
    }

    fn turn_away(&mut self, peer: Peer, words: String) {
        self.link_down(peer);
        self.outputs
            .push(Output::Say(Event::OtherGroup { peer, words }));
        self.outputs.push(Output::Close(peer));
    }

    /// A peer says what it has committed.
    fn heard(&mut self, peer: Peer, digest: Digest) -> Result<(), Event> {
        if let Some(link) = self.links.get_mut(&peer) {
            link.digest = Some(digest);
        }
        self.compare(peer, digest)
    }

    /// Compares what each replica said with what is committed here: the turn may have come to it by now.
    pub(super) fn compare_all(&mut self) -> Result<(), Event> {
        let said = self
            .links
            .iter()
            .filter_map(|(peer, link)| Some((*peer, link.digest?)));
        for (peer, digest) in said.collect::<Vec<_>>() {
            self.compare(peer, digest)?;
        }
        Ok(())
    }

    /// A station that differs finds that by itself, and is no reason to stop for anybody else.
    fn compare(&self, peer: Peer, theirs: Digest) -> Result<(), Event> {
        let ours = self.member.digest_at(theirs.turn);
        match matches!(peer, Peer::Replica(_)) && ours.is_some_and(|ours| ours != theirs) {
            true => Err(Event::Differ { peer, theirs, ours }),
            false => Ok(()),
        }
    }

    pub(super) fn send_to(&mut self, peer: Peer, body: Body) {
        self.send_all(&[peer], body);
    }

    pub(super) fn send_all(&mut self, peers: &[Peer], body: Body) {
        let group = self.mark;
        let bytes: Arc<[u8]> = Frame { group, body }.encode().into();
        for &to in peers {
            let bytes = bytes.clone();
            self.outputs.push(Output::Send { to, bytes });
        }
    }
}
