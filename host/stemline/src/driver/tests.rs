//! The duties one by one, at drivers that are handed their inputs by hand.

use super::*;
use crate::testing::{Disk, Fault, Plan, Simulation};
use crate::{Refusal, ITEMS};

mod calls;
mod holidays;
mod strangers;

const MILLI: Duration = Duration::from_millis(1);

fn group(n: u32) -> Group {
    Group::new("grotesque", n, &[0; ITEMS]).unwrap()
}

fn waits() -> Waits {
    Waits {
        idle: 100 * MILLI,
        resend: 20 * MILLI,
        ask: 30 * MILLI,
    }
}

/// Replica `own` of `n` on a new disk, with links to all others.
fn replica(n: u32, own: u32) -> (Driver, Disk) {
    let disk = Disk::new();
    let (mut driver, _) = disk.open(&group(n), own, waits(), &[]).unwrap();
    for k in (0..n).filter(|&k| k != own) {
        driver.handle(Duration::ZERO, Input::Up(Peer::Replica(k)));
    }
    (driver, disk)
}

fn set(driver: &mut Driver, client: u64, items: &[u32]) {
    let writes = items
        .iter()
        .map(|&item| (item, Some(client as i32)))
        .collect();
    let tries = 2;
    driver.handle(
        Duration::ZERO,
        Input::Transact {
            client,
            writes,
            tries,
        },
    );
}

/// The frames that go to a peer.
fn sent(outputs: &[Output], peer: Peer) -> Vec<Body> {
    let bytes = outputs.iter().filter_map(|output| match output {
        Output::Send { to, bytes } if *to == peer => Some(bytes),
        _ => None,
    });
    bytes
        .map(|bytes| Frame::decode(&bytes[4..]).unwrap().body)
        .collect()
}

/// The blocks among them.
fn blocks(outputs: &[Output], peer: Peer) -> Vec<Block> {
    let blocks = sent(outputs, peer)
        .into_iter()
        .filter_map(|body| match body {
            Body::Block { block, .. } => Some(Block::read(&block[..]).unwrap()),
            _ => None,
        });
    blocks.collect()
}

fn told(outputs: &[Output]) -> Vec<(u64, Answer)> {
    let told = outputs.iter().filter_map(|output| match output {
        Output::Tell { client, answer } => Some((*client, answer.clone())),
        _ => None,
    });
    told.collect()
}

/// What is said to people, in its words.
fn said(outputs: &[Output]) -> Vec<String> {
    let said = outputs.iter().filter_map(|output| match output {
        Output::Say(event) => Some(event.to_string()),
        _ => None,
    });
    said.collect()
}

/// Hands over what one driver has for another.
fn carry(now: Duration, outputs: &[Output], from: u32, to: &mut Driver) {
    let peer = Peer::Replica(to.own().unwrap());
    for body in sent(outputs, peer) {
        let group = to.group().mark();
        let frame = Frame { group, body };
        let from = Peer::Replica(from);
        to.handle(now, Input::Frame { from, frame });
    }
}

/// With nothing asked it waits before its empty block; another's wish or a block with writesets ends the wait.
#[test]
fn an_idle_turn() {
    let (mut first, _) = replica(2, 0);
    let outputs = first.flush(Duration::ZERO);
    assert!(blocks(&outputs, Peer::Replica(1)).is_empty());
    assert_eq!(first.timer(), Some(20 * MILLI), "the digest is told before");
    assert!(blocks(&first.flush(99 * MILLI), Peer::Replica(1)).is_empty());
    assert_eq!(first.timer(), Some(100 * MILLI));
    let outputs = first.flush(100 * MILLI);
    let [block] = &blocks(&outputs, Peer::Replica(1))[..] else {
        panic!("one block");
    };
    assert!(block.is_next());

    // Replica 1 is asked something, and wakes replica 0.
    let (mut first, _) = replica(2, 0);
    let (mut second, _) = replica(2, 1);
    first.flush(Duration::ZERO);
    set(&mut second, 7, &[5]);
    carry(MILLI, &second.flush(MILLI), 1, &mut first);
    assert_eq!(first.timer(), Some(MILLI));
    let outputs = first.flush(MILLI);
    assert_eq!(blocks(&outputs, Peer::Replica(1)).len(), 1);
    carry(MILLI, &outputs, 0, &mut second);
    let outputs = second.flush(MILLI);
    let committed = Answer::Committed {
        ticket: 1,
        place: 1,
        tries: 1,
    };
    assert_eq!(told(&outputs), [(7, committed)]);
    // The block with its writeset lets replica 0 go on at once.
    carry(MILLI, &outputs, 1, &mut first);
    assert_eq!(blocks(&first.flush(MILLI), Peer::Replica(1)).len(), 1);
    assert_eq!(first.content(5), Ok(Some(7)));
}

/// One sync for all that came together.
#[test]
fn one_sync() {
    let (mut driver, disk) = replica(2, 0);
    driver.flush(Duration::ZERO);
    let before = disk.synced();
    for client in 1..=5 {
        set(&mut driver, client, &[client as u32]);
    }
    let outputs = driver.flush(MILLI);
    assert_eq!(disk.synced(), before + 1);
    let [block] = &blocks(&outputs, Peer::Replica(1))[..] else {
        panic!("one block");
    };
    assert_eq!((block.records().len(), told(&outputs).len()), (5, 5));
    // With nothing due there is none.
    driver.flush(50 * MILLI);
    assert_eq!(disk.synced(), before + 1);
}

/// The last own block goes out again until the other has told a turn behind it; turn and digest go on.
#[test]
fn handed_out_again() {
    let (mut first, _) = replica(2, 0);
    let (mut second, _) = replica(2, 1);
    let peer = Peer::Replica(1);
    first.flush(Duration::ZERO);
    let outputs = first.flush(100 * MILLI);
    let block = blocks(&outputs, peer);
    for at in [120, 140] {
        assert_eq!(blocks(&first.flush(at * MILLI), peer), block, "lost so far");
    }
    carry(150 * MILLI, &outputs, 0, &mut second);
    let outputs = second.flush(170 * MILLI);
    carry(170 * MILLI, &outputs, 1, &mut first);
    let outputs = first.flush(200 * MILLI);
    assert!(blocks(&outputs, peer).is_empty());
    assert!(matches!(
        sent(&outputs, peer)[..],
        [Body::Turn { asked: false, .. }]
    ));
    // A link that is new may have another behind it, of which nothing is known.
    first.handle(201 * MILLI, Input::Down(peer));
    first.handle(201 * MILLI, Input::Up(peer));
    let outputs = first.flush(201 * MILLI);
    assert!(matches!(&sent(&outputs, peer)[0], Body::Hello { name, .. } if name == "grotesque"));
    assert_eq!(blocks(&outputs, peer), block);
}

/// A failed disk: nothing goes out, all that wait are told what is known, and the next open goes on.
#[test]
fn a_failed_disk() {
    for fault in [Fault::Write, Fault::Sync] {
        let (mut driver, disk) = replica(2, 0);
        driver.flush(Duration::ZERO);
        set(&mut driver, 7, &[5]);
        // It holds the item, so that this one waits.
        set(&mut driver, 8, &[5]);
        disk.fail(fault, 0);
        let outputs = driver.flush(20 * MILLI);
        let sends = outputs
            .iter()
            .any(|output| matches!(output, Output::Send { .. }));
        assert!(!sends, "{outputs:?}");
        let told = told(&outputs);
        assert_eq!(told[0], (7, Answer::Unknown { ticket: 1 }));
        assert!(matches!(
            told[1],
            (8, Answer::Refused(CallError::Stopped(_)))
        ));
        let words = driver.stopped().unwrap().to_string();
        assert!(words.starts_with("the disk failed: cannot "), "{words}");
        assert_eq!(said(&outputs), [words.clone()]);
        // Nothing more is done.
        assert_eq!(driver.timer(), None);
        driver.handle(30 * MILLI, Input::Up(Peer::Replica(1)));
        assert!(driver.flush(900 * MILLI).is_empty());
        assert_eq!(driver.begin(), Err(CallError::Stopped(words)));
        drop(driver);
        let (mut driver, reopened) = disk.open(&group(2), 0, waits(), &[]).unwrap();
        assert!(reopened.committed.is_empty());
        set(&mut driver, 9, &[5]);
        let outputs = driver.flush(Duration::ZERO);
        assert!(matches!(outputs[..], [.., Output::Tell { client: 9, .. }]));
    }
}

/// A cut in the middle of a send, after which the block is there: it is handed out as soon as there is a link.
#[test]
fn handed_out_after_an_open() {
    let (mut driver, disk) = replica(2, 0);
    set(&mut driver, 7, &[5]);
    let block = blocks(&driver.flush(Duration::ZERO), Peer::Replica(1));
    assert_eq!(block.len(), 1);
    drop(driver);
    let (mut driver, reopened) = disk.open(&group(2), 0, waits(), &[]).unwrap();
    assert_eq!(reopened.committed, [1]);
    driver.handle(Duration::ZERO, Input::Up(Peer::Replica(1)));
    let outputs = driver.flush(Duration::ZERO);
    assert_eq!(blocks(&outputs, Peer::Replica(1)), block);
}

#[test]
fn a_status() {
    let mut group = Simulation::new(1, Plan::calm(3, 1));
    group.transact(1, &[(5, Some(0))]);
    group.run(Duration::from_millis(400));
    let status = group.driver(0).unwrap().status();
    assert_eq!(
        (status.own, status.digest.commits, status.clients),
        (Some(0), 1, 0)
    );
    assert_eq!(status.waits_for, Some(status.digest.turn % 3));
    let peers: Vec<_> = status
        .peers
        .iter()
        .map(|peer| (peer.peer, peer.up, peer.out))
        .collect();
    let due = [Peer::Replica(1), Peer::Replica(2), Peer::Station(0)];
    assert_eq!(peers, due.map(|peer| (peer, true, false)));
    assert!(status.peers.iter().all(|peer| peer.heard.is_some()));
    let station = group.driver(3).unwrap().status();
    assert_eq!((station.own, station.peers.len()), (None, 3));
    group.rest().unwrap();
}

/// A host may move it to a thread.
#[test]
fn it_can_be_sent() {
    fn is_send<T: Send>() {}
    is_send::<Driver>();
}
