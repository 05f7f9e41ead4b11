//! Document 02, Req 08: under any calls with any bytes, restarts from any journal among them, an own writeset
//! that a work meets has its ticket open as sent.

use model::block::{self, Message, BLOCK};
use model::drive::{start_values, Peers, STYLES};
use model::replica::{Replica, Stage};
use model::samples::{self, block_of, Random};
use model::trace::Call;

use crate::common::{ask, make};

/// Of the writeset that the next work commits, if it is an own one: whether its ticket is open as sent.
fn own_writeset(replica: &Replica) -> Option<bool> {
    let place = replica.turn as usize % replica.inbox.len();
    let message = replica.inbox[place].as_ref()?;
    let record = message.records.get(replica.done)?;
    let sent = |stage, ticket| stage == Stage::Sent && ticket == record.ticket;
    (replica.own == Some(message.sender))
        .then(|| replica.open.iter().any(|t| sent(t.stage, t.ticket)))
}

/// A deliver that compares of an own block only sender, slot and mark with the one that was sent.
fn deliver_by_header(replica: &mut Replica, bytes: &[u8]) -> Result<(), u8> {
    let number = match replica.deliver(bytes) {
        Err(number) => number,
        Ok(()) => return Ok(()),
    };
    let place = replica.turn as usize % replica.inbox.len();
    let own = |message: &Message| message.slot == replica.turn && replica.outbox.is_some();
    match block::decode(bytes).ok().filter(own) {
        Some(message) if number == 19 && replica.inbox[place].is_none() => {
            replica.inbox[place] = Some(message);
            Ok(())
        }
        _ => Err(number),
    }
}

/// What a run met: own writesets whose ticket is open as sent, and others.
#[derive(Debug, Default)]
struct Met {
    sent: u32,
    others: u32,
}

/// A random run at one replica among forged peers, with restarts from what its calls appended, cut
/// anywhere, and with forged blocks of its own or another behind.
fn run(seed: u64, by_header: bool, met: &mut Met) {
    let n = 2 + seed as u32 % 5;
    let own = seed as u32 / 5 % n;
    let mut random = Random::new(seed);
    let mut replica = make(n, own);
    let mut peers = Peers::new(n, own, replica.report());
    let mut journal = Vec::new();
    for _ in 0..1_500 {
        if random.below(150) == 0 {
            journal.truncate(random.below(journal.len() + 1));
            for slot in (journal.len() / BLOCK) as u32..random.below(12) as u32 {
                let forged = Message {
                    sender: (slot % n) as u8,
                    replicas: n as u8,
                    slot,
                    ..samples::message(&mut random)
                };
                journal.extend(block::encode(&forged));
            }
            let (restarted, answer) = Replica::restart(n, own, &start_values(), &journal, &[])
                .expect("N and number are right");
            journal.truncate(BLOCK * answer.count as usize);
            replica = restarted;
            peers = Peers::new(n, own, replica.report());
        }
        let call = peers.random_call(&mut random, STYLES[seed as usize % 4]);
        match (&call, own_writeset(&replica)) {
            (Call::Work, Some(true)) => met.sent += 1,
            (Call::Work, Some(false)) => met.others += 1,
            _ => {}
        }
        let answer = match &call {
            Call::Deliver { bytes } if by_header => {
                deliver_by_header(&mut replica, bytes).map(|()| model::trace::Answer::Done)
            }
            _ => replica.call_journaled(&call, &mut journal),
        };
        peers.feed(&call, &answer);
    }
}

#[test]
fn open_as_sent() {
    let mut met = Met::default();
    (0..100).for_each(|seed| run(seed, false, &mut met));
    assert!(met.sent > 500 && met.others == 0, "{met:?}");
}

/// It rests on 19 comparing all 512 bytes.
#[test]
fn compared_by_the_header_alone() {
    let mut replica = make(2, 0);
    let ticket = ask(&mut replica, &[(5, 40)]);
    replica.send().unwrap();
    let forged = block_of(2, 0, &[(ticket + 1, &[(5, 40)])]);
    assert_eq!(replica.deliver(&forged), Err(19));
    assert_eq!(deliver_by_header(&mut replica, &forged), Ok(()));
    assert_eq!(own_writeset(&replica), Some(false));

    let mut met = Met::default();
    (0..100).for_each(|seed| run(seed, true, &mut met));
    assert!(met.sent > 100 && met.others > 100, "{met:?}");
}
