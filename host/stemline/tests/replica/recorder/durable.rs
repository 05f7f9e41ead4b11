//! Recorded replicas with journals in files.

use stemline::{notices_path, Durable, Replica};

use super::*;
use crate::files::Room;

/// Random calls over several opens: each list is answered the same by the model, and all answers are those of
/// a replica that is not recorded.
#[test]
fn recorded_over_opens() {
    let seeds = Seeds::new(12);
    let mut noticed = 0;
    seeds.each(|seed| {
        let room = Room::new("recorded");
        let paths = ["a", "b"].map(|name| room.0.join(name));
        let mut random = Random::new(seed);
        let mut peer = Replica::new(2, 1, &start_values()).unwrap();
        for _ in 0..3 {
            let (mut calls, mut answers) = (Vec::new(), Vec::new());
            let sinks = (&mut calls, &mut answers);
            let opened = Durable::record(&paths[0], "grot", 2, 0, &start_values(), sinks);
            let (mut recorded, reopened) = opened.unwrap();
            let opened = Durable::open(&paths[1], "grot", 2, 0, &start_values());
            let (mut plain, due) = opened.unwrap();
            assert_eq!(reopened, due);
            for _ in 0..random.pick(&[3, 40, 300]) {
                let ticket = recorded.report().tickets;
                let ticket = ticket.saturating_sub(random.below(4) as u32);
                let item = random.below(9) as u32;
                let turn = recorded.report().turn;
                match random.below(14) {
                    12 => {
                        let (about, slot) = (random.below(3) as u32, turn + random.below(4) as u32);
                        let out = random.below(2) == 0;
                        let taken = match out {
                            true => (recorded.out(about, slot).ok(), plain.out(about, slot).ok()),
                            false => (
                                recorded.back(about, slot).ok(),
                                plain.back(about, slot).ok(),
                            ),
                        };
                        assert_eq!(taken.0, taken.1);
                        let _ = match out {
                            true => peer.out(about, slot),
                            false => peer.back(about, slot),
                        };
                    }
                    13 => assert_eq!(recorded.work().ok(), plain.work().ok()),
                    0..2 => assert_eq!(recorded.begin().ok(), plain.begin().ok()),
                    2..5 => assert_eq!(
                        recorded.write(ticket, item, 7).ok(),
                        plain.write(ticket, item, 7).ok()
                    ),
                    5 => assert_eq!(recorded.ask(ticket).ok(), plain.ask(ticket).ok()),
                    6 => assert_eq!(recorded.read(ticket, item), plain.read(ticket, item)),
                    7 => assert_eq!(recorded.withdraw(ticket).ok(), plain.withdraw(ticket).ok()),
                    8..10 => {
                        assert_eq!(recorded.is_turn(), plain.is_turn());
                        let sent = recorded.send().ok();
                        assert_eq!(sent, plain.send().ok());
                        if let Some(block) = sent {
                            let _ = peer.take(&block);
                        }
                    }
                    10 => {
                        if let Ok(block) = peer.send() {
                            peer.take(&block).unwrap();
                            let taken = recorded.take(&block).ok();
                            assert_eq!(taken, plain.take(&block).ok());
                        }
                    }
                    _ => {
                        if let Some(block) = plain.last().copied() {
                            assert_eq!(recorded.last(), Some(&block));
                            let taken = recorded.take(&block).ok();
                            assert_eq!(taken, plain.take(&block).ok());
                            let _ = peer.take(&block);
                        }
                    }
                }
                assert_eq!(recorded.outcome(ticket), plain.outcome(ticket));
            }
            // What waited at the peer's last block is handed out again by the next run's takes.
            if let Some(block) = plain.last().copied() {
                let _ = (recorded.take(&block), plain.take(&block), peer.take(&block));
            }
            assert_eq!(recorded.values(), plain.values());
            assert_eq!(recorded.report(), plain.report());
            assert_eq!(recorded.stopped(), None);
            recorded.flush();
            drop(recorded);
            let [calls, answers] = [calls, answers].map(|text| String::from_utf8(text).unwrap());
            assert_eq!(differs(&calls, &answers), None);
            let files = paths.each_ref().map(|path| std::fs::read(path).unwrap());
            assert!(files[0] == files[1]);
            let notices = paths
                .each_ref()
                .map(|path| std::fs::read(notices_path(path)).ok());
            assert!(notices[0] == notices[1]);
            noticed += u32::from(notices[0].is_some());
        }
    });
    assert!(seeds.runs < 12 || noticed > 10, "{noticed}");
}
