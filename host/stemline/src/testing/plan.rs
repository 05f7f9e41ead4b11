//! How a run goes.

use std::time::Duration;

use super::Random;
use crate::driver::Waits;

/// What a simulated group is, and what goes wrong in it how often.
#[derive(Clone, Debug)]
pub struct Plan {
    /// Replicas, 2 to 6.
    pub replicas: u32,
    /// Stations beside them.
    pub stations: u32,
    /// The waits of all drivers.
    pub waits: Waits,
    /// For how long clients call and things go wrong. Then all is mended, and the group comes to rest.
    pub span: Duration,
    /// The mean time between two actions: a client's call, or something that goes wrong.
    pub pace: Duration,
    /// The most time that a frame is on its way. Frames overtake each other.
    pub delay: Duration,
    /// Of a hundred frames so many are lost, and so many come twice.
    pub loss: u64,
    /// See `loss`.
    pub repeat: u64,
    /// How often each kind of action comes, in relation to the others.
    pub weights: Weights,
}

/// How often each kind of action comes.
#[derive(Clone, Copy, Debug, Default)]
pub struct Weights {
    /// A client's whole transaction.
    pub transact: u64,
    /// A step of a client with a ticket.
    pub ticket: u64,
    /// The power of a replica goes, now or at some step at its disk; or a station is ended.
    pub cut: u64,
    /// A write or a sync fails.
    pub fault: u64,
    /// Some members are cut off from the others, with broken links or in silence.
    pub partition: u64,
    /// A replica is said to be out, or back.
    pub notice: u64,
    /// A block comes over a link that is not its sender's.
    pub forgery: u64,
}

impl Plan {
    /// A group in which nothing goes wrong and nobody calls.
    pub fn calm(replicas: u32, stations: u32) -> Plan {
        Plan {
            replicas,
            stations,
            waits: Waits {
                idle: Duration::from_millis(50),
                resend: Duration::from_millis(20),
                ask: Duration::from_millis(30),
            },
            span: Duration::from_secs(1),
            pace: Duration::from_millis(10),
            delay: Duration::from_millis(3),
            loss: 0,
            repeat: 0,
            weights: Weights::default(),
        }
    }

    /// The plan of a seed: any sizes, and any mixture of what can go wrong.
    pub fn of(seed: u64) -> Plan {
        let mut random = Random::new(seed ^ 0x7061_6e65);
        let r = &mut random;
        let calm = Plan::calm(2 + r.below(5) as u32, r.below(3) as u32);
        let some = |r: &mut Random, most: u64| if r.percent(60) { r.below(most + 1) } else { 0 };
        let weights = Weights {
            transact: 1 + r.below(20),
            ticket: some(r, 20),
            cut: some(r, 4),
            fault: some(r, 3),
            partition: some(r, 3),
            notice: some(r, 8),
            forgery: some(r, 4),
        };
        Plan {
            waits: Waits {
                idle: Duration::from_millis(2 + r.below(60)),
                resend: Duration::from_millis(10 + r.below(40)),
                ask: Duration::from_millis(10 + r.below(40)),
            },
            span: Duration::from_millis(200 + r.below(1_000)),
            pace: Duration::from_micros(500 + r.below(10_000)),
            delay: Duration::from_micros(100 + r.below(8_000)),
            loss: some(r, 30),
            repeat: some(r, 30),
            weights,
            ..calm
        }
    }
}
