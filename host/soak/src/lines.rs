//! Calls and answers as lines of text, in the format of `model/src/replay.rs`; and read from them.

use model::block::BLOCK;
use model::notice::Notice;
use model::replay::show;
use model::replica::{Replica, Report, Work};
use model::trace::{Answer, Call};

pub use model::replay::line;

/// The place of a station.
const STATION: usize = 7;

/// Names the call of a comparison that fails.
pub struct Named<'a> {
    k: usize,
    call: &'a Call,
}

impl Named<'_> {
    /// Of a call at a replica, which stands at the place of its number, or at a station.
    pub fn of<'a>(model: &Replica, call: &'a Call) -> Named<'a> {
        let k = model.own.map_or(STATION, usize::from);
        Named { k, call }
    }
}

impl Drop for Named<'_> {
    fn drop(&mut self) {
        if std::thread::panicking() {
            eprintln!("at the call {}", line(self.k, self.call));
        }
    }
}

/// An answer.
pub fn shown(answer: &Result<Answer, u8>) -> String {
    answer.as_ref().map_or_else(u8::to_string, show)
}

/// A call, its place, and the answer to it.
pub fn parse(line: &str, shown: &str) -> Option<(usize, Call, Result<Answer, u8>)> {
    let mut fields = line.split(' ');
    let letter = fields.next()?;
    let k = fields.next()?.parse().ok()?;
    let mut number = || fields.next()?.parse().ok();
    let call = match letter {
        "B" => Call::Begin,
        "R" => Call::Read {
            ticket: number()?,
            item: number()?,
        },
        "W" => Call::Write {
            ticket: number()?,
            item: number()?,
            value: fields.next()?.parse().ok()?,
        },
        "C" => Call::Ask { ticket: number()? },
        "X" => Call::Withdraw { ticket: number()? },
        "Q" => Call::Report,
        "S" => Call::Send,
        "H" => Call::Deliver {
            bytes: bytes(fields.next()?)?,
        },
        "K" => Call::Work,
        "P" => Call::Load {
            classes: bytes(fields.next()?)?,
        },
        "O" => Call::Notice(Notice::out(number()?, number()?)),
        "U" => Call::Notice(Notice::back(number()?, number()?)),
        _ => return None,
    };
    let answer = match shown.split_once(' ').unwrap_or((shown, "")) {
        ("0", rest) => Ok(answer(&call, rest)?),
        (refused, _) => Err(refused.parse().ok()?),
    };
    Some((k, call, answer))
}

/// What an accepted call answers behind its 0.
fn answer(call: &Call, rest: &str) -> Option<Answer> {
    let numbers: Option<Vec<u32>> = rest.split(' ').map(|field| field.parse().ok()).collect();
    Some(match call {
        Call::Begin => Answer::Ticket(rest.parse().ok()?),
        Call::Read { .. } => Answer::Value(rest.parse().ok()?),
        Call::Ask { .. } => Answer::ReadOnly(rest == "1"),
        Call::Send => Answer::Block(block(rest)?),
        Call::Write { .. } | Call::Withdraw { .. } => Answer::Done,
        Call::Deliver { .. } | Call::Load { .. } | Call::Notice(_) => Answer::Done,
        Call::Report => {
            let [turn, commits, tickets, open, committed, read_only, aborted, withdrawn] =
                numbers?[..].try_into().ok()?;
            Answer::Report(Report {
                turn,
                commits,
                tickets,
                open,
                committed,
                read_only,
                aborted,
                withdrawn,
            })
        }
        Call::Work => {
            let numbers = numbers?;
            let (&[sender, ticket, moved, count], aborted) = numbers.split_first_chunk()?;
            let aborted = aborted.to_vec();
            (aborted.len() == count as usize).then_some(Answer::Work(Work {
                sender: sender as u8,
                ticket,
                moved: moved == 1,
                aborted,
            }))?
        }
    })
}

/// The bytes of hexadecimal digits.
fn bytes(digits: &str) -> Option<Vec<u8>> {
    let (pairs, rest) = digits.as_bytes().as_chunks::<2>();
    let value = |digit: u8| (digit as char).to_digit(16);
    let byte = |&[high, low]: &[u8; 2]| Some((16 * value(high)? + value(low)?) as u8);
    let bytes = pairs.iter().map(byte);
    rest.is_empty().then(|| bytes.collect())?
}

/// A block of hexadecimal digits.
pub fn block(digits: &str) -> Option<Box<[u8; BLOCK]>> {
    bytes(digits)?.into_boxed_slice().try_into().ok()
}

/// A number with a comma before each three digits.
pub fn grouped(number: u64) -> String {
    let digits = number.to_string();
    let mut text = String::new();
    for (at, digit) in digits.chars().enumerate() {
        if at > 0 && (digits.len() - at).is_multiple_of(3) {
            text.push(',');
        }
        text.push(digit);
    }
    text
}

#[test]
fn numbers_with_commas() {
    let numbers = [0, 12, 999, 1_000, 100_000_000, u64::MAX].map(grouped);
    let due = [
        "0",
        "12",
        "999",
        "1,000",
        "100,000,000",
        "18,446,744,073,709,551,615",
    ];
    assert_eq!(numbers, due);
}

#[test]
fn back_and_forth() {
    use model::drive::{start_values, Peers, STYLES};
    use model::replica::Replica;
    use model::samples::Random;
    for seed in 0..20 {
        let mut random = Random::new(seed);
        let mut replica = Replica::make(3, 1, &start_values()).unwrap();
        let mut peers = Peers::new(3, 1, replica.report());
        for _ in 0..500 {
            let style = STYLES[seed as usize % 4].with_notices(10);
            let call = peers.random_call(&mut random, style);
            let answer = replica.call(&call);
            peers.feed(&call, &answer);
            let read = parse(&line(1, &call), &shown(&answer));
            assert_eq!(read, Some((1, call, answer)));
        }
    }
}
