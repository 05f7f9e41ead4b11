//! The lines of a list of calls.

use std::str::FromStr;

use super::{MAX_BYTES, MAX_JOURNAL, MAX_TABLE, PLACES};
use crate::block::BLOCK;
use crate::notice::Notice;
use crate::trace::Call;

/// What a line asks for at a place.
#[derive(Debug)]
pub(super) enum Line {
    Make {
        n: u32,
        own: u32,
        value: i32,
    },
    Station {
        n: u32,
        value: i32,
    },
    /// A restart from the first bytes of the place's own journal.
    Cut {
        bytes: u32,
        value: i32,
    },
    /// A restart from any bytes.
    Restart {
        n: u32,
        own: u32,
        value: i32,
        journal: Vec<u8>,
    },
    /// A block of the place's journal.
    Journal {
        i: u32,
    },
    /// A giving, told these turns.
    Give {
        turns: Vec<u32>,
    },
    Values,
    /// A block that was sent in this run, maybe with a bit changed.
    Deliver {
        i: u64,
        bit: Option<usize>,
    },
    Call(Call),
}

/// Place and content of a line, if it is one of the format.
pub(super) fn line(line: &[u8]) -> Option<(usize, Line)> {
    let fields: Vec<&[u8]> = line.split(|&byte| byte == b' ').collect();
    let [letter, place, arguments @ ..] = fields.as_slice() else {
        return None;
    };
    let place = at_most(place, PLACES - 1)?;
    let content = match (*letter, arguments) {
        (b"M", [n, own, value]) => Line::Make {
            n: number(n)?,
            own: number(own)?,
            value: number(value)?,
        },
        (b"A", [n, value]) => Line::Station {
            n: number(n)?,
            value: number(value)?,
        },
        (b"Z", [bytes, value]) => Line::Cut {
            bytes: number(bytes)?,
            value: number(value)?,
        },
        (b"Y", [n, own, value, hex]) => Line::Restart {
            n: number(n)?,
            own: number(own)?,
            value: number(value)?,
            journal: bytes(hex, MAX_JOURNAL)?,
        },
        (b"J", [i]) => Line::Journal { i: number(i)? },
        (b"G", turns) => Line::Give {
            turns: turns
                .iter()
                .map(|turn| number(turn))
                .collect::<Option<_>>()?,
        },
        (b"V", []) => Line::Values,
        (b"D", [i]) => Line::Deliver {
            i: number(i)?,
            bit: None,
        },
        (b"F", [i, bit]) => Line::Deliver {
            i: number(i)?,
            bit: Some(at_most(bit, 8 * BLOCK - 1)?),
        },
        _ => Line::Call(call(letter, arguments)?),
    };
    Some((place, content))
}

/// The calls that a line writes as they are.
fn call(letter: &[u8], arguments: &[&[u8]]) -> Option<Call> {
    Some(match (letter, arguments) {
        (b"B", []) => Call::Begin,
        (b"R", [ticket, item]) => Call::Read {
            ticket: number(ticket)?,
            item: number(item)?,
        },
        (b"W", [ticket, item, value]) => Call::Write {
            ticket: number(ticket)?,
            item: number(item)?,
            value: number(value)?,
        },
        (b"C", [ticket]) => Call::Ask {
            ticket: number(ticket)?,
        },
        (b"X", [ticket]) => Call::Withdraw {
            ticket: number(ticket)?,
        },
        (b"Q", []) => Call::Report,
        (b"S", []) => Call::Send,
        (b"H", [hex]) => Call::Deliver {
            bytes: bytes(hex, MAX_BYTES)?,
        },
        (b"K", []) => Call::Work,
        (b"P", [hex]) => Call::Load {
            classes: bytes(hex, MAX_TABLE)?,
        },
        (b"O", [about, slot]) => Call::Notice(Notice::out(number(about)?, number(slot)?)),
        (b"U", [about, slot]) => Call::Notice(Notice::back(number(about)?, number(slot)?)),
        _ => return None,
    })
}

/// A number of the type's range, written as it would be printed.
pub(crate) fn number<T: FromStr + ToString>(field: &[u8]) -> Option<T> {
    let text = str::from_utf8(field).ok()?;
    let number: T = text.parse().ok()?;
    (number.to_string() == text).then_some(number)
}

fn at_most(field: &[u8], limit: usize) -> Option<usize> {
    number(field).filter(|&number| number <= limit)
}

/// At most so many bytes, each two lowercase hexadecimal digits.
fn bytes(hex: &[u8], most: usize) -> Option<Vec<u8>> {
    let (pairs, rest) = hex.as_chunks();
    if pairs.len() > most || !rest.is_empty() {
        return None;
    }
    let byte = |&[high, low]: &[u8; 2]| Some(16 * digit(high)? + digit(low)?);
    pairs.iter().map(byte).collect()
}

fn digit(byte: u8) -> Option<u8> {
    match byte {
        b'0'..=b'9' => Some(byte - b'0'),
        b'a'..=b'f' => Some(byte - b'a' + 10),
        _ => None,
    }
}
