//! Calls as lines.

use super::hex;
use crate::notice::{Kind, Notice};
use crate::trace::Call;

/// The line of a giving at a place, told these turns.
pub fn giving_line(place: usize, turns: &[u32]) -> String {
    let turns: Vec<String> = turns.iter().map(u32::to_string).collect();
    format!("G {place} {}", turns.join(" "))
}

/// The line of a call at a place. Bytes are written out; a line may have room for fewer.
pub fn line(place: usize, call: &Call) -> String {
    let k = place;
    match call {
        Call::Begin => format!("B {k}"),
        Call::Read { ticket, item } => format!("R {k} {ticket} {item}"),
        Call::Write {
            ticket,
            item,
            value,
        } => format!("W {k} {ticket} {item} {value}"),
        Call::Ask { ticket } => format!("C {k} {ticket}"),
        Call::Withdraw { ticket } => format!("X {k} {ticket}"),
        Call::Report => format!("Q {k}"),
        Call::Send => format!("S {k}"),
        Call::Deliver { bytes } => format!("H {k} {}", hex(bytes)),
        Call::Work => format!("K {k}"),
        Call::Load { classes } => format!("P {k} {}", hex(classes)),
        Call::Notice(Notice { kind, about, slot }) => {
            let letter = match kind {
                Kind::Out => 'O',
                Kind::Back => 'U',
            };
            format!("{letter} {k} {about} {slot}")
        }
    }
}
