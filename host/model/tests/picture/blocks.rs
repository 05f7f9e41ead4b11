//! The lines of the blocks: those of a picture, and those that a list has by its calls and answers alone.

use model::block;
use model::replay::Replay;

use crate::lists::{bytes, List};
use crate::marks::{elements, is_out, number, turn};

/// The line of a block, by lines of the list.
#[derive(Clone, Debug, PartialEq, Eq, PartialOrd, Ord)]
pub struct Line {
    delivery: usize,
    place: usize,
    refused: bool,
    /// None for bytes that no line sent.
    send: Option<usize>,
    /// The last work that took a step with it.
    step: Option<usize>,
}

/// The lines of a picture, in order.
pub fn drawn(picture: &str) -> Vec<Line> {
    let paths = elements(picture, "<path ").into_iter();
    let mut found: Vec<Line> = paths
        .filter(|path| path.contains(" class=\"block"))
        .map(|path| Line {
            delivery: number(path, "data-delivery").expect(path),
            place: number(path, "data-place").expect(path),
            refused: path.contains(" class=\"block refused\""),
            send: number(path, "data-send"),
            step: number(path, "data-step"),
        })
        .collect();
    found.sort();
    found
}

/// A line in the making: the slot of its block, and the line of the list at which it leaves its place.
struct Open {
    line: Line,
    slot: u32,
    left: Option<usize>,
}

/// One line for each delivery that is drawn in these lines of the list: it came before their end, and left its place
/// after their start.
pub fn due(list: &List, first: usize, last: usize) -> Vec<Line> {
    let mut sent: Vec<(usize, Vec<u8>)> = Vec::new();
    let mut all: Vec<Open> = Vec::new();
    let mut turns = [0; 8];
    let mut replay = Replay::default();
    for (at, (call, answer)) in list.calls.iter().zip(&list.told).enumerate() {
        let at = at + 1;
        let fields: Vec<&str> = call.split(' ').collect();
        let out = is_out(&replay, &fields);
        replay.answer(call.as_bytes());
        let answer: Vec<&str> = answer.split(' ').collect();
        if matches!(answer[0], "?" | "27") || fields[0] == "N" {
            continue;
        }
        let place: usize = fields[1].parse().unwrap();
        let accepted = answer[0] == "0";
        let here = |one: &&mut Open| one.line.place == place && one.left.is_none();
        match fields[0] {
            "D" | "F" | "H" => {
                let data = (fields[0] == "H").then(|| bytes(fields[2]));
                let found = match &data {
                    Some(data) => sent.iter().rfind(|(_, block)| block == data),
                    // A week has not kept it.
                    None if answer[0] == "26" => None,
                    None => sent.get(fields[2].parse::<usize>().unwrap()),
                };
                let block = data.as_deref().or(found.map(|(_, block)| &block[..]));
                let slot = block.and_then(|block| Some(block::header(block.try_into().ok()?).slot));
                let line = Line {
                    delivery: at,
                    place,
                    refused: !accepted,
                    send: found.map(|&(line, _)| line),
                    step: None,
                };
                let left = (!accepted).then_some(at);
                let slot = slot.unwrap_or(u32::MAX);
                all.push(Open { line, slot, left });
            }
            // What was in place is worked off; what is given is not delivered by a line.
            "G" => {
                let to = turn(&replay, &fields).unwrap();
                for one in all.iter_mut().filter(here).filter(|one| one.slot < to) {
                    one.line.step = Some(at);
                    one.left = Some(at);
                }
                turns[place] = to;
            }
            _ if !accepted => {}
            "S" => sent.push((at, bytes(answer[1]))),
            // No block was delivered for it.
            "K" if out => turns[place] += 1,
            "K" => {
                let mut waiting = all.iter_mut().filter(here);
                let one = waiting.find(|one| one.slot == turns[place]).unwrap();
                one.line.step = Some(at);
                if answer[3] == "1" {
                    one.left = Some(at);
                    turns[place] += 1;
                }
            }
            "M" | "A" | "Z" | "Y" => {
                all.iter_mut()
                    .filter(here)
                    .for_each(|one| one.left = Some(at));
                turns[place] = answer.get(1).map_or(0, |count| count.parse().unwrap());
            }
            _ => {}
        }
    }
    let shown = |one: &Open| one.line.delivery <= last && one.left.is_none_or(|left| left >= first);
    let mut lines: Vec<Line> = all.into_iter().filter(shown).map(|one| one.line).collect();
    lines.sort();
    lines
}
