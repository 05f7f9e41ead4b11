//! Worked lists: lines of calls, each with its answer.
//!
//! In a line, `{next s n}` stands for the digits of the *next* of slot s in a group of n,
//! `{rec s n t:i=v;t:i=v}` for those of a *tocommit* whose records have ticket, item and value,
//! `{zero}` for those of 512 zeros, and `{classes d i=c i=c}` for those of a table in which item i has
//! class c and all others have d. In an answer, `#` stands for the 1,024 digits of any block, `#x..#`
//! for those that begin with x, and `*` for the rest of the line.

use super::List;
use crate::block::BLOCK;
use crate::replay::hex;
use crate::replica::ITEMS;
use crate::samples::{block_of, Writes};

/// Adds the lines of lists, each a name and its lines.
pub fn play(list: &mut List, lists: &[(&str, &str)]) {
    for (_, text) in lists {
        let first = list.replay.sent();
        for (line, _) in steps(text, first) {
            list.call(&line);
        }
    }
}

/// The lines and answers of a list, with the digits of what stands in braces. A list by itself counts
/// its blocks from 0; `first` is the number that the first has in the run.
pub fn steps(text: &str, first: u64) -> impl Iterator<Item = (String, String)> + '_ {
    text.lines().skip(1).map(move |step| {
        let (line, answer) = step.trim().split_once(" -> ").unwrap();
        let line = match line.rsplit_once(' ').filter(|_| line.starts_with('D')) {
            Some((deliver, i)) => format!("{deliver} {}", first + u64::from(number(i))),
            None => expand(line),
        };
        (line, expand(answer))
    })
}

/// A line with the digits of what stands in braces.
fn expand(line: &str) -> String {
    let mut parts = line.split('{');
    let mut expanded = parts.next().unwrap_or_default().to_string();
    for part in parts {
        let (name, rest) = part.split_once('}').unwrap();
        expanded.push_str(&hex(&named(name)));
        expanded.push_str(rest);
    }
    expanded
}

/// The block or table of a name.
fn named(name: &str) -> Vec<u8> {
    let fields: Vec<&str> = name.split(' ').collect();
    match fields[..] {
        ["zero"] => vec![0; BLOCK],
        ["next", slot, n] => block_of(number(n), number(slot), &[]).to_vec(),
        ["rec", slot, n, records] => {
            let records: Vec<_> = records.split(';').map(record).collect();
            let writes = records.iter().map(|(ticket, entry)| (*ticket, &entry[..]));
            block_of(number(n), number(slot), &writes.collect::<Vec<Writes>>()).to_vec()
        }
        ["classes", class, ref others @ ..] => {
            let mut table = vec![number(class) as u8; ITEMS];
            for (item, class) in others.iter().filter_map(|other| other.split_once('=')) {
                table[number(item) as usize] = number(class) as u8;
            }
            table
        }
        _ => panic!("nothing is named {name}"),
    }
}

/// A record of one entry.
fn record(text: &str) -> (u32, [(u8, i32); 1]) {
    let (ticket, entry) = text.split_once(':').unwrap();
    let (item, value) = entry.split_once('=').unwrap();
    (number(ticket), [(number(item) as u8, number(value) as i32)])
}

fn number(text: &str) -> u32 {
    text.parse().unwrap()
}

#[cfg(test)]
mod tests;
