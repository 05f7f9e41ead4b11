//! What a trial comes to: the journals are one sequence, and every outcome that was told is true of it.

use std::collections::HashMap;
use std::fs::File;
use std::io::{BufReader, Read};
use std::path::Path;

use stemline::{Block, Blocks, Head, HEAD, ITEMS};

use crate::client::Told;
use crate::worker::Asked;

/// A writeset of the group's sequence.
#[derive(Debug, PartialEq)]
pub struct Commit {
    /// The replica that it was asked at.
    pub replica: usize,
    /// Its ticket there.
    pub ticket: u32,
    /// Items and values, by rising items.
    pub writes: Vec<(u32, i32)>,
}

/// The good blocks of a journal.
pub fn blocks(journal: &Path) -> Result<Vec<Block>, String> {
    let words = |words: String| format!("{}: {words}", journal.display());
    let told = |error: std::io::Error| words(error.to_string());
    let mut source = BufReader::new(File::open(journal).map_err(told)?);
    let mut front = Vec::new();
    source
        .by_ref()
        .take(HEAD as u64)
        .read_to_end(&mut front)
        .map_err(told)?;
    let head = Head::read(&front).map_err(words)?;
    let mut good = Blocks::of(source, head.replicas(), 0);
    let mut all = Vec::new();
    while let Ok(block) = good.next_block().map_err(told)? {
        all.push(block);
    }
    Ok(all)
}

/// The blocks of the longest journal, if all others are its beginning.
pub fn agreed(journals: &[impl AsRef<Path>]) -> Result<Vec<Block>, String> {
    let mut longest: Vec<Block> = Vec::new();
    for journal in journals {
        let mut blocks = blocks(journal.as_ref())?;
        let differs = |(one, other): &(&Block, &Block)| one.bytes() != other.bytes();
        if let Some((one, other)) = longest.iter().zip(&blocks).find(differs) {
            return Err(format!("the journals differ: {one}, and {other}"));
        }
        if blocks.len() > longest.len() {
            std::mem::swap(&mut longest, &mut blocks);
        }
    }
    Ok(longest)
}

/// The writesets of blocks, in the group's order.
pub fn sequence(blocks: &[Block]) -> Vec<Commit> {
    let of = |block: &Block| {
        let replica = block.sender() as usize;
        let commit = |record: stemline::Record| Commit {
            replica,
            ticket: record.ticket,
            writes: record
                .entries
                .iter()
                .map(|entry| (u32::from(entry.item), entry.value))
                .collect(),
        };
        block.records().map(commit).collect::<Vec<_>>()
    };
    blocks.iter().flat_map(of).collect()
}

/// The values that a sequence leaves, from zeros on.
pub fn values(sequence: &[Commit]) -> Vec<i32> {
    let mut values = vec![0; ITEMS];
    for (item, value) in sequence.iter().flat_map(|commit| &commit.writes) {
        values[*item as usize] = *value;
    }
    values
}

/// How many transactions were told what, and how those ended of which nothing was told.
#[derive(Debug, Default, PartialEq)]
pub struct Count {
    /// Told to be committed, and so they are.
    pub committed: usize,
    /// Told not to be, and so they are not: aborted or refused.
    pub not: usize,
    /// Not told, and committed.
    pub unknown_committed: usize,
    /// Not told, and not committed.
    pub unknown_not: usize,
}

/// Looks at each transaction that was asked, and at each that is in the sequence. The first that is not true is said.
pub fn truth(asked: &[Asked], sequence: &[Commit]) -> Result<Count, String> {
    let mut places = HashMap::new();
    for (place, commit) in sequence.iter().enumerate() {
        let value = commit.writes.first().map_or(0, |write| write.1);
        if let Some(before) = places.insert(value, place) {
            return Err(format!(
                "{commit:?} is twice in the sequence: {before} and {place}"
            ));
        }
    }
    let mut count = Count::default();
    for asked in asked {
        let value = asked.writes.first().map_or(0, |write| write.1);
        let found = places.remove(&value).map(|place| (place, &sequence[place]));
        one(asked, found, &mut count)
            .map_err(|words| format!("{words}: {asked:?}, found {found:?}"))?;
    }
    match places.values().next() {
        Some(&place) => Err(format!("nobody asked for {:?}", sequence[place])),
        None => Ok(count),
    }
}

/// One transaction, and where its value stands in the sequence.
fn one(
    asked: &Asked,
    found: Option<(usize, &Commit)>,
    count: &mut Count,
) -> Result<(), &'static str> {
    let other = |(_, commit): (usize, &Commit)| {
        commit.replica != asked.node || commit.writes != asked.writes
    };
    if found.is_some_and(other) {
        return Err("another was committed than was asked");
    }
    match (&asked.told, found) {
        (Told::Committed(ticket, place), Some((at, commit))) => {
            count.committed += 1;
            let true_of = commit.ticket == *ticket && at + 1 == *place as usize;
            true_of
                .then_some(())
                .ok_or("told with another ticket or place")
        }
        (Told::Committed(..), None) => Err("told committed, and it is not"),
        (Told::Aborted | Told::Refused(_), Some(_)) => Err("told not committed, and it is"),
        (Told::Aborted | Told::Refused(_), None) => {
            count.not += 1;
            Ok(())
        }
        (Told::Unknown(_), found) => {
            match found {
                Some(_) => count.unknown_committed += 1,
                None => count.unknown_not += 1,
            }
            Ok(())
        }
    }
}

#[cfg(test)]
mod tests {
    use super::*;

    fn commit(replica: usize, ticket: u32, value: i32) -> Commit {
        Commit {
            replica,
            ticket,
            writes: vec![(5, value), (6, value)],
        }
    }

    fn asked(node: usize, value: i32, told: Told) -> Asked {
        Asked {
            node,
            writes: vec![(5, value), (6, value)],
            told,
        }
    }

    #[test]
    fn what_is_true() {
        let sequence = [commit(0, 1, 10), commit(1, 4, 20), commit(0, 3, 12)];
        let unknown = || Told::Unknown(String::new());
        let all = [
            asked(0, 10, Told::Committed(1, 1)),
            asked(0, 11, Told::Aborted),
            asked(0, 12, unknown()),
            asked(0, 13, unknown()),
            asked(0, 14, Told::Refused(String::new())),
            asked(1, 20, Told::Committed(4, 2)),
        ];
        let count = Count {
            committed: 2,
            not: 2,
            unknown_committed: 1,
            unknown_not: 1,
        };
        assert_eq!(truth(&all, &sequence), Ok(count));
        assert_eq!(values(&sequence)[4..8], [0, 12, 12, 0]);
    }

    #[test]
    fn what_is_not() {
        let false_of = |asked: Asked, sequence: &[Commit]| truth(&[asked], sequence).unwrap_err();
        let one = [commit(0, 1, 10)];
        let starts = |words: String, with: &str| assert!(words.starts_with(with), "{words}");
        starts(
            false_of(asked(0, 11, Told::Committed(1, 1)), &[]),
            "told committed, and it is not",
        );
        starts(
            false_of(asked(0, 10, Told::Aborted), &one),
            "told not committed, and it is",
        );
        starts(
            false_of(asked(0, 10, Told::Refused(String::new())), &one),
            "told not committed, and it is",
        );
        starts(
            false_of(asked(0, 10, Told::Committed(2, 1)), &one),
            "told with another ticket",
        );
        starts(
            false_of(asked(0, 10, Told::Committed(1, 2)), &one),
            "told with another ticket",
        );
        starts(
            false_of(asked(1, 10, Told::Committed(1, 1)), &one),
            "another was committed",
        );
        let mut other = asked(0, 10, Told::Committed(1, 1));
        other.writes.pop();
        starts(false_of(other, &one), "another was committed");
        let twice = [commit(0, 1, 10), commit(0, 2, 10)];
        assert!(false_of(asked(0, 10, Told::Committed(1, 1)), &twice)
            .contains("is twice in the sequence"));
        starts(truth(&[], &one).unwrap_err(), "nobody asked for");
    }
}
