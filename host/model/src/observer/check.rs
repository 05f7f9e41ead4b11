//! What is checked after a list of calls: demand 3's sentences about the sequence.

use std::collections::BTreeMap;

use super::{Observer, Writeset};
use crate::replica::{Report, ITEMS};

impl Observer {
    /// The sentences of demand 3 that do not hold after the calls so far, in words. `ends` has
    /// report and values of each member.
    pub fn violations(&self, ends: &[(Report, [i32; ITEMS])]) -> Vec<String> {
        let sequence: Vec<(u32, &Writeset)> = self
            .sent
            .iter()
            .flat_map(|(&slot, writesets)| writesets.iter().map(move |w| (slot, w)))
            .collect();
        let mut broken = self.broken.clone();
        for (member, (report, values)) in ends.iter().enumerate() {
            self.check_commits(member, report, &sequence, &mut broken);
            self.check_values(member, report, values, &sequence, &mut broken);
        }
        self.check_history(&sequence, &mut broken);
        broken
    }

    /// A member's commits against the sequence.
    fn check_commits(
        &self,
        member: usize,
        report: &Report,
        sequence: &[(u32, &Writeset)],
        broken: &mut Vec<String>,
    ) {
        let commits = &self.commits[member];
        if commits.len() != report.commits as usize {
            broken.push(format!(
                "{}: it reports {} commits, its works named {}",
                self.name(member),
                report.commits,
                commits.len()
            ));
        }
        for (at, &(sender, ticket)) in commits.iter().enumerate() {
            let due = sequence.get(at).map(|(_, w)| (w.sender, w.ticket));
            if due != Some((sender, ticket)) {
                broken.push(format!(
                    "{}: its commit {} is ticket {ticket} of replica {sender}, the sequence has \
                     {due:?}",
                    self.name(member),
                    at + 1
                ));
                break;
            }
        }
        let below = sequence.partition_point(|&(slot, _)| slot < report.turn);
        if commits.len() < below {
            broken.push(format!(
                "{}: {below} writesets were sent for slots below its turn {}, it committed {}",
                self.name(member),
                report.turn,
                commits.len()
            ));
        }
    }

    /// A member's values against the sequence.
    fn check_values(
        &self,
        member: usize,
        report: &Report,
        values: &[i32; ITEMS],
        sequence: &[(u32, &Writeset)],
        broken: &mut Vec<String>,
    ) {
        let mut due = self.values;
        for (_, writeset) in sequence.iter().take(report.commits as usize) {
            for (&item, &value) in &writeset.transaction.writes {
                if let Some(old) = due.get_mut(item as usize) {
                    *old = value;
                }
            }
        }
        if let Some(item) = (0..ITEMS).find(|&item| values[item] != due[item]) {
            broken.push(format!(
                "{}: item {item} is {}, after {} writesets of the sequence it is {}",
                self.name(member),
                values[item],
                report.commits,
                due[item]
            ));
        }
    }

    /// Snapshots and reads against the sequence.
    fn check_history(&self, sequence: &[(u32, &Writeset)], broken: &mut Vec<String>) {
        // Per item the positions in the sequence that write it, counted from 1, and the values.
        let mut versions: BTreeMap<u32, Vec<(usize, i32)>> = BTreeMap::new();
        for (at, (_, writeset)) in sequence.iter().enumerate() {
            let (replica, ticket) = (writeset.sender, writeset.ticket);
            let (position, snapshot) = (at + 1, writeset.transaction.snapshot);
            if snapshot >= position {
                broken.push(format!(
                    "replica {replica}: ticket {ticket} began after {snapshot} writesets and is at \
                     {position} of the sequence"
                ));
            }
            for (&item, &value) in &writeset.transaction.writes {
                let versions = versions.entry(item).or_default();
                if let Some((earlier, _)) = versions.last().filter(|(p, _)| *p > snapshot) {
                    broken.push(format!(
                        "replica {replica}: ticket {ticket} began after {snapshot} writesets and \
                         is at {position} of the sequence, but {earlier} writes its item {item}"
                    ));
                }
                versions.push((position, value));
            }
        }
        for read in &self.reads {
            let versions = versions.get(&read.item).map_or(&[][..], Vec::as_slice);
            let known = versions.partition_point(|&(position, _)| position <= read.snapshot);
            let due = match known.checked_sub(1) {
                Some(last) => Some(versions[last].1),
                None => self.values.get(read.item as usize).copied(),
            };
            if due != Some(read.value) {
                broken.push(format!(
                    "{}: ticket {} read {} from item {}, after {} writesets of the sequence it is \
                     {due:?}",
                    self.name(read.member),
                    read.ticket,
                    read.value,
                    read.item,
                    read.snapshot
                ));
            }
        }
    }
}
