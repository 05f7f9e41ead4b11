//! The group, the counts and the marks of the turn with any bytes in them. Every call returns, and a refused one
//! changes nothing; what a call does not look at makes no difference, and a mark makes but one.

use model::block::{BLOCK, MAX_TICKET};

use crate::lengths::{states, CALLS, FILLING};
use crate::lent::{check_refused, Lent};

/// The group's numbers and the counts by name, with the calls that look at each. An accepted make or restart
/// sets them all.
const COUNTS: [(&str, &str); 11] = [
    ("replicas", "write send deliver work out back giver give"),
    ("own", "write send deliver work out giver give"),
    // Of replica 1; the sends are of replica 0.
    ("from", "deliver work out back give"),
    ("until", "deliver work out back give"),
    ("commits", "begin report work give"),
    ("done", "write work give"),
    ("tickets", "begin report"),
    ("committed", "report work give"),
    ("read_only", "ask report"),
    ("aborted", "write report work give"),
    ("withdrawn", "withdraw report"),
];

/// Sets one byte of such a number, from the least on; gives whether it has so many.
fn set(memory: &mut Lent, name: &str, at: usize, byte: u8) -> bool {
    let (group, counts) = (&mut memory.group, &mut memory.counts);
    let small = match name {
        "replicas" => Some(&mut group.replicas),
        "own" => Some(&mut group.own),
        "done" => Some(&mut counts.done),
        _ => None,
    };
    if let Some(small) = small {
        *small = byte;
        return at == 0;
    }
    let number = match name {
        "from" => &mut group.from[1],
        "until" => &mut group.until[1],
        "commits" => &mut counts.commits,
        "tickets" => &mut counts.tickets,
        "committed" => &mut counts.committed,
        "read_only" => &mut counts.read_only,
        "aborted" => &mut counts.aborted,
        "withdrawn" => &mut counts.withdrawn,
        _ => panic!("no count {name}"),
    };
    let mut bytes = number.to_le_bytes();
    bytes[at] = byte;
    *number = u32::from_le_bytes(bytes);
    true
}

/// Calls on an altered memory: refused, it has changed nothing. Gives its answer and leaves the memory.
fn call(name: &str, memory: &mut Lent) -> (u8, String) {
    let before = memory.clone();
    let answer = memory.call(name);
    if answer.0 != 0 {
        check_refused(name, &before, memory, &answer);
    }
    answer
}

/// Each byte of the group's numbers and of each count at each of its numbers.
#[test]
fn every_byte_of_group_and_counts() {
    for (name, _) in CALLS {
        for (state, _) in states(name) {
            let mut plain = state.clone();
            let due = call(name, &mut plain);
            for (count, lookers) in COUNTS {
                let looks = lookers.split(' ').any(|looker| looker == name);
                for (at, byte) in (0..4).flat_map(|at| (0..=255).map(move |byte| (at, byte))) {
                    let mut memory = state.clone();
                    if !set(&mut memory, count, at, byte) {
                        continue;
                    }
                    let answer = call(name, &mut memory);
                    if !looks {
                        let mut due_memory = plain.clone();
                        if !FILLING.contains(&name) || due.0 != 0 {
                            set(&mut due_memory, count, at, byte);
                        }
                        assert_eq!(answer, due, "{name}: {count}, byte {at}: {byte}");
                        assert!(memory == due_memory, "{name}: {count}, byte {at}: {byte}");
                    }
                }
            }
        }
    }
}

/// Any number of replicas, with as many places, which hold something.
#[test]
fn every_number_of_replicas() {
    let mut numbers = [0; 30];
    for name in ["write", "send", "deliver", "work"] {
        for (state, _) in states(name) {
            for replicas in 0..=255 {
                for own in [0, 1, 254, 255] {
                    let mut memory = state.clone();
                    (memory.group.replicas, memory.group.own) = (replicas, own);
                    memory.places.resize(BLOCK * usize::from(replicas), 2);
                    let answer = call(name, &mut memory);
                    numbers[usize::from(answer.0)] += 1;
                    // Own number 255 is that of a station, however many there are.
                    let only_reads = own == 255 && (name == "write" || name == "send");
                    assert_eq!(answer.0 == 25, only_reads, "{name}: {replicas}, {own}");
                    // Slot 0 is replica 0's, however many there are.
                    if name == "send" && !only_reads {
                        assert_ne!(answer.0 == 11, own == 0, "{replicas}, {own}");
                    }
                    // A block has no sender 254 or 255, so it is never their own.
                    assert!(answer.0 != 19 || own < 2, "{replicas}, {own}");
                    // The block is of a group of two.
                    if name == "deliver" && answer.0 != 14 {
                        assert_eq!(answer.0 == 16, replicas != 2, "{replicas}, {own}");
                    }
                }
            }
        }
    }
    let met = |number: usize| numbers[number] > 0;
    let due = [0, 11, 12, 14, 16, 19, 21, 25];
    assert!(due.into_iter().all(met), "{numbers:?}");
}

/// The tickets at each side of their limit, and the counts at theirs: these stay.
#[test]
fn limits() {
    let (good, _) = states("begin").remove(0);
    for tickets in [0, 1, MAX_TICKET - 1, MAX_TICKET, MAX_TICKET + 1, u32::MAX] {
        let mut memory = good.clone();
        memory.counts.tickets = tickets;
        let number = call("begin", &mut memory).0;
        assert_eq!(
            number,
            if tickets < MAX_TICKET { 0 } else { 6 },
            "{tickets}"
        );
        let due = if number == 0 { tickets + 1 } else { tickets };
        assert_eq!(memory.counts.tickets, due);
    }
    let last = u32::MAX;
    let (mut memory, _) = states("work").remove(0);
    (memory.counts.commits, memory.counts.committed) = (last, last);
    assert_eq!(call("work", &mut memory).0, 0);
    assert_eq!(
        (memory.counts.commits, memory.counts.committed),
        (last, last)
    );
    let (mut memory, _) = states("ask").remove(0);
    memory.counts.read_only = last;
    memory.table[0].writes = 0;
    assert_eq!(call("ask", &mut memory).0, 0);
    assert_eq!(memory.counts.read_only, last);
}

/// Each mark at each number but 0 gives what it gives at 1.
#[test]
fn every_number_of_the_marks() {
    for (name, _) in CALLS {
        for (state, _) in states(name) {
            for byte in 0..=255u8 {
                for (sent, applying) in [(byte, 0), (0, byte), (byte, 1), (1, byte), (byte, byte)] {
                    let mut memory = state.clone();
                    (memory.turn.sent, memory.turn.applying) = (sent, applying);
                    let mut plain = state.clone();
                    (plain.turn.sent, plain.turn.applying) = (sent.min(1), applying.min(1));
                    let answer = call(name, &mut memory);
                    assert_eq!(answer, call(name, &mut plain), "{name}: {sent}, {applying}");
                    let turn = &mut memory.turn;
                    (turn.sent, turn.applying) = (turn.sent.min(1), turn.applying.min(1));
                    assert!(memory == plain, "{name}: {sent}, {applying}");
                }
            }
        }
    }
}
