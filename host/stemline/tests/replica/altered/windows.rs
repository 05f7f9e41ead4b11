//! Windows of any content, and givings from them at altered memory.

use model::block::{self, BLOCK};
use model::samples::{self, Random};
use stemline::{ffi, owner, Replica, DOWN, KEPT};

use super::{number, place};
use crate::lent::Lent;

/// Alters some of its blocks.
pub fn alter_window(random: &mut Random, memory: &mut Lent) {
    let (blocks, _) = memory.window.as_chunks_mut();
    for _ in 0..random.pick(&[1, 5, 200]) {
        blocks[random.below(KEPT)] = place(random, memory.group.replicas);
    }
}

/// Turns told, most often near the own one, and a window with blocks of the slots behind it, of any kind.
pub fn tell(random: &mut Random, memory: &mut Lent) {
    let (slot, n) = (memory.turn.slot, memory.group.replicas);
    let count = random.pick(&[n, n, n, n, n, n, n, 3]);
    memory.turns.resize(count.into(), 0);
    let ahead = slot.saturating_add(random.below(5) as u32);
    memory.turns.fill_with(|| {
        let any = number(random);
        random.pick(&[
            ahead,
            ahead,
            ahead,
            slot,
            slot.saturating_add(70),
            DOWN,
            any,
        ])
    });
    memory.lent.clone_from(&memory.window);
    for slot in slot..ahead {
        let mut block = match random.below(12) {
            0 => place(random, n),
            // Another slot's, or of another group.
            1 => samples::block_of(u32::from(n).max(2), any_near(random, slot), &[]),
            _ => next_or_record(random, n, slot),
        };
        if random.below(20) == 0 {
            block[random.below(BLOCK)] ^= 1;
        }
        memory.lent[BLOCK * (slot as usize % KEPT)..][..BLOCK].copy_from_slice(&block);
    }
}

fn any_near(random: &mut Random, slot: u32) -> u32 {
    slot.saturating_sub(1) + random.below(4) as u32
}

/// A good block of a slot, where the group is one.
fn next_or_record(random: &mut Random, n: u8, slot: u32) -> [u8; BLOCK] {
    let n = u32::from(n).max(2);
    let records: [(u32, &[(u8, i32)]); 2] = [(1, &[(5, 1)]), (7, &[(9, 1), (12, 2)])];
    samples::block_of(n, slot, &records[..random.below(3)])
}

/// A giving is its delivers and works, slot by slot, each at most six works: whatever the memory and the window are.
pub fn same_give(before: &Lent, after: &Lent, number: u8) {
    if [1, 25, 30, 31].contains(&number) {
        return;
    }
    let giver = ffi::giver(&before.group, &before.turns).giver;
    let (first, to) = (before.turn.slot, before.turns[usize::from(giver)]);
    let mut memory = before.clone();
    let mut ended = 0;
    for _ in first..to.max(first) {
        let slot = memory.turn.slot;
        let replica = Replica::from_memory(memory.memory());
        if !replica.waits() {
            let kept = &before.lent[BLOCK * (slot as usize % KEPT)..][..BLOCK];
            memory.bytes = kept.to_vec();
            ended = memory.call("deliver").0;
        }
        for _ in 0..6 {
            if ended == 0 && memory.turn.slot == slot {
                ended = memory.call("work").0;
            }
        }
        if ended != 0 {
            break;
        }
    }
    memory.bytes.clone_from(&before.bytes);
    assert_eq!(ended, number, "another number than its calls");
    assert!(memory == *after, "another memory than its calls");
}

/// A work that moves the turn leaves the block of the slot that it leaves in the window, or the next of one that is
/// out; any other leaves that as it was.
pub fn same_window(before: &Lent, after: &Lent, answer: &str) {
    let (group, slot) = (before.group, before.turn.slot);
    let place = match group.replicas {
        0 => 0,
        n => slot as usize % usize::from(n),
    };
    let is_out = group.is_out(slot);
    let mut due = before.window.clone();
    let kept = &mut due[BLOCK * (slot as usize % KEPT)..][..BLOCK];
    let moved = answer.contains("moved: true");
    assert!(moved || !answer.contains("append: true"), "{answer}");
    match moved {
        true if is_out => {
            let mut next = [0; BLOCK];
            let sender = owner(slot, group.replicas.into()) as u8;
            next[..4].copy_from_slice(&[block::NEXT, sender, group.replicas, 0]);
            next[4..8].copy_from_slice(&slot.to_le_bytes());
            block::put_check(&mut next);
            kept.copy_from_slice(&next);
        }
        true => kept.copy_from_slice(&before.places[BLOCK * place..][..BLOCK]),
        false => (),
    }
    assert!(after.window == due, "{answer}: another window");
}
