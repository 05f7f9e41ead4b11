//! Givings (document 02, Req 11 and 12): worked lists, lines that are none, who gives, whose window is lent, what a
//! window has, and what ends a giving. Groups in which replicas come back are in `recorded`.

pub(super) mod worked;

use super::worked::play;
use super::List;
use crate::block::BLOCK;
use crate::giving::DOWN;
use crate::replay::JOURNAL;
use crate::samples::block_of;

/// Lines that print `?` at a replica of two.
const LINES: &str = "G|G |G 0|G 0 |G 0 1|G 0 1 |G 0  1|G 0 1 2 |G 0 1 2 3|G  0 1 2|G 0  1 2|G 0 1  2| G 0 1 2|GG 0 1 2|\
    G0 1 2|g 0 1 2|G 0 1 2\r|G 0,1,2|G 8 1 2|G 00 1 2|G 0 01 2|G 0 1 02|G 0 -1 2|G 0 1 -2|G 0 +1 2|G 0 1 +2|\
    G 0 1a 2|G 0 1 0x2|G 0 4294967296 2|G 0 1 4294967296|G 0 1 18446744073709551616|G 7 1 2|G 5 1 2";

pub(super) fn all(list: &mut List) {
    play(list, &worked::LISTS);
    lines(list);
    for n in 2..=6 {
        choices(list, n);
    }
    places(list);
    made_anew(list);
    ended(list);
    own_blocks(list);
    out_of_oneself(list);
    outgrown(list);
    spent(list);
}

/// Lines that print `?`, a station and a place without a replica among them, and lines beside them that just do
/// not.
fn lines(list: &mut List) {
    list.calls("M 0 2 0 3, M 1 2 1 3, A 7 2 3");
    for line in LINES.split('|') {
        list.call(line);
    }
    list.calls("G 7 0 0, G 7 4294967295 4294967295, G 0 0 0, G 0 0 1, G 0 4294967295 0, G 0 4294967295 4294967295");
    list.calls("G 0 4294967294 4294967294, G 0 1 4294967294, G 0 0 4294967295, Q 0");
}

/// Who gives in a group of each size: a window that lacks the slots names the giver.
fn choices(list: &mut List, n: u32) {
    for own in 0..n {
        list.call(&format!("M {own} {n} {own} 1"));
    }
    for own in 0..n {
        let told = |list: &mut List, turn: &dyn Fn(u32) -> u32| {
            let turns: Vec<String> = (0..n).map(|g| turn(g).to_string()).collect();
            list.call(&format!("G {own} {}", turns.join(" ")));
        };
        told(list, &|_| 1);
        told(list, &|g| if g == own { 900 } else { 1 + g });
        told(list, &|g| if g == own { DOWN } else { 9 - g });
        told(list, &|g| if g == own { 0 } else { DOWN });
        told(list, &|g| if g + 1 == n { 7 } else { DOWN });
        told(list, &|g| if g % 2 == 0 { DOWN } else { DOWN - 1 });
        told(list, &|g| [3, 8, 8, DOWN, 8, 8][g as usize]);
        // Level.
        told(list, &|g| if g == own { 5 } else { 0 });
    }
}

/// The replica with number g is looked for at place g: it may be another, one of another group, a station, or none;
/// it may be the returner itself, which has no more than it has.
fn places(list: &mut List) {
    list.calls("M 0 3 2 1, M 1 3 0 1, M 2 3 1 1, B 0, W 0 1 5 9, C 0 1");
    for place in [1, 2] {
        let block = list.send(place);
        for place in 0..3 {
            list.take(place, block);
        }
    }
    list.calls("M 1 3 0 1, G 1 2 0 0, G 1 0 2 0, G 1 1 0 2, G 1 0 0 1, Q 1");
    list.calls("M 1 3 0 1, G 1 4294967295 1 1, Q 1, G 1 4294967295 1 2, Q 1");
    // Of a group of two.
    list.calls("M 2 2 0 1, S 2, M 1 3 0 1");
    list.deliver(2, list.replay.sent() - 1);
    list.calls("K 2, G 1 0 0 1, Q 1, G 1 0 0 2");
    list.calls(
        "A 2 3 1, G 1 0 0 1, G 1 0 0 0, G 1 0 4294967295 4294967295, G 1 0 0 4294967295, G 1 1 0 0",
    );
    list.calls("M 5 6 5 1, A 4 6 1, M 3 6 3 1, G 3 4 3 2 1 5 0, G 3 4 3 2 1 0 0, G 3 0 0 0 0 0 5, G 3 0 0 0 0 4294967295 4294967295");
}

/// What a window has after a make, a station, a restart of the place and one from other bytes; a refused one leaves it.
fn made_anew(list: &mut List) {
    let journal =
        [0, 1].map(|slot| crate::replay::hex(&block_of(2, slot, &[(3, &[(5, slot as i32)])])));
    let journal = journal.concat();
    for line in [
        "M 0 2 0 1",
        "A 0 2 1",
        "Y 0 2 0 1 ",
        &format!("Y 0 2 0 1 {journal}"),
        "Z 0 512 1",
        "Z 0 1000 1",
        "Z 0 1536 1",
        "M 0 1 0 1",
        "Y 0 2 2 1 ",
    ] {
        list.calls("M 0 2 0 1, O 0 1 1, B 0, W 0 1 9 9, C 0 1");
        for _ in 0..2 {
            let block = list.send(0);
            list.take(0, block);
        }
        list.call(line);
        list.calls("M 1 2 1 1, O 1 1 1, G 1 1 0, G 1 3 0, G 1 4 0, G 1 2 0, Q 1, V 1");
    }
}

/// Blocks of another's window that a deliver refuses, each behind one that it takes; and one that is in place, of
/// other bytes.
fn ended(list: &mut List) {
    for (n, own, taken) in [(3, 1, "O 0 1 1"), (3, 2, "O 0 2 2"), (2, 1, "O 0 1 1")] {
        list.calls("M 0 3 0 1, O 0 1 1, O 0 2 2, B 0, W 0 1 5 50, W 0 1 6 60, C 0 1");
        for _ in 0..2 {
            let block = list.send(0);
            list.take(0, block);
        }
        list.calls(&format!(
            "M {own} {n} {own} 1, B {own}, B {own}, W {own} 1 6 1, W {own} 2 5 1"
        ));
        let told = if n == 3 { "4 0 0" } else { "4 0" };
        list.calls(&format!("G {own} {told}, Q {own}, G {own} {told}"));
        list.calls(&taken.replacen('0', &own.to_string(), 1));
        list.calls(&format!("G {own} {told}, Q {own}, V {own}"));
    }
    list.calls("M 1 3 1 1, O 1 1 1, O 1 2 2");
    list.deliver_bytes(1, &block_of(3, 0, &[(7, &[(5, 7)]), (8, &[(6, 8)])]));
    list.calls("G 1 4 0 0, Q 1, V 1, J 1 0, J 1 3");
}

/// The returner's own block, sent for its turn and not come back; and one of a run that it has lost.
fn own_blocks(list: &mut List) {
    list.calls("M 0 2 0 1, M 1 2 1 1, B 0, B 0, W 0 1 5 50, W 0 2 6 60, C 0 2, C 0 1");
    let block = list.send(0);
    list.take(1, block);
    list.calls("B 0, W 0 3 7 70, C 0 3, G 0 0 1, Q 0, J 0 0, J 0 1");
    let block = list.send(1);
    list.take(1, block);
    list.calls("G 0 0 2, Q 0, M 0 2 0 1, G 0 0 2, Q 0, S 0, G 0 0 2, Q 0, V 0");
}

/// One that was out comes back: its own slots are passed as out, and what it has asked waits.
fn out_of_oneself(list: &mut List) {
    list.calls("M 0 2 0 4, M 1 2 1 4, O 0 1 1, U 0 1 9, O 1 1 1, U 1 1 9, B 1, W 1 1 5 1, C 1 1, B 1, W 1 2 6 1");
    for slot in [0, 2, 4, 6] {
        if slot % 4 == 0 {
            list.ask(0, &[(6 + slot, 3), (20, slot as i32)]);
        }
        let block = list.send(0);
        list.take(0, block);
    }
    let block = list.send(0);
    list.take(0, block);
    list.calls("Q 0, G 1 9 0, Q 1, J 1 7, J 1 8, J 1 9, Z 1 4096 4, G 1 9 0, V 1");
    list.calls("B 1, W 1 1 5 1, C 1 1");
    let block = list.send(1);
    list.take(1, block);
    list.calls("G 0 0 10, V 0, Q 0, Q 1");
}

/// A giving by which a journal is outgrown, and one that just fills it.
fn outgrown(list: &mut List) {
    list.calls("M 0 2 0 5, M 1 2 1 5, O 0 1 1, O 1 1 1");
    let go_on = |list: &mut List, rounds: usize| {
        for _ in 0..rounds {
            let block = list.send(0);
            list.take(0, block);
        }
    };
    go_on(list, 32);
    list.call("G 1 64 0");
    go_on(list, 32);
    let bytes = BLOCK * JOURNAL;
    list.calls(&format!("G 1 128 0, J 1 127, J 1 128, Z 1 {bytes} 5"));
    go_on(list, 1);
    list.calls(&format!(
        "G 1 130 0, Q 1, J 1 0, Z 1 {bytes} 5, J 0 0, M 1 2 1 5, G 1 130 0"
    ));
}

/// Far turns: nothing is looked at slot by slot.
fn spent(list: &mut List) {
    list.calls("M 0 2 0 1, M 1 2 1 1, S 0");
    list.take(0, list.replay.sent() - 1);
    for turn in [
        1,
        2,
        64,
        65,
        99_999_999,
        100_000_000,
        100_000_001,
        1 << 31,
        DOWN - 1,
    ] {
        list.call(&format!("G 1 {turn} 0"));
        list.calls("Q 1, M 1 2 1 1");
    }
}

#[cfg(test)]
mod tests;
