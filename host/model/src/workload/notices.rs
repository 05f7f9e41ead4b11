//! Notices (document 02, Req 10): worked lists, lines that are none, what refuses a notice, a send and a
//! delivery, the notices that are kept for a restart, and stations. Groups with a membership service are
//! in `recorded`.

pub(super) mod worked;

use super::worked::play;
use super::List;
use crate::replay::NOTICES;
use crate::samples::block_of;

/// Lines that print `?`, for either letter.
const LINES: &str = "*|* |* 0|* 0 |* 0 1|* 0 1 |* 0  1|* 0 1 2 |* 0 1 2 3|*  0 1 2|* 0  1 2|* 0 1  2| * 0 1 2|\
    ** 0 1 2|*0 1 2|* 0 1 2\r|* 0,1,2|* 8 1 2|* 00 1 2|* 0 01 2|* 0 1 02|* 0 -1 2|* 0 1 -2|* 0 +1 2|* 0 1 +2|\
    * 0 1a 2|* 0 1 0x2|* 0 4294967296 2|* 0 1 4294967296|* 0 4294967297 2|* 0 1 18446744073709551618";

pub(super) fn all(list: &mut List) {
    play(list, &worked::LISTS);
    lines(list);
    for n in 2..=6 {
        ranges(list, n);
    }
    follow_on(list);
    blocks_here(list);
    deliveries(list);
    kept(list);
    made_anew(list);
    station(list);
    cuts(list);
}

/// Lines that print `?`, with small letters among them, and lines beside them that just do not.
fn lines(list: &mut List) {
    list.calls("M 0 2 1 3");
    for letter in ["O", "U", "o", "u"] {
        for line in LINES.split('|') {
            list.call(&line.replace('*', letter));
        }
    }
    list.calls("o 0 0 2, u 0 0 2, Q 0, O 0 4294967295 2, O 0 0 4294967295, U 0 0 4294967295, O 0 0 2, U 0 0 3");
}

/// 2 for a replica or a slot that there is not, before 28, in a group of each size; and the last slot.
fn ranges(list: &mut List, n: u32) {
    let last = n - 1;
    list.calls(&format!("M 0 {n} {last} 1, A 7 {n} 1"));
    for place in [0, 7] {
        list.calls(&format!(
            "O {place} {n} 0, U {place} {n} 0, O {place} 6 9, U {place} 256 9"
        ));
        list.calls(&format!(
            "O {place} {last} 100000000, U {place} {last} 100000000"
        ));
        list.calls(&format!(
            "O {place} {last} 99999999, U {place} {last} 99999999"
        ));
        list.calls(&format!(
            "O {place} 0 99999998, U {place} 0 99999999, O {place} 0 99999999"
        ));
    }
}

/// What follows on what: out once, back behind that, out again when the turn is there; and by turn.
fn follow_on(list: &mut List) {
    list.calls("M 0 2 0 1, U 0 1 3, O 0 1 3, O 0 1 3, O 0 1 9, U 0 0 9, U 0 1 2, U 0 1 3, U 0 1 4, U 0 1 5, O 0 1 5");
    let own = list.send(0);
    list.take(0, own);
    list.calls("O 0 1 5, O 0 0 0, O 0 1 0");
    list.deliver_bytes(0, &block_of(2, 1, &[(1, &[(5, 1)])]));
    list.work_off(0);
    let own = list.send(0);
    list.take(0, own);
    // Slot 3 is passed; its replica is back at the turn, and may be out from there.
    list.calls("Q 0, O 0 1 3, O 0 1 4, U 0 1 4, U 0 1 5, O 0 0 4, S 0, K 0, K 0, U 0 0 4, U 0 0 5, U 0 0 6, S 0, Q 0");
}

/// An Out behind a block of its replica that is sent, placed or half applied here.
fn blocks_here(list: &mut List) {
    list.calls("M 0 3 0 1, B 0, W 0 1 5 1, C 0 1");
    let own = list.send(0);
    list.calls("O 0 0 0, O 0 0 1, U 0 0 2");
    list.deliver(0, own);
    list.calls("O 0 0 3, U 0 0 4, K 0, Q 0");
    let block = block_of(3, 2, &[(1, &[(5, 1)]), (2, &[(6, 1)])]);
    list.deliver_bytes(0, &block);
    list.calls("O 0 2 1, O 0 2 2, O 0 1 1, K 0, K 0, O 0 2 2, W 0 1 6 1, K 0, O 0 2 2, O 0 2 3");
    list.calls("B 0, W 0 2 9 1, C 0 2, S 0, K 0, J 0 3, S 0, Q 0");
}

/// The order of a deliver's numbers, at replicas and a station; and that of a send's.
fn deliveries(list: &mut List) {
    list.calls("M 0 3 0 1, M 1 3 2 1, A 7 3 1");
    for place in [0, 1, 7] {
        list.calls(&format!(
            "O {place} 0 0, O {place} 2 2, U {place} 2 6, S {place}, K {place}, S {place}"
        ));
        let mut bytes = block_of(3, 2, &[]).to_vec();
        list.deliver_bytes(place, &bytes[1..]);
        bytes[100] = 1;
        list.deliver_bytes(place, &bytes);
        list.deliver_bytes(place, &block_of(2, 2, &[]));
        for slot in [0, 2, 3, 5, 6, 300, 4, 7, 8, 1, 1] {
            list.deliver_bytes(place, &block_of(3, slot, &[(9, &[(5, slot as i32)])]));
        }
        list.calls(&format!(
            "K {place}, S {place}, K {place}, S {place}, K {place}, K {place}, Q {place}"
        ));
    }
}

/// As many notices as are kept for a restart, and one more; all are about slots ahead of the turn.
fn kept(list: &mut List) {
    list.calls("M 1 6 1 2");
    let block = block_of(6, 0, &[]);
    let mut slot = 0;
    let mut turn = |list: &mut List| {
        for about in 0..6 {
            list.call(&format!("O 1 {about} {slot}"));
        }
        for _ in 0..6 {
            list.call("K 1");
        }
        slot += 6;
        for about in 0..6 {
            list.call(&format!("U 1 {about} {slot}"));
        }
    };
    turn(list);
    turn(list);
    list.calls("Z 1 6144 2, O 1 2 12, O 1 3 12, O 1 4 12, O 1 5 12, U 1 2 13, U 1 3 13, U 1 4 13, Z 1 6144 2");
    assert_eq!(list.replica(1).notices.len(), NOTICES - 1);
    list.calls("U 1 5 13, Z 1 6144 2, O 1 0 11, Z 1 6144 2, O 1 0 12, Z 1 6144 2, Z 1 0 2, J 1 11, K 1, Z 1 6144 2");
    // Until the place is made anew.
    list.calls("M 1 7 0 2, Z 1 6144 2, M 1 6 1 2, Z 1 0 2, O 1 0 0");
    list.call("Y 1 6 6 2 ");
    list.deliver_bytes(1, &block);
    list.call("Y 1 6 1 2 ");
    list.deliver_bytes(1, &block);
    list.calls("K 1, Z 1 512 2, Q 1");
}

/// A make, a station and a restart from other bytes have no notices; a restart of the place has them.
fn made_anew(list: &mut List) {
    for line in ["M 2 2 0 1", "A 2 2 1", "Y 2 2 0 1 ", "Z 2 0 1", "M 2 1 0 1"] {
        list.calls("M 2 2 0 1, O 2 1 1, O 2 0 2, U 2 0 5");
        list.call(line);
        list.calls("O 2 1 1, U 2 0 4, O 2 0 4, U 2 1 2");
        list.deliver_bytes(2, &block_of(2, 1, &[]));
    }
}

/// A station takes notices, and passes slots; it has no journal for them.
fn station(list: &mut List) {
    list.calls("A 7 2 4, B 7, O 7 1 1, O 7 1 1, U 7 1 1");
    list.deliver_bytes(7, &block_of(2, 0, &[(1, &[(5, 50)])]));
    list.calls("O 7 0 0, K 7, S 7, K 7, J 7 1, Z 7 0 4, U 7 1 1");
    list.deliver_bytes(7, &block_of(2, 3, &[(1, &[(5, 51)])]));
    list.calls("U 7 1 3, O 7 1 3, W 7 1 5 1, R 7 1 5, O 7 0 2");
    list.deliver_bytes(7, &block_of(2, 3, &[(1, &[(5, 51)])]));
    list.calls("K 7, O 7 1 3, K 7, K 7, K 7, B 7, R 7 2 5, Q 7");
}

/// Restarts with the *next* of out slots behind the last own block: none of it is given back. What is torn
/// behind it is cut off.
fn cuts(list: &mut List) {
    list.calls("M 0 2 0 6, M 1 2 1 6, O 1 0 2, O 0 0 2");
    for place in [0, 1] {
        let block = list.send(place);
        list.take(0, block);
        list.take(1, block);
    }
    list.calls("Q 0, Q 1, J 0 2, J 1 2, Z 0 1536 6, Z 1 1536 6, Q 0, S 0");
    let block = list.send(1);
    list.take(0, block);
    list.take(1, block);
    list.calls("Z 0 2560 6, J 0 4, U 0 0 5, U 0 0 6, S 0, Z 1 2560 6, U 1 0 6, Z 0 2560 6");
    list.deliver_bytes(0, &block_of(2, 5, &[(1, &[(5, 1)])]));
    list.calls("K 0, Z 0 3000 6, Q 0, K 0, S 0, Q 1");
}

#[cfg(test)]
mod tests;
