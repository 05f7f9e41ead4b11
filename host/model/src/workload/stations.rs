//! Stations (document 02, Req 05): the worked list, lines that are none, blocks of every sender, what
//! stands in the way of 25, and places made anew. Groups with stations are in `random`.

pub(super) mod worked;

use super::worked::play;
use super::List;
use crate::replica::OPEN;
use crate::samples::block_of;

/// Lines that print `?`.
const LINES: &str = "A|A |A 7|A 7 |A 7 2|A 7 2 |A 7  3|A 7 2 3 |A 7 2 3 3|A 7 2 0 3|A  7 2 3| A 7 2 3|\
    a 7 2 3|AA 7 2 3|A7 2 3|A 7 2 3\r|A 8 2 3|A 07 2 3|A -1 2 3|A 7 02 3|A 7 +2 3|A 7 -2 3|A 7 2a 3|\
    A 7 4294967298 3|A 7 2 03|A 7 2 -0|A 7 2 +3|A 7 2 2147483648|A 7 2 -2147483649|A 7 2 3a";

pub(super) fn all(list: &mut List) {
    play(list, &worked::LISTS);
    lines(list);
    for n in 2..=6 {
        every_sender(list, n);
    }
    only_reads(list);
    made_anew(list);
}

/// Lines that print `?`; calls where nothing is made, and where a refused make made nothing.
fn lines(list: &mut List) {
    list.calls("A 7 2 3, B 7");
    for line in LINES.split('|') {
        list.call(line);
    }
    list.calls("Q 7, R 7 1 127, A 7 2 -2147483648, V 7, A 7 6 2147483647, V 7");
    list.calls("A 6 1 0, A 6 7 0, A 6 0 0, A 6 4294967295 0, Q 6, W 6 1 0 0, S 6");
}

/// The blocks of all senders of a group, the last slot first, with writesets of items that they share.
/// Transactions of before, between and behind read what they began with, and each ask ends one.
fn every_sender(list: &mut List, n: u32) {
    list.calls(&format!("A 7 {n} -9, B 7"));
    let block = |slot: u32| {
        let value = slot as i32;
        let first = [(5, value), (10 + slot as u8, 1)];
        block_of(n, slot, &[(7, &first), (3, &[(5, 100 + value)])])
    };
    for slot in (0..=n).rev() {
        list.deliver_bytes(7, &block(slot));
    }
    list.deliver_bytes(7, &block(n - 1));
    list.deliver_bytes(7, &block_of(2 + (n + 1) % 5, 0, &[]));
    list.calls("K 7, K 7, K 7, B 7, R 7 1 5, R 7 2 5");
    list.deliver_bytes(7, &block(0));
    list.deliver_bytes(7, &block(n));
    list.work_off(7);
    list.calls(
        "B 7, R 7 1 5, R 7 2 5, R 7 3 5, R 7 3 11, C 7 1, C 7 1, C 7 2, X 7 3, X 7 3, Q 7, V 7",
    );
}

/// 25 with nothing open, with all open, while a block is applied, of any ticket and item; and the
/// refusals that a station gives as a replica does.
fn only_reads(list: &mut List) {
    list.calls("A 7 3 0, S 7, W 7 1 0 0");
    for _ in 0..=OPEN {
        list.call("B 7");
    }
    list.calls("W 7 1 0 0, W 7 6 127 -1, W 7 7 0 0, W 7 1 128 0, W 7 4294967295 4294967295 1");
    list.calls("R 7 7 0, R 7 1 128, C 7 7, X 7 0, K 7, S 7");
    list.deliver_bytes(7, &block_of(3, 0, &[(1, &[(0, 1)]), (2, &[(1, 1)])]));
    list.calls("K 7, W 7 1 0 0, W 7 1 9 0, W 7 9 9 0, S 7, K 7, S 7, W 7 1 0 0");
    list.calls("X 7 1, C 7 2, B 7, R 7 7 1, R 7 3 1, W 7 7 1 1, Q 7, J 7 0, Z 7 512 0, Z 7 0 0");
}

/// A station in the place of a replica with a journal, and the other way round; a refused make leaves
/// what is there.
fn made_anew(list: &mut List) {
    list.calls("M 6 2 0 4, B 6, W 6 1 5 40, C 6 1");
    let block = list.send(6);
    list.calls("J 6 0, A 6 2 4, J 6 0, Z 6 0 4, B 6");
    list.take(6, block);
    list.calls("Q 6, R 6 1 5, M 6 2 2 0, A 6 7 0");
    list.call("Y 6 2 2 0 ");
    list.calls("Q 6, R 6 1 5, M 6 2 1 4, P 6 , W 6 1 5 1, B 6, W 6 1 5 1, A 6 2 4, W 6 1 5 1");
    list.call("Y 6 2 1 4 ");
    list.calls("B 6, W 6 1 5 1, J 6 0, Z 6 0 4, A 6 2 8, V 6");
}

#[cfg(test)]
mod tests;
