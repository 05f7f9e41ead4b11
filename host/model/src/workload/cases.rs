//! The cases that document 01 lists (its "Strikes on the anvil"), in its order.

use super::List;
use crate::block;
use crate::samples::{block_of, marked_next, marked_record};

pub(super) fn all(list: &mut List) {
    marked_blocks(list);
    limits(list);
    slots(list);
    conflicts(list);
    extreme_values(list);
}

/// The two blocks that document 01 works out: sent, and taken as bytes.
fn marked_blocks(list: &mut List) {
    list.calls("M 0 2 0 -3, M 1 2 1 -3");
    let next = list.send(0);
    list.take(1, next);
    list.ask(1, &[(5, 40)]);
    let record = list.send(1);
    list.take(1, record);
    list.deliver(0, next);
    list.deliver_bytes(0, &block::encode(&marked_record()));
    list.calls("K 0, K 0, K 0, V 0, V 1");
    list.call("M 1 2 1 0");
    list.deliver_bytes(1, &block::encode(&marked_next()));
    list.calls("K 1, Q 1");
}

/// The sizes of a group, the highest item, eight items, six transactions.
fn limits(list: &mut List) {
    list.calls("M 0 1 0 0, M 0 7 0 0, M 0 2 0 11, M 0 6 0 12, M 5 6 5 13, M 5 6 6 14, V 5");
    list.calls("B 0, W 0 1 127 1, W 0 1 128 1, R 0 1 127, R 0 1 128, R 0 1 0");
    list.call("B 0");
    for item in 0..9 {
        list.call(&format!("W 0 2 {item} 1"));
    }
    list.calls("W 0 2 7 2, R 0 2 7, R 0 2 8, W 0 2 8 1");
    list.call("M 0 2 0 0");
    for _ in 0..7 {
        list.call("B 0");
    }
    list.calls("X 0 3, B 0, B 0, Q 0");
}

/// The window of slots, a slot twice, an own block that was not sent.
fn slots(list: &mut List) {
    list.call("M 0 3 0 0");
    list.deliver_bytes(0, &block_of(3, 2, &[]));
    list.deliver_bytes(0, &block_of(3, 3, &[]));
    list.calls("M 0 2 0 0, M 1 2 1 0");
    let block = list.send(0);
    list.deliver(1, block);
    list.deliver(1, block);
    list.call("K 1");
    list.deliver(1, block);
    list.call("M 0 2 0 0");
    list.deliver(0, block);
    let block = list.send(0);
    list.deliver(0, block);
}

/// An asked transaction that is aborted, and a write that is too late.
fn conflicts(list: &mut List) {
    list.calls("M 0 2 0 6, M 1 2 1 6, M 2 2 1 6");
    list.ask(1, &[(5, 40)]);
    list.call("B 2");
    list.ask(0, &[(5, 41)]);
    let remote = list.send(0);
    list.take(1, remote);
    list.send(1);
    list.calls("Q 1, V 1");
    list.take(2, remote);
    list.calls("R 2 1 5, W 2 1 5 1, W 2 1 5 1, Q 2, B 2, R 2 2 5, W 2 2 5 1");
}

/// The lowest and the highest value come back unchanged: from the writer, from the block, and as
/// values to start with.
fn extreme_values(list: &mut List) {
    list.calls("M 0 2 0 2147483647, M 1 2 1 -2147483648, V 0, V 1");
    list.calls("B 0, W 0 1 0 -2147483648, W 0 1 127 2147483647");
    list.calls("R 0 1 0, R 0 1 1, R 0 1 127, C 0 1");
    let block = list.send(0);
    for place in 0..2 {
        list.take(place, block);
        let ticket = 2 - place;
        list.call(&format!("B {place}"));
        list.call(&format!("R {place} {ticket} 0"));
        list.call(&format!("R {place} {ticket} 127"));
        list.call(&format!("V {place}"));
    }
}
