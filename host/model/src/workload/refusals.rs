//! The refusal numbers, and the first of them where several conditions hold. Only 6 and 13 are
//! missing: no list of calls reaches them in reasonable time, or at all.

use super::List;
use crate::block::{self, BLOCK};
use crate::samples::block_of;

pub(super) fn all(list: &mut List) {
    makes_and_tickets(list);
    writes(list);
    sends_and_works(list);
    deliveries(list);
}

/// 2, 3, 4 and 5; a refused make changes nothing.
fn makes_and_tickets(list: &mut List) {
    list.calls("M 0 2 1 3, M 0 0 0 0, M 0 9 9 0, M 0 2 2 0, M 0 258 0 0, M 0 4294967295 0 0");
    list.calls("M 0 3 256 0, M 0 6 4294967295 0, V 0, Q 0");
    list.calls("M 0 2 0 3, R 0 99 128, R 0 99 127, W 0 99 128 0, W 0 99 127 0, C 0 99, X 0 99");
    let ticket = list.ask(0, &[(1, 1)]);
    for _ in 0..2 {
        list.calls(&format!(
            "R 0 {ticket} 128, W 0 {ticket} 128 0, R 0 {ticket} 1, W 0 {ticket} 1 0, \
             C 0 {ticket}, X 0 {ticket}"
        ));
        // Once while it is asked, once while it is sent.
        list.call("S 0");
    }
    list.calls("B 0, C 0 2, R 0 2 0, W 0 2 0 0, C 0 2, X 0 2");
    list.calls("B 0, X 0 3, R 0 3 0, W 0 3 0 0, C 0 3, X 0 3, R 0 0 0, R 0 4294967295 0");
    list.calls("B 0, B 0, B 0, B 0, B 0, B 0, Q 0");
}

/// 7, 8, 9 and 10: while a block of another is committed in part, and after it.
fn writes(list: &mut List) {
    list.calls("M 0 2 0 4, M 1 2 1 4");
    // Ticket 1 holds items 20 to 27, 3 holds 30, 4 is asked, and 2 began before 50 changed.
    list.calls("B 1, B 1, B 1, B 1");
    for item in 20..28 {
        list.call(&format!("W 1 1 {item} 1"));
    }
    list.calls("W 1 3 30 1, W 1 4 31 1, C 1 4");
    list.ask(0, &[(50, 1)]);
    list.ask(0, &[(51, 1)]);
    let block = list.send(0);
    list.deliver(1, block);
    list.calls("K 1, W 1 99 128 0, W 1 4 128 0, W 1 99 0 0, W 1 4 31 0, W 1 4 0 0");
    list.calls("W 1 1 20 0, W 1 1 30 0, W 1 2 50 0, W 1 1 0 0, R 1 1 20, K 1");
    list.calls("W 1 1 30 0, B 1, W 1 5 50 2, W 1 2 50 0, W 1 1 50 0, W 1 1 28 0, W 1 1 20 0");
    list.calls("R 1 1 20, W 1 1 51 0, W 1 1 51 0, W 1 3 30 0, W 1 3 51 0, Q 1");
    // The locks of those that ended are gone; that of the asked one is not, nor once it is sent.
    list.calls("B 1, W 1 6 20 1, W 1 6 30 1, W 1 6 31 1, S 1, W 1 6 31 1, Q 1");
}

/// 11, 12 and 21.
fn sends_and_works(list: &mut List) {
    list.calls("M 0 2 0 5, M 1 2 1 5, K 0, S 1");
    let block = list.send(0);
    list.calls("S 0, K 0");
    list.deliver(0, block);
    list.calls("S 0, K 0, S 0, K 0");
    list.deliver(1, block);
    list.calls("S 1, K 1, K 1");
    let block = list.send(1);
    list.call("S 1");
    list.deliver(0, block);
    list.calls("K 0, S 0, S 0");
}

/// 1, 14, 15, 16, 17, 18, 19 and 20, each also where later ones hold: replica 1 of 3 at turn 4, its
/// own, with slots 4, 5 and 6 in its inbox.
fn deliveries(list: &mut List) {
    list.call("M 0 3 1 8");
    for slot in [0, 2, 3] {
        if slot == 2 {
            let own = list.send(0);
            list.take(0, own);
        }
        list.deliver_bytes(0, &block_of(3, slot, &[]));
        list.work_off(0);
    }
    let ticket = list.ask(0, &[(1, 1)]);
    let forged = block_of(3, 4, &[(ticket, &[(1, 2)])]);
    list.deliver_bytes(0, &forged);
    let own = list.send(0);
    list.deliver_bytes(0, &forged);
    for slot in [5, 6] {
        list.deliver_bytes(0, &block_of(3, slot, &[]));
    }
    list.deliver(0, own);

    let good = block_of(3, 4, &[]);
    let mut long = good.to_vec();
    long.resize(520, 0);
    for length in [0, 1, 511, 513, 520] {
        list.deliver_bytes(0, &long[..length]);
    }
    for bit in [0, 7, 8, 100, 4063, 4064, 4079, 4080, 4095] {
        list.call(&format!("F 0 {own} {bit}"));
    }
    for (n, slot) in [(2, 0), (3, 1), (3, 7), (3, 5)] {
        let mut unchecked = block_of(n, slot, &[]);
        unchecked[508] ^= 1;
        list.deliver_bytes(0, &unchecked);
    }
    for (n, slot) in [(7, 4), (2, 0), (3, 1), (3, 7), (3, 4), (3, 5)] {
        list.deliver_bytes(0, &ill_formed(n, slot));
    }
    for (n, slot) in [(2, 1), (4, 9), (4, 5), (6, 4)] {
        list.deliver_bytes(0, &block_of(n, slot, &[]));
    }
    for slot in [0, 1, 3, 7, 8, 10, 99_999_999] {
        list.deliver_bytes(0, &block_of(3, slot, &[]));
    }
    list.deliver_bytes(0, &forged);
    list.deliver_bytes(0, &good);
    list.deliver(0, own);
    list.deliver_bytes(0, &block_of(3, 6, &[]));
    list.calls("K 0, K 0, K 0, K 0, Q 0");
}

/// A block with kind 3 under a right check.
fn ill_formed(n: u32, slot: u32) -> [u8; BLOCK] {
    let mut block = block_of(n, slot, &[]);
    block[0] = 3;
    block::put_check(&mut block);
    block
}
