//! Staleness before the lock (document 02, Req 07): the worked list, and the order of all that depends on
//! the item.

use super::worked::play;
use super::List;
use crate::samples::block_of;

/// Name and lines of each list.
pub(super) const LISTS: [(&str, &str); 1] = [("9 before 8", STALE_FIRST)];

/// Item 5 changes after ticket 1 began, and ticket 2, which began after that, locks it.
const STALE_FIRST: &str = "
    M 0 2 0 0 -> 0
    B 0 -> 0 1
    S 0 -> 0 #
    D 0 0 -> 0
    K 0 -> 0 0 0 1 0
    H 0 {rec 1 2 1:5=50} -> 0
    K 0 -> 0 1 1 1 0
    B 0 -> 0 2
    W 0 2 5 7 -> 0
    W 0 1 5 8 -> 9
    W 0 1 5 8 -> 3";

pub(super) fn all(list: &mut List) {
    play(list, &LISTS);
    writes(list);
}

/// Tickets 1, 2 and 3 began before items 50 and 51 changed; 1 has eight items, 20 to 27. Ticket 4, which
/// began later, holds 50, and is asked and sent with it. Between the two writesets every write waits.
fn writes(list: &mut List) {
    list.calls("M 1 2 1 4, B 1, B 1, B 1");
    for item in 20..28 {
        list.call(&format!("W 1 1 {item} 1"));
    }
    list.call("W 1 2 40 1");
    list.deliver_bytes(1, &block_of(2, 0, &[(1, &[(50, 1)]), (2, &[(51, 2)])]));
    list.calls("K 1, B 1, W 1 3 50 5, W 1 4 50 5, K 1, W 1 4 50 5");
    // Not stale: 8 before 10. Stale and held: 9, before 8 and before 10.
    list.calls("W 1 1 40 5, W 1 1 28 5, W 1 1 20 5, W 1 1 50 5, W 1 1 20 5, Q 1");
    // Its items are free, and item 50 is not: the holder is asked, then sent.
    list.calls("W 1 2 20 5, C 1 4, B 1, W 1 5 50 5, W 1 3 50 5, W 1 3 50 5");
    let own = list.send(1);
    list.calls("W 1 5 50 5, W 1 2 50 5, W 1 2 50 5, Q 1");
    // Once it is committed nobody holds the item, and it is newer than the snapshot of ticket 5.
    list.take(1, own);
    list.calls("W 1 5 50 5, W 1 5 50 5, Q 1, V 1");
}

#[cfg(test)]
mod tests;
