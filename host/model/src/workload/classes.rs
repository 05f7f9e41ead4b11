//! Conflict classes (document 02, Req 02): worked lists, lines that are none, tables that are refused,
//! and the order of a write's refusals under a table. Groups that load tables are in `random`.

pub(super) mod worked;

use super::worked::play;
use super::List;
use crate::replay::{hex, MAX_TABLE};
use crate::replica::{CLASSES, ITEMS};
use crate::samples::block_of;

/// Lines that print `?`.
const LINES: &str =
    "P|P |P 0|P  |P 0  |P  0 01|P 0 01 |P 0 01 01|p 0 01|P0 01|P 8 01|P 00 01|P 0 1|\
    P 0 011|P 0 0A|P 0 0g|P 0 g0|P 0 0/|P 0 :0|P 0 0x01|P 0 01\r|PP 0 01";

pub(super) fn all(list: &mut List) {
    play(list, &worked::LISTS);
    lines(list);
    tables(list);
    writes(list);
}

fn load(list: &mut List, place: usize, table: &[u8]) {
    list.call(&format!("P {place} {}", hex(table)));
}

/// Lines that print `?`, and the lengths at which a line just does not.
fn lines(list: &mut List) {
    list.call("M 0 2 1 3");
    for line in LINES.split('|') {
        list.call(line);
    }
    for length in [0, 1, 64, ITEMS - 1, ITEMS, ITEMS + 1] {
        load(list, 0, &vec![1; length]);
    }
    for length in MAX_TABLE..MAX_TABLE + 3 {
        load(list, 0, &vec![1; length]);
    }
    load(list, 0, &[1; 2 * ITEMS]);
}

/// Each class and those beside them, at the first item and at the last; a refused table leaves the one
/// that is there. Then all of it while a block of another is applied.
fn tables(list: &mut List) {
    list.calls("M 0 2 1 3, B 0");
    let mut table = [1; ITEMS];
    for class in [0, 1, CLASSES, CLASSES + 1, 128, 255] {
        for item in [0, ITEMS - 1] {
            let mut one = table;
            one[item] = class;
            load(list, 0, &one);
        }
    }
    table[20] = 2;
    load(list, 0, &table);
    let block = block_of(2, 0, &[(1, &[(5, 50)]), (2, &[(6, 60)])]);
    list.deliver_bytes(0, &block);
    list.call("K 0");
    for class in [0, 1, 9] {
        load(list, 0, &[class; ITEMS]);
        load(list, 0, &[class; ITEMS - 1]);
    }
    // Those refused left the table that lets item 20 be written.
    list.calls("W 0 1 20 1, W 0 1 7 1, K 0");
    load(list, 0, &[CLASSES; ITEMS]);
    list.calls("W 0 1 7 1, Q 0");
}

/// 7 before all that depends on the item: ticket 1 holds items 20 to 27, ticket 3 holds 31, and 2 began
/// before item 50 changed. Even items have class 1 and odd ones 2. After the first writeset items of
/// both are still to come, after the second only item 51.
fn writes(list: &mut List) {
    list.calls("M 1 2 1 4, B 1, B 1, B 1");
    let table: Vec<u8> = (0..ITEMS).map(|item| 1 + (item % 2) as u8).collect();
    load(list, 1, &table);
    for item in 20..28 {
        list.call(&format!("W 1 1 {item} 1"));
    }
    list.call("W 1 3 31 1");
    let block = block_of(2, 0, &[(1, &[(50, 1)]), (2, &[(70, 2)]), (3, &[(51, 3)])]);
    list.deliver_bytes(1, &block);
    for _ in 0..3 {
        list.calls("K 1, W 1 1 20 5, W 1 1 21 5, R 1 1 21, W 1 3 20 5, W 1 3 21 5, W 1 1 31 5");
        list.calls("W 1 1 28 5, W 1 1 29 5, W 1 2 50 5, W 1 2 50 5, W 1 3 128 5, W 1 9 29 5, Q 1");
    }
}

#[cfg(test)]
mod tests;
