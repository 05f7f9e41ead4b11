//! Three copies of a typeface, each item the stem width of one letter.

use super::List;

/// The letters h and n as items.
const H: u32 = b'h' as u32;
const N: u32 = b'n' as u32;

pub(super) fn all(list: &mut List) {
    list.calls("M 0 3 0 80, M 1 3 1 80, M 2 3 2 80");
    two_letters(list);
    let next = list.send(2);
    (0..3).for_each(|place| list.take(place, next));
    one_letter(list);
    list.calls("M 3 3 0 80, M 4 3 1 80, M 5 3 2 80");
    same_time(list);
}

/// Two replicas set the stems of two letters; at the third the blocks arrive in opposite order.
pub(super) fn two_letters(list: &mut List) {
    list.ask(0, &[(H, 90)]);
    list.ask(1, &[(N, 88)]);
    let first = list.send(0);
    list.take(0, first);
    list.take(1, first);
    let second = list.send(1);
    list.take(0, second);
    list.take(1, second);
    list.take(2, second);
    read(list, 2, H);
    read(list, 2, N);
    list.take(2, first);
    for place in 0..3 {
        read(list, place, H);
        read(list, place, N);
        list.call(&format!("V {place}"));
    }
}

/// The n becomes 86 and then, by one who has read that, 84; at the third the second block arrives
/// before its turn.
pub(super) fn one_letter(list: &mut List) {
    list.ask(0, &[(N, 86)]);
    let to_86 = list.send(0);
    list.take(0, to_86);
    list.take(1, to_86);
    read(list, 1, N);
    list.ask(1, &[(N, 84)]);
    let to_84 = list.send(1);
    list.take(1, to_84);
    list.take(0, to_84);
    list.take(2, to_84);
    read(list, 2, N);
    list.deliver(2, to_86);
    list.call("K 2");
    read(list, 2, N);
    list.work_off(2);
    for place in 0..3 {
        read(list, place, N);
        list.call(&format!("V {place}"));
        list.call(&format!("Q {place}"));
    }
}

/// Two set the n without knowing of the other: the first slot wins, and the other is aborted.
fn same_time(list: &mut List) {
    list.ask(3, &[(N, 86)]);
    list.ask(4, &[(N, 84)]);
    let first = list.send(3);
    list.take(3, first);
    list.take(4, first);
    let second = list.send(4);
    for place in 3..6 {
        list.take(place, second);
    }
    list.take(5, first);
    for place in 3..6 {
        read(list, place, N);
        list.call(&format!("V {place}"));
        list.call(&format!("Q {place}"));
    }
}

/// Reads an item in a transaction of its own.
fn read(list: &mut List, place: usize, item: u32) {
    list.call(&format!("B {place}"));
    let ticket = list.replica(place).report().tickets;
    list.call(&format!("R {place} {ticket} {item}"));
    list.call(&format!("C {place} {ticket}"));
}
