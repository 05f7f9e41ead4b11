//! Lines that print `?`, with lines beside them that just do not.

use super::List;
use crate::block::BLOCK;
use crate::replay::{KEPT, MAX_BYTES};

/// Lines with a wrong letter, wrong fields, or something else than single spaces between them.
const LINES: &str = "| |  |?|0|B|b 0|BB 0|A 0|MM 0 2 0 1|Z|B0|B,0|B 0 | B 0|B  0|B\t0|B 0\t|\
    B 0\r|\r|\t|B\u{a0}0|B\u{b}0|B 0 0|B ０|Q|Q |Q 0 |Q 0 0|Q  0|# Q 0|Q 0 #|\
    Q 0;Q 0|R 0 1|R 0 1 5 |R 0 1 5 0|R 0  1 5|R 0 1  5|W 0 1 5|W 0 1 5 |\
    W 0 1 5 7 |W 0 1 5 7 0|C 0|C 0 |C 0 1 0|X 0|X 0 |X 0 1 0|S|S 0 0|K|K 0 0|V|\
    V 0 1|D 0|D 0 |D 0 0 0|F 0 0|F 0 0 0 0|H|H 0|M 0 2 0|M 0 2 0 |M 0 2 0 0 0|\
    M 0  2 0 0";
/// What is no place.
const PLACES: &str = "8|9|10|00|01|+0|-0|-1|0x0|0.|0.0|1e0|a|256|4294967296|18446744073709551616";
/// What is no 32-bit unsigned number. Cut to 32, 64 or 128 bits, some would be one.
const NUMBERS: &str = "01|+1|-1|-0|00|1.|1a|0x1|4294967296|4294967297|42949672961|\
    18446744073709551617|340282366920938463463374607431768211457|-4294967295";
/// What is no 32-bit signed number.
const VALUES: &str = "00|-0|+0|+1|01|-01|--1|-|- 1|2147483648|-2147483649|4294967295|4294967296|\
    -4294967296|18446744073709551616|99999999999999999999";
/// Bytes: the first, third and fifth are some, the others are not.
const BYTES: &str = "|0|00|000|0000|0A|A0|0g|g0|0/|:0|0`| 00|00 |0 0|00 00|-1|0x00|00\r";
/// Bits: the first four are bits of a block, the others are not.
const BITS: &str = "0|7|4088|4095|4096|4097|8192|65536|4294967296|00|-1";

/// Calls where no replica is made; a refused make makes none.
pub(super) fn not_made(list: &mut List) {
    list.calls("B 0, R 0 1 0, W 0 1 0 0, C 0 1, X 0 1, Q 0, S 0, D 0 0, F 0 0 0, K 0, V 0");
    list.calls("H 0 00, P 0 01, M 0 7 0 0, Q 0, M 5 2 2 0, V 5, M 5 2 1 0, Q 5, Q 4");
}

pub(super) fn all(list: &mut List) {
    list.calls("M 0 2 0 1, B 0");
    letters_and_fields(list);
    numbers(list);
    bytes(list);
    lengths(list);
    kept_blocks(list);
    // What the replica holds after all that.
    list.calls("Q 0, V 0");
}

/// Letters, numbers of fields, and what may separate them.
fn letters_and_fields(list: &mut List) {
    for line in LINES.split('|') {
        list.call(line);
    }
    // No text at all.
    for line in b"\0|B\x000|Q 0\0|\xff|Q 0\xff|B 0\x7f".split(|&byte| byte == b'|') {
        list.line(line);
    }
}

/// Numbers that are not written as they are printed, or out of range, in every field; and the limits.
fn numbers(list: &mut List) {
    for place in PLACES.split('|') {
        list.call(&format!("Q {place}"));
    }
    for number in NUMBERS.split('|') {
        list.calls(&"R 0 * 5, R 0 1 *, W 0 * 5 7, W 0 1 * 7, C 0 *, X 0 *".replace('*', number));
        list.calls(&"M 0 * 0 9, M 0 2 * 9, D 0 *, F 0 * 0, F 0 0 *".replace('*', number));
    }
    for value in VALUES.split('|') {
        list.calls(&"W 0 1 5 *, M 0 2 0 *".replace('*', value));
    }
    list.calls("R 0 4294967295 5, R 0 1 4294967295, W 0 4294967295 5 7, W 0 1 4294967295 7");
    list.calls("C 0 4294967295, X 0 4294967295, C 0 0, X 0 0");
    list.calls("M 0 4294967295 0 9, M 0 2 4294967295 9");
    list.calls("W 0 1 5 2147483647, R 0 1 5, W 0 1 5 -2147483648, R 0 1 5, W 0 1 5 0, R 0 1 5");
    list.calls("W 0 1 5 -1, R 0 1 5");
}

/// Hexadecimal digits, from none to too many.
fn bytes(list: &mut List) {
    for digits in BYTES.split('|') {
        list.call(&format!("H 0 {digits}"));
    }
    for digits in (1022..1027).chain(2 * MAX_BYTES - 1..2 * MAX_BYTES + 3) {
        list.call(&format!("H 0 {}", "5".repeat(digits)));
    }
    list.call(&format!("H 0 {}", "0".repeat(2 * BLOCK)));
    list.call(&format!("H 0 {}", "0".repeat(4 * BLOCK)));
}

/// Lines longer than any call, with a call at either end.
fn lengths(list: &mut List) {
    for length in [1_100, 4_096, 20_000] {
        list.call(&format!("Q 0{}", " ".repeat(length)));
        list.call(&format!("{}Q 0", " ".repeat(length)));
        list.call(&format!("Q 0{}", "0".repeat(length)));
        list.call("Q 0");
    }
    list.call(&format!("R 0 1 {}5", "0".repeat(2_000)));
    list.call(&format!("W 0 1 5 {}", "9".repeat(2_000)));
}

/// The first and the last of the blocks that are kept, and the bits of a block.
fn kept_blocks(list: &mut List) {
    list.calls("M 2 2 0 2, M 3 2 1 2");
    while list.replay.sent() < KEPT as u64 + 6 {
        for (place, other) in [(2, 3), (3, 2)] {
            let block = list.send(place);
            list.take(place, block);
            list.take(other, block);
        }
    }
    let sent = list.replay.sent();
    let kept = sent - KEPT as u64;
    for number in [0, kept - 1, kept, sent - 1, sent, u64::from(u32::MAX)] {
        list.deliver(0, number);
        list.call(&format!("F 0 {number} 0"));
    }
    for bit in BITS.split('|') {
        list.call(&format!("F 0 {kept} {bit}"));
    }
}
