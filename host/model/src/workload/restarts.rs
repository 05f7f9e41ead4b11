//! Restarts (document 02, Req 01): worked lists, journals outgrown, lines that are none, and journals
//! of any bytes. Groups whose members lose power are in `random`.

mod journals;
pub(super) mod worked;

use super::worked::play;
use super::List;
use crate::block::BLOCK;
use crate::replay::{JOURNAL, MAX_JOURNAL};

/// Lines that print `?`.
const LINES: &str =
    "Z|Z |Z 0|Z 0 |Z 0 0|Z 0 0 |Z 0 0 0 |Z 0 0 0 0|Z  0 0 0|Z 0  0 0|z 0 0 0|Z0 0 0|\
    Z 8 0 0|Z 00 0 0|J|J 0|J 0 |J 0 0 |J 0 0 0|J 0  0|j 0 0|J 8 0|Y|Y 0|Y 0 2|Y 0 2 0|Y 0 2 0 0|\
    Y 0 2 0 0  |Y 0 2 0  |Y 0 2  0 0 |Y 0 2 0 0 00 |Y 0 2 0 0 00 00|Y 8 2 0 0 |y 0 2 0 0 ";
/// What is no 32-bit unsigned number, nor a signed one. Cut to 32 bits, the last is 512.
const NUMBERS: &str = "00|-0|+1|01|1a|0x1|4294967296|4294967808";
/// What is no whole number of bytes.
const BYTES: &str = "0|000|0A|0g|g0|0/|:0|0`|0x|00\r";

pub(super) fn all(list: &mut List) {
    play(list, &worked::LISTS);
    lines(list);
    outgrown(list);
    journals::all(list);
}

/// Lines that print `?`, and lines beside them that just do not.
fn lines(list: &mut List) {
    list.calls("M 0 2 0 3, S 0");
    for line in LINES.split('|') {
        list.call(line);
    }
    for number in NUMBERS.split('|') {
        list.calls(&"Z 0 * 3, Z 0 512 *, J 0 *".replace('*', number));
        for line in ["Y 0 * 0 3 ", "Y 0 2 * 3 ", "Y 0 2 0 * "] {
            list.call(&line.replace('*', number));
        }
    }
    for digits in BYTES.split('|') {
        list.call(&format!("Y 0 2 0 3 {digits}"));
    }
    list.calls("Z 0 -1 3, J 0 -1, Z 0 513 3, Z 0 4294967295 3, J 0 1, J 0 4294967295, Q 0, J 0 0");
    for bytes in [MAX_JOURNAL + 1, 5 * BLOCK, MAX_JOURNAL, 1, 0] {
        list.call(&format!("Y 0 2 0 -2147483648 {}", "5f".repeat(bytes)));
    }
    list.calls("V 0, Z 0 0 2147483647, V 0, J 0 0");
}

/// As many blocks as are kept at both replicas of a group, and one more.
pub(super) fn outgrown(list: &mut List) {
    list.calls("M 0 2 0 5, M 1 2 1 5");
    for slot in 0..JOURNAL {
        let place = slot % 2;
        if slot % 8 < 2 {
            list.ask(place, &[(slot as u32, slot as i32), (7, -1)]);
        }
        let block = list.send(place);
        list.take(0, block);
        list.take(1, block);
    }
    let last = JOURNAL - 1;
    list.calls(&format!("J 1 0, J 1 {last}, J 1 {JOURNAL}"));
    let bytes = JOURNAL * BLOCK;
    list.calls(&format!("Z 1 {} 5, Z 1 {bytes} 5, Q 1, V 1", bytes + 1));
    // What the restart took up counts: the last block, which is the other's, is taken once more, and
    // there is no room for another, be it sent or worked.
    list.calls(&format!("Z 0 {} 5, Q 0, J 0 {last}", bytes - 1));
    list.take(0, list.replay.sent() - 1);
    list.call(&format!("J 0 {last}"));
    let block = list.send(0);
    list.calls(&format!("J 0 0, J 0 {last}, Z 0 0 5, Z 0 {bytes} 5"));
    list.deliver(1, block);
    list.calls(&format!("J 1 {last}, K 1, J 1 {last}, Z 1 {bytes} 5, Q 1"));
    // Until the place is made anew.
    list.calls("M 0 1 0 5, Z 0 0 5, M 0 2 0 5, J 0 0, S 0, J 0 0, Z 0 512 5");
    list.call("Y 1 2 2 5 ");
    list.call("J 1 0");
    list.call("Y 1 2 1 5 ");
    list.calls("J 1 0, Z 1 0 5, Q 1");
}

#[cfg(test)]
mod tests;
