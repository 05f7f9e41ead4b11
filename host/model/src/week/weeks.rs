//! Weeks to be stored or played: the paper's, those about 27 and 26, and random ones by seed.

use super::{Week, KEPT};
use crate::replica::OPEN;
use crate::samples::{self, Random};

/// The lines that document 02 works out.
pub const SEVEN: &str = "N 2\nB 0\nW 0 1 5 40\nC 0 1\nS 0\nD 1 0\nK 1\n";

/// The seed of the stored week, and its lines behind the first.
const STORED_SEED: u64 = 6;
const STORED_LINES: usize = 21_000;

/// Weeks about the first line: too many replicas, no line at all, and nothing behind a good one.
const FIVE: &str = "N 5\nB 0\n";
const NONE: &str = "";
const THREE: &str = "N 3";
const TWO: &str = "N 2\n";

/// The lines of the week of empty ones. They are read at once, 65,536 bytes at most, and their answers are
/// more than the program holds, so that it writes twice before it reads again.
const EMPTY_LINES: usize = 45_000;

/// Lines with a wrong letter, wrong fields, or something else than single spaces between them, for a week
/// of two; the calls of the program `replay` that are none of the six are among them.
const LINES: &str = "| |  |?|0|N|N 2|N 3|N 0|B|b 0|BB 0|B0|B,0|B 0 | B 0|B  0|B\t0|B 0\t|B 0\r|\r|\t|\
    B\u{a0}0|B\u{b}0|B 0 0|B ０|B 0;B 0|# B 0|B 0 #|W 0|W 0 1|W 0 1 5|W 0 1 5 |W 0 1 5 7 |W 0 1 5 7 0|\
    W  0 1 5 7|W 0  1 5 7|W 0 1  5 7|W 0 1 5  7|w 0 1 5 7|C 0|C 0 |C 0 1 |C 0 1 0|C  0 1|C 0  1|c 0 1|\
    S|S |S 0 |S 0 0|s 0|D 0|D 0 |D 0 0 |D 0 0 0|D  0 0|D 0  0|d 0 0|K|K |K 0 |K 0 0|k 0|\
    M 0 2 0 0|A 0 2 0|R 0 1 5|X 0 1|Q 0|F 0 0 0|H 0 00|H 0 |V 0|Z 0 0 0|Y 0 2 0 0 |J 0 0|P 0 01";
/// What is no number of a replica in a week of two.
const REPLICAS: &str =
    "2|3|4|8|10|00|01|+0|-0|-1|0x0|0.|a||4294967295|4294967296|18446744073709551616";
/// What is no 32-bit unsigned number. Cut to 32, 64 or 128 bits, some would be one.
const NUMBERS: &str = "|01|00|+1|-1|-0|1.|1a|0x1|4294967296|4294967297|42949672961|\
    18446744073709551617|340282366920938463463374607431768211457|-4294967295";
/// What is no 32-bit signed number.
const VALUES: &str = "|00|-0|+0|+1|01|-01|--1|-|2147483648|-2147483649|4294967295|4294967296|\
    -4294967296|18446744073709551616|99999999999999999999";

/// A week in the making. Each line is played at once, so that the next may depend on its answer.
struct Lines {
    text: Vec<u8>,
    week: Week,
}

impl Lines {
    fn begin(n: usize) -> Lines {
        let first = format!("N {n}");
        let week = Week::begin(first.as_bytes());
        Lines {
            week: week.unwrap_or_else(|| panic!("{first} begins no week")),
            text: format!("{first}\n").into_bytes(),
        }
    }

    /// Adds a line of any bytes but a line feed, and gives the number that it prints.
    fn line(&mut self, line: &[u8]) -> u8 {
        self.text.extend_from_slice(line);
        self.text.push(b'\n');
        self.week.answer(line)
    }

    fn call(&mut self, line: &str) -> u8 {
        self.line(line.as_bytes())
    }

    /// Adds several lines, separated by commas.
    fn calls(&mut self, lines: &str) {
        for line in lines.split(',') {
            self.call(line.trim());
        }
    }

    /// Sends at the replica whose slot is next, delivers the block everywhere and works it off.
    fn round(&mut self, slot: usize) {
        let n = self.week.replicas().len();
        self.call(&format!("S {}", slot % n));
        for k in 0..n {
            self.call(&format!("D {k} {slot}"));
            while self.call(&format!("K {k}")) == 0 {}
        }
    }

    /// Without the last line feed.
    fn cut(mut self) -> Vec<u8> {
        self.text.pop();
        self.text
    }
}

/// Each way of being no line, between lines that just are one, and lines longer than any call, which change
/// nothing; then writes of every length, and the limits. At the end one transaction is open.
pub fn every_refusal() -> Vec<u8> {
    let mut lines = Lines::begin(2);
    lines.call("B 0");
    for line in LINES.split('|') {
        lines.call(line);
    }
    // No text at all.
    for line in b"\0|B\x000|B 0\0|\xff|B 0\xff|B 0\x7f".split(|&byte| byte == b'|') {
        lines.line(line);
    }
    for k in REPLICAS.split('|') {
        lines.calls(&"B *, W * 1 5 7, C * 1, S *, D * 0, K *".replace('*', k));
    }
    for number in NUMBERS.split('|') {
        lines.calls(&"W 0 * 5 7, W 0 1 * 7, C 0 *, D 0 *".replace('*', number));
    }
    for value in VALUES.split('|') {
        lines.call(&format!("W 0 1 5 {value}"));
    }
    for length in [60, 1_100, 4_300] {
        lines.call(&format!("B 0{}", " ".repeat(length)));
        lines.call(&format!("{}B 0", " ".repeat(length)));
        lines.call(&format!("B 0{}", "0".repeat(length)));
        lines.call(&format!("W 0 1 {}5 7", "0".repeat(length)));
        lines.call(&format!("D 0 {}", "9".repeat(length)));
    }
    // Longer than a buffer, with what would be a line wherever it is cut.
    lines.call(&"B 0 ".repeat(17_500));
    every_length(&mut lines);
    // The limits, which go to the engine, or are blocks not kept.
    lines.calls("W 0 4294967295 5 7, W 0 1 4294967295 7, W 0 1 128 7, C 0 4294967295, C 0 0, D 0 4294967295");
    lines.calls("W 0 1 5 2147483647, W 0 1 5 -2147483648, W 0 1 5 0, W 0 1 127 -1");
    lines.cut()
}

/// Writes of every length, each also with one byte more: cut to any length that is too short for a call,
/// some line would get another answer. The value grows first, then the ticket, then the item, so that they
/// are accepted, then refused by 3, then by 2.
fn every_length(lines: &mut Lines) {
    let (number, value) = (u32::MAX.to_string(), i32::MIN.to_string());
    let values = (2..=value.len()).map(|end| format!("1 5 {}", &value[..end]));
    let tickets = (2..=number.len()).map(|end| format!("{} 5 {value}", &number[..end]));
    let items = (2..=number.len()).map(|end| format!("{number} {} {value}", &number[..end]));
    let shortest = std::iter::once("1 5 7".to_string());
    for fields in shortest.chain(values).chain(tickets).chain(items) {
        for end in ["", " ", "0", "x", "\r"] {
            lines.call(&format!("W 0 {fields}{end}"));
        }
    }
}

/// Blocks that are kept, and forgotten with the 16th send after theirs: until then a deliver of one that is
/// processed is refused by the engine.
pub fn forgotten_blocks() -> Vec<u8> {
    let mut lines = Lines::begin(2);
    lines.calls("D 0 0, D 1 0, D 0 4294967295, K 0, S 1, B 1, W 1 1 5 40, C 1 1");
    for slot in 0..KEPT + 6 {
        lines.round(slot);
        // The oldest kept, the one before it, and slots not sent yet; kept ones are all processed.
        let oldest = (slot + 1).saturating_sub(KEPT);
        for of in [
            oldest.saturating_sub(1),
            oldest,
            slot,
            slot + 1,
            slot + KEPT,
        ] {
            lines.call(&format!("D {} {of}", slot % 2));
        }
        // A refused send keeps nothing.
        lines.call(&format!("S {}", slot % 2));
    }
    lines.text
}

/// A week of so many random lines, by seed. Blocks arrive early, late, repeated or not at all for a while;
/// some lines are none of the six.
pub fn seeded(seed: u64, count: usize) -> Vec<u8> {
    let mut random = Random::new(seed);
    let n = 2 + random.below(3);
    let items = random.pick(&[6, 24, 128]);
    let mut lines = Lines::begin(n);
    for _ in 0..count {
        let k = random.below(n);
        match random.below(100) {
            0..40 => designer(&mut lines, &mut random, k, items),
            40..97 => carrier(&mut lines, &mut random, k),
            _ => lines.call(&misspelt(&mut random, k)),
        };
    }
    match random.below(2) {
        0 => lines.cut(),
        _ => lines.text,
    }
}

/// A call at the transactions of a replica.
fn designer(lines: &mut Lines, random: &mut Random, k: usize, items: usize) -> u8 {
    let replica = &lines.week.replicas()[k];
    let (active, report) = (replica.active_tickets(), replica.report());
    if active.is_empty() || (report.open < OPEN as u32 && random.below(12) == 0) {
        return lines.call(&format!("B {k}"));
    }
    let ticket = match random.below(40) {
        0 => random.pick(&[0, 1, report.tickets, report.tickets + 1, u32::MAX]),
        _ => random.pick(&active),
    };
    let any = random.below(items) as u32;
    let item = match random.below(60) {
        0 => random.pick(&[127, 128, 256 + any, u32::MAX]),
        _ => any,
    };
    match random.below(100) {
        0..25 => lines.call(&format!("C {k} {ticket}")),
        25 => lines.call(&format!("B {k}")),
        _ => lines.call(&format!("W {k} {ticket} {item} {}", samples::value(random))),
    }
}

/// A call that moves blocks or the turn.
fn carrier(lines: &mut Lines, random: &mut Random, k: usize) -> u8 {
    let turn = lines.week.replicas()[k].turn;
    let kept = lines.week.kept();
    match random.below(20) {
        0..5 => lines.call(&format!("S {k}")),
        5..12 => lines.call(&format!("K {k}")),
        12 if !kept.is_empty() => lines.call(&format!("D {k} {}", random.pick(&kept))),
        13 => {
            let any = random.below(turn as usize + 40) as u32;
            let slot = random.pick(&[any, turn.saturating_sub(17), turn + 4, u32::MAX]);
            lines.call(&format!("D {k} {slot}"))
        }
        _ => lines.call(&format!("D {k} {}", turn as usize + random.below(2))),
    }
}

/// A line that is none of the six, or not for this week.
fn misspelt(random: &mut Random, k: usize) -> String {
    let line = random.pick(&[
        "",
        " ",
        "N 2",
        "B",
        "B *0",
        "B * ",
        "b *",
        "R * 1 5",
        "W * 1 5",
        "W * 1 05 7",
        "W * 1 5 +7",
        "C * -1",
        "C *",
        "S * *",
        "D *  0",
        "D * 4294967296",
        "K *\r",
        "K 9",
        "Q *",
        "X * 1",
    ]);
    line.replace('*', &k.to_string())
}

/// The week that is stored as the input of the program: four replicas, and a last line without line feed.
pub fn stored() -> Vec<u8> {
    seeded(STORED_SEED, STORED_LINES)
}

/// Nothing but empty lines behind the first.
fn empty_lines() -> Vec<u8> {
    let mut lines = Lines::begin(2);
    for _ in 0..EMPTY_LINES {
        lines.call("");
    }
    lines.text
}

/// The weeks that are stored as examples, by name.
pub fn examples() -> [(&'static str, Vec<u8>); 8] {
    [
        ("seven", SEVEN.into()),
        ("refusals", every_refusal()),
        ("forgotten", forgotten_blocks()),
        ("empty", empty_lines()),
        ("five", FIVE.into()),
        ("none", NONE.into()),
        ("three", THREE.into()),
        ("two", TWO.into()),
    ]
}
