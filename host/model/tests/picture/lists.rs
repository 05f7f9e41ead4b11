//! Seeded lists of calls, with their answers: of the program `replay`, of a recorder, and of a week.

use model::block::{self, BLOCK};
use model::giving::{self, DOWN};
use model::replay::{giving_line, hex, line, Replay};
use model::replica::Replica;
use model::samples::{self, Random};
use model::trace::Call;
use model::week::{Week, NOT_KEPT, NO_LINE};

/// Calls and answers.
#[derive(Default)]
pub struct List {
    pub calls: Vec<String>,
    /// What is printed.
    pub answers: Vec<String>,
    /// What is answered to each call in full. A week prints the number alone.
    pub told: Vec<String>,
}

impl List {
    pub fn of(calls: impl IntoIterator<Item = String>) -> List {
        let mut replay = Replay::default();
        let mut list = List::default();
        for call in calls {
            list.answers.push(replay.answer(call.as_bytes()));
            list.calls.push(call);
        }
        list.told.clone_from(&list.answers);
        list
    }

    /// Lines with what the program `replay` prints of them.
    pub fn stored(calls: &str, answers: &str) -> List {
        let answers: Vec<String> = answers.lines().map(str::to_string).collect();
        List {
            // A line ends at a line feed and nowhere else.
            calls: calls.split_terminator('\n').map(str::to_string).collect(),
            told: answers.clone(),
            answers,
        }
    }
}

/// The bytes that these digits stand for.
pub fn bytes(digits: &str) -> Vec<u8> {
    let byte = |at| u8::from_str_radix(&digits[at..at + 2], 16).unwrap();
    (0..digits.len() / 2).map(|i| byte(2 * i)).collect()
}

/// Item and ticket of a call at a transaction, mostly one that is open, and the slot of a block that comes: mostly
/// that of the turn.
fn chosen(random: &mut Random, replica: &Replica) -> (usize, u32, u32) {
    let open = replica.open.len();
    let ticket = match random.below(6) {
        1.. if open > 0 => replica.open[random.below(open)].ticket,
        _ => replica.tickets.max(1),
    };
    let ahead = random.pick(&[0, 0, 0, 0, 1, 2]);
    (random.below(6), ticket, replica.turn + ahead)
}

/// A refused call is mostly put off for another.
const TRIES: usize = 4;

/// Calls at a group of two to five and a station, with notes, lines that are no calls, damaged blocks, notices,
/// givings and cuts.
pub fn seeded(seed: u64) -> List {
    let mut random = Random::new(seed);
    let n = 2 + random.below(4);
    let mut calls: Vec<String> = (0..n).map(|k| format!("M {k} {n} {k} 7")).collect();
    calls.push(format!("A 7 {n} 7"));
    let mut replay = Replay::default();
    for call in &calls {
        replay.answer(call.as_bytes());
    }
    let mut slots = Vec::new();
    for _ in 0..400 {
        for left in (0..TRIES).rev() {
            let call = call(&mut random, &replay, n, &slots);
            let mut next = replay.clone();
            let answer = next.answer(call.as_bytes());
            if left > 0 && !answer.starts_with('0') && answer != "?" {
                continue;
            }
            if next.sent() > replay.sent() {
                slots.push(block::header(next.block(replay.sent()).unwrap()).slot);
            }
            replay = next;
            calls.push(call);
            break;
        }
    }
    List::of(calls)
}

/// A line at a group of n, which has sent blocks for these slots.
fn call(random: &mut Random, replay: &Replay, n: usize, slots: &[u32]) -> String {
    let place = random.below(n + 1);
    let place = if place < n { place } else { 7 };
    let replica = replay.replica(place).unwrap();
    let (item, ticket, slot) = chosen(random, replica);
    let block = slots.iter().rposition(|&sent| sent == slot).unwrap_or(0);
    let owner = replica.turn as usize % n;
    let value = random.below(90);
    match random.below(100) {
        0..9 => format!("B {place}"),
        9..25 => format!("W {place} {ticket} {item} {value}"),
        25..33 => format!("C {place} {ticket}"),
        33 => format!("X {place} {ticket}"),
        34..36 => format!("R {place} {ticket} {item}"),
        36..46 => format!("S {owner}"),
        46..68 => format!("D {place} {block}"),
        68..70 => format!("F {place} {block} {}", random.below(8 * BLOCK)),
        70..72 => {
            let notice = samples::notice(random, n as u32, replica.turn, &replica.notices);
            line(place, &Call::Notice(notice))
        }
        72..74 => {
            let turn = |g: usize| replay.replica(g).unwrap().turn;
            let told = |g: usize| random.pick(&[turn(g), turn(g), turn(g), turn(g) + 1, DOWN]);
            let turns: Vec<u32> = (0..n).map(told).collect();
            giving_line(place, &turns)
        }
        74..95 => format!("K {place}"),
        95 => format!("V {place}"),
        96 => format!("Q {place}"),
        97 => "# a note with <signs> & \"quotes\"".to_string(),
        98 => "no call".to_string(),
        _ => match replay.journal(place).map(<[u8]>::len) {
            Some(bytes) => format!("Z {place} {} 7", bytes - random.below(600).min(bytes)),
            None => format!("J {place} 0"),
        },
    }
}

/// The lines of one place, as a recorder writes them: with the bytes that come, and a giving as its calls.
pub fn recorded(list: &List, place: usize) -> List {
    let mut blocks: Vec<Vec<u8>> = Vec::new();
    let mut lines = Vec::new();
    let mut replay = Replay::default();
    for (call, answer) in list.calls.iter().zip(&list.answers) {
        let before = replay.clone();
        replay.answer(call.as_bytes());
        if let (true, Some(digits)) = (call.starts_with("S "), answer.strip_prefix("0 ")) {
            blocks.push(bytes(digits));
        }
        let fields: Vec<&str> = call.split(' ').collect();
        if answer == "?" || fields[1] != place.to_string() {
            continue;
        }
        lines.push(match fields[0] {
            "D" => format!(
                "H {place} {}",
                hex(&blocks[fields[2].parse::<usize>().unwrap()])
            ),
            "F" => continue,
            "G" => {
                lines.extend(calls_of(&before, place, &fields[2..]));
                continue;
            }
            _ => call.clone(),
        });
    }
    List::of(lines)
}

/// The lines of a giving's calls.
fn calls_of(replay: &Replay, place: usize, turns: &[&str]) -> Vec<String> {
    let turns: Vec<u32> = turns.iter().map(|turn| turn.parse().unwrap()).collect();
    let mut returner = replay.replica(place).unwrap().clone();
    let Ok(giver) = returner.giver(&turns) else {
        return vec![giving_line(place, &turns)];
    };
    let window = &replay.replica(giver.into()).unwrap().window;
    let given = giving::give(&mut returner, &turns, window);
    let calls = given.calls.iter().map(|(call, _)| line(place, call));
    calls.collect()
}

/// A week of the model with what it prints, and its replicas in the end. What its calls did is told by the program
/// `replay`: in a week the accepted sends are those of the slots in order, so that a slot is a block's number there.
pub fn week(input: &[u8]) -> (List, Week) {
    let mut lines: Vec<&[u8]> = input.split(|&byte| byte == b'\n').collect();
    if input.ends_with(b"\n") {
        lines.pop();
    }
    let mut week = Week::begin(lines[0]).unwrap();
    let mut replay = Replay::default();
    let n = week.replicas().len();
    for k in 0..n {
        assert_eq!(replay.answer(format!("M {k} {n} {k} 0").as_bytes()), "0");
    }
    let mut list = List::default();
    for (at, line) in lines.into_iter().enumerate() {
        list.calls.push(String::from_utf8_lossy(line).into_owned());
        if at == 0 {
            list.told.push("0".to_string());
            continue;
        }
        let number = week.answer(line);
        list.answers.push(number.to_string());
        list.told.push(match number {
            NOT_KEPT | NO_LINE => number.to_string(),
            _ => replay.answer(line),
        });
        let told = list.told[at].split(' ').next();
        assert_eq!(told, Some(&list.answers[at - 1][..]), "line {}", at + 1);
    }
    list.answers
        .extend(week.table().lines().map(str::to_string));
    (list, week)
}
