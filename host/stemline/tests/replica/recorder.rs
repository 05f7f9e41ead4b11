//! The recorder: it answers as a replica, and what it writes is answered the same by the model's `replay`
//! and by the proved program.

mod durable;
mod givings;
mod program;
mod stations;

use std::io::{self, Write};

use model::block::BLOCK;
use model::drive::{start_values, Group, Machine, Peers, Powered, STYLES};
use model::replay;
use model::replica::ITEMS;
use model::samples::{block_of, Random};
use model::trace::{Answer, Call};
use soak::played;
use stemline::{Asked, Notice, Recorder, Refusal, Replica};

use crate::both::{play, report, told, worked};
use crate::seeds::Seeds;

type Lists = Recorder<Vec<u8>, Vec<u8>>;

/// Random calls, the same at a plain replica: the answers are its. Then a report and the values.
fn drive<C: Write, A: Write>(
    recorder: &mut Recorder<C, A>,
    (n, own): (u32, u32),
    calls: usize,
    random: &mut Random,
) {
    let mut plain = recorder.replica().clone();
    let mut peers = Peers::new(n, own, report(plain.report()));
    let style = STYLES[random.below(4)].with_notices(random.pick(&[0, 4]));
    for _ in 0..calls {
        let call = peers.random_call(random, style);
        let (mut appended, mut due_appended) = (Vec::new(), Vec::new());
        let answer = played!(recorder, &call, appended);
        let due = play(&mut plain, &call, &mut due_appended);
        assert!((&answer, appended) == (&due, due_appended), "{call:?}");
        peers.feed(&call, &answer);
    }
    assert_eq!(recorder.is_turn(), plain.is_turn());
    assert_eq!(recorder.report(), plain.report());
    assert_eq!(recorder.values(), plain.values());
    assert!(*recorder.replica() == plain);
}

/// The text of both lists.
fn text(recorder: Lists) -> (String, String) {
    let (_, calls, answers) = recorder.into_parts();
    [calls, answers]
        .map(|text| String::from_utf8(text).unwrap())
        .into()
}

/// The first line that the model answers otherwise, counted from 1.
fn differs(calls: &str, answers: &str) -> Option<usize> {
    let mut output = Vec::new();
    replay::run(calls.as_bytes(), &mut output).unwrap();
    let output = String::from_utf8(output).unwrap();
    assert_eq!(calls.lines().count(), answers.lines().count());
    let mut pairs = output.lines().zip(answers.lines());
    pairs.position(|(due, found)| due != found).map(|at| at + 1)
}

/// The answers with one of them altered.
fn altered(answers: &str, line: usize) -> String {
    let lines = answers.lines().enumerate();
    let line = |(at, text)| match at + 1 == line {
        true => format!("{text}0\n"),
        false => format!("{text}\n"),
    };
    lines.map(line).collect()
}

/// Values that all differ, or are all one, or all but three.
fn values(random: &mut Random) -> [i32; ITEMS] {
    let mut few = [-7; ITEMS];
    few[..3].fill(9);
    random.pick(&[start_values(), [-7; ITEMS], few])
}

#[test]
fn the_model_plays_the_same() {
    const CALLS: usize = 3_000;
    let mut left_out = 0;
    let seeds = Seeds::new(60);
    seeds.each(|seed| {
        let mut random = Random::new(seed);
        let n = 2 + seed as u32 % 5;
        let own = random.below(n as usize) as u32;
        let values = values(&mut random);
        let made = Recorder::new(n, own, &values, Vec::new(), Vec::new());
        let mut recorder = made.unwrap();
        drive(&mut recorder, (n, own), CALLS, &mut random);
        assert_eq!(recorder.stopped(), None);
        // The make, the calls, the report, the values.
        let made = 1 + CALLS + 2 - recorder.left_out() as usize;
        left_out += recorder.left_out();
        let (calls, answers) = text(recorder);
        assert_eq!(calls.lines().count(), made);
        assert_eq!(differs(&calls, &answers), None);
        let line = 1 + random.below(made);
        assert_eq!(differs(&calls, &altered(&answers, line)), Some(line));
    });
    assert!(seeds.runs < 60 || left_out > 300, "{left_out}");
}

/// What a member of a group of `n` has on its disk after so many calls and some cuts, maybe cut itself.
fn journal(n: u32, own: u32, calls: usize, random: &mut Random) -> Vec<u8> {
    noticed(n, own, calls, 0, random).0
}

/// The same, and the notices taken, of which so many calls of a hundred are about.
fn noticed(
    n: u32,
    own: u32,
    calls: usize,
    notices: usize,
    random: &mut Random,
) -> (Vec<u8>, Vec<Notice>) {
    let members = (0..n).map(|own| Machine::make(n, Some(own), &start_values()).unwrap());
    let style = STYLES[random.below(4)].with_notices(notices);
    let mut group = Group::new(members.collect(), style);
    for _ in 0..calls {
        match random.below(60) {
            0 => group.random_cut(random),
            _ => group.random_call(random),
        }
    }
    (0..n as usize).for_each(|k| group.open(k));
    group.settle(1);
    let (disk, floor) = (
        group.members[own as usize].disk(),
        group.members[own as usize].floor(),
    );
    let most = if notices > 0 {
        disk.len() - floor
    } else {
        disk.len()
    };
    let cut = random.pick(&[0, 0, 1, 511, 512, 700]).min(most);
    let taken = group.observer.notices(own as usize);
    (
        disk[..disk.len() - cut].to_vec(),
        taken.iter().map(told).collect(),
    )
}

/// A restart from a journal of one line, one that the program keeps, and a longer one.
#[test]
fn restarts() {
    // Of each kind; and those whose reports are left out.
    let mut met = [0; 4];
    let seeds = Seeds::new(60);
    seeds.each(|seed| {
        let mut random = Random::new(seed);
        let n = 2 + seed as u32 % 5;
        let own = random.below(n as usize) as u32;
        let calls = random.pick(&[0, 10, 300, 20_000]);
        let journal = journal(n, own, calls, &mut random);
        let lists = (Vec::new(), Vec::new());
        let made = Recorder::restart(n, own, &start_values(), &journal, &[], lists.0, lists.1);
        let (mut recorder, restarted) = made.unwrap();
        let plain = Replica::restart(n, own, &start_values(), &journal, &[]).unwrap();
        assert!((recorder.replica(), &restarted) == (&plain.0, &plain.1));
        drive(&mut recorder, (n, own), 500, &mut random);
        assert_eq!(recorder.stopped(), None);
        let blocks = restarted.blocks as usize;
        let kind = match journal.len() {
            0..=2_100 => 0,
            _ if blocks <= 128 => 1,
            _ => 2,
        };
        met[kind] += 1;
        let (calls, answers) = text(recorder);
        met[3] += usize::from(!calls.contains("Q "));
        assert_eq!(
            calls.contains(&format!("Z {own} {} ", blocks * BLOCK)),
            kind == 1
        );
        assert_eq!(differs(&calls, &answers), None);
    });
    assert!(
        seeds.runs < 60 || met.iter().all(|&count| count >= 5),
        "{met:?}"
    );
}

/// A restart with notices is written by calls: with as many as the program keeps it ends in a restart, with more it
/// goes on as it is.
#[test]
fn restarts_with_notices() {
    // Those with a restart in the list, those without, and own slots passed as out.
    let mut met = [0; 3];
    let seeds = Seeds::new(60);
    seeds.each(|seed| {
        let mut random = Random::new(seed);
        let n = 2 + seed as u32 % 5;
        let own = random.below(n as usize) as u32;
        let calls = random.pick(&[30, 300, 2_000, 20_000]);
        let (journal, notices) = noticed(n, own, calls, 6, &mut random);
        let lists = (Vec::new(), Vec::new());
        let start = &start_values();
        let made = Recorder::restart(n, own, start, &journal, &notices, lists.0, lists.1);
        let (mut recorder, restarted) = made.unwrap();
        let plain = Replica::restart(n, own, start, &journal, &notices).unwrap();
        assert!((recorder.replica(), &restarted) == (&plain.0, &plain.1));
        drive(&mut recorder, (n, own), 500, &mut random);
        assert_eq!(recorder.stopped(), None);
        let (calls, answers) = text(recorder);
        let kept = notices.len() <= 32 && restarted.blocks <= 128;
        if !notices.is_empty() {
            met[usize::from(!kept)] += 1;
            let restart = format!("Z {own} {} ", restarted.blocks as usize * BLOCK);
            assert_eq!(calls.contains(&restart), kept);
        }
        let own_out = |slot: &u32| slot % n == own && Notice::is_out(&notices, n, *slot);
        met[2] += (0..restarted.blocks).filter(own_out).count();
        assert_eq!(differs(&calls, &answers), None);
    });
    assert!(
        seeds.runs < 60 || met.iter().all(|&count| count >= 5),
        "{met:?}"
    );
}

/// A notice that no replica takes ends the list, in words.
#[test]
fn notices_that_no_replica_took() {
    let back = Notice::Back {
        replica: 1,
        slot: 3,
    };
    let made = Recorder::restart(2, 0, &[0; ITEMS], &[], &[back], Vec::new(), Vec::new());
    let (recorder, _) = made.unwrap();
    let words = "the notice Back 1 at 3 is none that a replica takes, so that no list says it";
    assert_eq!(recorder.stopped(), Some(words));
}

/// Own blocks that no replica sends: the restart is as ever, and the list ends, in words.
#[test]
fn a_journal_that_no_replica_wrote() {
    let twice: &[_] = &[(1, &[(5, 50)][..])];
    let blocks = (0..6).map(|slot| block_of(2, slot, if slot % 2 == 0 { twice } else { &[] }));
    let journal: Vec<u8> = blocks.flatten().collect();
    let values = &start_values();
    let made = Recorder::restart(2, 0, values, &journal, &[], Vec::new(), Vec::new());
    let (mut recorder, restarted) = made.unwrap();
    assert_eq!(restarted.blocks, 6);
    let words = "block 2 of the journal is none that a replica writes, so that no list says it";
    assert_eq!(recorder.stopped(), Some(words));
    assert_eq!(recorder.begin(), Ok(2));
    let (calls, answers) = text(recorder);
    assert!(!calls.contains('Z') && calls.lines().count() > 5);
    assert_eq!(differs(&calls, &answers), None);
}

/// Tickets that no block has are begun, but not without end.
#[test]
fn a_journal_with_few_of_its_tickets() {
    let calls_of = |ticket| {
        let own: &[_] = &[(ticket, &[(5, 50)][..])];
        let blocks = (0..5).map(|slot| block_of(2, slot, if slot == 2 { own } else { &[] }));
        let journal: Vec<u8> = blocks.flatten().collect();
        let values = &start_values();
        let made = Recorder::restart(2, 0, values, &journal, &[], Vec::new(), Vec::new());
        let (recorder, restarted) = made.unwrap();
        assert_eq!(
            (restarted.blocks, recorder.replica().report().tickets),
            (5, ticket)
        );
        let words = recorder.stopped().map(str::to_string);
        let (calls, answers) = text(recorder);
        assert_eq!(differs(&calls, &answers), None);
        (calls.lines().count(), words)
    };
    let (lines, words) = calls_of(1_000_001);
    assert!(lines > 2_000_000 && words.is_none(), "{lines}: {words:?}");
    let words = "more than 1000000 tickets are not in the journal".to_string();
    assert_eq!(calls_of(1_000_002), (1, Some(words)));
}

#[test]
fn what_is_left_out() {
    let mut values = [0; ITEMS];
    values[5] = 50;
    let mut recorder = Recorder::new(2, 0, &values, Vec::new(), Vec::new()).unwrap();
    let lengths = [521, 520, 1, 0].map(|length| recorder.deliver(&vec![0; length]));
    assert_eq!(lengths, [Err(Refusal::WrongLength); 4]);
    let lengths = [131, 130, 0].map(|length| recorder.load(&vec![1; length]));
    assert_eq!(lengths, [Err(Refusal::WrongLength); 3]);
    assert_eq!(recorder.left_out(), 2);
    assert_eq!(recorder.begin(), Ok(1));
    assert_eq!((recorder.read(1, 5), recorder.read(1, 6)), (Ok(50), Ok(0)));
    assert_eq!(recorder.values()[5], 50);
    assert_eq!(recorder.left_out(), 4);
    assert_eq!(recorder.write(1, 5, 51), Ok(()));
    assert_eq!(
        (recorder.read(1, 5), recorder.read(2, 5)),
        (Ok(51), Err(Refusal::NotOpen))
    );
    assert_eq!(recorder.ask(1), Ok(Asked::Waiting));
    let block = recorder.send().unwrap();
    assert_eq!(recorder.take(&block).unwrap().steps.len(), 1);
    assert_eq!(recorder.values()[5], 51);
    assert_eq!((recorder.left_out(), recorder.stopped()), (4, None));
    let (calls, answers) = text(recorder);
    assert!(calls.contains("\nH 0 \nP 0 01") && calls.contains("\nP 0 \nB 0\nR 0 1 6\nW"));
    assert_eq!(differs(&calls, &answers), None);
}

/// A refused make or restart leaves nothing.
#[test]
fn refused_makes() {
    let (mut calls, mut answers) = (Vec::new(), Vec::new());
    let values = &start_values();
    for (n, own) in [(1, 0), (7, 0), (2, 2), (2, u32::MAX)] {
        let made = Recorder::new(n, own, values, &mut calls, &mut answers);
        assert_eq!(made.err(), Some(Refusal::OutOfRange));
        let made = Recorder::restart(n, own, values, &[0; 3_000], &[], &mut calls, &mut answers);
        assert_eq!(made.err(), Some(Refusal::OutOfRange));
    }
    assert!(calls.is_empty() && answers.is_empty());
}

/// A sink that is full after so many bytes.
struct Full(usize);

impl Write for Full {
    fn write(&mut self, bytes: &[u8]) -> io::Result<usize> {
        if self.0 == 0 {
            return Err(io::Error::other("it is full"));
        }
        let taken = self.0.min(bytes.len());
        self.0 -= taken;
        Ok(taken)
    }
    fn flush(&mut self) -> io::Result<()> {
        match self.0 {
            0 => Err(io::Error::other("it is full")),
            _ => Ok(()),
        }
    }
}

/// Where a sink fails, the calls go on, with their answers.
#[test]
fn a_sink_that_fails() {
    let values = &start_values();
    for room in [0, 1, 300, 1_500] {
        let mut random = Random::new(room as u64);
        let mut one = Recorder::new(3, 1, values, Full(room), Vec::new()).unwrap();
        drive(&mut one, (3, 1), 500, &mut random);
        let words = "the calls cannot be written: it is full";
        assert_eq!(one.stopped(), Some(words), "{room}");
        let mut other = Recorder::new(3, 1, values, Vec::new(), Full(room)).unwrap();
        drive(&mut other, (3, 1), 500, &mut random);
        let words = "the answers cannot be written: it is full";
        assert_eq!(other.stopped(), Some(words), "{room}");
        // Each answer that was written whole has its call.
        let (_, calls, _) = other.into_parts();
        assert!(calls.ends_with(b"\n"));
    }
    let mut late = Recorder::new(3, 1, values, Vec::new(), Full("0\n".len())).unwrap();
    assert_eq!(late.stopped(), None);
    late.flush();
    assert!(late.stopped().is_some());
}
