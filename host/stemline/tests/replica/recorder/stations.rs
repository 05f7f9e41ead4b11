//! The recorder of a station: it answers as a station, and what it writes is answered the same by the
//! model's `replay`; the proved program plays its lists in `program.rs`.

use std::io::Write;

use model::drive::{start_values, Peers, STYLES};
use model::samples::{block_of, Random, Writes};
use model::trace::{Answer, Call};
use soak::played_at_station;
use stemline::{Recorder, Refusal, Station, StationRecorder, Step, ITEMS};

use super::{altered, differs, values};
use crate::both::{report, stepped};
use crate::seeds::Seeds;

type Lists = StationRecorder<Vec<u8>, Vec<u8>>;

/// Random calls, the same at a plain station: the answers are its. Then a report and the values. Gives how
/// many calls were made.
pub fn drive<C: Write, A: Write>(
    recorder: &mut StationRecorder<C, A>,
    n: u32,
    calls: usize,
    random: &mut Random,
) -> usize {
    let mut plain = Station::from_memory(recorder.memory().clone()).unwrap();
    let mut peers = Peers::of_station(n, report(plain.report()));
    let style = STYLES[random.below(4)].with_notices(random.pick(&[0, 4]));
    let mut made = 2;
    for _ in 0..calls {
        let call = peers.random_call(random, style);
        let answer = played_at_station!(recorder, &call);
        assert_eq!(answer, played_at_station!(plain, &call), "{call:?}");
        // A station has no write and no send.
        if let Some(answer) = answer {
            peers.feed(&call, &answer);
            made += 1;
        }
    }
    assert_eq!(recorder.report(), plain.report());
    assert_eq!(recorder.values(), plain.values());
    assert!(recorder.memory() == plain.memory());
    made
}

/// The text of both lists.
pub fn text(recorder: Lists) -> (String, String) {
    let (_, calls, answers) = recorder.into_parts();
    [calls, answers]
        .map(|text| String::from_utf8(text).unwrap())
        .into()
}

#[test]
fn the_model_plays_the_same() {
    const CALLS: usize = 3_000;
    let mut left_out = 0;
    let seeds = Seeds::new(30);
    seeds.each(|seed| {
        let mut random = Random::new(seed);
        let n = 2 + seed as u32 % 5;
        let place = random.below(8) as u32;
        let values = values(&mut random);
        let made = StationRecorder::new(n, place, &values, Vec::new(), Vec::new());
        let mut recorder = made.unwrap();
        let made = drive(&mut recorder, n, CALLS, &mut random);
        assert!(made > CALLS / 4, "{made}");
        assert_eq!(recorder.stopped(), None);
        left_out += recorder.left_out();
        // The make, and the calls that are not left out.
        let lines = 1 + made - recorder.left_out() as usize;
        let (calls, answers) = text(recorder);
        assert_eq!(calls.lines().count(), lines);
        assert!(calls.starts_with(&format!("A {place} {n} ")), "{calls}");
        assert_eq!(differs(&calls, &answers), None);
        let line = 1 + random.below(lines);
        assert_eq!(differs(&calls, &altered(&answers, line)), Some(line));
    });
    assert!(seeds.runs < 30 || left_out > 100, "{left_out}");
}

/// In one list with a replica of its group; a take is its deliver and its works.
#[test]
fn beside_a_replica() {
    let records: [Writes; 2] = [(1, &[(5, 50)]), (2, &[(6, 60)])];
    let block = block_of(2, 0, &records);
    let mut replica = Recorder::new(2, 1, &[0; ITEMS], Vec::new(), Vec::new()).unwrap();
    assert_eq!(replica.take(&block).unwrap().steps.len(), 2);
    let (_, calls, answers) = replica.into_parts();
    let mut station = StationRecorder::new(2, 6, &[0; ITEMS], calls, answers).unwrap();
    assert_eq!(station.take(&block_of(2, 2, &[])), Err(Refusal::FarSlot));
    let step = |ticket, moved| Step {
        sender: 0,
        ticket,
        moved,
    };
    let steps = station.take(&block).unwrap().steps;
    assert_eq!(steps, [step(1, false), step(2, true)]);
    assert_eq!(station.begin(), Ok(1));
    assert_eq!((station.read(1, 6), station.ask(1)), (Ok(60), Ok(())));
    assert_eq!((station.begin(), station.withdraw(2)), (Ok(2), Ok(())));
    let (calls, answers) = text(station);
    let letters: String = calls.lines().map(|line| &line[..1]).collect();
    assert_eq!(letters, "MHKKAHHKKBRCBX");
    assert_eq!(differs(&calls, &answers), None);
}

/// A list has no place above 7: the calls go on, and nothing is written. A refused make leaves nothing.
#[test]
fn no_such_place() {
    let (mut calls, mut answers) = (Vec::new(), Vec::new());
    let values = &start_values();
    for place in [8, u32::MAX] {
        let made = StationRecorder::new(3, place, values, &mut calls, &mut answers);
        let mut recorder = made.unwrap();
        let words = format!("a list has the places 0 to 7, and no {place}");
        assert_eq!(recorder.stopped(), Some(&words[..]));
        assert_eq!(recorder.begin(), Ok(1));
    }
    for n in [0, 1, 7, u32::MAX] {
        let made = StationRecorder::new(n, 6, values, &mut calls, &mut answers);
        assert_eq!(made.err(), Some(Refusal::OutOfRange));
    }
    assert!(calls.is_empty() && answers.is_empty());
}
