//! What the parts of the list show.

use super::*;

/// The answers to the lines of a list that start with a letter.
fn answers(list: &List, letter: &str) -> Vec<String> {
    let mut replay = Replay::default();
    let text = String::from_utf8(list.text.clone()).unwrap();
    let played = text
        .lines()
        .map(|line| (line, replay.answer(line.as_bytes())));
    let chosen = played.filter(|(line, _)| line.starts_with(letter));
    chosen.map(|(_, answer)| answer).collect()
}

/// The answers to the lines of a part, each without the digits of a block and without the rest of a report.
pub(super) fn shown(part: impl Fn(&mut List)) -> String {
    let mut list = List::default();
    part(&mut list);
    let mut replay = Replay::default();
    let text = String::from_utf8(list.lines()).unwrap();
    let short = |line: &str| {
        let answer = replay.answer(line.as_bytes());
        let fields = answer
            .split(' ')
            .take(if line.starts_with('Q') { 2 } else { 5 });
        let fields = fields.map(|field| match field.len() {
            1024 if field.starts_with("00") => "none".to_string(),
            // Of a block its slot.
            1024 => format!("#{}", u8::from_str_radix(&field[8..10], 16).unwrap()),
            _ => field.to_string(),
        });
        fields.collect::<Vec<_>>().join(" ")
    };
    text.split('\n').map(short).collect::<Vec<_>>().join(", ")
}

/// That the replicas at these places have the same turn, commits and values.
fn agree(list: &List, places: &[usize]) {
    let first = list.replica(places[0]);
    for &place in places {
        let (replica, due) = (list.replica(place), first.report());
        let report = replica.report();
        assert_eq!((report.turn, report.commits), (due.turn, due.commits));
        assert_eq!(replica.values(), first.values());
    }
}

#[test]
fn marked_blocks() {
    let mut list = List::default();
    cases::all(&mut list);
    let sent = answers(&list, "S ");
    assert!(sent[0].ends_with("03000000f2020000"), "{}", sent[0]);
    assert!(sent[1].ends_with("34020000ae270200"), "{}", sent[1]);
}

/// What each read gives: of h and n in the first family, of n in the others.
#[test]
fn families() {
    let mut list = List::default();
    story::all(&mut list);
    let first = ["80", "80", "90", "88", "90", "88", "90", "88"];
    let second = ["86", "88", "86", "84", "84", "84"];
    let third = ["86", "86", "86"];
    let due = first.iter().chain(&second).chain(&third);
    let due: Vec<String> = due.map(|value| format!("0 {value}")).collect();
    assert_eq!(answers(&list, "R "), due);
    agree(&list, &[0, 1, 2]);
    agree(&list, &[3, 4, 5]);
    let values = answers(&list, "V ");
    assert_eq!(values.len(), 9);
    for family in values.chunks(3) {
        assert!(family.iter().all(|values| *values == family[0]));
    }
}

/// The random part alone has enough calls, and its groups end with equal copies unless they took
/// forged blocks.
#[test]
fn rounds() {
    let mut list = List::default();
    let mut sizes = Vec::new();
    let mut differ = 0;
    for (seed, round) in random::ROUNDS.iter().enumerate() {
        sizes.extend(round.sizes);
        for places in random::play(&mut list, round, seed as u64) {
            if !round.forged {
                agree(&list, &places);
            }
            let first = list.replica(places[0]).values();
            differ += i32::from(places.iter().any(|&k| list.replica(k).values() != first));
            assert!(list.replica(places[0]).report().commits > 20, "seed {seed}");
        }
    }
    assert!((2..=6).all(|size| sizes.contains(&size)));
    assert!(differ > 0, "no forged block was taken");
    let lines = list.text.iter().filter(|&&byte| byte == b'\n').count();
    assert!(lines > 30_000, "{lines} calls");
}

/// Groups whose members lose power end with equal copies too; cuts tear blocks, and some restarts have
/// no own block to give back.
#[test]
fn rounds_with_cuts() {
    let mut list = List::default();
    for (round, seed) in random::CUT_ROUNDS.iter().zip(random::CUT_SEED..) {
        for places in random::play(&mut list, round, seed) {
            agree(&list, &places);
            let report = list.replica(places[0]).report();
            assert!(report.turn > 15 && report.commits > 10, "{report:?}");
        }
    }
    let text = String::from_utf8(list.text.clone()).unwrap();
    let cuts = text.lines().filter(|line| line.starts_with('Z'));
    let bytes = cuts.map(|line| line.split(' ').nth(2).unwrap().parse::<u32>().unwrap());
    let torn = bytes.filter(|bytes| bytes % 512 > 0).count();
    let restarts = answers(&list, "Z ");
    let none = "0".repeat(1024);
    let without = restarts.iter().filter(|answer| answer.ends_with(&none));
    let counts = (restarts.len(), torn, without.count());
    assert!(
        counts.0 > 200 && counts.1 > 30 && counts.2 > 5,
        "{counts:?}"
    );
}

/// Stations end with the copies of their groups, which go on without them: some blocks they have no place
/// for, and take when they are offered again.
#[test]
fn rounds_with_stations() {
    let mut list = List::default();
    for (round, seed) in random::STATION_ROUNDS.iter().zip(random::STATION_SEED..) {
        for places in random::play(&mut list, round, seed) {
            agree(&list, &places);
            let stations = places.iter().filter(|&&k| list.replica(k).is_station());
            assert!(stations.count() > 0, "seed {seed}");
            assert!(list.replica(places[0]).report().turn > 8, "seed {seed}");
        }
    }
    let mut replay = Replay::default();
    let (mut seen, mut own) = ([0; 4], [0; 2]);
    let text = String::from_utf8(list.text).unwrap();
    for line in text.lines() {
        let place = line.get(2..3).and_then(|k| replay.replica(k.parse().ok()?));
        let station = place.is_some_and(Replica::is_station);
        let answer = replay.answer(line.as_bytes());
        let first = line.chars().next().unwrap_or(' ');
        own[usize::from(station)] += i32::from(answer == "19");
        let counted = match (first, answer.as_str()) {
            ('W' | 'S', "25") => 0,
            ('D' | 'H', "18") => 1,
            ('H', "0") => 2,
            ('A', "0") => 3,
            _ => continue,
        };
        seen[counted] += i32::from(station);
    }
    // Refused by 25 and 18; taken from a journal; made anew.
    let least = [50, 50, 5, 2];
    assert!(
        seen.iter().zip(least).all(|(&seen, least)| seen > least),
        "{seen:?}"
    );
    // Refused by 19: at replicas some, at stations none.
    assert!(own[0] > 0 && own[1] == 0, "{own:?}");
}

/// Groups that load tables end with equal copies. Loads are accepted and refused by each number, and while
/// a block is applied some writes wait and some do not; tables of one group differ.
#[test]
fn rounds_with_tables() {
    let mut list = List::default();
    let mut differ = 0;
    for (round, seed) in random::TABLE_ROUNDS.iter().zip(random::TABLE_SEED..) {
        for places in random::play(&mut list, round, seed) {
            agree(&list, &places);
            let first = list.replica(places[0]).classes;
            differ += i32::from(places.iter().any(|&k| list.replica(k).classes != first));
        }
    }
    assert!(differ > 2);
    let loads = answers(&list, "P ");
    for (answer, least) in [("0", 200), ("1", 20), ("2", 20), ("23", 20)] {
        let found = loads.iter().filter(|one| *one == answer).count();
        assert!(found >= least, "{found} loads gave {answer}");
    }
    let mut replay = Replay::default();
    let (mut waited, mut let_through) = (0, 0);
    for line in String::from_utf8(list.text).unwrap().lines() {
        let replica = line.get(2..3).and_then(|k| replay.replica(k.parse().ok()?));
        let applying = replica.is_some_and(|replica| replica.applying);
        let answer = replay.answer(line.as_bytes());
        waited += i32::from(answer == "7");
        let_through += i32::from(line.starts_with('W') && applying && answer == "0");
    }
    assert!(waited > 100 && let_through > 30, "{waited}, {let_through}");
}

/// Groups with a membership service end with equal copies but for those that are closed; where any notice
/// comes to anybody, some do not. Slots are passed as out, also by their own replica, and restarts are lent
/// notices.
#[test]
fn rounds_with_notices() {
    let mut list = List::default();
    let (mut differ, mut slots, mut commits) = (0, 0, 0);
    for (round, seed) in recorded::ROUNDS.iter().zip(recorded::FIRST_SEED..) {
        let places = recorded::play(&mut list, round, seed);
        if !round.any {
            agree(&list, &places);
            let report = list.replica(places[0]).report();
            slots += report.turn;
            commits += report.commits;
        }
        let first = list.replica(places[0]).values();
        differ += i32::from(places.iter().any(|&k| list.replica(k).values() != first));
    }
    assert!(differ > 0, "any notice does no harm");
    assert!(slots > 200 && commits > 20, "{slots}, {commits}");
    let mut replay = Replay::default();
    let (mut passed, mut own, mut lent, mut refused) = (0, 0, 0, 0);
    for line in String::from_utf8(list.text.clone()).unwrap().lines() {
        let place = line.get(2..3).and_then(|k| replay.replica(k.parse().ok()?));
        let out = place.is_some_and(|replica| replica.is_out(replica.turn));
        let at_own = place.is_some_and(|r| {
            r.own
                .is_some_and(|own| r.turn as usize % r.inbox.len() == own.into())
        });
        let taken = place.map_or(0, |replica| replica.notices.len());
        let answer = replay.answer(line.as_bytes());
        passed += i32::from(line.starts_with('K') && out);
        own += i32::from(line.starts_with('K') && out && at_own);
        lent += i32::from(line.starts_with('Z') && answer != "?" && taken > 0);
        refused += i32::from(answer == "29");
    }
    assert!(passed > 300 && own > 50, "{passed}, {own}");
    assert!(lent > 40 && refused > 15, "{lent}, {refused}");
}

/// Groups in which replicas come back and are given what they missed end with equal copies; where anything is told
/// and any notice comes, some do not.
#[test]
fn rounds_with_givings() {
    let mut list = List::default();
    let mut differ = 0;
    for (round, seed) in recorded::GIVING_ROUNDS.iter().zip(recorded::GIVING_SEED..) {
        let places = recorded::play(&mut list, round, seed);
        if !round.any {
            agree(&list, &places);
        }
        let first = list.replica(places[0]).values();
        differ += i32::from(places.iter().any(|&k| list.replica(k).values() != first));
    }
    assert!(differ > 0, "any notice does no harm");
    let mut replay = Replay::default();
    // Given something, nothing, refused by 30 and 31, ended by a deliver; tickets aborted; slots given.
    let mut seen = [0; 5];
    let (mut aborted, mut slots, mut most) = (0, 0, 0);
    let text = String::from_utf8(list.text).unwrap();
    for line in text.lines().map(str::as_bytes) {
        let turn = |replay: &Replay| Some(replay.replica(usize::from(line[2] - b'0'))?.turn);
        let before = turn(&replay);
        let answer = replay.answer(line);
        if line[0] != b'G' {
            continue;
        }
        let given = turn(&replay).unwrap() - before.unwrap();
        let fields: Vec<&str> = answer.split(' ').collect();
        seen[match fields[0] {
            "0" if given > 0 => 0,
            "0" => 1,
            "30" => 2,
            "31" => 3,
            _ => 4,
        }] += 1;
        aborted += fields.len().saturating_sub(3);
        slots += given;
        most = given.max(most);
    }
    let least = [50, 100, 20, 50, 3];
    assert!(
        { seen.iter() }
            .zip(&least)
            .all(|(seen, least)| seen > least),
        "{seen:?}"
    );
    assert!(
        aborted > 3 && slots > 400 && most == 64,
        "{aborted}, {slots}, {most}"
    );
}
