//! The replica in a struct of the C header, in C programs: beside the model, at memory with any bytes in
//! it, and at what a make is refused by.

mod noted;

use std::cell::RefCell;
use std::path::{Path, PathBuf};
use std::rc::Rc;

use model::block::MAX_TICKET;
use model::drive::{Givings, Group, Peers, Seen, Style, Subject, STYLES};
use model::replay::run as answers;
use model::replica::SLOTS;
use model::samples::Random;
use soak::runs::NUMBERS;

use self::noted::{List, Noted};
use crate::c::{build, printed, run, run_c};
use crate::seeds::Seeds;

const CALLS: usize = 2_000;
const RUNS: u64 = 20;
/// The places of stations: no replica has them.
const STATIONS: [usize; 2] = [6, 7];

fn replay(name: &str) -> PathBuf {
    let source = include_str!("../c/replay.c");
    build(name, &[("replay.c", "cc", "-std=c99", source)])
}

/// Plays a list at the C program, and stops where it prints something else than is due.
fn compare(program: &Path, list: &str, due: &str) {
    let printed = printed(&run(program, list.as_bytes()));
    for ((line, found), due) in list.lines().zip(printed.lines()).zip(due.lines()) {
        assert_eq!(found, due, "{line}");
    }
    assert_eq!(printed.lines().count(), due.lines().count());
    assert!(printed == due, "the lines' ends differ");
}

/// The same by the calls over lent parts, each with every length off by one.
fn lent(name: &str) -> PathBuf {
    let source = include_str!("../c/lent.c");
    build(name, &[("lent.c", "cc", "-std=c99", source)])
}

/// The list that is stored for the program `replay`, without the lines that are no calls: the calls at a
/// struct, and those over lent parts.
#[test]
fn the_stored_list() {
    let list = model::workload::calls();
    let mut said = Vec::new();
    answers(&list[..], &mut said).unwrap();
    let said = String::from_utf8(said).unwrap();
    let lines = list.split(|&byte| byte == b'\n').zip(said.lines());
    let (mut calls, mut due) = (String::new(), String::new());
    for (line, answer) in lines.filter(|(_, answer)| *answer != "?") {
        calls.push_str(&format!("{}\n", str::from_utf8(line).unwrap()));
        due.push_str(&format!("{answer}\n"));
    }
    assert!(due.lines().count() > 30_000);
    compare(&replay("stored"), &calls, &due);
    compare(&lent("lent"), &calls, &due);
}

/// The stored sends, byte for byte: into bytes of any content at a struct, into such that are not zero
/// over lent parts.
#[test]
fn the_stored_sends() {
    let calls = include_str!("../../../../examples/sends.calls");
    let due = include_str!("../../../../examples/sends.out");
    compare(&replay("sends"), calls, due);
    compare(&lent("lent_sends"), calls, due);
}

/// A group with two stations, and a single replica and a station among forged peers, as they are after so
/// many slots and tickets. Where these are none, the group's replicas lose power, and so do its stations.
fn play(
    list: &Rc<RefCell<List>>,
    seed: u64,
    style: Style,
    late: (u32, u32),
    (seen, givings): (&mut Seen, &mut Givings),
) {
    let n = 2 + seed as u32 % 5;
    let mut random = Random::new(seed);
    let members = (0..n).map(|own| Noted::new(list, n, own, late)).collect();
    let mut group: Group<Noted> = Group::new(members, style);
    for place in STATIONS {
        group.add_station(Noted::station(list, n, place, late));
    }
    for _ in 0..CALLS {
        match random.below(1_000) {
            0..20 if late == (0, 0) => group.random_cut(&mut random),
            21..40 => group.random_giving(&mut random),
            40..42 if style.notices > 0 => {
                group.holiday(random.below(n as usize), 70);
            }
            20 => {
                let lost = random.pick(group.stations());
                let place = group.members[lost].place;
                group.renew_station(lost, Noted::station(list, n, place, late));
            }
            _ => group.random_call(&mut random),
        }
    }
    group.settle(2);
    for k in (0..n as usize).chain(group.stations().to_vec()) {
        let member = &group.members[k];
        let values: Vec<String> = member.values().iter().map(i32::to_string).collect();
        let line = format!("V {}", member.place);
        member.note(&line, &format!("0 {}", values.join(" ")));
    }
    seen.add(&group.seen);
    givings.add(&group.givings);

    let own = seed as u32 / 5 % n;
    let mut replica = Noted::new(list, n, own, late);
    let peers = Peers::new(n, own, replica.report());
    seen.add(&alone(&mut replica, peers, style, &mut random));
    let mut station = Noted::station(list, n, STATIONS[0], late);
    let peers = Peers::of_station(n, station.report());
    seen.add(&alone(&mut station, peers, style, &mut random));
}

/// A replica or a station among forged peers.
fn alone(single: &mut Noted, mut peers: Peers, style: Style, random: &mut Random) -> Seen {
    for _ in 0..CALLS {
        let call = peers.random_call(random, style);
        let answer = single.call(&call);
        peers.feed(&call, &answer);
    }
    peers.seen
}

/// Random lists: the C program answers as the model does.
#[test]
fn random_lists() {
    let (mut seen, mut givings) = (Seen::default(), Givings::default());
    let list = Rc::new(RefCell::new(List::default()));
    let program = replay("random");
    let seeds = Seeds::new(RUNS);
    seeds.each(|seed| {
        play(
            &list,
            seed,
            STYLES[seed as usize / 5 % 4].with_notices([6, 0][seed as usize % 2]),
            (0, 0),
            (&mut seen, &mut givings),
        );
        if seed.is_multiple_of(5) {
            let late = (SLOTS - 60, MAX_TICKET - 60);
            let style = Style::new(30, 40, 6).with_notices(4);
            play(&list, seed, style, late, (&mut seen, &mut givings));
        }
        let list = list.take();
        compare(&program, &list.lines, &list.due);
    });
    let enough = seen.numbers(20) == NUMBERS && seen.restarts > 500 && seen.offered_again > 20;
    let enough = enough && seen.notices > 1_000 && seen.passed_out > 1_000;
    assert!(seeds.runs < RUNS || enough, "{seen:?}");
    let enough = givings.given > 50 && givings.lacking > 5 && givings.nobody_up > 5;
    assert!(seeds.runs < RUNS || enough, "{givings:?}");
}

/// Every call at a struct with any bytes in it. The program says where something does not hold; here it
/// is seen that each call was accepted and refused, by how many numbers.
#[test]
fn any_bytes() {
    let said = run_c("garbage", include_str!("../c/garbage.c"), b"");
    let lines: Vec<&str> = said.lines().collect();
    let least = [
        ("make", 2),
        ("make_station", 2),
        ("restart", 2),
        ("begin", 3),
        ("read", 4),
        ("write", 9),
        ("ask", 3),
        ("withdraw", 3),
        ("report", 1),
        ("send", 6),
        ("deliver", 8),
        ("work", 3),
        ("load", 4),
        ("out", 4),
        ("back", 4),
        ("giver", 4),
        ("give", 5),
    ];
    assert_eq!(lines.len(), least.len(), "{said}");
    for (line, (name, numbers)) in lines.into_iter().zip(least) {
        let fields: Vec<&str> = line.split(' ').collect();
        assert_eq!(fields[0], name);
        assert!(fields[1].starts_with("0:"), "{line}");
        assert!(fields.len() > numbers, "{line}");
    }
}

/// A refused make or restart keeps the replica that is there, and one out of range touches nothing
/// around it; nor does a restart touch the block that it is lent.
#[test]
fn refused_makes() {
    let source = r#"
        #include "same.h"
        static struct {
            uint8_t below[4096];
            stemline_replica r;
            uint8_t above[4096];
        } s, before;
        int main(void) {
            static int32_t start[STEMLINE_ITEMS] = {7};
            const uint32_t sizes[] = {0, 1, 2, 3, 6, 7, 8, 255, 256, 258, 65536, 0x80000000u, UINT32_MAX};
            uint8_t block[STEMLINE_BLOCK];
            memset(block, 7, sizeof block);
            memset(&s, 0xa5, sizeof s);
            printf("make: %d\n", stemline_replica_make(&s.r, 2, 1, start));
            printf("begin: %u\n", (unsigned)stemline_replica_begin(&s.r).ticket);
            memcpy(&before, &s, sizeof s);
            for (size_t i = 0; i < sizeof sizes / sizeof sizes[0]; i++) {
                int number = stemline_replica_make(&s.r, sizes[i], 6, start);
                hold(number == STEMLINE_OUT_OF_RANGE && same(&s.r, &before.r), "make");
                if (sizes[i] < 2 || sizes[i] > 6) {
                    number = stemline_replica_make_station(&s.r, sizes[i], start);
                    hold(number == STEMLINE_OUT_OF_RANGE && same(&s.r, &before.r), "make_station");
                }
                stemline_restart_reply reply =
                    stemline_replica_restart(&s.r, sizes[i], 6, start, NULL, 0, NULL, 0, block);
                hold(reply.number == STEMLINE_OUT_OF_RANGE && same(&s.r, &before.r), "restart");
                hold(reply.count == 0 && block[0] == 7 && block[511] == 7, "restart: the block");
            }
            hold(memcmp(s.below, before.below, sizeof s.below) == 0, "below the replica");
            hold(memcmp(s.above, before.above, sizeof s.above) == 0, "above the replica");
            printf("begin: %u, item 0: %d\n", (unsigned)stemline_replica_begin(&s.r).ticket,
                   (int)s.r.values[0]);
            return 0;
        }
    "#;
    let due = "make: 0\nbegin: 1\nbegin: 2, item 0: 7\n";
    assert_eq!(run_c("makes", source, b""), due);
}

/// A take at altered memory: a writeset whose transaction is gone is committed as the others; refused by its
/// deliver, a take gives nothing but the number.
#[test]
fn takes_at_altered_memory() {
    let source = r#"
        #include "same.h"
        int main(void) {
            static stemline_replica r;
            static int32_t start[STEMLINE_ITEMS];
            uint8_t block[STEMLINE_BLOCK];
            stemline_replica_make(&r, 2, 0, start);
            for (uint32_t ticket = 1; ticket <= 3; ticket++) {
                stemline_replica_begin(&r);
                stemline_replica_write(&r, ticket, ticket, 40);
                stemline_replica_ask(&r, ticket);
            }
            stemline_replica_send(&r, block);
            r.table[2].ticket = 0;
            for (int trial = 0; trial < 3; trial++) {
                block[20] ^= (uint8_t)(trial == 0);
                hold_take(&r, block, sizeof block);
                stemline_take_reply taken = stemline_replica_take(&r, block, sizeof block);
                block[20] ^= (uint8_t)(trial == 0);
                printf("%d:", taken.number);
                for (int i = 0; i < taken.count; i++) {
                    printf(" %u", (unsigned)taken.steps[i].ticket);
                }
                printf("\n");
            }
            return 0;
        }
    "#;
    assert_eq!(run_c("takes", source, b""), "14:\n0: 1 2 3\n17:\n");
}

/// It is never a station's turn, also where altered memory has no replicas and the slot is its number.
#[test]
fn no_turn_at_a_station() {
    let source = r#"
        #include "same.h"
        int main(void) {
            static stemline_replica r;
            static int32_t start[STEMLINE_ITEMS];
            uint8_t block[STEMLINE_BLOCK];
            for (uint32_t slot = 0; slot < 600; slot++) {
                for (uint8_t n = 0; n <= 6; n++) {
                    stemline_replica_make_station(&r, 2, start);
                    r.turn.slot = slot;
                    r.group.replicas = n;
                    hold(!stemline_replica_is_turn(&r), "is_turn at a station");
                    hold(stemline_replica_send(&r, block) == STEMLINE_STATION_ONLY_READS, "send: not 25");
                }
            }
            stemline_replica_make(&r, 2, 0, start);
            printf("%d\n", stemline_replica_is_turn(&r));
            return 0;
        }
    "#;
    assert_eq!(run_c("station_turn", source, b""), "1\n");
}
