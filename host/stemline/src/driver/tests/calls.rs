//! Clients.

use super::*;

/// Those that want an item that another holds wait for it, in their order, and all are committed.
#[test]
fn one_behind_the_other() {
    let mut group = Simulation::new(2, Plan::calm(2, 0));
    for _ in 0..9 {
        group.transact(0, &[(5, Some(0)), (6, Some(0))]);
        group.transact(0, &[(7, Some(0))]);
    }
    group.run(Duration::from_secs(3));
    assert_eq!(group.driver(1).unwrap().content(5), Ok(Some(17)));
    assert_eq!(group.driver(1).unwrap().content(7), Ok(Some(18)));
    let seen = group.rest().unwrap();
    assert_eq!((seen.committed, seen.aborted, seen.others), (18, 0, 0));
}

/// Another's writeset comes first: it is tried again, as often as was asked for.
#[test]
fn tries() {
    let (mut first, _) = replica(2, 0);
    let (mut second, _) = replica(2, 1);
    set(&mut first, 1, &[5]);
    let writes = vec![(5, Some(9))];
    for (client, tries) in [(7, 0), (8, 2)] {
        let writes = writes.clone();
        second.handle(
            Duration::ZERO,
            Input::Transact {
                client,
                writes,
                tries,
            },
        );
    }
    second.flush(Duration::ZERO);
    carry(MILLI, &first.flush(MILLI), 0, &mut second);
    let outputs = second.flush(MILLI);
    // The second one held nothing yet: it waited for the first.
    let due = [
        (
            7,
            Answer::Aborted {
                ticket: 1,
                tries: 1,
            },
        ),
        (
            8,
            Answer::Committed {
                ticket: 2,
                place: 2,
                tries: 1,
            },
        ),
    ];
    assert_eq!(told(&outputs), due);

    let (mut first, _) = replica(2, 0);
    let (mut second, _) = replica(2, 1);
    set(&mut first, 1, &[5]);
    let tries = 2;
    second.handle(
        Duration::ZERO,
        Input::Transact {
            client: 7,
            writes,
            tries,
        },
    );
    second.flush(Duration::ZERO);
    carry(MILLI, &first.flush(MILLI), 0, &mut second);
    let due = Answer::Committed {
        ticket: 2,
        place: 2,
        tries: 2,
    };
    assert_eq!(told(&second.flush(MILLI)), [(7, due)]);
}

/// Who waits is told why, once for each reason.
#[test]
fn why_it_waits() {
    let waits = |driver: &mut Driver| -> Vec<(u64, Refusal)> {
        let outputs = driver.flush(MILLI);
        let waits = outputs.iter().filter_map(|output| match *output {
            Output::Waits { client, refusal } => Some((client, refusal)),
            _ => None,
        });
        waits.collect()
    };
    let transact = |driver: &mut Driver, client, item| {
        let (writes, tries) = (vec![(item, Some(9))], 2);
        driver.handle(
            MILLI,
            Input::Transact {
                client,
                writes,
                tries,
            },
        );
    };
    let (mut first, _) = replica(2, 0);
    let (mut second, _) = replica(2, 1);
    set(&mut first, 1, &[5]);
    transact(&mut second, 7, 5);
    transact(&mut second, 8, 5);
    assert_eq!(waits(&mut second), [(8, Refusal::Locked)]);
    assert_eq!(waits(&mut second), []);
    carry(MILLI, &first.flush(MILLI), 0, &mut second);
    assert_eq!(waits(&mut second), [(7, Refusal::Stale)]);
    let (mut second, _) = replica(2, 1);
    (0..7).for_each(|item| transact(&mut second, item.into(), item));
    assert_eq!(waits(&mut second), [(6, Refusal::AllOpen)]);
}

#[test]
fn refused_in_words() {
    let (mut driver, _) = replica(2, 0);
    let mut ask = |writes: Vec<(u32, Option<i32>)>| {
        let (client, tries) = (1, 1);
        driver.handle(
            Duration::ZERO,
            Input::Transact {
                client,
                writes,
                tries,
            },
        );
        let outputs = driver.flush(Duration::ZERO);
        let [(1, Answer::Refused(error))] = &told(&outputs)[..] else {
            panic!("{outputs:?}");
        };
        (error.refusal(), error.to_string())
    };
    let (refusal, _) = ask(vec![(5, Some(1)), (128, Some(1))]);
    assert_eq!(refusal, Some(Refusal::OutOfRange));
    let nine = (0..9).map(|item| (item, Some(1))).collect();
    assert_eq!(ask(nine).0, Some(Refusal::WritesetFull));
    let due = "a transaction without writes has nothing to commit";
    assert_eq!(ask(Vec::new()), (None, due.to_string()));
    let due = "items cannot be cleared by this version";
    assert_eq!(ask(vec![(5, None)]), (None, due.to_string()));
    // What was refused holds nothing, and no block was sent.
    assert_eq!(driver.status().report.open_count, 0);
    assert_eq!(driver.digest().turn, 0);
    assert_eq!(
        driver.content(128).unwrap_err().refusal(),
        Some(Refusal::OutOfRange)
    );
}

/// By tickets: reads of the snapshot and of own writes, and outcomes.
#[test]
fn with_tickets() {
    let (mut driver, _) = replica(2, 0);
    let [a, b, c] = [(); 3].map(|()| driver.begin().unwrap());
    driver.write(a, 5, Some(40)).unwrap();
    assert_eq!(
        (driver.read(a, 5), driver.read(b, 5)),
        (Ok(Some(40)), Ok(Some(0)))
    );
    let locked = driver.write(b, 5, Some(41)).unwrap_err();
    assert_eq!(locked.refusal(), Some(Refusal::Locked));
    assert_eq!(driver.write(b, 6, None), Err(CallError::NoClearing));
    driver.withdraw(b).unwrap();
    assert_eq!(driver.ask(c, 3), Ok(crate::Asked::ReadOnly));
    assert_eq!(driver.ask(a, 1), Ok(crate::Asked::Waiting));
    assert_eq!(driver.status().clients, 1);
    let outputs = driver.flush(MILLI);
    let committed = Answer::Committed {
        ticket: a,
        place: 1,
        tries: 1,
    };
    assert_eq!(
        told(&outputs),
        [(3, Answer::ReadOnly { ticket: c }), (1, committed)]
    );
    let changes: Vec<_> = outputs
        .iter()
        .filter_map(|output| match output {
            Output::Committed(change) => Some(change.clone()),
            _ => None,
        })
        .collect();
    let due = Change {
        place: 1,
        slot: 0,
        replica: 0,
        ticket: a,
        writes: vec![(5, Some(40))],
    };
    assert_eq!(changes, [due]);
}

/// A client that is gone is told nothing; what it has asked goes on.
#[test]
fn gone() {
    let (mut driver, _) = replica(2, 1);
    set(&mut driver, 7, &[5]);
    driver.flush(Duration::ZERO);
    set(&mut driver, 8, &[5]);
    set(&mut driver, 9, &[6]);
    for client in [7, 8] {
        driver.handle(MILLI, Input::Gone { client });
    }
    assert_eq!(driver.status().clients, 1);
    let (mut first, _) = replica(2, 0);
    carry(MILLI, &first.flush(100 * MILLI), 0, &mut driver);
    let outputs = driver.flush(101 * MILLI);
    assert!(matches!(
        told(&outputs)[..],
        [(9, Answer::Committed { place: 2, .. })]
    ));
    assert_eq!(driver.content(5), Ok(Some(7)));
}

/// Outcomes that nobody waits for are forgotten, also while a ticket is open for long.
#[test]
fn forgotten() {
    let (mut driver, _) = replica(2, 0);
    driver.handle(
        Duration::ZERO,
        Input::Notice(Notice::Out {
            replica: 1,
            slot: 0,
        }),
    );
    let open = driver.begin().unwrap();
    for client in 0..600 {
        set(&mut driver, client, &[3]);
        assert_eq!(told(&driver.flush(Duration::ZERO)).len(), 1);
    }
    driver.ask(open, 1_000).unwrap();
    let outputs = driver.flush(Duration::ZERO);
    assert_eq!(told(&outputs), [(1_000, Answer::ReadOnly { ticket: open })]);
}
