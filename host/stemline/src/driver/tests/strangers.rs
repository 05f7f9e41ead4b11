//! What comes from those that do not belong here, or is not theirs to send.

use super::*;

fn frame(body: Body) -> Frame {
    let group = group(3).mark();
    Frame { group, body }
}

fn came(driver: &mut Driver, from: u32, body: Body) -> Vec<String> {
    let from = Peer::Replica(from);
    let frame = frame(body);
    driver.handle(MILLI, Input::Frame { from, frame });
    said(&driver.flush(MILLI))
}

/// The block of slot 0, by replica 0.
fn first_block() -> Box<[u8; BLOCK]> {
    let (mut first, _) = replica(3, 0);
    let outputs = first.flush(100 * MILLI);
    Box::new(*blocks(&outputs, Peer::Replica(1))[0].bytes())
}

/// A block is taken from its sender's link alone.
#[test]
fn another_sender() {
    let (mut driver, _) = replica(3, 1);
    let (block, digest) = (first_block(), driver.digest());
    let body = Body::Block { block, digest };
    let due = "a block of slot 0 of replica 0 came from replica 2 and is dropped";
    assert_eq!(came(&mut driver, 2, body.clone()), [due]);
    assert_eq!(driver.digest().turn, 0);
    // Nor from a station.
    let from = Peer::Station(4);
    driver.handle(MILLI, Input::Up(from));
    let frame = frame(body.clone());
    driver.handle(MILLI, Input::Frame { from, frame });
    assert_eq!(driver.digest().turn, 0);
    assert!(said(&driver.flush(MILLI))[0].contains("came from station 4"));
    assert!(came(&mut driver, 0, body).is_empty());
    assert_eq!(driver.digest().turn, 1);
}

#[test]
fn a_damaged_block() {
    let (mut driver, _) = replica(3, 1);
    let (mut block, digest) = (first_block(), driver.digest());
    block[20] ^= 1;
    let due = "a block from replica 0 is dropped: the block's check does not match (14)";
    assert_eq!(came(&mut driver, 0, Body::Block { block, digest }), [due]);
}

/// Blocks that were not asked for, and such of another than was asked.
#[test]
fn blocks_that_were_not_asked_for() {
    let (mut driver, _) = replica(3, 1);
    let blocks = vec![*first_block()];
    let body = Body::Blocks {
        from: 0,
        turn: 1,
        blocks,
    };
    let due = "blocks that nobody asked for came from replica 0";
    assert_eq!(came(&mut driver, 0, body.clone()), [due]);
    // It learns that replica 0 is ahead, and asks that one after a while.
    let (mut first, _) = replica(3, 0);
    first.flush(100 * MILLI);
    let digest = first.digest();
    assert!(came(
        &mut driver,
        0,
        Body::Turn {
            digest,
            asked: false
        }
    )
    .is_empty());
    let outputs = driver.flush(40 * MILLI);
    assert_eq!(
        said(&outputs),
        ["behind: the blocks of slots 0 to 0 are asked of replica 0"]
    );
    assert!(sent(&outputs, Peer::Replica(0)).contains(&Body::Ask { from: 0, to: 1 }));
    let due = "blocks that nobody asked for came from replica 2";
    assert_eq!(came(&mut driver, 2, body.clone()), [due]);
    assert_eq!(driver.digest().turn, 0);
    assert_eq!(
        came(&mut driver, 0, body),
        ["replica 0 gave the blocks of slots 0 to 0"]
    );
    assert_eq!(driver.digest().turn, 1);
}

/// Who gives what is no good is asked no more, for a while.
#[test]
fn a_giver_with_damaged_blocks() {
    let (mut driver, _) = replica(3, 1);
    let (mut first, _) = replica(3, 0);
    first.flush(100 * MILLI);
    let digest = first.digest();
    for k in [0, 2] {
        came(
            &mut driver,
            k,
            Body::Turn {
                digest,
                asked: false,
            },
        );
    }
    let asked = |outputs: &[Output]| {
        let of = |k| sent(outputs, Peer::Replica(k)).contains(&Body::Ask { from: 0, to: 1 });
        [0, 2].map(of)
    };
    // The first behind the own number.
    assert_eq!(asked(&driver.flush(40 * MILLI)), [false, true]);
    let mut damaged = *first_block();
    damaged[20] ^= 1;
    let frame = frame(Body::Blocks {
        from: 0,
        turn: 1,
        blocks: vec![damaged],
    });
    let from = Peer::Replica(2);
    driver.handle(41 * MILLI, Input::Frame { from, frame });
    let outputs = driver.flush(41 * MILLI);
    assert_eq!((driver.digest().turn, asked(&outputs)), (0, [true, false]));
}

/// The link of another group, start, size or number is closed, in words.
#[test]
fn another_group() {
    let hello = |name: &str, replicas, from| Body::Hello {
        name: name.to_string(),
        replicas,
        from,
    };
    let mark = group(3).mark();
    let cases = [
        (
            mark,
            hello("antiqua", 3, Some(0)),
            "it is of the group \"antiqua\", not of \"grotesque\"",
        ),
        (
            mark,
            hello("grotesque", 2, Some(0)),
            "its group has 2 replicas, and this one 3",
        ),
        (
            mark,
            hello("grotesque", 3, Some(2)),
            "it says that it is replica 2",
        ),
        (
            mark,
            hello("grotesque", 3, None),
            "it says that it is a station",
        ),
        (
            1,
            hello("grotesque", 3, Some(0)),
            "it is of another group, or of another start",
        ),
        (
            1,
            Body::Ask { from: 0, to: 1 },
            "it is of another group, or of another start",
        ),
    ];
    for (group, body, words) in cases {
        let (mut driver, _) = replica(3, 1);
        let from = Peer::Replica(0);
        driver.flush(Duration::ZERO);
        driver.handle(
            MILLI,
            Input::Frame {
                from,
                frame: Frame { group, body },
            },
        );
        let outputs = driver.flush(30 * MILLI);
        assert_eq!(
            said(&outputs),
            [format!("replica 0 does not belong here: {words}")]
        );
        assert!(outputs.contains(&Output::Close(from)));
        assert!(
            sent(&outputs, from).is_empty(),
            "nothing goes there any more"
        );
    }
    let (mut driver, _) = replica(3, 1);
    for k in [1, 3] {
        driver.handle(MILLI, Input::Up(Peer::Replica(k)));
        assert!(driver
            .flush(MILLI)
            .contains(&Output::Close(Peer::Replica(k))));
    }
}

/// A peer that has committed something else stops the driver, at once or when the turn has come there.
#[test]
fn copies_that_differ() {
    for turn in [0, 1] {
        let (mut driver, _) = replica(3, 1);
        let (mut first, _) = replica(3, 0);
        first.flush(100 * MILLI);
        let mut digest = [driver.digest(), first.digest()][turn];
        digest.digest ^= 1;
        let mut words = came(
            &mut driver,
            2,
            Body::Turn {
                digest,
                asked: false,
            },
        );
        if turn == 1 {
            assert_eq!((driver.stopped(), words.len()), (None, 0));
            let (block, digest) = (first_block(), first.digest());
            words = came(&mut driver, 0, Body::Block { block, digest });
        }
        let due = "the copies differ for good: replica 2 has turn ";
        assert!(words[0].starts_with(due), "{words:?}");
        assert!(driver.stopped().is_some() && driver.timer().is_none());
    }
    // What a station says stops nobody.
    let (mut driver, _) = replica(3, 1);
    let from = Peer::Station(0);
    driver.handle(MILLI, Input::Up(from));
    let digest = Digest {
        digest: 1,
        ..driver.digest()
    };
    let frame = frame(Body::Turn {
        digest,
        asked: false,
    });
    driver.handle(MILLI, Input::Frame { from, frame });
    driver.flush(MILLI);
    assert_eq!(driver.stopped(), None);
}
