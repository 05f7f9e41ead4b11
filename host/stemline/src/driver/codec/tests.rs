//! Each frame there and back, and every other bytes refused in words.

use super::*;

fn digest() -> Digest {
    Digest {
        turn: 7,
        commits: 0x0102_0304,
        digest: u64::MAX - 5,
    }
}

fn all() -> Vec<Frame> {
    let hello = |name: &str, from| Body::Hello {
        name: name.to_string(),
        replicas: 3,
        from,
    };
    let blocks = |count: usize| Body::Blocks {
        from: 9,
        turn: 80,
        blocks: (0..count).map(|at| [at as u8; BLOCK]).collect(),
    };
    let bodies = [
        hello("grotesque", Some(2)),
        hello("größer", None),
        hello("", Some(0)),
        hello(&"x".repeat(255), None),
        Body::Block {
            block: Box::new([6; BLOCK]),
            digest: digest(),
        },
        Body::Turn {
            digest: digest(),
            asked: true,
        },
        Body::Turn {
            digest: digest(),
            asked: false,
        },
        Body::Ask {
            from: 1,
            to: u32::MAX,
        },
        blocks(0),
        blocks(64),
    ];
    bodies.map(|body| Frame { group: 77, body }).to_vec()
}

#[test]
fn there_and_back() {
    let mut stream = Vec::new();
    for frame in all() {
        let bytes = frame.encode();
        assert!(bytes.len() <= FRAME);
        assert_eq!(Frame::decode(&bytes[LENGTH..]), Ok(frame));
        stream.extend(bytes);
    }
    // Cut in any pieces, they come the same.
    for piece in [1, 3, 511, 100_000] {
        let (mut frames, mut came) = (Frames::new(), Vec::new());
        for bytes in stream.chunks(piece) {
            frames.push(bytes);
            while let Some(frame) = frames.next() {
                came.push(frame.unwrap());
            }
        }
        assert_eq!(came, all());
    }
}

/// The bytes that hosts of this version are held to.
#[test]
fn known() {
    let body = Body::Ask { from: 3, to: 258 };
    let bytes = Frame {
        group: 0x0a0b,
        body,
    }
    .encode();
    let due = [
        18, 0, 0, 0, 1, 4, 0x0b, 0x0a, 0, 0, 0, 0, 0, 0, 3, 0, 0, 0, 2, 1, 0, 0,
    ];
    assert_eq!(bytes, due);
    assert_eq!(FRAME, 32_791);
}

/// No frame is a beginning of another or has two forms: what is shorter, longer or has another byte is refused, or
/// is another frame with just these bytes.
#[test]
fn others() {
    for frame in all() {
        let bytes = frame.encode().split_off(LENGTH);
        for length in 0..bytes.len() {
            assert!(Frame::decode(&bytes[..length]).is_err(), "{length}");
        }
        assert!(Frame::decode(&[&bytes[..], &[0]].concat()).is_err());
        for at in 0..bytes.len().min(40) {
            for byte in 0..=255 {
                let mut other = bytes.clone();
                other[at] = byte;
                if let Ok(read) = Frame::decode(&other) {
                    assert_eq!(read.encode()[LENGTH..], other);
                }
            }
        }
    }
}

#[test]
fn in_words() {
    let mut bytes = all()[0].encode().split_off(LENGTH);
    bytes[1] = 9;
    let said = |bytes: &[u8]| Frame::decode(bytes).unwrap_err().to_string();
    assert_eq!(said(&bytes), "a frame of the unknown kind 9");
    bytes[0] = 2;
    assert_eq!(
        said(&bytes),
        "a frame of version 2, and this program knows version 1"
    );
    assert_eq!(said(&[]), "a frame that is not well formed");
    let mut frames = Frames::new();
    frames.push(&[0xff, 0xff, 0, 0, 5]);
    let due = "a frame of 65535 bytes, and the longest has 32787";
    for _ in 0..2 {
        let error = frames.next().unwrap().unwrap_err();
        assert_eq!(error.to_string(), due);
        // It stays so, and keeps nothing of what comes.
        frames.push(&all()[0].encode());
        assert!(frames.bytes.is_empty());
    }
}
