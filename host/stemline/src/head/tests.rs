//! Heads: their bytes, and which files are new, of this head, or not to be touched.

use super::*;

fn head(group: &str, n: u32, own: u32) -> Head {
    Head::new(group, n, own, &[-7; ITEMS]).unwrap()
}

/// A whole front with this head and no copies.
fn front(head: &Head) -> Vec<u8> {
    let mut front = head.bytes().to_vec();
    front.resize(HEAD, 0);
    front
}

#[test]
fn there_and_back() {
    for (n, own, name) in [(2, 0, "a"), (6, 5, "Größe"), (3, 1, &"x".repeat(255))] {
        let head = head(name, n, own);
        let read = Head::read(&front(&head)).unwrap();
        assert_eq!(read, head);
        let read = (read.replicas(), read.own(), read.group(), *read.values());
        assert_eq!(read, (n, own, name.into(), [-7; ITEMS]));
    }
    let line = "replica 1 of 3 of the group \"grot\", version 1, start ";
    assert!(head("grot", 3, 1).to_string().starts_with(line));
}

#[test]
fn names() {
    let said = |name: &str| Head::new(name, 2, 0, &[0; ITEMS]).unwrap_err();
    assert_eq!(said(""), "the group has no name");
    assert_eq!(said("a\nb"), "the group's name has a control character");
    assert_eq!(
        said(&"x".repeat(256)),
        "the group's name has more than 255 bytes"
    );
}

/// A changed bit anywhere in the head, and another version.
#[test]
fn damaged() {
    let due = head("grot", 3, 1);
    let good = front(&due);
    for bit in 0..8 * END {
        let mut bad = good.clone();
        bad[bit / 8] ^= 1 << (bit % 8);
        let said = Head::read(&bad).unwrap_err();
        let why = match bit / 8 {
            0..16 => "the mark is missing",
            16..20 => "and this program knows the versions 1 and 2",
            _ => "its head is damaged: the check does not match",
        };
        assert!(said.ends_with(why), "bit {bit}: {said}");
        // With a block behind it, it is not taken for new, whatever the bit.
        assert_eq!(due.is_new(&bad, HEAD as u64 + 512), Err(said), "bit {bit}");
    }
}

/// All that differs is named, and only that.
#[test]
fn of_others() {
    let good = front(&head("grot", 3, 1));
    let said = |due: &Head| due.is_new(&good, HEAD as u64).unwrap_err();
    assert_eq!(head("grot", 3, 1).is_new(&good, HEAD as u64), Ok(false));
    assert_eq!(said(&head("grot", 4, 1)), "it is of 3 replicas, not of 4");
    assert_eq!(said(&head("grot", 3, 0)), "it is of replica 1, not of 0");
    let due = "it is of the group \"grot\", not of \"Grot\"";
    assert_eq!(said(&head("Grot", 3, 1)), due);
    let mut values = [-7; ITEMS];
    (values[9], values[127]) = (4, 5);
    let other = Head::new("grot", 3, 1, &values).unwrap();
    assert_eq!(said(&other), "it is of a start with 9 = -7, not 4");
    let other = Head::new("b", 2, 0, &values).unwrap();
    let due = "it is of 3 replicas, not of 2; of replica 1, not of 0; of the group \"grot\", not of \"b\"; \
        of a start with 9 = -7, not 4";
    assert_eq!(said(&other), due);
}

/// What a cut leaves while a file is made, at every byte; and what looks like it and is none.
#[test]
fn new_files() {
    let due = head("grot", 3, 1);
    let good = front(&due);
    let new = |bytes: &[u8]| due.is_new(bytes, bytes.len() as u64);
    assert_eq!(new(b""), Ok(true));
    for length in [1, 511, 4_096, HEAD - 1, HEAD] {
        assert_eq!(new(&vec![0; length]), Ok(true), "{length}");
    }
    for end in 0..END {
        // Torn at this byte, from either side.
        let (mut first, mut second) = (good.clone(), good.clone());
        first[end..].fill(0);
        second[..=end].fill(0);
        // What is behind may be zero anyway.
        let is_new = first != good;
        assert_eq!(new(&first), Ok(is_new), "{end}");
        assert_eq!(new(&second), Ok(true), "{end}");
        // Of another's head, or with a copy or a block behind it, it is not new.
        let mut other = first.clone();
        other[20] = 2;
        assert!(new(&other).is_err(), "{end}");
        second[PAGE] = 1;
        assert!(new(&second).is_err(), "{end}");
        second[PAGE] = 0;
        second.push(0);
        assert!(due.is_new(&second[..HEAD], HEAD as u64 + 1).is_err());
        // A whole one that is cut.
        let said = new(&good[..end]);
        assert!(said.is_err() || end == 0, "{end}");
    }
    let said = new(&good[..HEAD - 1]).unwrap_err();
    assert_eq!(
        said,
        "it ends within its head, and no cut of the power leaves that"
    );
    for text in [
        "a",
        "two lines\nof text\n",
        &"x".repeat(HEAD),
        &"x".repeat(HEAD + 1),
    ] {
        let front = &text.as_bytes()[..HEAD.min(text.len())];
        let said = due.is_new(front, text.len() as u64).unwrap_err();
        assert!(said.starts_with("it is no journal"), "{said}");
    }
    // Zeros that are longer than a head.
    assert!(due.is_new(&[0; HEAD], HEAD as u64 + 1).is_err());
}
