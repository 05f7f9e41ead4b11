//! A 64-bit digest of bytes: of a head, of the copies in it, and of all that is committed.

use std::fmt;

use crate::head::Head;
use crate::Block;

/// What a digest begins with; 0 would not see zeros.
pub(crate) const START: u64 = 0x7374_656d_6c69_6e65;

/// The digest of these bytes behind others, of which it was `before`: eight bytes at a time, the first the
/// lowest, zeros behind the last. Each step keeps what differs, so that a change of eight bytes is always
/// seen; it is no signature. `digest` in `stemline_journal.c` is the same.
pub(crate) fn digest(before: u64, bytes: &[u8]) -> u64 {
    let (words, rest) = bytes.as_chunks::<8>();
    let mut last = [0; 8];
    last[..rest.len()].copy_from_slice(rest);
    let last = (!rest.is_empty()).then_some(&last);
    words.iter().chain(last).fold(before, |digest, word| {
        let mixed = (digest ^ u64::from_le_bytes(*word)).wrapping_mul(0x9e37_79b9_7f4a_7c15);
        mixed ^ (mixed >> 32)
    })
}

/// What a replica has committed by a turn, to be compared with another's at the same turn: see
/// [`crate::Durable::digest`]. `{}` writes it in one line.
#[derive(Clone, Copy, Debug, PartialEq, Eq, Hash)]
pub struct Digest {
    /// The slot that is processed next.
    pub turn: u32,
    /// The writesets committed in the slots before it.
    pub commits: u32,
    /// The digest of the group's size, name and values to start with, and of all blocks with writesets in
    /// the slots before the turn, in their order.
    pub digest: u64,
}

impl fmt::Display for Digest {
    fn fmt(&self, f: &mut fmt::Formatter) -> fmt::Result {
        let (turn, commits, digest) = (self.turn, self.commits, self.digest);
        write!(f, "turn {turn}, commits {commits}, digest {digest:016x}")
    }
}

/// The turns whose digests are kept.
const KEPT: usize = 64;

/// The digests of the last turns.
#[derive(Clone, Debug)]
pub(crate) struct Digests {
    /// That of turn t at t mod 64.
    kept: Box<[Digest; KEPT]>,
    turn: u32,
}

impl Digests {
    /// Before the first slot.
    pub fn new(head: &Head) -> Digests {
        let first = Digest {
            turn: 0,
            commits: 0,
            digest: head.common(),
        };
        Digests {
            kept: Box::new([first; KEPT]),
            turn: 0,
        }
    }

    /// Of the turn behind all blocks.
    pub fn last(&self) -> Digest {
        self.kept[self.turn as usize % KEPT]
    }

    /// Of a turn, if it is kept.
    pub fn at(&self, turn: u32) -> Option<Digest> {
        let kept = self.kept[turn as usize % KEPT];
        (kept.turn == turn && turn <= self.turn).then_some(kept)
    }

    /// A block behind all others.
    pub fn add(&mut self, block: &Block) {
        let last = self.last();
        self.turn += 1;
        self.kept[self.turn as usize % KEPT] = Digest {
            turn: self.turn,
            commits: last.commits + block.records().len() as u32,
            digest: match block.is_next() {
                true => last.digest,
                false => digest(last.digest, block.bytes()),
            },
        };
    }
}

#[cfg(test)]
mod tests {
    use super::*;

    /// The numbers that files of version 1 are held to.
    #[test]
    fn known() {
        assert_eq!(digest(0, b""), 0);
        assert_eq!(digest(0, &[0; 8]), 0);
        assert_eq!(digest(0, &[1]), 0x9e37_79b9_e17d_05ac);
        assert_eq!(digest(0, &[1, 0, 0, 0, 0, 0, 0, 0]), digest(0, &[1]));
        assert_eq!(
            digest(digest(5, b"eight by"), b"tes"),
            digest(5, b"eight bytes")
        );
    }

    #[test]
    fn every_bit_counts() {
        let bytes: Vec<u8> = (0..40).map(|at| at * 7).collect();
        let mut seen = vec![digest(0, &bytes)];
        for bit in 0..8 * bytes.len() {
            let mut other = bytes.clone();
            other[bit / 8] ^= 1 << (bit % 8);
            seen.push(digest(0, &other));
        }
        seen.sort_unstable();
        seen.dedup();
        assert_eq!(seen.len(), 1 + 8 * bytes.len());
    }
}
