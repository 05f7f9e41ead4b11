//! Who gives to a replica that comes back.

use model::giving::DOWN;

/// The other replica that is up with the highest turn told, of equal ones the first behind `own`, counting upward
/// and round.
pub fn giver(own: usize, turns: &[u32]) -> Option<usize> {
    let mut best = None;
    for i in 1..turns.len() {
        let k = (own + i) % turns.len();
        let higher = best.is_none_or(|best: usize| turns[best] < turns[k]);
        if turns[k] != DOWN && higher {
            best = Some(k);
        }
    }
    best
}
