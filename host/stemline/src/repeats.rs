//! What a line that repeats blocks brings.

use crate::Refusal;

impl Refusal {
    /// Whether it is what a line brings that loses, repeats and delays blocks: the block was processed (17), is
    /// too far ahead (18), is an own one of another turn (19), waits already (20), or comes before the notice
    /// that its sender is back (29). A host passes over it; what is too early comes again.
    pub fn is_repeat(self) -> bool {
        matches!(
            self,
            Refusal::PastSlot
                | Refusal::FarSlot
                | Refusal::NotSent
                | Refusal::SlotTaken
                | Refusal::SlotOut
        )
    }
}

#[cfg(test)]
mod tests {
    use super::*;

    #[test]
    fn by_number() {
        for number in 1..=u8::MAX {
            let refusal = Refusal::from_number(number).unwrap();
            let due = matches!(number, 17..=20 | 29);
            assert_eq!(refusal.is_repeat(), due, "{number}");
        }
    }
}
