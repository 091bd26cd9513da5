//! Who may go.
use crate::Choice;

/// The choices that would do something now: first the turns, by the threads' numbers, and then the time-outs.
#[derive(Clone, Debug, PartialEq, Eq, Hash)]
pub struct Enabled {
    pub(crate) turns: u64,
    pub(crate) expiries: u64,
}

impl Enabled {
    /// Whether a choice is one of those that are still to come.
    pub fn contains(&self, choice: Choice) -> bool {
        let word = if choice.expiry { self.expiries } else { self.turns };
        choice.thread < 64 && word >> choice.thread & 1 == 1
    }
}

impl Iterator for Enabled {
    type Item = Choice;

    fn next(&mut self) -> Option<Choice> {
        let expiry = self.turns == 0;
        let word = if expiry { &mut self.expiries } else { &mut self.turns };
        let thread = word.trailing_zeros() as u8;
        *word &= word.wrapping_sub(1);
        (thread < 64).then(|| Choice { thread, expiry })
    }

    fn size_hint(&self) -> (usize, Option<usize>) {
        let count = (self.turns.count_ones() + self.expiries.count_ones()) as usize;
        (count, Some(count))
    }
}

impl ExactSizeIterator for Enabled {}
