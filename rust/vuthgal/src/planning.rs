//! Plans, and orders by seeds.
use crate::{call, mistake, text, unknown, Fault, Input, Word};
use std::ops::Range;

/// How a schedule has its threads.
#[derive(Clone, Copy, Debug, PartialEq, Eq, Hash)]
pub enum Written {
    /// `t0 x1*2`
    Numbers,
    /// `ann xbob*2`: a plan, too.
    Names,
}

/// The schedule of a plan, and whether it wanted one more choice than it might make.
#[derive(Clone, Debug, PartialEq, Eq, Hash)]
pub struct Planned {
    pub schedule: String,
    pub stopped: bool,
}

impl Planned {
    /// How many choices the schedule has.
    pub fn choices(&self) -> u64 {
        let tokens = self.schedule.split_whitespace();
        tokens.map(|token| token.split_once('*').map_or(1, |(_, count)| count.parse().unwrap_or(1))).sum()
    }
}

/// A state that runs by seeds ended in.
#[derive(Clone, Debug, PartialEq, Eq, Hash)]
pub struct Outcome {
    /// How many runs did.
    pub times: u32,
    pub word: Word,
    /// Whether a thread died.
    pub died: bool,
    /// The seed of the first such run.
    pub seed: u32,
    /// Its schedule.
    pub schedule: String,
}

/// The schedule that a plan stands for on a program, of at most 1,000,000 choices.
pub fn plan(program: &[u8], plan: &[u8]) -> Result<Planned, Fault> {
    plan_within(program, plan, 1_000_000, Written::Numbers)
}

/// The schedule that a plan stands for on a program, of at most `most` choices and at most 1,000,000. A schedule is a plan, so this also
/// writes a schedule by names. `Refused` has a mistake.
pub fn plan_within(program: &[u8], plan: &[u8], most: u32, written: Written) -> Result<Planned, Fault> {
    let told = call!(vuthgal_plan, program, plan; most, u8::from(written == Written::Names));
    let (stopped, output) = told.map_err(|fault| match fault {
        Fault::Refused { line, output, .. } => {
            let mistake = mistake(program, Input::Plan(plan)).ok().flatten().map(Box::new);
            Fault::Refused { line, output, mistake }
        }
        other => other,
    })?;
    Ok(Planned { schedule: text(output).trim_end().to_owned(), stopped })
}

fn outcome(line: &str) -> Option<Outcome> {
    let mut words = line.splitn(4, ' ');
    let times = words.next()?.parse().ok()?;
    let word = words.next()?;
    let alive = word.strip_suffix("+died");
    Some(Outcome {
        times,
        word: alive.unwrap_or(word).parse().ok()?,
        died: alive.is_some(),
        seed: words.next()?.strip_prefix('?')?.parse().ok()?,
        schedule: words.next().unwrap_or_default().to_owned(),
    })
}

/// What a plan and then an order by each of these seeds leads to, the most frequent outcome first: at most 100,000 seeds. An order has at
/// most `limit` choices, or 1,000,000 if that is 0.
pub fn seeds(program: &[u8], plan: &[u8], seeds: Range<u32>, limit: u32, written: Written) -> Result<Vec<Outcome>, Fault> {
    let count = seeds.end.saturating_sub(seeds.start);
    let (_, output) = call!(vuthgal_seeds, program, plan; seeds.start, count, limit, u8::from(written == Written::Names))?;
    text(output).lines().map(|line| outcome(line).ok_or_else(|| unknown(line))).collect()
}

#[cfg(test)]
mod tests {
    use super::*;

    #[test]
    fn only_an_outcome_is_one() {
        let stuck = Outcome { times: 2, word: Word::Stuck, died: true, seed: 7, schedule: "a b*2".into() };
        assert_eq!(outcome("2 stuck+died ?7 a b*2"), Some(stuck));
        for line in ["", "2", "2 stuck", "2 hm ?7 a", "2 stuck 7 a", "x stuck ?7 a"] {
            assert_eq!(outcome(line), None, "{line}");
        }
    }
}
