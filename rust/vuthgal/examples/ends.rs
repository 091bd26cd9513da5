//! Every way in which a small program can end, each with a shortest schedule that leads there. The workbench itself searches for no
//! order: this is a program of yours, over the library.
//!
//!     cargo run --offline --manifest-path rust/Cargo.toml --example ends examples/lessons/two-orders.asm
use std::collections::{HashSet, VecDeque};
use std::error::Error;
use vuthgal::{Choice, Session, State};

const MOST: usize = 10_000;

/// The states in which nothing can go on, in the order in which they are found, each with a shortest list of choices.
fn ends(program: &[u8]) -> Result<Vec<(State, Vec<Choice>)>, Box<dyn Error>> {
    let first = Session::open(program)?;
    let mut seen = HashSet::from([first.fingerprint()?]);
    let mut ahead = VecDeque::from([(first, Vec::new())]);
    let (mut states, mut found) = (HashSet::new(), Vec::new());
    while let Some((session, choices)) = ahead.pop_front() {
        let state = session.state()?.without_counts();
        if session.enabled().len() == 0 && states.insert(state.clone()) {
            found.push((state, choices.clone()));
        }
        for choice in session.enabled() {
            let mut after = session.copy()?;
            after.play(choice)?;
            if seen.insert(after.fingerprint()?) {
                ahead.push_back((after, [&choices[..], &[choice]].concat()));
            }
        }
        if seen.len() > MOST {
            return Err(format!("there are more than {MOST} states").into());
        }
    }
    Ok(found)
}

fn main() -> Result<(), Box<dyn Error>> {
    let file = std::env::args().nth(1).ok_or("usage: ends FILE")?;
    for (state, choices) in ends(&std::fs::read(file)?)? {
        let words: Vec<String> = choices.iter().map(Choice::to_string).collect();
        println!("{}: {}\n{state}", state.word, words.join(" "));
    }
    Ok(())
}
