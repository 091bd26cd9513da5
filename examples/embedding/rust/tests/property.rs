//! Whatever the calls, the port answers as Vuthgal does, and stands as Vuthgal stands.
//!     cargo test --offline --release -- --nocapture
use phaser_port::{Call, Leaves, Phaser};
use std::fmt::Write;
use std::time::Instant;

const CALLS: [(Call, &str); 4] = [
    (Call::Register, "preg r0 p"),
    (Call::Arrive, "parr r0 p"),
    (Call::ArriveAndDeregister, "pdereg r0 p"),
    (Call::ForceTermination, "pforce p"),
];

/// A case: how many parties there are at first, and the calls.
#[derive(Clone, Debug, PartialEq, Eq)]
struct Case {
    parties: u32,
    calls: Vec<Call>,
}

/// Small random numbers, by a seed.
struct Chance(u64);

impl Chance {
    fn below(&mut self, n: u64) -> u64 {
        self.0 ^= self.0 << 13;
        self.0 ^= self.0 >> 7;
        self.0 ^= self.0 << 17;
        (self.0 >> 33) % n
    }

    fn case(&mut self) -> Case {
        let parties = self.below(4) as u32;
        let calls = (0..self.below(9)).map(|_| CALLS[[0, 1, 1, 2, 0, 1, 2, 3][self.below(8) as usize]].0).collect();
        Case { parties, calls }
    }
}

/// The trace of a program of one thread that makes the calls.
fn traced(case: &Case) -> String {
    let mut program = format!(".phaser p {}\n.thread a main\nmain: ", case.parties);
    for call in &case.calls {
        let (_, row) = CALLS.iter().find(|(it, _)| it == call).unwrap();
        writeln!(program, "{row}").unwrap();
    }
    program.push_str("halt\n");
    vuthgal::run(program.as_bytes(), format!("t0*{}", case.calls.len() + 1).as_bytes()).unwrap()
}

/// What the port answers, in the words of a trace, and the view and the parties at which it stands.
fn played(case: &Case, leaves: Leaves) -> (Vec<String>, String) {
    let mut port = Phaser::new(case.parties, leaves);
    let mut answers = Vec::new();
    for call in &case.calls {
        match port.call(*call) {
            Ok(Some(value)) => answers.push(format!("= {value}")),
            Ok(None) => answers.push("ok".to_owned()),
            Err(_) => {
                answers.push("throw 1".to_owned());
                break;
            }
        }
    }
    (answers, format!("p0 {} {} ", port.view(), port.parties()))
}

fn agrees(case: &Case, leaves: Leaves) -> bool {
    let (answers, stands) = played(case, leaves);
    let trace = traced(case);
    let told = trace.lines().map(|line| line.splitn(4, ' ').nth(3).unwrap_or(""));
    let answered = answers.iter().zip(told).all(|(answer, line)| {
        line.strip_prefix(answer.as_str()).map_or(false, |mark| mark.is_empty() || mark.starts_with(" +"))
    });
    answered && trace.lines().last().unwrap().starts_with(&stands)
}

/// The fewest calls of this case, and then the fewest parties, that still don't agree.
fn shrunk(mut case: Case, leaves: Leaves) -> Case {
    loop {
        let fewer_calls = (0..case.calls.len()).flat_map(|n| {
            let mut calls = case.calls.clone();
            calls.remove(n);
            (0..4).map(move |parties| Case { parties, calls: calls.clone() })
        });
        let fewer_parties = (0..case.parties).map(|parties| Case { parties, calls: case.calls.clone() });
        match fewer_calls.chain(fewer_parties).find(|smaller| !agrees(smaller, leaves)) {
            Some(smaller) => case = smaller,
            None => return case,
        }
    }
}

fn first_failure(leaves: Leaves, runs: u32) -> Option<Case> {
    let mut chance = Chance(0x9E37_79B9_7F4A_7C15);
    (0..runs).map(|_| chance.case()).find(|case| !agrees(case, leaves))
}

#[test]
fn the_port_agrees() {
    let begun = Instant::now();
    assert_eq!(first_failure(Leaves::Before, 20_000), None);
    println!("20000 runs agree ({:.2} s)", begun.elapsed().as_secs_f64());
}

#[test]
fn the_fault_is_found() {
    let failure = first_failure(Leaves::Behind, 20_000).expect("a case in which it doesn't agree");
    let fewest = shrunk(failure, Leaves::Behind);
    println!("{fewest:?}\n{}", traced(&fewest));
    assert_eq!(fewest, Case { parties: 1, calls: vec![Call::ArriveAndDeregister] });
}
