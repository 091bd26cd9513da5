//! How long the calls of a session take, in microseconds of the processor, each with its name, as benchmarks/session.c measures them.
use vuthgal::Session;

const PROGRAM: &[u8] = b".phaser p 2\n.thread a main\n.thread b main\nmain: paaa r0 p\njmp main\n";

extern "C" {
    /// The processor's microseconds so far.
    fn clock() -> i64;
}

fn took(name: &str, count: u32, mut call: impl FnMut(u32)) {
    let begun = unsafe { clock() };
    (0..count).for_each(&mut call);
    println!("{name} {:.2}", (unsafe { clock() } - begun) as f64 / f64::from(count));
}

fn main() {
    let (program, schedule) = (include_bytes!("../../../examples/meeting.asm"), include_bytes!("../../../examples/meeting.schedule"));
    took("run", 100_000, |_| drop(vuthgal::run(program, schedule).unwrap()));
    let mut session = Session::open(PROGRAM).unwrap();
    took("step", 1_000_000, |n| drop(session.step((n % 2) as u8).unwrap()));
    took("back", 4096, |_| session.back().unwrap());
    took("enabled", 1_000_000, |_| assert_ne!(session.enabled().len(), 0));
    took("state", 200_000, |_| drop(session.state().unwrap()));
    took("copy", 10_000, |_| drop(session.copy().unwrap()));
}
