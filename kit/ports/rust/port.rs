//! Speaks the port protocol (kit/PROTOCOL.md, "Port protocol") for the phaser and the barrier of this folder.
//!
//!     rustc -O --edition 2021 -o port kit/ports/rust/port.rs
//!     kit/play --port ./port kit/cases
//!
//! Another port in Rust makes its own types in `make`, and calls them in `call_of_phaser` and `call_of_barrier`; the rest stays.

mod barrier;
mod phaser;
mod points;
mod threads;

use barrier::{Action, CyclicBarrier};
use phaser::{OnAdvance, Phaser};
use std::cell::{OnceCell, RefCell};
use std::collections::BTreeMap;
use std::io::Write;
use std::str::FromStr;
use std::sync::atomic::{fence, AtomicUsize, Ordering::SeqCst};
use std::sync::mpsc::{channel, Receiver, Sender};
use std::sync::{Arc, Mutex, MutexGuard, OnceLock};
use std::{hint, io, process, thread};
use std::time::{Duration, Instant};
use threads::{Answer, Thread, Thrown, Time};

/// Writes a line at once. Many threads have something to say.
fn say(line: &str) {
    let mut output = io::stdout().lock();
    output.write_all(format!("{line}\n").as_bytes()).unwrap();
    output.flush().unwrap();
}

/// The present, in nanoseconds.
fn now() -> u128 {
    static BEGIN: OnceLock<Instant> = OnceLock::new();
    BEGIN.get_or_init(Instant::now).elapsed().as_nanos()
}

fn pause(length: u64) {
    let until = Instant::now() + Duration::from_nanos(length);
    while length > 0 && Instant::now() < until {
        hint::spin_loop();
    }
}

/// A call that is ready to be made; it answers what it returned, if it has a value.
type Call = Box<dyn Fn() -> Answer<Option<i32>> + Send + Sync>;

/// What became of a call, in the protocol's words.
fn words_of(answer: Answer<Option<i32>>) -> String {
    match answer {
        Ok(Some(value)) => format!("= {value}"),
        Ok(None) => "ok".to_string(),
        Err(Thrown::IllegalState) => "throw 1".to_string(),
        Err(Thrown::IllegalArgument) => "throw 2".to_string(),
        Err(Thrown::Interrupted) => "throw 3".to_string(),
        Err(Thrown::BrokenBarrier) => "throw 4".to_string(),
        Err(Thrown::TimedOut) => "throw 5".to_string(),
        Err(Thrown::Through(number)) => format!("through {number}"),
    }
}

// ---------------------------------------------------------------- threads

/// What a thread is told to do.
enum Order {
    Call(Call),
    List(Arc<Gate>),
    /// The `onAdvance` or action in which it stands is to answer this, or to throw it.
    Answer(i32),
    Throw(i32),
}

/// Lets the threads of a burst begin at once. They spin, since to wake up takes longer than a call.
struct Gate(AtomicUsize);

impl Gate {
    fn pass(&self) {
        let until = Instant::now() + Duration::from_micros(100);
        self.0.fetch_sub(1, SeqCst);
        while self.0.load(SeqCst) > 0 {
            if Instant::now() > until {
                thread::sleep(Duration::from_micros(20));
            }
        }
    }
}

struct Step {
    number: i32,
    pause_before: u64,
    call: Call,
}

/// The list of a thread: what it has to do, what it has done, in lines, and the step in which it is, with its begin.
#[derive(Default)]
struct List {
    steps: Vec<Step>,
    lines: String,
    present: Option<(i32, u128)>,
}

/// A thread of a case: makes the calls that it is told to make, also in the middle of an `onAdvance` or an action.
struct Actor {
    number: usize,
    thread: Arc<Thread>,
    orders: Sender<Order>,
    told: Mutex<Receiver<Order>>,
    list: Mutex<List>,
}

thread_local! {
    static ACTOR: OnceCell<Arc<Actor>> = const { OnceCell::new() };
    /// What was entered in the present step of a list, in lines; none outside a list.
    static ENTERED: RefCell<Option<String>> = const { RefCell::new(None) };
}

impl Actor {
    fn start(number: usize) -> Arc<Actor> {
        let (orders, told) = channel();
        let told = Mutex::new(told);
        let actor = Arc::new(Actor { number, thread: Arc::default(), orders, told, list: Mutex::default() });
        let own = actor.clone();
        thread::spawn(move || {
            Thread::become_current(own.thread.clone());
            ACTOR.with(|actor| actor.set(own.clone()).ok());
            own.serve()
        });
        actor
    }

    fn tell(&self, order: Order) {
        self.orders.send(order).unwrap();
    }

    /// Makes calls until it is told to end what it stands in; answers what that is to answer.
    fn serve(&self) -> Answer<i32> {
        loop {
            let order = self.told.lock().unwrap().recv().unwrap();
            match order {
                Order::Call(call) => say(&format!("{} {}", self.number, words_of(call()))),
                Order::List(gate) => self.make_list(&gate),
                Order::Answer(number) => return Ok(number),
                Order::Throw(number) => return Err(Thrown::Through(number)),
            }
        }
    }

    /// Stands at the beginning of an `onAdvance` or an action, until it is told how that ends. None in a list, where nobody is
    /// asked, and it goes by the plan.
    fn enter(what: &str, plan: &Plan) -> Option<Answer<i32>> {
        let actor = ACTOR.with(|actor| actor.get().unwrap().clone());
        let line = format!("{} enter {what}", actor.number);
        let in_list = ENTERED.with(|entered| entered.borrow_mut().as_mut().map(|lines| *lines += &format!("{line}\n")));
        if in_list.is_some() {
            pause(plan.lasts);
            for (number, call) in plan.inside.iter() {
                let begin = now();
                let answer = words_of(call());
                let line = format!("{} did {number} {begin} {} {answer}\n", actor.number, now());
                ENTERED.with(|entered| entered.borrow_mut().as_mut().unwrap().push_str(&line));
            }
            return None;
        }
        say(&line);
        Some(actor.serve())
    }

    /// The clock is read outside two fences: what a call has done is seen by whoever begins after its end.
    fn make_list(&self, gate: &Gate) {
        let steps = std::mem::take(&mut self.list.lock().unwrap().steps);
        points::list();
        gate.pass();
        for step in steps {
            pause(step.pause_before);
            ENTERED.set(Some(String::new()));
            let begin = now();
            self.list.lock().unwrap().present = Some((step.number, begin));
            fence(SeqCst);
            let answer = words_of((step.call)());
            fence(SeqCst);
            let end = now();
            let entered = ENTERED.take().unwrap();
            let mut list = self.list.lock().unwrap();
            list.lines += &format!("{entered}{} did {} {begin} {end} {answer}\n", self.number, step.number);
            list.present = None;
        }
        let lines = std::mem::take(&mut self.list.lock().unwrap().lines);
        say(&format!("{lines}{} end", self.number));
    }

    /// What it has done of a list that hasn't ended.
    fn so_far(&self) -> String {
        let list = self.list.lock().unwrap();
        let present = list.present.map(|(number, begin)| format!("{} began {number} {begin}\n", self.number));
        format!("{}{}", list.lines, present.unwrap_or_default())
    }
}

// ---------------------------------------------------------------- objects

/// What an `onAdvance` or an action does in a list: how long it lasts; the calls that it makes, with their numbers; then from which
/// phase on it answers true, or never, where that is negative; or what it throws, if it isn't 0.
#[derive(Clone, Default)]
struct Plan {
    lasts: u64,
    number: i32,
    inside: Arc<Vec<(i32, Call)>>,
}

/// All that there is in a case, and the threads.
struct World {
    phasers: Vec<Arc<Phaser>>,
    barriers: Vec<Arc<CyclicBarrier>>,
    advances: BTreeMap<usize, Plan>,
    actions: BTreeMap<usize, Plan>,
    actors: BTreeMap<usize, Arc<Actor>>,
    /// Who has a list, and wasn't told to go.
    listed: BTreeMap<usize, Arc<Actor>>,
}

static WORLD: Mutex<World> = Mutex::new(World {
    phasers: Vec::new(),
    barriers: Vec::new(),
    advances: BTreeMap::new(),
    actions: BTreeMap::new(),
    actors: BTreeMap::new(),
    listed: BTreeMap::new(),
});

fn world() -> MutexGuard<'static, World> {
    WORLD.lock().unwrap()
}

fn asking_advance(number: usize) -> OnAdvance {
    Box::new(move |phase, parties| {
        let plan = world().advances.get(&number).cloned().unwrap_or_default();
        match Actor::enter(&format!("phaser {number} {phase} {parties}"), &plan) {
            Some(answer) => Ok(answer? != 0),
            None => Ok(plan.number >= 0 && (phase >= plan.number || parties == 0)),
        }
    })
}

fn asking_action(number: usize) -> Action {
    Box::new(move || {
        let plan = world().actions.get(&number).cloned().unwrap_or_default();
        match Actor::enter(&format!("barrier {number}"), &plan) {
            Some(answer) => answer.map(|_| ()),
            None if plan.number != 0 => Err(Thrown::Through(plan.number)),
            None => Ok(()),
        }
    })
}

impl World {
    fn begin(&mut self) {
        self.phasers.clear();
        self.barriers.clear();
        self.advances.clear();
        self.actions.clear();
        for actor in self.actors.values() {
            actor.thread.clear_interrupted();
        }
    }

    fn make(&mut self, command: &str, words: &[&str]) -> Answer<()> {
        match command {
            "phaser" => {
                let number = self.phasers.len();
                let parent = usize::from_str(words[1]).ok().map(|parent| self.phasers[parent].clone());
                let on_advance: OnAdvance =
                    if words[4] == "asked" { asking_advance(number) } else { Box::new(|_, parties| Ok(parties == 0)) };
                self.phasers.push(Arc::new(Phaser::new(parent, read(words[2]), read(words[3]), on_advance)?));
            }
            _ => {
                let action = (words[2] == "asked").then(|| asking_action(self.barriers.len()));
                self.barriers.push(Arc::new(CyclicBarrier::new(read(words[1]), action)?));
            }
        }
        Ok(())
    }

    fn actor(&mut self, number: usize) -> Arc<Actor> {
        self.actors.entry(number).or_insert_with(|| Actor::start(number)).clone()
    }

    /// A call, ready to be made by whichever thread; also the interrupt that a list may hold.
    fn call_of(&mut self, words: &[&str]) -> Call {
        let at = || read(words[1]);
        match words[0] {
            "interrupted" => Box::new(|| Ok(Some(Thread::current().clear_interrupted().into()))),
            "isInterrupted" => Box::new(|| Ok(Some(Thread::current().is_interrupted().into()))),
            "interrupt" => {
                let target = self.actor(at());
                Box::new(move || {
                    target.thread.interrupt();
                    Ok(None)
                })
            }
            "await" | "reset" | "isBroken" | "getNumberWaiting" | "getParties" => {
                call_of_barrier(self.barriers[at()].clone(), words[0].to_string(), words.get(2).map(|word| read(word)))
            }
            _ => {
                let number = words.get(2).map_or(0, |word| read(word));
                call_of_phaser(self.phasers[at()].clone(), words[0].to_string(), number, words.get(3).map(|word| read(word)))
            }
        }
    }

    fn plan(&mut self, of_phaser: bool, number: usize) -> &mut Plan {
        let plans = if of_phaser { &mut self.advances } else { &mut self.actions };
        plans.entry(number).or_default()
    }

    fn number_of(&self, phaser: Option<Arc<Phaser>>) -> i32 {
        let same = |other| phaser.as_ref().is_some_and(|phaser| Arc::ptr_eq(phaser, other));
        self.phasers.iter().position(same).map_or(-1, |place| place as i32)
    }

    fn go(&mut self) {
        let gate = Arc::new(Gate(AtomicUsize::new(self.listed.len())));
        std::mem::take(&mut self.listed).values().for_each(|actor| actor.tell(Order::List(gate.clone())));
    }
}

fn call_of_phaser(phaser: Arc<Phaser>, method: String, number: i32, length: Option<i64>) -> Call {
    Box::new(move || {
        let value = match method.as_str() {
            "register" => phaser.bulk_register(1)?,
            "bulkRegister" => phaser.bulk_register(number)?,
            "arrive" => phaser.arrive(false)?,
            "arriveAndDeregister" => phaser.arrive(true)?,
            "arriveAndAwaitAdvance" => phaser.arrive_and_await_advance()?,
            "awaitAdvance" => phaser.await_advance(number)?,
            "awaitAdvanceInterruptibly" => phaser.await_advance_interruptibly(number, &Time::of(length))?,
            "forceTermination" => {
                phaser.force_termination();
                return Ok(None);
            }
            "getPhase" => phaser.phase(),
            "getRegisteredParties" => phaser.registered_parties(),
            "getArrivedParties" => phaser.arrived_parties(),
            "getUnarrivedParties" => phaser.unarrived_parties(),
            "isTerminated" => phaser.is_terminated().into(),
            "getParent" => world().number_of(phaser.parent()),
            _ => world().number_of(Some(phaser.root())),
        };
        Ok(Some(value))
    })
}

fn call_of_barrier(barrier: Arc<CyclicBarrier>, method: String, length: Option<i64>) -> Call {
    Box::new(move || match method.as_str() {
        "await" => barrier.wait(&Time::of(length)).map(Some),
        "reset" => barrier.reset().map(|()| None),
        "isBroken" => Ok(Some(barrier.is_broken().into())),
        "getNumberWaiting" => barrier.number_waiting().map(Some),
        _ => Ok(Some(barrier.parties())),
    })
}

// ---------------------------------------------------------------- the reader of commands

fn read<T: FromStr>(word: &str) -> T {
    word.parse().unwrap_or_else(|_| panic!("{word} is no number"))
}

fn carry_out(command: &str, words: &[&str]) {
    let mut world = world();
    match command {
        "case" => {
            world.begin();
            say("ok");
        }
        "phaser" | "barrier" => say(&words_of(world.make(command, words).map(|()| None))),
        "lists" => say("ok"),
        "live" => say("no there is no collector"),
        "so-far" => say(&(world.actors.values().map(|actor| actor.so_far()).collect::<String>() + "ok")),
        "advance" | "action" => {
            let plan = world.plan(command == "advance", read(words[0]));
            plan.lasts = read(words[1]);
            plan.number = read(words[2]);
        }
        "inside" => {
            let call = world.call_of(&words[3..]);
            let plan = world.plan(words[0] == "phaser", read(words[1]));
            Arc::get_mut(&mut plan.inside).unwrap().push((read(words[2]), call));
            say("ok");
        }
        "list" => {
            let actor = world.actor(read(words[0]));
            let call = world.call_of(&words[3..]);
            actor.list.lock().unwrap().steps.push(Step { number: read(words[1]), pause_before: read(words[2]), call });
            world.listed.insert(actor.number, actor);
        }
        "go" => world.go(),
        _ => {
            let actor = world.actor(read(words[0]));
            match command {
                "call" => actor.tell(Order::Call(world.call_of(&words[1..]))),
                "answer" => actor.tell(Order::Answer(read(words[1]))),
                "throw" => actor.tell(Order::Throw(read(words[1]))),
                _ => {
                    drop(world);
                    actor.thread.interrupt();
                }
            }
        }
    }
}

fn main() {
    points::start();
    for line in io::stdin().lines() {
        let line = line.unwrap();
        let words: Vec<&str> = line.split(' ').collect();
        carry_out(words[0], &words[1..]);
    }
    process::exit(0); // whatever the threads do
}
