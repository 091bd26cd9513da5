//! A cyclic barrier over one monitor, as docs/BEHAVIOUR.md has it, heading "Cyclic barrier".

use crate::points::{AtomicBool, MutexGuard};
use crate::threads::{Answer, Monitor, Thread, Thrown, Time};
use std::sync::atomic::Ordering::SeqCst;
use std::sync::Arc;
use std::thread::{self, ThreadId};

pub type Action = Box<dyn Fn() -> Answer<()> + Send + Sync>;

/// The arrivals between two ends. Who waits keeps its own, and finds in it how that one ended.
#[derive(Default)]
struct Generation {
    tripped: AtomicBool,
    broken: AtomicBool,
}

#[derive(Default)]
struct State {
    generation: Arc<Generation>,
    waiting: i32,
    /// The thread inside the action.
    runner: Option<ThreadId>,
}

pub struct CyclicBarrier {
    parties: i32,
    action: Option<Action>,
    monitor: Arc<Monitor<State>>,
}

impl CyclicBarrier {
    pub fn new(parties: i32, action: Option<Action>) -> Answer<CyclicBarrier> {
        if parties < 1 {
            return Err(Thrown::IllegalArgument);
        }
        Ok(CyclicBarrier { parties, action, monitor: Monitor::new(State::default()) })
    }

    pub fn parties(&self) -> i32 {
        self.parties
    }

    /// While another thread runs the action nobody is let in.
    fn let_in(&self) -> MutexGuard<'_, State> {
        let mut state = self.monitor.lock();
        while state.runner.is_some_and(|runner| runner != thread::current().id()) {
            state = self.monitor.wait(state);
        }
        state
    }

    /// The same, where the thread that runs the action is refused.
    fn let_in_outside(&self) -> Answer<MutexGuard<'_, State>> {
        let state = self.let_in();
        if state.runner.is_some() { Err(Thrown::IllegalState) } else { Ok(state) }
    }

    /// Waits until all parties have come, and answers the arrival index.
    pub fn wait(&self, time: &Time) -> Answer<i32> {
        let mut state = self.let_in_outside()?;
        if state.generation.broken.load(SeqCst) {
            return Err(Thrown::BrokenBarrier);
        }
        self.break_if_interrupted(&mut state)?;
        let index = self.parties - 1 - state.waiting;
        if index > 0 {
            self.break_if_late(&mut state, time)?;
            return self.wait_for_the_end(state, index, time);
        }
        if let Some(action) = &self.action {
            state.runner = Some(thread::current().id());
            drop(state);
            let outcome = action();
            state = self.monitor.lock();
            state.runner = None;
            if let Err(thrown) = outcome {
                self.break_barrier(&mut state);
                return Err(thrown);
            }
        }
        state.generation.tripped.store(true, SeqCst);
        self.renew(&mut state);
        Ok(0)
    }

    /// How the generation ended counts before an interrupt, and that before the time. While the action runs nobody leaves.
    fn wait_for_the_end(&self, mut state: MutexGuard<'_, State>, index: i32, time: &Time) -> Answer<i32> {
        let mine = state.generation.clone();
        state.waiting += 1;
        while !mine.tripped.load(SeqCst) && !mine.broken.load(SeqCst) {
            if state.runner.is_some() {
                state = self.monitor.wait(state);
                continue;
            }
            self.break_if_interrupted(&mut state)?;
            self.break_if_late(&mut state, time)?;
            state = self.monitor.wait_interruptibly(state, time);
        }
        if mine.broken.load(SeqCst) { Err(Thrown::BrokenBarrier) } else { Ok(index) }
    }

    fn break_if_interrupted(&self, state: &mut State) -> Answer<()> {
        if Thread::current().clear_interrupted() {
            self.break_barrier(state);
            return Err(Thrown::Interrupted);
        }
        Ok(())
    }

    fn break_if_late(&self, state: &mut State, time: &Time) -> Answer<()> {
        if time.is_over() {
            self.break_barrier(state);
            return Err(Thrown::TimedOut);
        }
        Ok(())
    }

    fn break_barrier(&self, state: &mut State) {
        state.generation.broken.store(true, SeqCst);
        state.waiting = 0;
        self.monitor.notify_all();
    }

    fn renew(&self, state: &mut State) {
        state.generation = Arc::default();
        state.waiting = 0;
        self.monitor.notify_all();
    }

    pub fn reset(&self) -> Answer<()> {
        let mut state = self.let_in_outside()?;
        if state.waiting > 0 {
            self.break_barrier(&mut state);
        }
        self.renew(&mut state);
        Ok(())
    }

    pub fn is_broken(&self) -> bool {
        self.let_in().generation.broken.load(SeqCst)
    }

    pub fn number_waiting(&self) -> Answer<i32> {
        Ok(self.let_in_outside()?.waiting)
    }
}
