//! Threads with an interrupted status, which Rust's own don't have, times, and what the calls of a port throw.

use crate::points::{AtomicBool, Condvar, Mutex, MutexGuard};
use std::cell::RefCell;
use std::sync::atomic::Ordering::SeqCst;
use std::sync::Arc;
use std::time::{Duration, Instant};

/// What a call throws.
pub enum Thrown {
    IllegalState,
    IllegalArgument,
    Interrupted,
    BrokenBarrier,
    TimedOut,
    /// What an `on_advance` or an action throws where the player says so.
    Through(i32),
}

pub type Answer<T> = Result<T, Thrown>;

/// How long a wait may take; without a length it has no end.
pub struct Time {
    begun: Instant,
    length: Option<i64>,
}

impl Time {
    pub fn of(length: Option<i64>) -> Time {
        Time { begun: Instant::now(), length }
    }

    /// In nanoseconds. Nothing is added to the length, so that the longest one doesn't overflow.
    fn left(&self) -> Option<i128> {
        self.length.map(|length| i128::from(length) - self.begun.elapsed().as_nanos() as i128)
    }

    pub fn is_over(&self) -> bool {
        self.left().is_some_and(|left| left <= 0)
    }

    /// What is left of it, or an hour where that is less: who waits looks again then.
    fn wait(&self) -> Duration {
        let hour = Duration::from_secs(3600);
        self.left().map_or(hour, |left| hour.min(Duration::from_nanos(left.clamp(0, i128::from(i64::MAX)) as u64)))
    }
}

/// A state under a lock, and the condition that is notified whenever something changes that somebody may wait for.
pub struct Monitor<S> {
    state: Mutex<S>,
    changed: Condvar,
}

impl<S: Send + 'static> Monitor<S> {
    pub fn new(state: S) -> Arc<Monitor<S>> {
        Arc::new(Monitor { state: Mutex::new(state), changed: Condvar::new() })
    }

    pub fn lock(&self) -> MutexGuard<'_, S> {
        self.state.lock().unwrap()
    }

    pub fn notify_all(&self) {
        self.changed.notify_all();
    }

    /// Waits until it is notified, whatever the interrupted status, or for no reason.
    pub fn wait<'a>(&self, state: MutexGuard<'a, S>) -> MutexGuard<'a, S> {
        self.changed.wait(state).unwrap()
    }

    /// Waits until it is notified, interrupted, or out of time, or for no reason.
    pub fn wait_interruptibly<'a>(self: &Arc<Self>, state: MutexGuard<'a, S>, time: &Time) -> MutexGuard<'a, S> {
        let thread = Thread::current();
        *thread.waits_at.lock().unwrap() = Some(self.clone()); // before the look at the status, which `interrupt` sets first
        let state =
            if thread.is_interrupted() { state } else { self.changed.wait_timeout(state, time.wait()).unwrap().0 };
        *thread.waits_at.lock().unwrap() = None;
        state
    }
}

trait Wake: Send + Sync {
    fn wake(&self);
}

impl<S: Send + 'static> Wake for Monitor<S> {
    /// The lock is free only once the thread sleeps, so this can't come too early for it.
    fn wake(&self) {
        let _lock = self.lock();
        self.notify_all();
    }
}

/// A thread that others can interrupt. Only such threads may call a phaser or a barrier.
#[derive(Default)]
pub struct Thread {
    interrupted: AtomicBool,
    waits_at: Mutex<Option<Arc<dyn Wake>>>,
}

thread_local!(static CURRENT: RefCell<Arc<Thread>> = RefCell::default());

impl Thread {
    /// The thread that calls this.
    pub fn current() -> Arc<Thread> {
        CURRENT.with(|current| current.borrow().clone())
    }

    /// From now on the thread that calls this is `thread`.
    pub fn become_current(thread: Arc<Thread>) {
        CURRENT.with(|current| current.replace(thread));
    }

    /// Sets the status, and wakes the thread where it waits interruptibly.
    pub fn interrupt(&self) {
        self.interrupted.store(true, SeqCst);
        let at = self.waits_at.lock().unwrap().clone();
        if let Some(monitor) = at {
            monitor.wake();
        }
    }

    pub fn is_interrupted(&self) -> bool {
        self.interrupted.load(SeqCst)
    }

    /// Whether the status was set; it is clear then.
    pub fn clear_interrupted(&self) -> bool {
        self.interrupted.swap(false, SeqCst)
    }
}
