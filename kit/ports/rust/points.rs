//! Points: places at which a thread may stand still until others have gone some steps, so that races of two instructions come
//! about (docs/PORTING.md, "Points"). Without POINTS=SEED in the environment a point is one branch.
//!
//! Put these types in place of those of `std::sync`, and `at(|| ..)` around whatever else others can see: a park, an unpark.
//! `main` calls `start` first, and the adapter calls `list` when a thread begins a list.
#![allow(dead_code)] // no port uses all of them

use std::cell::Cell;
use std::ops::{Deref, DerefMut};
use std::sync::atomic::{self, Ordering, Ordering::Relaxed};
use std::sync::{self, LockResult, WaitTimeoutResult};
use std::thread;
use std::time::{Duration, Instant};

/// Who stands lets so many points of all threads go by, at most.
const MOST_PASSED: u64 = 128;
/// It goes on sooner if nobody passes one from look to look, so often: all others may be waiting for it.
const MOST_IDLE: u32 = 40;
/// On a busy machine a look may take long.
const LONGEST: Duration = Duration::from_millis(20);

static ON: atomic::AtomicBool = atomic::AtomicBool::new(false);
static SEED: atomic::AtomicU64 = atomic::AtomicU64::new(0);
static PASSED: atomic::AtomicU64 = atomic::AtomicU64::new(0);
static THREADS: atomic::AtomicU64 = atomic::AtomicU64::new(0);

thread_local! {
    /// Of this thread's random numbers; 0 where it hasn't drawn any.
    static STATE: Cell<u64> = const { Cell::new(0) };
    /// So many points before it stands; 0 where it doesn't any more.
    static LEFT: Cell<u64> = const { Cell::new(0) };
    /// So often it stands after that.
    static MORE: Cell<u64> = const { Cell::new(0) };
}

pub fn start() {
    let text = std::env::var_os("POINTS").unwrap_or_default();
    if text.is_empty() {
        return;
    }
    let digits = text.to_str().filter(|text| text.bytes().all(|letter| letter.is_ascii_digit()));
    let Some(seed) = digits.and_then(|digits| digits.parse().ok()) else {
        eprintln!("POINTS has to be a number, and is {}", text.to_string_lossy());
        std::process::exit(2);
    };
    SEED.store(seed, Relaxed);
    ON.store(true, Ordering::SeqCst);
}

/// The next number of the thread, from 0, below this one.
fn random(below: u64) -> u64 {
    let begin = || (SEED.load(Relaxed) << 20 | THREADS.fetch_add(1, Relaxed)).wrapping_mul(0x9e37_79b9_7f4a_7c15) | 1;
    let mut state = if STATE.get() == 0 { begin() } else { STATE.get() };
    state ^= state << 13;
    state ^= state >> 7;
    state ^= state << 17;
    STATE.set(state);
    (state.wrapping_mul(0x2545_f491_4f6c_dd1d) >> 20) % below
}

/// A random number from 1; of two sizes each comes as often.
fn some(most: u64) -> u64 {
    1 + random(2 << random(u64::from(most.ilog2())))
}

/// The thread begins a list. In every other one it stands, 2 to 33 times: it falls behind in every call, while others run freely.
pub fn list() {
    if ON.load(Relaxed) {
        MORE.set(some(32));
        LEFT.set(if random(2) == 0 { some(64) } else { 0 });
    }
}

#[inline(always)]
pub fn point() {
    if ON.load(Relaxed) {
        pass();
    }
}

#[cold]
fn pass() {
    PASSED.fetch_add(1, Relaxed); // relaxed: it mustn't put in order what the port leaves open
    let left = LEFT.get();
    LEFT.set(left.saturating_sub(1));
    if left == 1 {
        stand();
        LEFT.set(if MORE.get() > 0 { some(32) } else { 0 });
        MORE.set(MORE.get().saturating_sub(1));
    }
}

/// Until others have passed some points. That isn't a time, so it works on a quiet machine and on a busy one.
fn stand() {
    let mut seen = PASSED.load(Relaxed);
    let until = seen + some(MOST_PASSED);
    let end = Instant::now() + LONGEST;
    let mut idle = 0;
    while seen < until && idle < MOST_IDLE && Instant::now() < end {
        thread::sleep(Duration::from_micros(20));
        let now = PASSED.load(Relaxed);
        idle = if now == seen { idle + 1 } else { 0 };
        seen = now;
    }
}

/// Does a step between two points.
#[inline(always)]
pub fn at<T>(step: impl FnOnce() -> T) -> T {
    point();
    let answer = step();
    point();
    answer
}

// ---------------------------------------------------------------- what stands in place of std's

macro_rules! atomic_type {
    ($name:ident, $value:ty) => {
        #[derive(Default)]
        pub struct $name(atomic::$name);

        impl $name {
            pub const fn new(value: $value) -> Self {
                Self(atomic::$name::new(value))
            }

            pub fn load(&self, order: Ordering) -> $value {
                at(|| self.0.load(order))
            }

            pub fn store(&self, value: $value, order: Ordering) {
                at(|| self.0.store(value, order))
            }

            pub fn swap(&self, value: $value, order: Ordering) -> $value {
                at(|| self.0.swap(value, order))
            }

            pub fn compare_exchange(
                &self, old: $value, new: $value, order: Ordering, failed: Ordering,
            ) -> Result<$value, $value> {
                at(|| self.0.compare_exchange(old, new, order, failed))
            }

            pub fn fetch_or(&self, value: $value, order: Ordering) -> $value {
                at(|| self.0.fetch_or(value, order))
            }
        }
    };
}

macro_rules! counting {
    ($name:ident, $value:ty) => {
        atomic_type!($name, $value);

        impl $name {
            pub fn fetch_add(&self, value: $value, order: Ordering) -> $value {
                at(|| self.0.fetch_add(value, order))
            }

            pub fn fetch_sub(&self, value: $value, order: Ordering) -> $value {
                at(|| self.0.fetch_sub(value, order))
            }
        }
    };
}

atomic_type!(AtomicBool, bool);
counting!(AtomicU32, u32);
counting!(AtomicU64, u64);
counting!(AtomicUsize, usize);

pub struct AtomicPtr<T>(atomic::AtomicPtr<T>);

impl<T> AtomicPtr<T> {
    pub const fn new(value: *mut T) -> Self {
        Self(atomic::AtomicPtr::new(value))
    }

    pub fn load(&self, order: Ordering) -> *mut T {
        at(|| self.0.load(order))
    }

    pub fn store(&self, value: *mut T, order: Ordering) {
        at(|| self.0.store(value, order))
    }

    pub fn swap(&self, value: *mut T, order: Ordering) -> *mut T {
        at(|| self.0.swap(value, order))
    }

    pub fn compare_exchange(
        &self, old: *mut T, new: *mut T, order: Ordering, failed: Ordering,
    ) -> Result<*mut T, *mut T> {
        at(|| self.0.compare_exchange(old, new, order, failed))
    }
}

#[derive(Default)]
pub struct Mutex<T>(sync::Mutex<T>);

/// Empty only while it is given back.
pub struct MutexGuard<'a, T>(Option<sync::MutexGuard<'a, T>>);

impl<T> Mutex<T> {
    pub const fn new(value: T) -> Self {
        Self(sync::Mutex::new(value))
    }

    pub fn lock(&self) -> LockResult<MutexGuard<'_, T>> {
        Ok(MutexGuard(Some(at(|| self.0.lock().unwrap()))))
    }
}

impl<T> Deref for MutexGuard<'_, T> {
    type Target = T;

    fn deref(&self) -> &T {
        self.0.as_ref().unwrap()
    }
}

impl<T> DerefMut for MutexGuard<'_, T> {
    fn deref_mut(&mut self) -> &mut T {
        self.0.as_mut().unwrap()
    }
}

impl<T> Drop for MutexGuard<'_, T> {
    fn drop(&mut self) {
        if let Some(guard) = self.0.take() {
            at(|| drop(guard));
        }
    }
}

#[derive(Default)]
pub struct Condvar(sync::Condvar);

impl Condvar {
    pub const fn new() -> Self {
        Self(sync::Condvar::new())
    }

    pub fn notify_one(&self) {
        at(|| self.0.notify_one())
    }

    pub fn notify_all(&self) {
        at(|| self.0.notify_all())
    }

    pub fn wait<'a, T>(&self, mut guard: MutexGuard<'a, T>) -> LockResult<MutexGuard<'a, T>> {
        let held = guard.0.take().unwrap();
        Ok(MutexGuard(Some(at(|| self.0.wait(held).unwrap()))))
    }

    pub fn wait_timeout<'a, T>(
        &self, mut guard: MutexGuard<'a, T>, time: Duration,
    ) -> LockResult<(MutexGuard<'a, T>, WaitTimeoutResult)> {
        let held = guard.0.take().unwrap();
        let (held, outcome) = at(|| self.0.wait_timeout(held, time).unwrap());
        Ok((MutexGuard(Some(held)), outcome))
    }
}
