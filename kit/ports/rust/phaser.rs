//! A phaser over one monitor for each tree, as docs/BEHAVIOUR.md has it, headings "Phaser" and below.
//!
//! The trees are small and the rules plain, so nothing here is clever: a call takes the tree's lock, does all that follows from
//! it, and notifies everybody where a phase has ended. `on_advance` alone runs without the lock.

use crate::points::MutexGuard;
use crate::threads::{Answer, Monitor, Thread, Thrown, Time};
use std::sync::Arc;
use std::thread::{self, ThreadId};

const MOST_PARTIES: i32 = 65535;

/// Asked of a root when all have arrived, with the phase and the parties: whether the phaser terminates.
pub type OnAdvance = Box<dyn Fn(i32, i32) -> Answer<bool> + Send + Sync>;

/// What the phasers of a tree have in common, and the counts of each.
struct Tree {
    phase: i32,
    terminated: bool,
    /// Of the root: all have arrived, or the last has left, and the phase hasn't ended.
    turned: bool,
    /// The thread inside `on_advance`.
    runner: Option<ThreadId>,
    counts: Vec<Counts>,
}

struct Counts {
    parent: Option<usize>,
    parties: i32,
    unarrived: i32,
}

pub struct Phaser {
    parent: Option<Arc<Phaser>>,
    tree: Arc<Monitor<Tree>>,
    place: usize,
    on_advance: OnAdvance,
}

impl Tree {
    fn view(&self) -> i32 {
        if self.terminated { self.phase + i32::MIN } else { self.phase }
    }

    fn is_turned(&self, at: usize) -> bool {
        let counts = &self.counts[at];
        if counts.parent.is_none() { self.turned } else { counts.parties > 0 && counts.unarrived == 0 }
    }

    /// The end of a phase; where a forced termination came first there is nothing left to end.
    fn end_phase(&mut self, terminates: bool) {
        if self.terminated {
            return;
        }
        self.phase = if self.phase == i32::MAX { 0 } else { self.phase + 1 };
        self.terminated = terminates;
        self.turned = false;
        for counts in &mut self.counts {
            counts.unarrived = counts.parties;
        }
    }

    /// The phasers that a registration changes, each with the parties it gets: one that is empty joins its parent.
    fn joining(&self, at: usize, count: i32) -> Vec<(usize, i32)> {
        let mut joining = vec![(at, count)];
        let mut at = at;
        while let (0, Some(parent)) = (self.counts[at].parties, self.counts[at].parent) {
            joining.push((parent, 1));
            at = parent;
        }
        joining
    }

    /// The phasers that an arrival changes, each with whether a party departs from it: a complete child arrives at its parent,
    /// and departs from it where its last party departs. Nothing changes where one of them waits for nobody.
    fn arriving(&self, at: usize, mut leaves: bool) -> Answer<Vec<(usize, bool)>> {
        let mut arriving = Vec::new();
        let mut next = Some(at);
        while let Some(at) = next {
            let counts = &self.counts[at];
            if counts.unarrived == 0 {
                return Err(Thrown::IllegalState);
            }
            arriving.push((at, leaves));
            leaves = leaves && counts.parties == 1;
            next = if counts.unarrived > 1 { None } else { counts.parent };
        }
        Ok(arriving)
    }

    fn refuse_inside_on_advance(&self) -> Answer<()> {
        if self.runner == Some(thread::current().id()) { Err(Thrown::IllegalState) } else { Ok(()) }
    }
}

impl Phaser {
    /// The child of `parent`, or, where there is none, a root that begins in phase `first_phase`.
    pub fn new(parent: Option<Arc<Phaser>>, parties: i32, first_phase: i32, on_advance: OnAdvance) -> Answer<Phaser> {
        if !(0..=MOST_PARTIES).contains(&parties) {
            return Err(Thrown::IllegalArgument);
        }
        let tree = match &parent {
            Some(parent) => parent.tree.clone(),
            None => Monitor::new(Tree { phase: first_phase, terminated: false, turned: false, runner: None, counts: vec![] }),
        };
        let mut state = tree.lock();
        let place = state.counts.len();
        state.counts.push(Counts { parent: parent.as_ref().map(|parent| parent.place), parties: 0, unarrived: 0 });
        drop(state);
        let phaser = Phaser { parent, tree, place, on_advance };
        phaser.bulk_register(parties)?;
        Ok(phaser)
    }

    fn lock(&self) -> MutexGuard<'_, Tree> {
        self.tree.lock()
    }

    pub fn parent(&self) -> Option<Arc<Phaser>> {
        self.parent.clone()
    }

    pub fn root(self: &Arc<Phaser>) -> Arc<Phaser> {
        self.parent.as_ref().map_or_else(|| self.clone(), |parent| parent.root())
    }

    pub fn bulk_register(&self, count: i32) -> Answer<i32> {
        let mut tree = self.lock();
        tree.refuse_inside_on_advance()?;
        if count < 0 {
            return Err(Thrown::IllegalArgument);
        }
        while count > 0 && !tree.terminated {
            let joining = tree.joining(self.place, count);
            if joining.iter().any(|&(at, more)| tree.counts[at].parties > MOST_PARTIES - more) {
                return Err(Thrown::IllegalState);
            }
            if !joining.iter().any(|&(at, _)| tree.is_turned(at)) {
                for (at, more) in joining {
                    tree.counts[at].parties += more;
                    tree.counts[at].unarrived += more;
                }
                break;
            }
            tree = self.tree.wait(tree); // until the phase has ended
        }
        Ok(tree.view())
    }

    pub fn arrive(self: &Arc<Phaser>, leaves: bool) -> Answer<i32> {
        let mut tree = self.lock();
        tree.refuse_inside_on_advance()?;
        if tree.terminated {
            return Ok(tree.view());
        }
        let phase = tree.phase;
        let mut ends = false;
        for (at, departs) in tree.arriving(self.place, leaves)? {
            let counts = &mut tree.counts[at];
            counts.unarrived -= 1;
            counts.parties -= i32::from(departs);
            ends = counts.parent.is_none() && counts.unarrived == 0;
        }
        if ends {
            tree.turned = true;
            tree.runner = Some(thread::current().id());
            let root = self.root();
            let parties = tree.counts[root.place].parties;
            drop(tree);
            self.advance((root.on_advance)(phase, parties))?;
        }
        Ok(phase)
    }

    /// Ends the phase, which an exception of `on_advance` doesn't: the root stays turned.
    fn advance(&self, terminates: Answer<bool>) -> Answer<()> {
        let mut tree = self.lock();
        tree.runner = None;
        tree.end_phase(terminates?);
        self.tree.notify_all();
        Ok(())
    }

    pub fn arrive_and_await_advance(self: &Arc<Phaser>) -> Answer<i32> {
        self.await_advance(self.arrive(false)?)
    }

    pub fn await_advance(&self, phase: i32) -> Answer<i32> {
        let mut tree = self.lock();
        tree.refuse_inside_on_advance()?;
        while phase >= 0 && tree.view() == phase {
            tree = self.tree.wait(tree);
        }
        Ok(if phase < 0 { phase } else { tree.view() })
    }

    pub fn await_advance_interruptibly(&self, phase: i32, time: &Time) -> Answer<i32> {
        let mut tree = self.lock();
        tree.refuse_inside_on_advance()?;
        while phase >= 0 && tree.view() == phase {
            if Thread::current().clear_interrupted() {
                return Err(Thrown::Interrupted);
            }
            if time.is_over() {
                return Err(Thrown::TimedOut);
            }
            tree = self.tree.wait_interruptibly(tree, time);
        }
        Ok(if phase < 0 { phase } else { tree.view() })
    }

    pub fn force_termination(&self) {
        self.lock().terminated = true;
        self.tree.notify_all();
    }

    pub fn is_terminated(&self) -> bool {
        self.lock().terminated
    }

    pub fn phase(&self) -> i32 {
        self.lock().view()
    }

    pub fn registered_parties(&self) -> i32 {
        self.lock().counts[self.place].parties
    }

    pub fn unarrived_parties(&self) -> i32 {
        let tree = self.lock();
        if tree.terminated { 0 } else { tree.counts[self.place].unarrived }
    }

    pub fn arrived_parties(&self) -> i32 {
        let tree = self.lock();
        let counts = &tree.counts[self.place];
        if tree.terminated { counts.parties } else { counts.parties - counts.unarrived }
    }
}
