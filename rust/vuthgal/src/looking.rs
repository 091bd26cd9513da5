//! A look at a session: the structs of the header, and the state that they say.
use crate::state::{Barrier, Entry, Phaser, State, Status, Thread, Word};
use crate::{answer, unknown, Fault, Session};
use vuthgal_sys as sys;

/// What a look writes: so much room is always enough.
pub(crate) struct Look {
    state: sys::vuthgal_state,
    threads: [sys::vuthgal_thread; 64],
    phasers: [sys::vuthgal_phaser; 64],
    barriers: [sys::vuthgal_barrier; 64],
    pub(crate) cells: [i32; 32],
}

impl Look {
    pub(crate) fn at(session: &Session) -> Result<Look, Fault> {
        let mut look = Look {
            state: Default::default(),
            threads: [Default::default(); 64],
            phasers: [Default::default(); 64],
            barriers: [Default::default(); 64],
            cells: [0; 32],
        };
        let (threads, phasers) = (look.threads.as_mut_ptr(), look.phasers.as_mut_ptr());
        let (barriers, cells) = (look.barriers.as_mut_ptr(), look.cells.as_mut_ptr());
        let at = session.at();
        let status = unsafe { sys::vuthgal_session_look(at, &mut look.state, threads, 64, phasers, 64, barriers, 64, cells, 32) };
        answer((status, Vec::new(), Vec::new()))?;
        Ok(look)
    }

    pub(crate) fn standing(&self) -> u8 {
        self.state.standing
    }

    pub(crate) fn threads(&self) -> &[sys::vuthgal_thread] {
        &self.threads[..usize::from(self.state.threads)]
    }

    pub(crate) fn phasers(&self) -> &[sys::vuthgal_phaser] {
        &self.phasers[..usize::from(self.state.phasers)]
    }

    pub(crate) fn barriers(&self) -> &[sys::vuthgal_barrier] {
        &self.barriers[..usize::from(self.state.barriers)]
    }

    /// The state. Stacks and outputs are asked of the session.
    pub(crate) fn state(&self, session: &Session) -> Result<State, Fault> {
        let phaser = |(number, it): (usize, &sys::vuthgal_phaser)| Phaser {
            number: number as u8,
            view: it.phase,
            parties: it.parties,
            arrived: it.arrived,
            unarrived: it.unarrived,
        };
        let barrier = |(number, it): (usize, &sys::vuthgal_barrier)| Barrier {
            number: number as u8,
            waiting: it.waiting,
            broken: it.broken != 0,
        };
        let cells = self.cells.iter().enumerate().filter(|(_, value)| **value != 0);
        Ok(State {
            choices: self.state.choices,
            steps: self.state.steps.into(),
            word: word(self.standing())?,
            threads: self.threads().iter().enumerate().map(|(number, it)| thread(session, number as u8, it)).collect::<Result<_, _>>()?,
            phasers: self.phasers().iter().enumerate().map(phaser).collect(),
            barriers: self.barriers().iter().enumerate().map(barrier).collect(),
            cells: cells.map(|(number, value)| (number as u8, *value)).collect(),
        })
    }
}

fn word(standing: u8) -> Result<Word, Fault> {
    match standing {
        sys::VUTHGAL_LIVE => Ok(Word::Live),
        sys::VUTHGAL_STUCK => Ok(Word::Stuck),
        sys::VUTHGAL_ALL => Ok(Word::All),
        _ => Err(unknown(format!("standing {standing}"))),
    }
}

fn thread(session: &Session, number: u8, it: &sys::vuthgal_thread) -> Result<Thread, Fault> {
    let status = match it.status {
        sys::VUTHGAL_RUNS => Status::Runs,
        sys::VUTHGAL_THROWS => Status::Throws,
        sys::VUTHGAL_AWAITS_PHASE | sys::VUTHGAL_AWAITS_BARRIER => Status::Waits,
        sys::VUTHGAL_ENDED => Status::Ended,
        sys::VUTHGAL_DIED => Status::Died,
        _ => return Err(unknown(format!("status {} of a thread", it.status))),
    };
    Ok(Thread {
        number,
        row: it.row,
        status,
        exception: matches!(status, Status::Throws | Status::Died).then(|| it.value),
        interrupted: it.interrupted != 0,
        registers: it.registers,
        stack: entries(session, number, it)?.iter().map(entry).collect::<Result<_, _>>()?,
        out: values(session, number, it)?,
    })
}

fn entry(it: &sys::vuthgal_entry) -> Result<Entry, Fault> {
    match it.kind {
        sys::VUTHGAL_CALL => Ok(Entry::Call { row: it.number }),
        sys::VUTHGAL_HANDLER => Ok(Entry::Handler { row: it.number }),
        sys::VUTHGAL_ROUTINE => Ok(Entry::Routine { root: it.number }),
        sys::VUTHGAL_ACTION => Ok(Entry::Action { barrier: it.number }),
        _ => Err(unknown(format!("entry {}", it.kind))),
    }
}

/// The stack of a thread that was looked at.
pub(crate) fn entries(session: &Session, thread: u8, it: &sys::vuthgal_thread) -> Result<Vec<sys::vuthgal_entry>, Fault> {
    let mut entries = vec![sys::vuthgal_entry::default(); it.entries.into()];
    let mut count = entries.len();
    if count != 0 {
        let status = unsafe { sys::vuthgal_session_stack(session.at(), thread, entries.as_mut_ptr(), entries.len(), &mut count) };
        answer((status, Vec::new(), Vec::new()))?;
    }
    Ok(entries)
}

/// What a thread that was looked at put out.
pub(crate) fn values(session: &Session, thread: u8, it: &sys::vuthgal_thread) -> Result<Vec<i32>, Fault> {
    let mut values = vec![0; it.outputs.into()];
    let mut count = values.len();
    if count != 0 {
        let status = unsafe { sys::vuthgal_session_outputs(session.at(), thread, values.as_mut_ptr(), values.len(), &mut count) };
        answer((status, Vec::new(), Vec::new()))?;
    }
    Ok(values)
}
