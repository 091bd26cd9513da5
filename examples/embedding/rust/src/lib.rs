//! A small port of Java's `Phaser`: one phaser, and the calls that never wait. One is right, and one has a fault.

/// A call throws.
#[derive(Clone, Copy, Debug, PartialEq, Eq)]
pub struct IllegalState;

/// What is called.
#[derive(Clone, Copy, Debug, PartialEq, Eq)]
pub enum Call {
    Register,
    Arrive,
    ArriveAndDeregister,
    ForceTermination,
}

/// When a party that leaves is taken away.
#[derive(Clone, Copy, Debug, PartialEq, Eq)]
pub enum Leaves {
    /// Before the phase ends: right.
    Before,
    /// Behind its end, so that the next phase waits for it too: a fault.
    Behind,
}

pub struct Phaser {
    phase: i32,
    parties: u32,
    unarrived: u32,
    terminated: bool,
    leaves: Leaves,
}

impl Phaser {
    pub fn new(parties: u32, leaves: Leaves) -> Phaser {
        Phaser { phase: 0, parties, unarrived: parties, terminated: false, leaves }
    }

    pub fn view(&self) -> i32 {
        if self.terminated { self.phase.wrapping_add(i32::MIN) } else { self.phase }
    }

    pub fn parties(&self) -> u32 {
        self.parties
    }

    /// Does a call, and answers what it answers.
    pub fn call(&mut self, call: Call) -> Result<Option<i32>, IllegalState> {
        match call {
            Call::Register => self.register().map(Some),
            Call::Arrive => self.arrive(false).map(Some),
            Call::ArriveAndDeregister => self.arrive(true).map(Some),
            Call::ForceTermination => {
                self.terminated = true;
                Ok(None)
            }
        }
    }

    fn register(&mut self) -> Result<i32, IllegalState> {
        if self.terminated {
            return Ok(self.view());
        }
        if self.parties == 65535 {
            return Err(IllegalState);
        }
        self.parties += 1;
        self.unarrived += 1;
        Ok(self.phase)
    }

    fn arrive(&mut self, leaves: bool) -> Result<i32, IllegalState> {
        if self.terminated {
            return Ok(self.view());
        }
        if self.unarrived == 0 {
            return Err(IllegalState);
        }
        let phase = self.phase;
        self.unarrived -= 1;
        if leaves && self.leaves == Leaves::Before {
            self.parties -= 1;
        }
        if self.unarrived == 0 {
            self.terminated = self.parties == 0;
            self.phase = self.phase.wrapping_add(1) & i32::MAX;
            self.unarrived = self.parties;
        }
        if leaves && self.leaves == Leaves::Behind {
            self.parties -= 1;
        }
        Ok(phase)
    }
}
