//! How many steps a session of the program makes for its replies. It holds machines of the run at multiples of a distance, which follows
//! from its greatest step, and makes the steps from the last one that still shows the run.

/// The most machines that are held after the one before step 0, and the least distance of two.
const MOST_HELD: u64 = 4096;
const LEAST_APART: u64 = 1024;

pub struct Work {
    apart: u64,
    /// The step of the last machine that is held.
    last: u64,
    made: u64,
}

impl Work {
    /// Returns the work of a session before its first line. Its machines are a power of two apart: the least with which as many as it may
    /// hold reach the greatest step.
    pub fn new(limit: u32) -> Work {
        let mut apart = LEAST_APART;
        while MOST_HELD * apart < u64::from(limit) {
            apart *= 2;
        }
        Work { apart, last: 0, made: 0 }
    }

    pub fn made(&self) -> u64 {
        self.made
    }

    /// Returns the step of the last machine that is held. No edit that shows first at this step or later drops a machine.
    pub fn last(&self) -> u64 {
        self.last
    }

    /// Counts the steps up to the machine before a step. Those at multiples of the distance on the way are held.
    pub fn show(&mut self, step: u64) {
        let held = step / self.apart * self.apart;
        self.made += step - self.last.min(held);
        self.last = self.last.max(held);
    }

    /// Drops the machines after a step, which is the first whose outcome an edit changes, or that a mark comes before.
    pub fn keep(&mut self, step: u64) {
        self.last = self.last.min(step / self.apart * self.apart);
    }
}
