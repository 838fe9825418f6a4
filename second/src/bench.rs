//! The joined bench: a master whose lines reach one slave, number 0.

use crate::core::{Core, Outputs};
use crate::registers::Answer;
use crate::transfer::Step;

#[derive(Clone, Copy, Debug, PartialEq, Eq)]
pub enum Side {
    Master,
    Slave,
}

/// Answer to an access on one side.
#[derive(Clone, Copy, Debug, PartialEq, Eq)]
pub struct BenchAnswer {
    pub answer: Answer,
    /// The line step the slave got after it; a refused access gives none.
    pub slave_step: Option<Step>,
}

/// What one joined tick came to on each side.
#[derive(Clone, Copy, Debug, PartialEq, Eq)]
pub struct BenchTick {
    pub master: Step,
    pub slave: Step,
}

#[derive(Clone, Copy, Debug, PartialEq, Eq)]
pub enum RunEnd {
    /// The master is idle with an empty Tx store.
    Drained,
    LimitSpent,
}

/// Which end a run came to, and the ticks it used.
#[derive(Clone, Copy, Debug, PartialEq, Eq)]
pub struct Run {
    pub end: RunEnd,
    pub ticks: u64,
}

/// The lines both sides show.
#[derive(Clone, Copy, Debug, PartialEq, Eq)]
pub struct BenchLines {
    pub master: Outputs,
    pub slave: Outputs,
}

#[derive(Clone, Debug, PartialEq, Eq)]
pub struct Bench {
    master: Core,
    slave: Core,
}

impl Bench {
    /// Joins two cores; the slave gets the lines at once, and that step is answered too.
    pub fn join(master: Core, slave: Core) -> (Bench, Step) {
        let mut bench = Bench { master, slave };
        let step = bench.step_slave();
        (bench, step)
    }

    pub fn master(&self) -> &Core {
        &self.master
    }

    pub fn slave(&self) -> &Core {
        &self.slave
    }

    pub fn read(&mut self, side: Side, offset: u32, lanes: u8) -> BenchAnswer {
        let answer = self.side(side).read(offset, lanes);
        self.after_access(answer)
    }

    pub fn write(&mut self, side: Side, offset: u32, lanes: u8, value: u32) -> BenchAnswer {
        let answer = self.side(side).write(offset, lanes, value);
        self.after_access(answer)
    }

    /// 01, "The joined bench": the master sees the slave's MISO from before, then the
    /// slave gets the new lines.
    pub fn tick(&mut self) -> BenchTick {
        let miso = self.slave.miso();
        BenchTick {
            master: self.master.tick(miso),
            slave: self.step_slave(),
        }
    }

    /// Ticks until the master is drained or the limit is spent; drained wins.
    pub fn run(&mut self, limit: u64) -> Run {
        let mut ticks = 0;
        loop {
            if self.is_drained() {
                let end = RunEnd::Drained;
                return Run { end, ticks };
            }
            if ticks == limit {
                let end = RunEnd::LimitSpent;
                return Run { end, ticks };
            }
            self.tick();
            ticks += 1;
        }
    }

    pub fn lines(&self) -> BenchLines {
        BenchLines {
            master: self.master.outputs(),
            slave: self.slave.outputs(),
        }
    }

    fn is_drained(&self) -> bool {
        self.master.is_idle() && self.master.tx_held().is_empty()
    }

    fn side(&mut self, side: Side) -> &mut Core {
        match side {
            Side::Master => &mut self.master,
            Side::Slave => &mut self.slave,
        }
    }

    // "It gets them when joined and after every accepted access too".
    fn after_access(&mut self, answer: Answer) -> BenchAnswer {
        let slave_step = answer.is_accepted().then(|| self.step_slave());
        BenchAnswer { answer, slave_step }
    }

    // The slave is number 0, so its SPISEL is the master's SS bit 0.
    fn step_slave(&mut self) -> Step {
        let spisel = self.master.ss() & 1 == 1;
        self.slave
            .line_step(spisel, self.master.sck(), self.master.mosi)
    }
}
