//! Transfers: a master's ticks and a slave's line steps.

use crate::core::{Core, Lines};
use crate::registers::flag;

/// What a tick or line step came to, with the numbers of document 01.
#[derive(Clone, Copy, Debug, PartialEq, Eq)]
#[repr(u8)]
pub enum Outcome {
    Nothing = 0,
    MovedOn = 1,
    Stored = 2,
    Lost = 3,
    StartedStarved = 4,
    AbandonedBySpisel = 5,
}

impl Outcome {
    pub fn number(self) -> u8 {
        self as u8
    }
}

/// An outcome with the received element (0 unless the transfer finished).
#[derive(Clone, Copy, Debug, PartialEq, Eq)]
pub struct Step {
    pub outcome: Outcome,
    pub element: u32,
}

impl Step {
    fn plain(outcome: Outcome) -> Step {
        let element = 0;
        Step { outcome, element }
    }
}

/// Where a core is in its transfer, as a master or as a slave.
#[derive(Clone, Copy, Debug, PartialEq, Eq)]
pub enum Transfer {
    Idle,
    Shifting(Shift),
    /// A master's finished transfer whose gap tick is still to come.
    Gap,
}

/// An element on its way out and the one coming in.
#[derive(Clone, Copy, Debug, PartialEq, Eq)]
pub struct Shift {
    pub sending: u32,
    pub received: u32,
    /// Edges counted so far, 0 to 2N-1.
    pub edges: u32,
    pub starved: bool,
}

impl Shift {
    // The head is copied: it leaves the store only at the finish.
    fn start(head: Option<&u32>) -> Shift {
        Shift {
            sending: head.copied().unwrap_or(0),
            received: 0,
            edges: 0,
            starved: head.is_none(),
        }
    }
}

impl Core {
    /// One tick (half an SCK period) with the MISO level standing before it.
    pub fn tick(&mut self, miso: bool) -> Step {
        if !self.is_enabled_master() {
            return Step::plain(Outcome::Nothing);
        }
        match self.transfer {
            Transfer::Idle => self.master_start(),
            Transfer::Shifting(shift) => self.master_edge(shift, miso),
            Transfer::Gap => {
                self.transfer = Transfer::Idle;
                Step::plain(Outcome::MovedOn)
            }
        }
    }

    // 01, "A master's ticks": "Start copies the Tx head without removing it and, if CPHA
    // is 0, drives the first bit."
    fn master_start(&mut self) -> Step {
        if self.control.inhibit || self.tx_store.is_empty() {
            return Step::plain(Outcome::Nothing);
        }
        let shift = Shift::start(self.tx_store.front());
        if !self.control.cpha {
            self.mosi = self.bit_of(shift.sending, 0);
        }
        self.transfer = Transfer::Shifting(shift);
        Step::plain(Outcome::MovedOn)
    }

    fn master_edge(&mut self, mut shift: Shift, miso: bool) -> Step {
        shift.edges += 1;
        if self.samples_on(shift.edges) {
            // "Loop makes a master sample its own MOSI".
            let level = if self.control.loopback {
                self.mosi
            } else {
                miso
            };
            self.sample(&mut shift, level);
        } else if shift.edges < 2 * self.width {
            // "The last even edge at CPHA 0 changes nothing."
            self.mosi = self.bit_being_sent(&shift);
        }
        self.after_edge(shift, Transfer::Gap)
    }

    /// One step of the lines that reach this core as a slave.
    pub fn line_step(&mut self, spisel: bool, sck: bool, mosi: bool) -> Step {
        let before = self.seen;
        self.seen = Lines { spisel, sck, mosi };
        // 01, "A slave's lines": "SPISEL is looked at first; on the step where it falls or
        // rises no SCK edge counts."
        if before.spisel && !spisel {
            return self.spisel_falls();
        }
        if !before.spisel && spisel {
            return self.spisel_rises();
        }
        let counts_edges = self.is_enabled_slave() && !spisel && !self.sitting_out;
        if !counts_edges || before.sck == sck {
            return Step::plain(Outcome::Nothing);
        }
        match self.transfer {
            Transfer::Shifting(shift) => self.slave_edge(shift, mosi),
            _ if sck != self.control.cpol => self.slave_start(mosi),
            _ => Step::plain(Outcome::Nothing),
        }
    }

    fn spisel_falls(&mut self) -> Step {
        if self.control.master {
            self.interrupt_status |= flag::MODE_FAULT;
            self.mode_fault = true;
        } else if self.control.enable {
            self.interrupt_status |= flag::SLAVE_SELECTED;
        } else {
            self.interrupt_status |= flag::SLAVE_MODE_FAULT;
        }
        Step::plain(Outcome::Nothing)
    }

    fn spisel_rises(&mut self) -> Step {
        self.sitting_out = false;
        if self.is_enabled_slave() && !self.is_idle() {
            self.abandon();
            return Step::plain(Outcome::AbandonedBySpisel);
        }
        Step::plain(Outcome::Nothing)
    }

    // "If the store is empty it is starved: underrun is set, it sends zeros".
    fn slave_start(&mut self, mosi: bool) -> Step {
        let shift = Shift::start(self.tx_store.front());
        let step = self.slave_edge(shift, mosi);
        if !shift.starved {
            return step;
        }
        self.interrupt_status |= flag::UNDERRUN;
        Step::plain(Outcome::StartedStarved)
    }

    fn slave_edge(&mut self, mut shift: Shift, mosi: bool) -> Step {
        shift.edges += 1;
        if self.samples_on(shift.edges) {
            self.sample(&mut shift, mosi);
        }
        self.after_edge(shift, Transfer::Idle)
    }

    fn after_edge(&mut self, shift: Shift, once_finished: Transfer) -> Step {
        if shift.edges < 2 * self.width {
            self.transfer = Transfer::Shifting(shift);
            return Step::plain(Outcome::MovedOn);
        }
        self.transfer = once_finished;
        self.finish(shift)
    }

    // "At edge 2N the transfer finishes: the Tx head leaves; the received element is
    // stored, or lost if the Rx store is full."
    fn finish(&mut self, shift: Shift) -> Step {
        if !shift.starved {
            self.remove_head();
        }
        let outcome = self.store_received(shift.received);
        let element = shift.received;
        Step { outcome, element }
    }

    fn remove_head(&mut self) {
        self.tx_store.pop_front();
        if self.tx_store.is_empty() {
            self.interrupt_status |= flag::TX_EMPTIED;
        }
        // "depth 16: a finish takes 9 elements to 8"; at depth 0 there are never 8.
        if self.tx_store.len() == 8 {
            self.interrupt_status |= flag::TX_HALF_EMPTY;
        }
    }

    fn store_received(&mut self, element: u32) -> Outcome {
        if self.is_full(self.rx_store.len()) {
            self.interrupt_status |= flag::OVERRUN;
            return Outcome::Lost;
        }
        if self.rx_store.is_empty() && self.depth == 16 && self.is_enabled_slave() {
            self.interrupt_status |= flag::RX_NOT_EMPTY;
        }
        self.rx_store.push_back(element);
        if self.is_full(self.rx_store.len()) {
            self.interrupt_status |= flag::RX_MADE_FULL;
        }
        Outcome::Stored
    }

    // "CPHA 0 samples on odd edges and changes on even ones; CPHA 1 changes on odd,
    // samples on even".
    fn samples_on(&self, edge: u32) -> bool {
        (edge % 2 == 1) != self.control.cpha
    }

    // Each bit has two edges, so the one sampled at edge e is number (e - 1) / 2.
    fn sample(&self, shift: &mut Shift, level: bool) {
        let index = (shift.edges - 1) / 2;
        shift.received |= u32::from(level) << self.bit_place(index);
    }

    /// The bit shown after the edges counted; at CPHA 1 there must have been one.
    pub(crate) fn bit_being_sent(&self, shift: &Shift) -> bool {
        let index = (shift.edges - u32::from(self.control.cpha)) / 2;
        self.bit_of(shift.sending, index)
    }

    /// The bit of `element` that goes over the line at `index`, counted from 0.
    pub(crate) fn bit_of(&self, element: u32, index: u32) -> bool {
        element >> self.bit_place(index) & 1 == 1
    }

    fn bit_place(&self, index: u32) -> u32 {
        if self.control.lsb_first {
            index
        } else {
            self.width - 1 - index
        }
    }
}
