//! The lists of demand 3 for one core, kept from calls and answers alone. What was sent is
//! put together from the levels of the line, not taken from the core.

use crate::common::*;
use second::core::Core;
use second::transfer::{Outcome, Step};

/// The lines around a tick or line step.
#[derive(Clone, Copy)]
pub struct Wire {
    pub sck_before: bool,
    pub sck_after: bool,
    /// Level this core gave, and the level it was given.
    pub out: bool,
    pub given: bool,
}

pub struct Ledger {
    width: u32,
    depth: u32,
    spicr: u32,
    accepted: Vec<u32>,
    sent: Vec<u32>,
    /// Received, less those marked lost.
    received: Vec<u32>,
    read: Vec<u32>,
    /// Levels at the last sampling edges, the newest in bit 0.
    levels_out: u32,
    levels_given: u32,
    edges_since_starved: u32,
}

impl Ledger {
    /// For a core at power-on.
    pub fn new(core: &Core) -> Ledger {
        Ledger {
            width: core.width(),
            depth: core.depth(),
            spicr: 0x180,
            accepted: vec![],
            sent: vec![],
            received: vec![],
            read: vec![],
            levels_out: 0,
            levels_given: 0,
            edges_since_starved: u32::MAX,
        }
    }

    pub fn spicr(&self) -> u32 {
        self.spicr
    }

    /// CPOL, CPHA and bit order as last written.
    pub fn mode(&self) -> Mode {
        Mode {
            width: self.width,
            cpol: self.spicr & CPOL != 0,
            cpha: self.spicr & CPHA != 0,
            lsb_first: self.spicr & LSB_FIRST != 0,
        }
    }

    pub fn note_accepted_write(&mut self, offset: u32, value: u32) {
        let (mut clears_tx, mut clears_rx) = (false, false);
        match offset {
            SPIDTR => self.accepted.push(cut(value, self.width)),
            SRR => {
                self.spicr = 0x180;
                (clears_tx, clears_rx) = (true, true);
            }
            SPICR => {
                self.spicr = value & 0x39F;
                clears_tx = self.depth == 16 && value & TX_RESET != 0;
                clears_rx = self.depth == 16 && value & RX_RESET != 0;
            }
            _ => {}
        }
        if clears_tx {
            self.accepted.clear();
            self.sent.clear();
        }
        if clears_rx {
            self.received.clear();
            self.read.clear();
        }
    }

    pub fn note_accepted_read(&mut self, offset: u32, value: u32) {
        if offset == SPIDRR {
            self.read.push(value);
        }
    }

    pub fn note_step(&mut self, wire: Wire, step: Step) {
        match step.outcome {
            Outcome::Nothing | Outcome::AbandonedBySpisel => return,
            Outcome::StartedStarved => self.edges_since_starved = 0,
            _ if wire.sck_before != wire.sck_after => {
                self.edges_since_starved = self.edges_since_starved.saturating_add(1);
            }
            // A start or gap tick.
            _ => return,
        }
        let mode = self.mode();
        let edge_parity = u32::from(wire.sck_after != mode.cpol);
        if mode.samples_at(edge_parity) {
            self.levels_out = self.levels_out << 1 | u32::from(wire.out);
            self.levels_given = self.levels_given << 1 | u32::from(wire.given);
        }
        if matches!(step.outcome, Outcome::Stored | Outcome::Lost) {
            self.note_finish(step);
        }
    }

    fn note_finish(&mut self, step: Step) {
        let sent = self.element_of(self.levels_out);
        // An abandoned starved start has at least 2N edges between it and the next finish.
        if self.edges_since_starved == 2 * self.width - 1 {
            assert_eq!(sent, 0, "a starved transfer gives zero");
        } else {
            self.sent.push(sent);
        }
        assert_eq!(step.element, self.element_of(self.levels_given));
        if step.outcome == Outcome::Stored {
            self.received.push(step.element);
        }
    }

    fn element_of(&self, levels: u32) -> u32 {
        let msb_first = cut(levels, self.width);
        if self.mode().lsb_first {
            reversed(msb_first, self.width)
        } else {
            msb_first
        }
    }

    /// Accepted = sent ++ held; received less lost = read ++ held.
    pub fn check(&self, core: &Core) {
        let (sent, held) = self.accepted.split_at(self.sent.len());
        assert_eq!(sent, self.sent);
        assert_eq!(*core.tx_held(), held);
        let (read, held) = self.received.split_at(self.read.len());
        assert_eq!(read, self.read);
        assert_eq!(*core.rx_held(), held);
    }
}

/// Some SPICR value: mostly enabled and uninhibited, otherwise anything.
pub fn any_control(rng: &mut rng::Rng) -> u32 {
    let anything = rng.next() & 0x39F;
    match rng.below(4) {
        0 => anything,
        _ => (anything | ENABLE) & !INHIBIT,
    }
}

/// Any access, most of them to a place with a register and with all lanes.
pub fn any_place(rng: &mut rng::Rng) -> (u32, u8) {
    // SPICR, SRR and SPIDRR have their own places in a storm.
    let registers = [DGIER, IPISR, IPIER, SPISR, TX_OCCUPANCY, RX_OCCUPANCY];
    match rng.below(8) {
        0 => (rng.below(0x100), ALL_LANES),
        1 => (SPIDRR, rng.below(15) as u8),
        _ => (registers[rng.below(6) as usize], ALL_LANES),
    }
}
