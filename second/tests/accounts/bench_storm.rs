//! Storms on the joined bench, with demand 3's exchange tried wherever it is promised.

use crate::common::rng::Rng;
use crate::common::*;
use crate::ledger::{any_control, any_place, Ledger, Wire};
use crate::sights::Sights;
use second::bench::{Bench, BenchLines, Side};
use second::core::Core;
use second::transfer::{Outcome, Step};

struct Storm {
    bench: Bench,
    master: Ledger,
    slave: Ledger,
    sights: Sights,
    rng: Rng,
}

impl Storm {
    fn new(master: Core, slave: Core, seed: u64) -> Storm {
        Storm {
            master: Ledger::new(&master),
            slave: Ledger::new(&slave),
            bench: Bench::join(master, slave).0,
            sights: Sights::default(),
            rng: Rng::new(seed),
        }
    }

    fn core_of(&self, side: Side) -> &Core {
        match side {
            Side::Master => self.bench.master(),
            Side::Slave => self.bench.slave(),
        }
    }

    fn ledger_of(&mut self, side: Side) -> &mut Ledger {
        match side {
            Side::Master => &mut self.master,
            Side::Slave => &mut self.slave,
        }
    }

    fn write(&mut self, side: Side, offset: u32, lanes: u8, value: u32) {
        let before = self.bench.clone();
        let was_idle = self.core_of(side).is_idle();
        let done = self.bench.write(side, offset, lanes, value);
        let Some(step) = done.slave_step else {
            assert_eq!(self.bench, before);
            return;
        };
        self.ledger_of(side).note_accepted_write(offset, value);
        let abandoned = !was_idle && self.core_of(side).is_idle();
        match (offset, side) {
            (SRR, Side::Master) => self.sights.see_if(abandoned, "master reset"),
            (SRR, Side::Slave) => self.sights.see_if(abandoned, "slave reset"),
            (SPICR, Side::Master) => self.sights.see_if(abandoned, "master control"),
            (SPICR, Side::Slave) => self.sights.see_if(abandoned, "slave control"),
            _ => {}
        }
        let moved = step.outcome != Outcome::Nothing;
        self.sights.see_if(moved, "slave moved by an access");
        self.note_slave_step(before.lines(), step);
    }

    fn read(&mut self, side: Side, offset: u32, lanes: u8) {
        let before = self.bench.clone();
        let done = self.bench.read(side, offset, lanes);
        let Some(step) = done.slave_step else {
            assert_eq!(self.bench, before);
            return;
        };
        self.ledger_of(side)
            .note_accepted_read(offset, done.answer.value);
        assert_eq!(step, NOTHING, "a read moves no line");
        self.note_slave_step(before.lines(), step);
    }

    fn note_slave_step(&mut self, before: BenchLines, step: Step) {
        let after = self.bench.lines();
        let wire = Wire {
            sck_before: before.master.sck,
            sck_after: after.master.sck,
            out: before.slave.miso,
            given: after.master.mosi,
        };
        self.slave.note_step(wire, step);
        match step.outcome {
            Outcome::Lost => self.sights.see("lost by the slave"),
            Outcome::StartedStarved => self.sights.see("starved"),
            Outcome::AbandonedBySpisel => self.sights.see("abandoned by SPISEL"),
            _ => {}
        }
        let sat_out = self.bench.slave().is_sitting_out();
        let edge_sat_out = sat_out && wire.sck_before != wire.sck_after;
        self.sights.see_if(edge_sat_out, "edge sat out");
        self.master.check(self.bench.master());
        self.slave.check(self.bench.slave());
    }

    fn tick(&mut self) {
        let before = self.bench.lines();
        let tick = self.bench.tick();
        let after = self.bench.lines();
        let loops = self.master.spicr() & LOOP != 0;
        let wire = Wire {
            sck_before: before.master.sck,
            sck_after: after.master.sck,
            out: after.master.mosi,
            given: if loops {
                after.master.mosi
            } else {
                before.slave.miso
            },
        };
        self.master.note_step(wire, tick.master);
        let lost = tick.master.outcome == Outcome::Lost;
        self.sights.see_if(lost, "lost by the master");
        self.note_slave_step(before, tick.slave);
    }

    fn tick_burst(&mut self) {
        let length = 1 + self.rng.below(2 * self.bench.master().width() + 4);
        for _ in 0..length {
            self.tick();
        }
        self.try_exchange();
    }

    /// Demand 3's conditions, in its order.
    fn exchange_is_promised(&self) -> bool {
        let (master, slave) = (self.bench.master(), self.bench.slave());
        let selected = self.bench.clone().read(Side::Master, SPISSR, ALL_LANES);
        selected.answer.value & 1 == 0
            && self.master.mode() == self.slave.mode()
            && self.master.spicr() & (ENABLE | MASTER) == ENABLE | MASTER
            && self.slave.spicr() & (ENABLE | MASTER) == ENABLE
            && slave.is_idle()
            && !slave.is_sitting_out()
            && master.is_idle()
            && self.master.spicr() & (INHIBIT | LOOP) == 0
            && !master.tx_held().is_empty()
    }

    /// Plays the promised 2N+2 ticks on a copy of the bench.
    fn try_exchange(&mut self) {
        if !self.exchange_is_promised() {
            return;
        }
        let mut copy = self.bench.clone();
        let from_master = copy.master().tx_held()[0];
        let from_slave = copy.slave().tx_held().front().copied();
        let master_finish = finish_of(copy.master(), from_slave.unwrap_or(0));
        let slave_finish = finish_of(copy.slave(), from_master);
        let starts = if from_slave.is_none() {
            STARVED
        } else {
            MOVED_ON
        };
        for tick in 1..=2 * copy.master().width() + 2 {
            let done = copy.tick();
            if tick == 2 {
                assert_eq!(done.slave, starts);
            }
            if tick == 2 * copy.master().width() + 1 {
                assert_eq!((done.master, done.slave), (master_finish, slave_finish));
            }
        }
        assert!(copy.master().is_idle() && copy.slave().is_idle());
        let name = match (starts == STARVED, slave_finish.outcome) {
            (true, _) => "exchange with a starved slave",
            (false, Outcome::Lost) => "exchange with a full slave",
            _ => "exchange",
        };
        self.sights.see(name);
    }

    fn any_side(&mut self) -> Side {
        if self.rng.flip() {
            Side::Master
        } else {
            Side::Slave
        }
    }

    fn write_element(&mut self, side: Side) {
        let element = self.rng.next();
        self.write(side, SPIDTR, ALL_LANES, element);
        self.try_exchange();
    }

    fn any_access(&mut self) {
        let side = self.any_side();
        let (offset, lanes) = any_place(&mut self.rng);
        let value = self.rng.next();
        if self.rng.flip() {
            self.write(side, offset, lanes, value);
        } else {
            self.read(side, offset, lanes);
        }
    }

    /// A time of undisturbed transfers in one mode, long enough to overrun a slave's 16
    /// elements of 32 bits with a master's of 8.
    fn calm_phase(&mut self) {
        let shared = self.rng.next() & (CPOL | CPHA | LSB_FIRST);
        let select = self.rng.next() & MANUAL;
        self.write(Side::Master, SPISSR, ALL_LANES, 1);
        let spicr = ENABLE | MASTER | select | shared;
        self.write(Side::Master, SPICR, ALL_LANES, spicr);
        self.write(Side::Slave, SPICR, ALL_LANES, ENABLE | shared);
        self.write(Side::Master, SPISSR, ALL_LANES, 0);
        for _ in 0..600 {
            match self.rng.below(40) {
                0..=11 => self.write_element(Side::Master),
                12..=17 => self.write_element(Side::Slave),
                18 => {
                    let side = self.any_side();
                    self.read(side, SPIDRR, ALL_LANES);
                }
                19 => self.any_access(),
                _ => self.tick_burst(),
            }
        }
    }

    fn wild_phase(&mut self) {
        for _ in 0..400 {
            let side = self.any_side();
            match self.rng.below(40) {
                0..=1 => self.write(side, SRR, ALL_LANES, RESET_VALUE),
                2..=5 => {
                    let role = if side == Side::Master { MASTER } else { 0 };
                    let spicr = any_control(&mut self.rng) & !MASTER | role;
                    self.write(side, SPICR, ALL_LANES, spicr);
                }
                6..=7 => {
                    let resets = self.rng.next() & (TX_RESET | RX_RESET);
                    let spicr = self.ledger_of(side).spicr() | resets;
                    self.write(side, SPICR, ALL_LANES, spicr);
                }
                8..=10 => {
                    let spicr = self.ledger_of(side).spicr() ^ INHIBIT;
                    self.write(side, SPICR, ALL_LANES, spicr);
                }
                11..=13 => {
                    let select = self.rng.below(4) / 3;
                    self.write(Side::Master, SPISSR, ALL_LANES, select);
                }
                14..=21 => self.write_element(side),
                22..=25 => self.read(side, SPIDRR, ALL_LANES),
                26..=27 => self.any_access(),
                _ => self.tick_burst(),
            }
        }
    }
}

/// How a transfer that brings `element` finishes with the Rx store as it is now.
fn finish_of(core: &Core, element: u32) -> Step {
    let room = core.depth().max(1) as usize;
    if core.rx_held().len() == room {
        lost(element)
    } else {
        stored(element)
    }
}

fn check_bench(master: Core, slave: Core, seed: u64) {
    let same_width = master.width() == slave.width();
    let mut storm = Storm::new(master, slave, seed);
    for _ in 0..12 {
        storm.calm_phase();
        storm.wild_phase();
    }
    storm.sights.assert_seen(&[
        "master reset",
        "slave reset",
        "master control",
        "slave control",
        "slave moved by an access",
        "lost by the master",
        "lost by the slave",
        "starved",
        "abandoned by SPISEL",
        "edge sat out",
    ]);
    if same_width {
        storm.sights.assert_seen(&[
            "exchange",
            "exchange with a starved slave",
            "exchange with a full slave",
        ]);
    }
}

#[test]
fn lists_of_both_sides_and_exchanges_through_storms() {
    let mut seed = 0xB0A7;
    for master_width in WIDTHS {
        for slave_width in WIDTHS {
            for depths in [(0, 0), (0, 16), (16, 0), (16, 16)] {
                let master = core(master_width, depths.0);
                let slave = core(slave_width, depths.1);
                check_bench(master, slave, seed);
                seed += 1;
            }
        }
    }
}
