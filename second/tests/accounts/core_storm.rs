//! Storms on one core, as a master and as a slave by turns.

use crate::common::rng::Rng;
use crate::common::*;
use crate::ledger::{any_control, any_place, Ledger, Wire};
use crate::sights::Sights;
use second::core::{Core, Lines};
use second::transfer::Outcome;

struct Storm {
    core: Core,
    ledger: Ledger,
    sights: Sights,
    rng: Rng,
    lines: Lines,
}

impl Storm {
    fn new(width: u32, depth: u32, seed: u64) -> Storm {
        let core = core(width, depth);
        Storm {
            ledger: Ledger::new(&core),
            core,
            sights: Sights::default(),
            rng: Rng::new(seed),
            lines: Lines {
                spisel: true,
                sck: false,
                mosi: false,
            },
        }
    }

    fn write(&mut self, offset: u32, lanes: u8, value: u32) {
        let before = self.core.clone();
        let answer = self.core.write(offset, lanes, value);
        if answer.is_accepted() {
            self.ledger.note_accepted_write(offset, value);
            let abandoned = !before.is_idle() && self.core.is_idle();
            self.sights
                .see_if(abandoned && offset == SRR, "reset in mid-transfer");
            self.sights
                .see_if(abandoned && offset == SPICR, "control in mid-transfer");
        } else {
            assert_eq!(self.core, before);
            self.sights.see_if(answer.refusal == 12, "refusal 12");
        }
        self.ledger.check(&self.core);
    }

    fn read(&mut self, offset: u32, lanes: u8) {
        let before = self.core.clone();
        let answer = self.core.read(offset, lanes);
        if answer.is_accepted() {
            self.ledger.note_accepted_read(offset, answer.value);
        } else {
            assert_eq!(self.core, before);
            self.sights.see_if(answer.refusal == 13, "refusal 13");
        }
        self.ledger.check(&self.core);
    }

    fn tick(&mut self) {
        let miso = self.rng.flip();
        let sck_before = self.core.outputs().sck;
        let step = self.core.tick(miso);
        let after = self.core.outputs();
        let loops = self.ledger.spicr() & LOOP != 0;
        let wire = Wire {
            sck_before,
            sck_after: after.sck,
            out: after.mosi,
            given: if loops { after.mosi } else { miso },
        };
        self.ledger.note_step(wire, step);
        let lost = step.outcome == Outcome::Lost;
        self.sights.see_if(lost, "lost by a master");
        self.ledger.check(&self.core);
    }

    fn line_step(&mut self, lines: Lines) {
        let sat_out = self.core.is_sitting_out() && !lines.spisel;
        let wire = Wire {
            sck_before: self.lines.sck,
            sck_after: lines.sck,
            out: self.core.outputs().miso,
            given: lines.mosi,
        };
        self.lines = lines;
        let step = self.core.line_step(lines.spisel, lines.sck, lines.mosi);
        self.ledger.note_step(wire, step);
        match step.outcome {
            Outcome::Lost => self.sights.see("lost by a slave"),
            Outcome::StartedStarved => self.sights.see("starved"),
            Outcome::AbandonedBySpisel => self.sights.see("abandoned by SPISEL"),
            _ => {}
        }
        let edge_sat_out = sat_out && wire.sck_before != wire.sck_after;
        self.sights.see_if(edge_sat_out, "edge sat out");
        self.ledger.check(&self.core);
    }

    fn spisel_step(&mut self, spisel: bool) {
        let Lines { sck, mosi, .. } = self.lines;
        self.line_step(Lines { spisel, sck, mosi });
    }

    fn burst_length(&mut self) -> u32 {
        1 + self.rng.below(2 * self.core.width() + 4)
    }

    fn tick_burst(&mut self) {
        for _ in 0..self.burst_length() {
            self.tick();
        }
    }

    fn clock_burst(&mut self) {
        for _ in 0..self.burst_length() {
            let lines = Lines {
                spisel: self.lines.spisel,
                sck: !self.lines.sck,
                mosi: self.rng.flip(),
            };
            self.line_step(lines);
        }
    }

    fn write_element(&mut self) {
        let element = self.rng.next();
        self.write(SPIDTR, ALL_LANES, element);
    }

    fn any_lines(&mut self) {
        let lines = Lines {
            spisel: self.rng.flip(),
            sck: self.rng.flip(),
            mosi: self.rng.flip(),
        };
        self.line_step(lines);
    }

    fn any_access(&mut self) {
        let (offset, lanes) = any_place(&mut self.rng);
        let value = self.rng.next();
        if self.rng.flip() {
            self.write(offset, lanes, value);
        } else {
            self.read(offset, lanes);
        }
    }

    /// A time without control writes or resets, long enough to overrun any store.
    fn calm_phase(&mut self, role: u32) {
        let spicr = (any_control(&mut self.rng) | ENABLE) & !(INHIBIT | MASTER) | role;
        self.write(SPICR, ALL_LANES, spicr);
        self.spisel_step(true);
        self.spisel_step(false);
        for _ in 0..250 {
            match self.rng.below(20) {
                0..=7 => self.write_element(),
                8 => self.read(SPIDRR, ALL_LANES),
                9 => self.any_access(),
                10..=14 => self.tick_burst(),
                _ => self.clock_burst(),
            }
        }
    }

    fn wild_phase(&mut self) {
        for _ in 0..500 {
            match self.rng.below(40) {
                0..=1 => self.write(SRR, ALL_LANES, RESET_VALUE),
                2..=7 => {
                    let spicr = any_control(&mut self.rng);
                    self.write(SPICR, ALL_LANES, spicr);
                }
                8..=9 => {
                    let resets = self.rng.next() & (TX_RESET | RX_RESET);
                    self.write(SPICR, ALL_LANES, self.ledger.spicr() | resets);
                }
                10 => self.write(SPICR, ALL_LANES, self.ledger.spicr() ^ INHIBIT),
                11..=16 => self.write_element(),
                17..=20 => self.read(SPIDRR, ALL_LANES),
                21..=22 => self.any_access(),
                23..=25 => self.any_lines(),
                26 => self.spisel_step(false),
                27..=33 => self.tick_burst(),
                _ => self.clock_burst(),
            }
        }
    }
}

#[test]
fn lists_of_one_core_through_storms() {
    for width in WIDTHS {
        for depth in DEPTHS {
            let seed = u64::from(width * 100 + depth) + 0x5EED;
            let mut storm = Storm::new(width, depth, seed);
            for _ in 0..5 {
                storm.calm_phase(MASTER);
                storm.wild_phase();
                storm.calm_phase(0);
                storm.wild_phase();
            }
            storm.sights.assert_seen(&[
                "reset in mid-transfer",
                "control in mid-transfer",
                "refusal 12",
                "refusal 13",
                "lost by a master",
                "lost by a slave",
                "starved",
                "abandoned by SPISEL",
                "edge sat out",
            ]);
        }
    }
}
