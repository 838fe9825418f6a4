//! Helpers shared by the tests. Places and bits are written out again from document 01,
//! so that the tests don't lean on the library's own names for them.

// Each test program uses its own part of these.
#![allow(dead_code)]

use std::ops::RangeInclusive;

use second::bench::{Bench, Side};
use second::core::Core;
use second::transfer::{Outcome, Step};

pub mod rng;

pub const DGIER: u32 = 0x1C;
pub const IPISR: u32 = 0x20;
pub const IPIER: u32 = 0x28;
pub const SRR: u32 = 0x40;
pub const SPICR: u32 = 0x60;
pub const SPISR: u32 = 0x64;
pub const SPIDTR: u32 = 0x68;
pub const SPIDRR: u32 = 0x6C;
pub const SPISSR: u32 = 0x70;
pub const TX_OCCUPANCY: u32 = 0x74;
pub const RX_OCCUPANCY: u32 = 0x78;

pub const LOOP: u32 = 1 << 0;
pub const ENABLE: u32 = 1 << 1;
pub const MASTER: u32 = 1 << 2;
pub const CPOL: u32 = 1 << 3;
pub const CPHA: u32 = 1 << 4;
pub const TX_RESET: u32 = 1 << 5;
pub const RX_RESET: u32 = 1 << 6;
pub const MANUAL: u32 = 1 << 7;
pub const INHIBIT: u32 = 1 << 8;
pub const LSB_FIRST: u32 = 1 << 9;

pub const RESET_VALUE: u32 = 0x0000_000A;
pub const ALL_LANES: u8 = 15;

pub const WIDTHS: [u32; 3] = [8, 16, 32];
pub const DEPTHS: [u32; 2] = [0, 16];

pub const NOTHING: Step = plain(Outcome::Nothing);
pub const MOVED_ON: Step = plain(Outcome::MovedOn);
pub const STARVED: Step = plain(Outcome::StartedStarved);
pub const ABANDONED: Step = plain(Outcome::AbandonedBySpisel);

const fn plain(outcome: Outcome) -> Step {
    Step {
        outcome,
        element: 0,
    }
}

pub fn stored(element: u32) -> Step {
    let outcome = Outcome::Stored;
    Step { outcome, element }
}

pub fn lost(element: u32) -> Step {
    let outcome = Outcome::Lost;
    Step { outcome, element }
}

/// A core for one slave.
pub fn core(width: u32, depth: u32) -> Core {
    Core::setup(width, depth, 1).expect("a valid setup")
}

/// A core for one slave with SPICR written.
pub fn core_in(width: u32, depth: u32, spicr: u32) -> Core {
    let mut core = core(width, depth);
    write(&mut core, SPICR, spicr);
    core
}

/// An enabled slave that has seen SPISEL fall.
pub fn selected_slave(depth: u32, mode: Mode) -> Core {
    let mut slave = core_in(mode.width, depth, ENABLE | mode.spicr());
    slave.line_step(true, mode.cpol, false);
    assert_eq!(slave.line_step(false, mode.cpol, false), NOTHING);
    slave
}

/// A write that must be accepted.
pub fn write(core: &mut Core, offset: u32, value: u32) {
    assert_eq!(
        write_refusal(core, offset, value),
        0,
        "write to {offset:#x}"
    );
}

/// A read that must be accepted.
pub fn read(core: &mut Core, offset: u32) -> u32 {
    let answer = core.read(offset, ALL_LANES);
    assert_eq!(answer.refusal, 0, "read of {offset:#x}");
    answer.value
}

/// The refusal of a write with all lanes; a refused one must change nothing.
pub fn write_refusal(core: &mut Core, offset: u32, value: u32) -> u8 {
    let before = core.clone();
    let answer = core.write(offset, ALL_LANES, value);
    assert_eq!(answer.value, 0);
    assert!(answer.refusal == 0 || *core == before);
    answer.refusal
}

/// The refusal of a read with all lanes; a refused one must change nothing.
pub fn read_refusal(core: &mut Core, offset: u32) -> u8 {
    let before = core.clone();
    let answer = core.read(offset, ALL_LANES);
    assert!(answer.refusal == 0 || (answer.value == 0 && *core == before));
    answer.refusal
}

/// Ticks a number of times with the same MISO and answers the last step.
pub fn ticks(core: &mut Core, count: u32, miso: bool) -> Step {
    let mut last = NOTHING;
    for _ in 0..count {
        last = core.tick(miso);
    }
    last
}

/// Writes an element and ticks it from idle to idle; the step of edge 2N.
pub fn transfer(core: &mut Core, element: u32, miso: bool) -> Step {
    write(core, SPIDTR, element);
    let finish = ticks(core, 2 * core.width() + 1, miso);
    assert_eq!(core.tick(miso), MOVED_ON, "the gap tick");
    finish
}

/// What both ends of a line must agree on.
#[derive(Clone, Copy, Debug, PartialEq, Eq)]
pub struct Mode {
    pub width: u32,
    pub cpol: bool,
    pub cpha: bool,
    pub lsb_first: bool,
}

impl Mode {
    /// CPOL 0, CPHA 0, most significant bit first.
    pub fn plain(width: u32) -> Mode {
        Mode {
            width,
            cpol: false,
            cpha: false,
            lsb_first: false,
        }
    }

    pub fn with_cpha(self, cpha: bool) -> Mode {
        Mode { cpha, ..self }
    }

    pub fn with_lsb_first(self, lsb_first: bool) -> Mode {
        Mode { lsb_first, ..self }
    }

    /// Every width, CPOL, CPHA and bit order.
    pub fn all() -> impl Iterator<Item = Mode> {
        (0..24).map(|number| Mode {
            width: WIDTHS[number / 8],
            cpol: number & 1 != 0,
            cpha: number & 2 != 0,
            lsb_first: number & 4 != 0,
        })
    }

    /// Its SPICR bits.
    pub fn spicr(self) -> u32 {
        (u32::from(self.cpol) * CPOL)
            | (u32::from(self.cpha) * CPHA)
            | (u32::from(self.lsb_first) * LSB_FIRST)
    }

    /// The bit that goes over the line at `index`, counted from 0.
    pub fn bit(self, element: u32, index: u32) -> bool {
        let from_top = self.width - 1 - index;
        let place = if self.lsb_first { index } else { from_top };
        element >> place & 1 == 1
    }

    /// "Odd edges leave the idle level CPOL, even ones return."
    pub fn sck_after(self, edge: u32) -> bool {
        self.cpol != (edge % 2 == 1)
    }

    /// "CPHA 0 samples on odd edges [...]; CPHA 1 [...] samples on even".
    pub fn samples_at(self, edge: u32) -> bool {
        self.cpha == edge.is_multiple_of(2)
    }
}

/// Clocks edges of an element into a selected slave and answers the last step.
pub fn clock(slave: &mut Core, mode: Mode, element: u32, edges: RangeInclusive<u32>) -> Step {
    let mut last = NOTHING;
    for edge in edges {
        let mosi = mode.bit(element, (edge - 1) / 2);
        last = slave.line_step(false, mode.sck_after(edge), mosi);
    }
    last
}

/// Clocks a whole element into a selected slave: the last step and the element it sent.
pub fn exchange(slave: &mut Core, mode: Mode, element: u32) -> (Step, u32) {
    let mut sent = 0;
    let mut last = NOTHING;
    for edge in 1..=2 * mode.width {
        if mode.samples_at(edge) {
            sent = sent << 1 | u32::from(slave.outputs().miso);
        }
        last = clock(slave, mode, element, edge..=edge);
    }
    let sent = if mode.lsb_first {
        reversed(sent, mode.width)
    } else {
        sent
    };
    (last, sent)
}

/// The element with its N bits in the other order.
pub fn reversed(element: u32, width: u32) -> u32 {
    element.reverse_bits() >> (32 - width)
}

/// The value modulo 2^N.
pub fn cut(value: u32, width: u32) -> u32 {
    (u64::from(value) % (1 << width)) as u32
}

/// A write on one side of a bench that must be accepted; the slave's step after it.
pub fn bench_write(bench: &mut Bench, side: Side, offset: u32, value: u32) -> Step {
    let done = bench.write(side, offset, ALL_LANES, value);
    assert_eq!(done.answer.refusal, 0, "write to {offset:#x}");
    done.slave_step.expect("a step after an accepted access")
}

/// A read on one side of a bench that must be accepted.
pub fn bench_read(bench: &mut Bench, side: Side, offset: u32) -> u32 {
    let done = bench.read(side, offset, ALL_LANES);
    assert_eq!(done.answer.refusal, 0, "read of {offset:#x}");
    done.answer.value
}

/// Two cores at power-on, joined.
pub fn joined(width: u32, master_depth: u32, slave_depth: u32) -> Bench {
    let (bench, step) = Bench::join(core(width, master_depth), core(width, slave_depth));
    assert_eq!(step, NOTHING);
    bench
}

/// A bench whose master selects the slave, both enabled; `select` is MANUAL or 0.
pub fn ready_bench(depths: (u32, u32), master: Mode, slave: Mode, select: u32) -> Bench {
    let mut bench = joined(master.width, depths.0, depths.1);
    let master_spicr = ENABLE | MASTER | select | master.spicr();
    bench_write(&mut bench, Side::Slave, SPICR, ENABLE | slave.spicr());
    bench_write(&mut bench, Side::Master, SPICR, master_spicr);
    assert_eq!(bench_write(&mut bench, Side::Master, SPISSR, 0), NOTHING);
    bench
}

/// A script record: length, kind, payload.
pub fn record(kind: u16, payload: &[u8]) -> Vec<u8> {
    let mut bytes = (payload.len() as u16).to_le_bytes().to_vec();
    bytes.extend(kind.to_le_bytes());
    bytes.extend(payload);
    bytes
}
