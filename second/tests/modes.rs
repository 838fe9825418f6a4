//! Every mode at every width: loopback, and the exchange of a master and a slave.

mod common;

use common::*;
use second::bench::{Bench, BenchTick, Side};
use second::core::{Core, Outputs};
use second::transfer::Step;

/// Uneven patterns; each differs from its reversal or tries all bits alike.
const PATTERNS: [u32; 6] = [
    0x1234_5635,
    0xFFFF_FFFF,
    0x0000_0000,
    0x8000_0001,
    0xA5C3_7E1D,
    0x0000_8080,
];

fn patterns(width: u32) -> [u32; 6] {
    PATTERNS.map(|pattern| cut(pattern, width))
}

/// The step expected of a master's tick, counted from 1 at the start tick.
fn master_step(tick: u32, width: u32, received: u32) -> Step {
    if tick == 2 * width + 1 {
        stored(received)
    } else {
        MOVED_ON
    }
}

/// MOSI after a tick, from its level before.
fn mosi_after(tick: u32, mode: Mode, element: u32, before: bool) -> bool {
    let edge = tick - 1;
    match (edge, mode.cpha) {
        (0, false) => mode.bit(element, 0),
        (0, true) => before,
        _ if edge >= 2 * mode.width || mode.samples_at(edge) => before,
        (_, false) => mode.bit(element, edge / 2),
        (_, true) => mode.bit(element, (edge - 1) / 2),
    }
}

/// Lines of a master of two slaves, number 1 selected, after a tick of its transfer.
fn master_lines(tick: u32, mode: Mode, manual: bool, mosi: bool) -> Outputs {
    let is_gap = tick == 2 * mode.width + 2;
    Outputs {
        sck: if is_gap {
            mode.cpol
        } else {
            mode.sck_after(tick - 1)
        },
        mosi,
        miso: true,
        interrupt: false,
        miso_driven: false,
        ss: if is_gap && !manual { 0b11 } else { 0b01 },
    }
}

fn check_loopback(master: &mut Core, mode: Mode, manual: bool, element: u32) {
    let mut mosi = master.outputs().mosi;
    for tick in 1..=2 * mode.width + 2 {
        mosi = mosi_after(tick, mode, element, mosi);
        // The MISO given is no part of a loopback.
        let step = master.tick(tick % 3 == 0);
        assert_eq!(step, master_step(tick, mode.width, element), "tick {tick}");
        let expected = master_lines(tick, mode, manual, mosi);
        assert_eq!(master.outputs(), expected, "{mode:?} tick {tick}");
    }
    assert_eq!(read(master, SPIDRR), element);
}

fn check_loopbacks(mode: Mode, depth: u32, manual: bool) {
    let mut master = Core::setup(mode.width, depth, 2).unwrap();
    let select = if manual { MANUAL } else { 0 };
    write(&mut master, SPISSR, 0b01);
    let control = LOOP | ENABLE | MASTER | select | mode.spicr();
    write(&mut master, SPICR, control);
    let elements = patterns(mode.width);
    let ahead = if depth == 16 { elements.len() } else { 0 };
    for &element in &elements[..ahead] {
        write(&mut master, SPIDTR, element);
    }
    for (index, &element) in elements.iter().enumerate() {
        if index >= ahead {
            write(&mut master, SPIDTR, element);
        }
        check_loopback(&mut master, mode, manual, element);
    }
    assert_eq!(master.tick(true), NOTHING);
}

#[test]
fn loopback_in_every_mode() {
    for mode in Mode::all() {
        for depth in DEPTHS {
            for manual in [false, true] {
                check_loopbacks(mode, depth, manual);
            }
        }
    }
}

/// What each side is to receive in one exchange.
#[derive(Clone, Copy)]
struct Received {
    master: u32,
    slave: u32,
}

fn check_exchange(bench: &mut Bench, width: u32, received: Received) {
    let finish = 2 * width + 1;
    for tick in 1..=2 * width + 2 {
        let slave = match tick {
            // The start tick and the gap tick bring the slave no SCK edge.
            1 => NOTHING,
            _ if tick == finish + 1 => NOTHING,
            _ if tick == finish => stored(received.slave),
            _ => MOVED_ON,
        };
        let master = master_step(tick, width, received.master);
        assert_eq!(bench.tick(), BenchTick { master, slave }, "tick {tick}");
    }
    assert_eq!(bench_read(bench, Side::Master, SPIDRR), received.master);
    assert_eq!(bench_read(bench, Side::Slave, SPIDRR), received.slave);
}

/// Exchanges all patterns, the slave sending them in the opposite order.
fn check_exchanges(depths: (u32, u32), master: Mode, slave: Mode, select: u32) {
    let width = master.width;
    let mut bench = ready_bench(depths, master, slave, select);
    let sides = [(Side::Master, depths.0), (Side::Slave, depths.1)];
    let from_master = patterns(width);
    let mut from_slave = from_master;
    from_slave.reverse();
    let of_side = |side: Side, index: usize| match side {
        Side::Master => from_master[index],
        Side::Slave => from_slave[index],
    };
    for (side, _) in sides.into_iter().filter(|&(_, depth)| depth == 16) {
        for index in 0..from_master.len() {
            bench_write(&mut bench, side, SPIDTR, of_side(side, index));
        }
    }
    for index in 0..from_master.len() {
        for (side, _) in sides.into_iter().filter(|&(_, depth)| depth == 0) {
            bench_write(&mut bench, side, SPIDTR, of_side(side, index));
        }
        let crossed = |element: u32| {
            if master.lsb_first == slave.lsb_first {
                element
            } else {
                reversed(element, width)
            }
        };
        let received = Received {
            master: crossed(from_slave[index]),
            slave: crossed(from_master[index]),
        };
        check_exchange(&mut bench, width, received);
    }
}

#[test]
fn exchange_in_every_mode_and_pair_of_bit_orders() {
    for master in Mode::all() {
        for slave_lsb_first in [false, true] {
            let slave = master.with_lsb_first(slave_lsb_first);
            for depths in [(0, 0), (0, 16), (16, 0), (16, 16)] {
                check_exchanges(depths, master, slave, MANUAL);
                check_exchanges(depths, master, slave, 0);
            }
        }
    }
}

#[test]
fn a_slave_with_nothing_to_send_gives_zero_and_is_marked_starved() {
    for mode in Mode::all() {
        for select in [MANUAL, 0] {
            let mut bench = ready_bench((0, 0), mode, mode, select);
            let element = cut(0x1234_5635, mode.width);
            bench_write(&mut bench, Side::Master, SPIDTR, element);
            bench.tick();
            assert_eq!(bench.tick().slave, STARVED, "{mode:?}");
            for _ in 2..2 * mode.width {
                assert_eq!(bench.tick().slave, MOVED_ON);
            }
            let (master, slave) = (stored(0), stored(element));
            assert_eq!(bench.tick(), BenchTick { master, slave });
        }
    }
}

#[test]
fn an_element_that_meets_a_full_store_is_marked_lost_on_either_side() {
    for mode in Mode::all() {
        let mut bench = ready_bench((0, 0), mode, mode, 0);
        let [first, second, ..] = patterns(mode.width);
        for (element, step) in [(first, stored as fn(u32) -> Step), (second, lost)] {
            bench_write(&mut bench, Side::Master, SPIDTR, element);
            bench_write(&mut bench, Side::Slave, SPIDTR, element);
            for _ in 0..2 * mode.width {
                bench.tick();
            }
            let (master, slave) = (step(element), step(element));
            assert_eq!(bench.tick(), BenchTick { master, slave });
            bench.tick();
        }
        assert_eq!(bench_read(&mut bench, Side::Master, SPIDRR), first);
        assert_eq!(bench_read(&mut bench, Side::Slave, SPIDRR), first);
    }
}
