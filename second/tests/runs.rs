//! The joined bench: what joining brings, how many ticks runs use, and which end they
//! come to.

mod common;

use common::*;
use second::bench::{Bench, Run, RunEnd, Side};
use second::core::Core;
use second::transfer::Step;

const DRAINED: RunEnd = RunEnd::Drained;
const LIMIT_SPENT: RunEnd = RunEnd::LimitSpent;

/// Idle to idle, 2N+2 ticks.
const TICKS_OF_AN_ELEMENT: [(u32, u64); 3] = [(8, 18), (16, 34), (32, 66)];

fn run_of(end: RunEnd, ticks: u64) -> Run {
    Run { end, ticks }
}

fn bench_with_elements(width: u32, count: u32, master_spicr: u32) -> Bench {
    let mut bench = joined(width, 16, 16);
    bench_write(&mut bench, Side::Slave, SPICR, ENABLE);
    bench_write(&mut bench, Side::Master, SPISSR, 0);
    bench_write(&mut bench, Side::Master, SPICR, master_spicr);
    for element in 0..count {
        bench_write(&mut bench, Side::Master, SPIDTR, element);
        bench_write(&mut bench, Side::Slave, SPIDTR, element + 0x20);
    }
    bench
}

/// An 8-bit slave that has seen so many edges of the element 0x35.
fn slave_after(edges: u32) -> Core {
    let mut slave = selected_slave(0, Mode::plain(8));
    clock(&mut slave, Mode::plain(8), 0x35, 1..=edges);
    slave
}

#[test]
fn joining_gives_the_slave_the_lines_as_a_step() {
    // A manual master whose slave 0 is selected; its SCK rests at CPOL, its MOSI at 0.
    let selecting = |cpol: u32| {
        let mut master = core_in(8, 0, ENABLE | MASTER | MANUAL | cpol);
        write(&mut master, SPISSR, 0);
        master
    };
    let rows: [(Core, Core, Step); 7] = [
        (core(8, 0), slave_after(0), NOTHING),
        (core(8, 0), slave_after(3), ABANDONED),
        (core(8, 0), slave_after(15), ABANDONED),
        (selecting(0), slave_after(3), MOVED_ON),
        (selecting(0), slave_after(15), stored(0x35)),
        (selecting(0), slave_after(2), NOTHING),
        (selecting(CPOL), slave_after(0), STARVED),
    ];
    for (master, slave, step) in rows {
        assert_eq!(Bench::join(master, slave).1, step);
    }
}

#[test]
fn k_elements_need_exactly_k_times_2n_plus_2_ticks() {
    for (width, ticks_each) in TICKS_OF_AN_ELEMENT {
        for count in 1..=16 {
            let mut bench = bench_with_elements(width, count, ENABLE | MASTER);
            let needed = u64::from(count) * ticks_each;
            assert_eq!(bench.run(u64::MAX), run_of(DRAINED, needed));
            for element in 0..count {
                let at_master = bench_read(&mut bench, Side::Master, SPIDRR);
                let at_slave = bench_read(&mut bench, Side::Slave, SPIDRR);
                assert_eq!((at_master, at_slave), (element + 0x20, element));
            }
        }
    }
}

#[test]
fn sixteen_bytes_need_288_ticks() {
    let mut bench = bench_with_elements(8, 16, ENABLE | MASTER | MANUAL);
    assert_eq!(bench.run(1000), run_of(DRAINED, 288));
}

#[test]
fn one_tick_less_than_needed_spends_the_limit() {
    for (width, ticks_each) in TICKS_OF_AN_ELEMENT {
        let mut bench = bench_with_elements(width, 3, ENABLE | MASTER);
        let short = 3 * ticks_each - 1;
        assert_eq!(bench.run(short), run_of(LIMIT_SPENT, short));
        // The gap tick alone is left.
        assert_eq!(bench.run(9), run_of(DRAINED, 1));
    }
}

#[test]
fn drained_wins_when_the_limit_is_spent_as_well() {
    for (width, ticks_each) in TICKS_OF_AN_ELEMENT {
        let mut bench = bench_with_elements(width, 1, ENABLE | MASTER);
        assert_eq!(bench.run(ticks_each), run_of(DRAINED, ticks_each));
        assert_eq!(bench.run(0), run_of(DRAINED, 0));
    }
}

#[test]
fn disabled_or_inhibited_masters_with_elements_spend_the_limit() {
    for spicr in [
        MASTER,
        ENABLE | MASTER | INHIBIT,
        MASTER | INHIBIT,
        ENABLE,
        0,
    ] {
        let mut bench = bench_with_elements(8, 2, spicr);
        for limit in [0, 1, 500] {
            assert_eq!(bench.run(limit), run_of(LIMIT_SPENT, limit));
        }
        assert_eq!(bench.master().tx_held(), &[0, 1]);
    }
}

#[test]
fn masters_without_elements_are_drained_at_once() {
    for spicr in [0, MASTER, ENABLE | MASTER, ENABLE | MASTER | INHIBIT] {
        let mut bench = bench_with_elements(16, 0, spicr);
        assert_eq!(bench.run(500), run_of(DRAINED, 0));
    }
}

#[test]
fn a_run_may_be_cut_anywhere() {
    let mut whole = bench_with_elements(8, 4, ENABLE | MASTER);
    let mut cut = whole.clone();
    assert_eq!(whole.run(72), run_of(DRAINED, 72));
    for _ in 0..9 {
        cut.run(8);
    }
    assert_eq!(cut, whole);
}
