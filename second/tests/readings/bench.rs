//! Readings 24 to 26: the joined bench.

use crate::common::*;
use second::bench::{Bench, Run, RunEnd, Side};

#[test]
fn reading_24_the_slave_side_is_never_ticked_and_the_master_gets_no_step() {
    let mut bench = joined(8, 16, 16);
    bench_write(&mut bench, Side::Slave, SPICR, ENABLE | MASTER | MANUAL);
    bench_write(&mut bench, Side::Slave, SPISSR, 0);
    bench_write(&mut bench, Side::Slave, SPIDTR, 0x35);
    for _ in 0..40 {
        let tick = bench.tick();
        assert_eq!((tick.master, tick.slave), (NOTHING, NOTHING));
    }
    assert_eq!(bench.slave().tx_held(), &[0x35]);
    assert_eq!(
        bench_read(&mut bench, Side::Master, IPISR),
        0,
        "saw no fall"
    );

    // A master side that is none gives SCK (its CPOL) and MOSI, with SPISEL high.
    let mut bench = joined(8, 16, 16);
    bench_write(&mut bench, Side::Slave, SPICR, ENABLE);
    bench_write(&mut bench, Side::Master, SPISSR, 0);
    for spicr in [CPOL, 0, ENABLE | CPOL, MASTER | MANUAL] {
        let step = bench_write(&mut bench, Side::Master, SPICR, spicr);
        assert_eq!(step, NOTHING);
        assert_eq!(bench.lines().master.sck, spicr & CPOL != 0);
        assert!(!bench.lines().slave.miso_driven);
    }
}

/// A selected pair with an element each, ticked from the start.
fn ticked_bench(count: u32, select: u32) -> Bench {
    let mode = Mode::plain(8);
    let mut bench = ready_bench((16, 16), mode, mode, select);
    bench_write(&mut bench, Side::Master, SPIDTR, 0x35);
    bench_write(&mut bench, Side::Slave, SPIDTR, 0x5A);
    for _ in 0..count {
        bench.tick();
    }
    bench
}

#[test]
fn reading_25_accesses_and_the_slaves_step() {
    let mut bench = ticked_bench(3, MANUAL);
    let before = bench.clone();
    for side in [Side::Master, Side::Slave] {
        assert_eq!(bench.read(side, 0x80, ALL_LANES).slave_step, None);
        assert_eq!(bench.write(side, SRR, ALL_LANES, 1).slave_step, None);
    }
    assert_eq!(bench, before);

    // (ticks, select, SPICR written by the master, the slave's step). After an odd edge an
    // inhibited manual master's SCK returns to CPOL, which moves or finishes the element.
    let manual = ENABLE | MASTER | MANUAL;
    for (count, select, spicr, step) in [
        (2, MANUAL, manual | INHIBIT, MOVED_ON),
        (3, MANUAL, manual | INHIBIT, NOTHING),
        (16, MANUAL, manual | INHIBIT, stored(0x35)),
        (0, MANUAL, manual | CPOL, MOVED_ON),
        (5, MANUAL, MASTER | MANUAL, ABANDONED),
        (5, 0, ENABLE | MASTER | INHIBIT, ABANDONED),
        (1, 0, ENABLE | MASTER | INHIBIT, NOTHING),
    ] {
        let mut bench = ticked_bench(count, select);
        let given = bench_write(&mut bench, Side::Master, SPICR, spicr);
        assert_eq!(given, step, "{spicr:#x} after {count}");
    }

    // Starved by an access, and deselected by SPISSR.
    let mode = Mode::plain(8);
    let mut bench = ready_bench((16, 16), mode, mode, MANUAL);
    let step = bench_write(&mut bench, Side::Master, SPICR, manual | CPOL);
    assert_eq!(step, STARVED);
    let step = bench_write(&mut bench, Side::Master, SPISSR, 1);
    assert_eq!(step, ABANDONED);
}

#[test]
fn reading_26_a_run_asks_drained_first() {
    let run_of = |end, ticks| Run { end, ticks };
    let mut bench = joined(8, 16, 16);
    assert_eq!(bench.run(0), run_of(RunEnd::Drained, 0));
    let mut bench = ticked_bench(0, 0);
    assert_eq!(bench.run(0), run_of(RunEnd::LimitSpent, 0));
    assert_eq!(bench.run(17), run_of(RunEnd::LimitSpent, 17));
    assert_eq!(bench.run(1), run_of(RunEnd::Drained, 1), "the gap tick");
}
