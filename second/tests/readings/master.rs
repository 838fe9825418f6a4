//! Readings 11 to 18: a master.

use crate::common::*;
use second::core::Core;

/// An automatic loopback master with slave 0 selected and two elements, ticked.
fn ticked_master(count: u32) -> Core {
    let mut master = core_in(8, 16, LOOP | ENABLE | MASTER);
    write(&mut master, SPISSR, 0);
    write(&mut master, SPIDTR, 0xC5);
    write(&mut master, SPIDTR, 0x5A);
    ticks(&mut master, count, false);
    master
}

/// After edge 2N, with the gap tick still to come.
const AT_THE_GAP: u32 = 17;

#[test]
fn reading_11_the_finish_is_at_edge_2n_and_the_gap_sets_nothing() {
    for width in WIDTHS {
        let mut master = core_in(width, 0, ENABLE | MASTER);
        write(&mut master, SPIDTR, 1);
        for _ in 0..2 * width {
            assert_eq!(master.tick(false), MOVED_ON);
            assert_eq!(read(&mut master, IPISR), 0);
        }
        assert_eq!(master.tick(false), stored(0));
        assert_eq!(read(&mut master, IPISR), 0x14);
        write(&mut master, IPISR, 0x14);
        assert_eq!(master.tick(false), MOVED_ON);
        assert_eq!(read(&mut master, IPISR), 0);
        assert_eq!(master.tick(false), NOTHING);
    }
}

#[test]
fn reading_12_the_gap_can_be_abandoned() {
    let mut master = ticked_master(AT_THE_GAP);
    assert_eq!(master.outputs().ss, 0);
    write(&mut master, SPICR, LOOP | ENABLE | MASTER | INHIBIT);
    assert!(master.is_idle());
    assert_eq!(master.outputs().ss, 1);
    assert_eq!(master.tick(false), NOTHING);
    write(&mut master, SPICR, LOOP | ENABLE | MASTER);
    assert_eq!(ticks(&mut master, 17, false), stored(0x5A));

    // Any abandoning write: the next tick is a start, so edge 2N is 17 ticks off, not 18.
    let mut master = ticked_master(AT_THE_GAP);
    write(&mut master, SPICR, LOOP | ENABLE | MASTER | LSB_FIRST);
    assert_eq!(master.outputs().ss, 1);
    assert_eq!(ticks(&mut master, 17, false), stored(0x5A));
}

#[test]
fn reading_13_sitting_out_and_modf_hold_back_no_master() {
    let mut master = core(8, 16);
    master.line_step(false, false, false);
    write(&mut master, SPICR, LOOP | ENABLE | MASTER);
    assert!(master.is_sitting_out());
    write(&mut master, SPIDTR, 0xC5);
    assert_eq!(ticks(&mut master, 17, false), stored(0xC5));

    for count in 0..=16 {
        let mut master = ticked_master(count);
        master.line_step(false, false, false);
        assert_eq!(read(&mut master, SPISR) & 0x10, 0x10);
        assert_eq!(ticks(&mut master, 17 - count, false), stored(0xC5));
    }
}

#[test]
fn reading_14_sck_shows_cpol_without_a_running_transfer() {
    for other in [0, ENABLE, MASTER, ENABLE | MASTER, MANUAL | INHIBIT] {
        let mut core = core(8, 16);
        for (spicr, level) in [(CPOL, true), (0, false), (CPOL, true)] {
            write(&mut core, SPICR, spicr | other);
            assert_eq!(core.outputs().sck, level);
        }
    }
    // A slave shows CPOL in mid-element too.
    let mode = Mode {
        cpol: true,
        ..Mode::plain(8)
    };
    let mut slave = selected_slave(16, mode);
    clock(&mut slave, mode, 0, 1..=1);
    assert!(slave.outputs().sck);
    // Edge 1 is the second tick.
    let mut master = ticked_master(2);
    assert!(master.outputs().sck);
    write(&mut master, SPICR, LOOP | ENABLE | MASTER | INHIBIT);
    assert!(!master.outputs().sck);
}

#[test]
fn reading_15_mosi_holds_its_last_level() {
    // 0x01 ends with a 1, most significant bit first.
    let mut master = core_in(8, 16, ENABLE | MASTER);
    assert!(!master.outputs().mosi);
    write(&mut master, SPIDTR, 0x01);
    ticks(&mut master, 17, false);
    assert!(master.outputs().mosi, "through the finish");
    master.tick(false);
    assert!(master.outputs().mosi, "through the gap");
    for spicr in [MASTER, ENABLE, 0, ENABLE | MASTER | CPHA] {
        write(&mut master, SPICR, spicr);
        assert!(master.outputs().mosi, "through mode changes");
    }
    write(&mut master, SPIDTR, 0x00);
    master.tick(false);
    assert!(master.outputs().mosi, "a start at CPHA 1 moves nothing");
    write(&mut master, SPICR, ENABLE | MASTER | CPHA | INHIBIT);
    assert!(master.outputs().mosi, "through an abandonment");
    write(&mut master, SPICR, ENABLE | MASTER | CPHA);
    ticks(&mut master, 2, false);
    assert!(!master.outputs().mosi, "edge 1 changes at CPHA 1");

    let mut master = core_in(8, 16, ENABLE | MASTER);
    write(&mut master, SPIDTR, 0x80);
    master.tick(false);
    assert!(master.outputs().mosi, "a start at CPHA 0 drives");
    write(&mut master, SRR, RESET_VALUE);
    assert!(!master.outputs().mosi, "a reset");
}

#[test]
fn reading_16_ss_follows_spissr() {
    let mut master = Core::setup(8, 16, 3).unwrap();
    write(&mut master, SPISSR, 0b110);
    assert_eq!(master.outputs().ss, 0b111, "not yet an enabled master");
    write(&mut master, SPICR, ENABLE | MASTER);
    assert_eq!(master.outputs().ss, 0b111, "automatic and idle");
    write(&mut master, SPIDTR, 1);
    for tick in 1..=17 {
        master.tick(false);
        let selected = if tick % 2 == 0 { 0b101 } else { 0b011 };
        write(&mut master, SPISSR, selected);
        assert_eq!(master.outputs().ss, selected, "no latch at the start");
    }
    master.tick(false);
    assert_eq!(master.outputs().ss, 0b111, "raised by the gap tick");

    // Automatic to manual in mid-transfer: abandoned, and the low line stays low.
    write(&mut master, SPIDTR, 1);
    ticks(&mut master, 5, false);
    write(&mut master, SPICR, ENABLE | MASTER | MANUAL);
    assert!(master.is_idle());
    assert_eq!(master.outputs().ss, 0b011);
    // And from manual to automatic it is raised.
    write(&mut master, SPICR, ENABLE | MASTER);
    assert_eq!(master.outputs().ss, 0b111);
    write(&mut master, SPICR, MASTER | MANUAL);
    assert_eq!(master.outputs().ss, 0b111);
}

/// (SPICR before, written, whether it abandons a transfer at depth 0, at depth 16)
const SPICR_WRITES: [(u32, u32, bool, bool); 13] = [
    (0x006, 0x006, false, false),
    (0x006, 0x046, false, false),
    (0x006, 0x026, false, true),
    (0x006, 0x007, true, true),
    (0x006, 0x004, true, true),
    (0x006, 0x002, true, true),
    (0x006, 0x00E, true, true),
    (0x006, 0x016, true, true),
    (0x006, 0x086, true, true),
    (0x006, 0x106, true, true),
    (0x006, 0x206, true, true),
    (0x086, 0x006, true, true),
    (0x006, 0xFFFF_FC06, false, false),
];

#[test]
fn reading_17_which_spicr_writes_abandon() {
    for (before, written, at_depth_0, at_depth_16) in SPICR_WRITES {
        for (depth, abandons) in [(0, at_depth_0), (16, at_depth_16)] {
            let mut master = core_in(8, depth, before);
            write(&mut master, SPIDTR, 0xC5);
            ticks(&mut master, 4, false);
            write(&mut master, SPICR, written);
            assert_eq!(master.is_idle(), abandons, "{written:#x} at {depth}");
        }
    }
    // Idle and empty cores of every role sit out after the same writes, but for bit 8.
    for before in [ENABLE, 0, MASTER, ENABLE | MASTER] {
        for (change, sits_out) in [
            (0, false),
            (RX_RESET, false),
            (INHIBIT, false),
            (TX_RESET, true),
            (LOOP, true),
            (MANUAL, true),
            (LSB_FIRST, true),
        ] {
            let mut core = core_in(8, 16, before);
            core.line_step(false, false, false);
            write(&mut core, SPICR, before | change);
            assert_eq!(core.is_sitting_out(), sits_out, "{change:#x}");
        }
    }
    // Clearing bit 8 abandons nothing: a slave, inhibited, in mid-element.
    let mode = Mode::plain(8);
    let mut slave = core_in(8, 0, ENABLE | INHIBIT);
    slave.line_step(false, false, false);
    clock(&mut slave, mode, 0x35, 1..=5);
    write(&mut slave, SPICR, ENABLE);
    write(&mut slave, SPICR, ENABLE | INHIBIT | TX_RESET);
    assert_eq!(clock(&mut slave, mode, 0x35, 6..=16), stored(0x35));
}

#[test]
fn reading_18_an_abandoned_transfer_leaves_its_head_and_nothing_else() {
    for width in WIDTHS {
        let element = cut(0x1234_56C5, width);
        for edges in 0..2 * width {
            let mut master = core_in(width, 0, ENABLE | MASTER);
            write(&mut master, SPIDTR, element);
            ticks(&mut master, 1 + edges, true);
            write(&mut master, SPICR, ENABLE | MASTER | INHIBIT);
            assert_eq!(read(&mut master, IPISR), 0);
            write(&mut master, SPICR, ENABLE | MASTER);
            // All ones came in before, zeros come now.
            assert_eq!(ticks(&mut master, 2 * width + 1, false), stored(0));
            assert!(master.tx_held().is_empty());
        }
    }
    // The next start sends the head from its first bit.
    let mut master = ticked_master(8);
    write(&mut master, SPICR, LOOP | ENABLE | MASTER | INHIBIT);
    write(&mut master, SPICR, LOOP | ENABLE | MASTER);
    assert_eq!(ticks(&mut master, 17, false), stored(0xC5));
}
