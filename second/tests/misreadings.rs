//! Each item of document 01's "Misreadings we have met".

mod common;

use common::*;

#[test]
fn inhibit_is_bit_8() {
    let mut core = core_in(8, 16, ENABLE | MASTER | 1 << 8);
    write(&mut core, SPIDTR, 0x35);
    assert_eq!(core.tick(true), NOTHING);
    // Bit 23 is reserved, and inhibits nothing.
    write(&mut core, SPICR, ENABLE | MASTER | 1 << 23);
    assert_eq!(read(&mut core, SPICR), ENABLE | MASTER);
    assert_eq!(core.tick(true), MOVED_ON);
}

#[test]
fn a_finish_never_sets_slave_mode_fault() {
    const SLAVE_MODE_FAULT: u32 = 1 << 1;
    for depth in DEPTHS {
        let mut master = core_in(8, depth, ENABLE | MASTER);
        assert_eq!(transfer(&mut master, 0x35, true), stored(0xFF));
        assert_eq!(read(&mut master, IPISR) & SLAVE_MODE_FAULT, 0);

        let mut slave = selected_slave(depth, Mode::plain(8));
        assert_eq!(
            exchange(&mut slave, Mode::plain(8), 0x35),
            (stored(0x35), 0)
        );
        assert_eq!(read(&mut slave, IPISR) & SLAVE_MODE_FAULT, 0);
    }
}

#[test]
fn an_abort_does_not_lose_the_element() {
    for edges in 0..=15 {
        let mut master = core_in(8, 16, LOOP | ENABLE | MASTER);
        write(&mut master, SPIDTR, 0xC5);
        ticks(&mut master, 1 + edges, true);
        write(&mut master, SPICR, LOOP | ENABLE | MASTER | INHIBIT);
        assert_eq!(read(&mut master, SPISR), 0x21);
        write(&mut master, SPICR, LOOP | ENABLE | MASTER);
        assert_eq!(ticks(&mut master, 17, true), stored(0xC5));
    }
}

#[test]
fn writing_1_to_ipisr_toggles() {
    let mut core = core(8, 16);
    let mut expected = 0;
    for written in [0x001, 0x003, 0x1FF, 0x100, 0x0AA] {
        write(&mut core, IPISR, written);
        expected ^= written;
        assert_eq!(read(&mut core, IPISR), expected);
    }
    assert_eq!(expected, 0x057);
}

#[test]
fn half_empty_is_9_elements_to_8() {
    const TX_HALF_EMPTY: u32 = 1 << 6;
    let mut master = core_in(8, 16, ENABLE | MASTER | INHIBIT);
    for element in 0..16 {
        write(&mut master, SPIDTR, element);
    }
    write(&mut master, SPICR, ENABLE | MASTER);
    for finished in 1..=16 {
        ticks(&mut master, 18, true);
        let flags = read(&mut master, IPISR);
        let nine_went_to_eight = finished == 8;
        assert_eq!(flags & TX_HALF_EMPTY != 0, nine_went_to_eight);
        if nine_went_to_eight {
            assert_eq!(read(&mut master, TX_OCCUPANCY), 7);
            write(&mut master, IPISR, TX_HALF_EMPTY);
        }
    }
}
