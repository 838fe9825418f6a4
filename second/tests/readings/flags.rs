//! Readings 7 to 10: flags.

use crate::common::*;

#[test]
fn reading_07_flags_of_a_spisel_fall() {
    // (SPICR, IPISR after a fall, SPISR bit 4)
    for (spicr, flags, modf) in [
        (0, 0x02, 0x00),
        (ENABLE, 0x80, 0x00),
        (MASTER, 0x01, 0x10),
        (ENABLE | MASTER, 0x01, 0x10),
    ] {
        let mut core = core_in(8, 16, spicr);
        for _ in 0..2 {
            assert_eq!(core.line_step(false, false, false), NOTHING);
            assert_eq!(read(&mut core, IPISR), flags, "a set flag stays set");
            assert_eq!(read(&mut core, SPISR) & 0x10, modf);
            // A standing level sets nothing more.
            core.line_step(false, false, true);
            assert_eq!(read(&mut core, SPISR) & 0x10, 0);
            assert_eq!(core.line_step(true, false, true), NOTHING);
        }
    }
    let mut core = core_in(8, 16, ENABLE);
    core.line_step(false, false, false);
    write(&mut core, IPISR, 0x80);
    for spicr in [ENABLE | MASTER, MASTER, 0, ENABLE] {
        write(&mut core, SPICR, spicr);
        core.line_step(false, false, false);
        assert_eq!(read(&mut core, IPISR), 0, "no fall, no flag");
    }
}

#[test]
fn reading_08_underrun_at_edge_1_and_it_outlives_the_element() {
    for mode in Mode::all() {
        let mut slave = selected_slave(16, mode);
        assert_eq!(read(&mut slave, IPISR), 0x80);
        assert_eq!(clock(&mut slave, mode, 0, 1..=1), STARVED);
        assert_eq!(read(&mut slave, IPISR), 0x88);
        assert_eq!(slave.line_step(true, mode.cpol, false), ABANDONED);
        assert_eq!(read(&mut slave, IPISR), 0x88);
    }
}

#[test]
fn reading_09_flags_of_a_finish() {
    let mode = Mode::plain(8);
    // A starved finish empties nothing: selected (7), underrun (3), Rx 0 to 1 (8).
    let mut slave = selected_slave(16, mode);
    exchange(&mut slave, mode, 0x35);
    assert_eq!(read(&mut slave, IPISR), 0x188);

    // Bit 8 again at the next 0 to 1, and not at 1 to 2.
    write(&mut slave, IPISR, 0x188);
    exchange(&mut slave, mode, 0x36);
    assert_eq!(read(&mut slave, IPISR), 0x008);
    assert_eq!(read(&mut slave, SPIDRR), 0x35);
    assert_eq!(read(&mut slave, SPIDRR), 0x36);
    exchange(&mut slave, mode, 0x37);
    assert_eq!(read(&mut slave, IPISR), 0x108);

    // FIFO resets set no flag.
    write(&mut slave, IPISR, 0x108);
    write(&mut slave, SPIDTR, 1);
    write(&mut slave, SPICR, ENABLE | TX_RESET | RX_RESET);
    assert_eq!(read(&mut slave, SPISR), 0x05);
    assert_eq!(read(&mut slave, IPISR), 0);

    // A master's Rx going from 0 to 1 is no slave's: emptied (2) alone.
    let mut master = core_in(8, 16, ENABLE | MASTER);
    transfer(&mut master, 1, true);
    assert_eq!(read(&mut master, IPISR), 0x004);
    // The 16th makes the store full (4), the 17th is lost (5) and doesn't.
    for _ in 2..=15 {
        assert_eq!(transfer(&mut master, 1, true), stored(0xFF));
        assert_eq!(read(&mut master, IPISR), 0x004);
    }
    transfer(&mut master, 1, true);
    assert_eq!(read(&mut master, IPISR), 0x014);
    write(&mut master, IPISR, 0x014);
    assert_eq!(transfer(&mut master, 1, true), lost(0xFF));
    assert_eq!(read(&mut master, IPISR), 0x024);
}

#[test]
fn reading_10_rx_full_is_judged_at_edge_2n() {
    for width in WIDTHS {
        let mut master = core_in(width, 0, LOOP | ENABLE | MASTER);
        assert_eq!(transfer(&mut master, 0x35, false), stored(0x35));
        assert_eq!(transfer(&mut master, 0x36, false), lost(0x36));
        write(&mut master, SPIDTR, 0x37);
        ticks(&mut master, 2 * width, false);
        assert_eq!(read(&mut master, SPIDRR), 0x35, "makes room in time");
        assert_eq!(master.tick(false), stored(0x37));
    }
    let mut master = core_in(8, 16, LOOP | ENABLE | MASTER);
    for element in 0..16 {
        assert_eq!(transfer(&mut master, element, false), stored(element));
    }
    write(&mut master, SPIDTR, 0x40);
    ticks(&mut master, 16, false);
    write(&mut master, SPICR, LOOP | ENABLE | MASTER | RX_RESET);
    assert_eq!(master.tick(false), stored(0x40));
    assert_eq!(master.rx_held(), &[0x40]);
}
