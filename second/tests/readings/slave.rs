//! Readings 19 to 23: a slave.

use crate::common::*;

#[test]
fn reading_19_outcomes_of_falls_and_rises() {
    for mode in Mode::all() {
        let last = 2 * mode.width;
        let idle = mode.cpol;
        for depth in DEPTHS {
            let mut slave = selected_slave(depth, mode);
            assert_eq!(slave.line_step(true, idle, false), NOTHING);
            write(&mut slave, SPIDTR, 0x35);
            for edges in [1, 2, last / 2, last - 1] {
                slave.line_step(false, idle, false);
                clock(&mut slave, mode, 0xFF, 1..=edges);
                // Also with an SCK change, which at edges = last - 1 would be edge 2N.
                let next = mode.sck_after(edges + 1);
                assert_eq!(slave.line_step(true, next, false), ABANDONED);
                assert_eq!(slave.tx_held(), &[0x35]);
                assert!(slave.rx_held().is_empty());
                // The levels are noted: the same SCK again is no edge.
                assert_eq!(slave.line_step(false, next, false), NOTHING);
                assert_eq!(slave.line_step(false, next, false), NOTHING);
                assert_eq!(slave.line_step(true, idle, false), NOTHING);
            }
            slave.line_step(false, idle, false);
            assert_eq!(exchange(&mut slave, mode, 0x5A), (stored(0x5A), 0x35));
            assert_eq!(slave.line_step(true, idle, false), NOTHING);
        }
    }
    // A rise while sitting out.
    let mode = Mode::plain(8);
    let mut slave = selected_slave(16, mode);
    clock(&mut slave, mode, 0, 1..=3);
    write(&mut slave, SRR, RESET_VALUE);
    write(&mut slave, SPICR, ENABLE);
    assert_eq!(slave.line_step(true, false, false), NOTHING);
    assert!(!slave.is_sitting_out());
}

#[test]
fn reading_20_an_edge_towards_cpol_between_elements_is_not_counted() {
    for mode in Mode::all() {
        let mut slave = core_in(mode.width, 16, ENABLE | mode.spicr());
        // Selected while SCK stands away from CPOL.
        slave.line_step(true, !mode.cpol, false);
        slave.line_step(false, !mode.cpol, false);
        assert_eq!(slave.line_step(false, mode.cpol, false), NOTHING);
        assert!(slave.is_idle());
        write(&mut slave, SPIDTR, 0x35);
        assert_eq!(exchange(&mut slave, mode, 0x5A), (stored(0x5A), 0x35));
    }
}

#[test]
fn reading_21_miso_between_elements_at_cpha_0_is_live() {
    for (cpha, shows_head) in [(false, true), (true, false)] {
        let mode = Mode::plain(8).with_cpha(cpha);
        let mut slave = selected_slave(16, mode);
        assert!(!slave.outputs().miso);
        write(&mut slave, SPIDTR, 0x80);
        assert_eq!(slave.outputs().miso, shows_head);
        write(&mut slave, SPIDTR, 0x01);
        write(&mut slave, SPIDTR, 0xFF);
        // After edge 2N: the first bit of 0x01, of 0xFF, and nothing left.
        for first_bit in [false, true, false] {
            exchange(&mut slave, mode, 0);
            assert_eq!(slave.outputs().miso, first_bit && shows_head);
        }
    }
}

#[test]
fn reading_22_sitting_out_with_spisel_low() {
    let mode = Mode::plain(8);
    let mut slave = selected_slave(16, mode);
    write(&mut slave, SPIDTR, 0xFF);
    assert!(slave.outputs().miso);
    // No transfer is running, yet the change sits out.
    write(&mut slave, SPICR, ENABLE | LOOP);
    assert_eq!(read(&mut slave, SPISR), 0x01);
    assert!(slave.outputs().miso_driven && !slave.outputs().miso);
    for edge in 1..=40 {
        assert_eq!(slave.line_step(false, edge % 2 == 1, true), NOTHING);
    }
    assert_eq!(slave.line_step(true, false, false), NOTHING);
    slave.line_step(false, false, false);
    assert_eq!(exchange(&mut slave, mode, 0x5A), (stored(0x5A), 0xFF));

    write(&mut slave, SRR, RESET_VALUE);
    assert!(slave.is_sitting_out());
    write(&mut slave, SPICR, ENABLE);
    assert_eq!(clock(&mut slave, mode, 0, 1..=16), NOTHING);
    assert_eq!(read(&mut slave, IPISR), 0, "no new fall");
    assert_eq!(read(&mut slave, SPISR), 0x05);

    // Any core stops sitting out at a high SPISEL, an enabled slave or not.
    for spicr in [0, MASTER, ENABLE | MASTER] {
        let mut core = core(8, 16);
        core.line_step(false, false, false);
        write(&mut core, SPICR, spicr);
        assert!(core.is_sitting_out());
        assert_eq!(core.line_step(true, false, false), NOTHING);
        assert!(!core.is_sitting_out());
    }

    // With SPISEL high nothing is sat out.
    slave.line_step(true, false, false);
    write(&mut slave, SPICR, ENABLE | LSB_FIRST);
    write(&mut slave, SRR, RESET_VALUE);
    assert!(!slave.is_sitting_out());
}

#[test]
fn reading_23_a_starved_element_sends_zeros_to_its_end() {
    for mode in Mode::all() {
        for (depth, second_step) in [(16, stored(0x5B)), (0, lost(0x5B))] {
            let mut slave = selected_slave(depth, mode);
            assert_eq!(clock(&mut slave, mode, 0x5A, 1..=1), STARVED);
            write(&mut slave, SPIDTR, cut(0xFFFF_FFFF, mode.width));
            for edge in 2..2 * mode.width {
                assert!(!slave.outputs().miso, "{mode:?} before edge {edge}");
                assert_eq!(clock(&mut slave, mode, 0x5A, edge..=edge), MOVED_ON);
            }
            let last = 2 * mode.width;
            assert_eq!(clock(&mut slave, mode, 0x5A, last..=last), stored(0x5A));
            let second = exchange(&mut slave, mode, 0x5B);
            assert_eq!(second, (second_step, cut(0xFFFF_FFFF, mode.width)));
        }
    }
}
