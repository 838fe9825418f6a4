//! What every register reads at power-on and after a reset, and what power-on has seen.

mod common;

use common::*;
use second::core::Core;

/// Each register's reset value where 01 gives one; 0 for the interrupt registers (000, Table 4).
fn assert_reset_values(core: &mut Core, all_selects_high: u32) {
    assert_eq!(read(core, DGIER), 0);
    assert_eq!(read(core, IPISR), 0);
    assert_eq!(read(core, IPIER), 0);
    assert_eq!(read(core, SPICR), 0x180);
    assert_eq!(read(core, SPISR), 0x25);
    assert_eq!(read(core, SPISSR), all_selects_high);
}

#[test]
fn registers_at_power_on_and_after_a_reset() {
    for (slave_count, all_selects_high) in [(1, 1), (5, 0x1F), (32, 0xFFFF_FFFF)] {
        let mut core = Core::setup(8, 16, slave_count).expect("a valid setup");
        assert_reset_values(&mut core, all_selects_high);
        write(&mut core, DGIER, 0x8000_0000);
        write(&mut core, IPIER, 0x1FF);
        write(&mut core, IPISR, 0x1FF);
        write(&mut core, SPISSR, all_selects_high - 1);
        write(&mut core, SPICR, LOOP | ENABLE | MASTER);
        write(&mut core, SPIDTR, 0x35);
        write(&mut core, SRR, RESET_VALUE);
        assert_reset_values(&mut core, all_selects_high);
    }
}

#[test]
fn occupancy_is_elements_minus_one_and_0_when_empty() {
    let mut core = core_in(8, 16, LOOP | ENABLE | MASTER);
    for register in [TX_OCCUPANCY, RX_OCCUPANCY] {
        assert_eq!(read(&mut core, register), 0);
    }
    for (received, occupancy) in [(1, 0), (2, 1), (3, 2)] {
        assert_eq!(transfer(&mut core, received, true), stored(received));
        assert_eq!(read(&mut core, RX_OCCUPANCY), occupancy);
        assert_eq!(read(&mut core, TX_OCCUPANCY), 0);
    }
}

/// An SCK seen low at power-on makes a high one an edge once SPISEL is low, and a low one none.
#[test]
fn power_on_has_seen_sck_low() {
    let mut slave = core_in(8, 16, ENABLE);
    assert_eq!(slave.line_step(false, false, false), NOTHING);
    assert_eq!(slave.line_step(false, false, true), NOTHING);
    assert_eq!(slave.line_step(false, true, false), STARVED);
}

/// No answer is a decode error: whatever is asked gets 0 or one of 10 to 15.
#[test]
fn every_offset_is_answered_with_0_or_10_to_15() {
    for depth in DEPTHS {
        for offset in 0..=0x100 {
            let mut core = core(8, depth);
            let refusals = [
                core.read(offset, ALL_LANES).refusal,
                core.write(offset, ALL_LANES, 0).refusal,
            ];
            assert!(refusals.iter().all(|r| matches!(r, 0 | 10..=15)));
        }
    }
}
