//! Readings 1 to 6: registers and bus.

use crate::common::*;
use second::core::Core;

#[test]
fn reading_01_lanes_refuse_both_ways_and_nothing_is_aliased() {
    let mut core = core(8, 16);
    let power_on = core.clone();
    for lanes in (0..=255).filter(|&lanes| lanes != 15) {
        assert_eq!(core.read(SPISR, lanes).refusal, 10);
        assert_eq!(core.write(SPIDTR, lanes, 1).refusal, 10);
        assert_eq!(core.read(0x80, lanes).refusal, 10, "before 11");
    }
    let registers = [
        0x1C, 0x20, 0x28, 0x40, 0x60, 0x64, 0x68, 0x6C, 0x70, 0x74, 0x78,
    ];
    for offset in (0..0x400).chain([0xFFFC, 0x1_0064, 0xFFFF_FFFC]) {
        let expected = match offset {
            _ if offset % 4 != 0 => 10,
            _ if !registers.contains(&offset) => 11,
            SPIDRR => 13,
            _ => 0,
        };
        assert_eq!(read_refusal(&mut core, offset), expected, "{offset:#x}");
    }
    assert_eq!(core, power_on);
    let mut without_fifo = self::core(8, 0);
    for offset in [TX_OCCUPANCY, RX_OCCUPANCY] {
        assert_eq!(read_refusal(&mut without_fifo, offset), 11);
        assert_eq!(write_refusal(&mut without_fifo, offset, 0), 11);
    }
}

#[test]
fn reading_02_wrong_direction_is_accepted_and_spisr_read_clears_modf() {
    let mut core = core_in(8, 16, MASTER);
    write(&mut core, SPIDTR, 0x35);
    core.line_step(false, false, false);
    let before = core.clone();
    assert_eq!(read(&mut core, SPIDTR), 0);
    assert_eq!(read(&mut core, SRR), 0);
    for read_only in [SPIDRR, SPISR, TX_OCCUPANCY, RX_OCCUPANCY] {
        write(&mut core, read_only, 0xFFFF_FFFF);
    }
    assert_eq!(core.read(SPISR, 7).refusal, 10);
    assert_eq!(core, before, "a refused SPISR read clears nothing");
    assert_eq!(read(&mut core, SPISR), 0x31, "the value still shows MODF");
    assert_eq!(read(&mut core, SPISR), 0x21);
    assert_eq!(read(&mut core, IPISR), 1);
}

#[test]
fn reading_03_srr_compares_32_bits_spissr_k_bits_elements_n_bits() {
    for other in [0x1000_000A, 0x0000_010A, 0x8000_000A, 0, 0xFFFF_FFFF] {
        assert_eq!(write_refusal(&mut core(8, 16), SRR, other), 14);
    }
    // (K, written, refusal, read after); power-on shows K ones.
    for (slaves, written, refusal, kept) in [
        (2, 0xFFFF_FFFD, 0, 0b01),
        (2, 0x0000_0003, 0, 0b11),
        (2, 0xFFFF_FFFC, 15, 0b11),
        (1, 0x0000_0000, 0, 0),
        (1, 0xFFFF_FFFE, 0, 0),
        (3, 0b100, 15, 0b111),
        (3, 0b101, 0, 0b101),
        (32, 0x7FFF_FFFF, 0, 0x7FFF_FFFF),
        (32, 0x7FFF_FFFE, 15, 0xFFFF_FFFF),
    ] {
        let mut core = Core::setup(8, 16, slaves).unwrap();
        assert_eq!(write_refusal(&mut core, SPISSR, written), refusal);
        assert_eq!(read(&mut core, SPISSR), kept);
    }
    for (width, kept) in [(8, 0x35), (16, 0xA735), (32, 0x9C04_A735)] {
        let mut core = core_in(width, 16, LOOP | ENABLE | MASTER);
        write(&mut core, SPIDTR, 0x9C04_A735);
        assert_eq!(core.tx_held(), &[kept]);
        assert_eq!(ticks(&mut core, 2 * width + 1, false), stored(kept));
    }
}

#[test]
fn reading_04_ipisr_and_ipier_keep_bits_0_to_8_at_any_depth() {
    for depth in DEPTHS {
        let mut core = core(8, depth);
        write(&mut core, IPISR, 0xFFFF_FFFF);
        write(&mut core, IPIER, 0xFFFF_FFFF);
        assert_eq!(read(&mut core, IPISR), 0x1FF);
        assert_eq!(read(&mut core, IPIER), 0x1FF);
        write(&mut core, DGIER, 0xFFFF_FFFF);
        assert_eq!(read(&mut core, DGIER), 0x8000_0000);
        for bit in 0..9 {
            write(&mut core, IPIER, 1 << bit);
            assert!(core.outputs().interrupt);
            write(&mut core, IPISR, 1 << bit);
            assert!(!core.outputs().interrupt);
            write(&mut core, IPISR, 1 << bit);
            assert!(core.outputs().interrupt);
        }
        write(&mut core, DGIER, 0x7FFF_FFFF);
        assert!(!core.outputs().interrupt);
    }
    // A slave's finish at depth 0: emptied (2), made full (4), selected (7), no 6 or 8.
    let mut slave = selected_slave(0, Mode::plain(8));
    write(&mut slave, SPIDTR, 1);
    exchange(&mut slave, Mode::plain(8), 2);
    assert_eq!(read(&mut slave, IPISR), 0x094);
}

#[test]
fn reading_05_tx_flags_count_the_head_until_edge_2n() {
    for width in WIDTHS {
        let mut core = core_in(width, 0, ENABLE | MASTER);
        write(&mut core, SPIDTR, 1);
        for _ in 0..2 * width {
            core.tick(false);
            assert_eq!(write_refusal(&mut core, SPIDTR, 2), 12);
            assert_eq!(read(&mut core, SPISR), 0x29);
        }
        assert_eq!(core.tick(false), stored(0));
        // Edge 2N, the gap still to come: Tx empty, Rx full.
        assert_eq!(read(&mut core, SPISR), 0x26);
        write(&mut core, SPIDTR, 2);
        assert_eq!(core.tx_held(), &[2]);
    }
}

#[test]
fn reading_06_spicr_bits_5_and_6_are_never_stored() {
    for depth in DEPTHS {
        let mut core = core(8, depth);
        assert_eq!(read(&mut core, SPICR), 0x180);
        write(&mut core, SPICR, 0x1E0);
        assert_eq!(read(&mut core, SPICR), 0x180);
        write(&mut core, SPICR, 0xFFFF_FFFF);
        assert_eq!(read(&mut core, SPICR), 0x39F);
    }
}
