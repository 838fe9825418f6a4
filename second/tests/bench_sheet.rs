//! Every row of document 01's "Bench sheet", and the whole example of "Scripts and logs".

mod common;

use common::*;
use second::bench::Side;
use second::core::Core;
use second::script::{play, program_output};

#[test]
fn spisr_at_power_on_is_0x25() {
    for width in WIDTHS {
        for depth in DEPTHS {
            assert_eq!(read(&mut core(width, depth), SPISR), 0x25);
        }
    }
}

fn spisr_after_one_spidtr_write(depth: u32) -> u32 {
    let mut core = core(8, depth);
    write(&mut core, SPIDTR, 0x35);
    read(&mut core, SPISR)
}

#[test]
fn spisr_after_one_spidtr_write_is_0x21_at_depth_16() {
    assert_eq!(spisr_after_one_spidtr_write(16), 0x21);
}

#[test]
fn spisr_after_one_spidtr_write_is_0x29_at_depth_0() {
    assert_eq!(spisr_after_one_spidtr_write(0), 0x29);
}

fn core_after_16_writes() -> Core {
    let mut core = core(8, 16);
    for element in 0..16 {
        write(&mut core, SPIDTR, element);
    }
    core
}

#[test]
fn sixteen_writes_accepted_and_the_17th_gets_12() {
    assert_eq!(write_refusal(&mut core_after_16_writes(), SPIDTR, 16), 12);
}

#[test]
fn occupancy_after_16_writes_is_15() {
    assert_eq!(read(&mut core_after_16_writes(), TX_OCCUPANCY), 15);
}

#[test]
fn spidrr_read_at_power_on_gets_13() {
    assert_eq!(read_refusal(&mut core(8, 0), SPIDRR), 13);
    assert_eq!(read_refusal(&mut core(8, 16), SPIDRR), 13);
}

#[test]
fn srr_0x0b_gets_14() {
    assert_eq!(write_refusal(&mut core(8, 16), SRR, 0x0B), 14);
}

#[test]
fn two_slaves_spissr_0_gets_15() {
    let mut core = Core::setup(8, 16, 2).unwrap();
    assert_eq!(write_refusal(&mut core, SPISSR, 0), 15);
    assert_eq!(read(&mut core, SPISSR), 3);
}

#[test]
fn two_slaves_spissr_1_is_kept() {
    let mut core = Core::setup(8, 16, 2).unwrap();
    write(&mut core, SPISSR, 1);
    assert_eq!(read(&mut core, SPISSR), 1);
}

fn loopback_after_18_ticks(depth: u32) -> Core {
    let mut core = core_in(8, depth, 0x87);
    write(&mut core, SPIDTR, 0x35);
    ticks(&mut core, 18, true);
    core
}

#[test]
fn loopback_of_0x35_reads_0x35_after_18_ticks() {
    assert_eq!(read(&mut loopback_after_18_ticks(16), SPIDRR), 0x35);
    assert_eq!(read(&mut loopback_after_18_ticks(0), SPIDRR), 0x35);
}

#[test]
fn loopback_leaves_ipisr_0x4_at_depth_16() {
    assert_eq!(read(&mut loopback_after_18_ticks(16), IPISR), 0x4);
}

#[test]
fn loopback_leaves_ipisr_0x14_at_depth_0() {
    assert_eq!(read(&mut loopback_after_18_ticks(0), IPISR), 0x14);
}

#[test]
fn lsb_first_master_and_msb_first_slave_0x35_is_received_as_0xac() {
    let slave_mode = Mode::plain(8);
    let master_mode = slave_mode.with_lsb_first(true);
    let mut bench = ready_bench((16, 16), master_mode, slave_mode, MANUAL);
    bench_write(&mut bench, Side::Master, SPIDTR, 0x35);
    bench.run(18);
    assert_eq!(bench_read(&mut bench, Side::Slave, SPIDRR), 0xAC);
}

#[test]
fn writing_1_to_ipisr_at_power_on_makes_bit_0_1() {
    let mut core = core(8, 16);
    write(&mut core, IPISR, 1);
    assert_eq!(read(&mut core, IPISR), 1);
}

#[test]
fn empty_script_gives_number_0_and_no_log() {
    let mut log = [0xEE; 8];
    let answer = play(&[], &mut log, 4096);
    assert_eq!((answer.number, answer.log_length), (0, 0));
    assert_eq!((answer.place, answer.records_done), (0, 0));
    assert_eq!(log, [0xEE; 8]);
    assert_eq!(program_output(&[]), [5, 0, 0xFF, 0xFF, 0, 0, 0, 0, 0]);
}

#[test]
fn whole_example_of_scripts_and_logs() {
    let script = [
        0x03, 0x00, 0x00, 0x00, 0x08, 0x10, 0x01, 0x03, 0x00, 0x02, 0x00, 0x64, 0x00, 0x0F,
    ];
    let output = [
        0x01, 0x00, 0x00, 0x80, 0x00, 0x05, 0x00, 0x02, 0x80, 0x00, 0x25, 0x00, 0x00, 0x00, 0x05,
        0x00, 0xFF, 0xFF, 0x00, 0x0E, 0x00, 0x00, 0x00,
    ];
    assert_eq!(program_output(&script), output);
}
