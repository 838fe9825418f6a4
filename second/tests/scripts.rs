//! Scripts and logs: what is logged, each stop, and the order of the stops.

mod common;

use std::io::Write;
use std::process::{Command, Stdio};

use common::*;
use second::script::{play, program_output, PlayAnswer};

const SETUP: u16 = 0;
const WRITE: u16 = 1;
const READ: u16 = 2;
const TICK: u16 = 3;
const LINE_STEP: u16 = 4;

const UNTOUCHED: u8 = 0xEE;
const ENOUGH: usize = 4_096;

fn setup() -> Vec<u8> {
    record(SETUP, &[8, 16, 1])
}

/// A setup and a SPISR read: 14 bytes, as in document 01's example.
fn prefix() -> Vec<u8> {
    [setup(), record(READ, &[0x64, 0, 15])].concat()
}

/// Log of the prefix: 5 and 9 bytes.
const PREFIX_LOG: [u8; 14] = [
    0x01, 0x00, 0x00, 0x80, 0x00, 0x05, 0x00, 0x02, 0x80, 0x00, 0x25, 0x00, 0x00, 0x00,
];

/// Plays into a log of `room` bytes, which must be untouched after its records.
fn play_in(script: &[u8], room: usize, limit: usize) -> (PlayAnswer, Vec<u8>) {
    let mut log = vec![UNTOUCHED; room];
    let answer = play(script, &mut log, limit);
    let untouched = log.split_off(answer.log_length);
    assert!(untouched.iter().all(|&byte| byte == UNTOUCHED));
    (answer, log)
}

fn number_of(script: &[u8], room: usize, limit: usize) -> u8 {
    let (answer, log) = play_in(script, room, limit);
    assert_eq!(answer, stop_at(answer.number, 0, 0, 0));
    assert!(log.is_empty());
    answer.number
}

fn stop_at(number: u8, place: usize, log_length: usize, records_done: usize) -> PlayAnswer {
    PlayAnswer {
        number,
        place,
        log_length,
        records_done,
    }
}

/// Checks that `bytes` after the prefix stop it with `number`, and as the program too.
fn check_stop_after_prefix(bytes: &[u8], number: u8) {
    let script = [prefix(), bytes.to_vec()].concat();
    let (answer, log) = play_in(&script, 100, ENOUGH);
    assert_eq!(answer, stop_at(number, 14, 14, 2), "{bytes:?}");
    assert_eq!(log, PREFIX_LOG);
    let closing = [5, 0, 0xFF, 0xFF, number, 14, 0, 0, 0];
    assert_eq!(
        program_output(&script),
        [&PREFIX_LOG[..], &closing].concat()
    );
}

#[test]
fn stop_25_script_too_long() {
    // Setup 7 bytes, read 7, 3,274 ticks of 5: 16,384 bytes in all.
    let mut script = prefix();
    for _ in 0..3_274 {
        script.extend(record(TICK, &[0]));
    }
    let log_length = 14 + 3_274 * 14;
    let (answer, _) = play_in(&script, log_length, ENOUGH);
    assert_eq!(answer, stop_at(0, 16_384, log_length, 3_276));
    script.push(0);
    assert_eq!(number_of(&script, log_length, ENOUGH), 25);
    assert_eq!(number_of(&script, 0, 0), 25, "before 27 and 23");
    assert_eq!(number_of(&vec![0xFF; 16_385], 100, 9), 25, "before 20");
    assert_eq!(
        program_output(&script),
        [5, 0, 0xFF, 0xFF, 25, 0, 0, 0, 0],
        "no log"
    );
}

#[test]
fn stop_27_limit_spent() {
    let (answer, log) = play_in(&prefix(), 100, 1);
    assert_eq!(answer, stop_at(27, 7, 5, 1));
    assert_eq!(log, PREFIX_LOG[..5]);
    let (answer, _) = play_in(&prefix(), 100, 2);
    assert_eq!(answer, stop_at(0, 14, 14, 2), "no bytes remain");
}

#[test]
fn stop_20_cut_short() {
    for length in 1..4 {
        check_stop_after_prefix(&record(TICK, &[0])[..length], 20);
    }
    for length in 4..11 {
        check_stop_after_prefix(&record(WRITE, &[0; 7])[..length], 20);
    }
    check_stop_after_prefix(&[0xFF, 0xFF, 3, 0, 0], 20);
}

#[test]
fn stop_21_unknown_kind() {
    for kind in [5, 6, 0x0100, 0x0103, 0x8000, 0x8003, 0xFFFF] {
        for payload in [&[][..], &[0], &[0, 0, 15]] {
            check_stop_after_prefix(&record(kind, payload), 21);
        }
    }
}

#[test]
fn stop_22_wrong_length() {
    for (kind, right) in [(SETUP, 3), (WRITE, 7), (READ, 3), (TICK, 1), (LINE_STEP, 1)] {
        for length in (0..20).filter(|&length| length != right) {
            check_stop_after_prefix(&record(kind, &vec![0; length]), 22);
        }
    }
}

#[test]
fn stop_24_setup_not_first_or_repeated() {
    check_stop_after_prefix(&setup(), 24);
    for (kind, payload) in [
        (WRITE, &[0x68, 0, 15, 1, 0, 0, 0][..]),
        (READ, &[0x64, 0, 15]),
        (TICK, &[1]),
        (LINE_STEP, &[7]),
    ] {
        assert_eq!(number_of(&record(kind, payload), 100, ENOUGH), 24);
    }
}

#[test]
fn stop_26_byte_out_of_range() {
    for over in [16, 31, 255] {
        check_stop_after_prefix(&record(WRITE, &[0x68, 0, over, 1, 0, 0, 0]), 26);
        check_stop_after_prefix(&record(READ, &[0x64, 0, over]), 26);
    }
    for over in [2, 3, 255] {
        check_stop_after_prefix(&record(TICK, &[over]), 26);
    }
    for over in [8, 15, 255] {
        check_stop_after_prefix(&record(LINE_STEP, &[over]), 26);
    }
}

#[test]
fn stops_1_to_3_setup_refused() {
    for (payload, number) in [
        ([0, 16, 1], 1),
        ([9, 16, 1], 1),
        ([64, 16, 1], 1),
        ([8, 1, 1], 2),
        ([16, 15, 1], 2),
        ([32, 17, 1], 2),
        ([8, 0, 0], 3),
        ([8, 16, 33], 3),
        ([8, 16, 255], 3),
        // "Setup refusals, in order".
        ([9, 9, 0], 1),
        ([8, 9, 0], 2),
    ] {
        assert_eq!(number_of(&record(SETUP, &payload), 100, ENOUGH), number);
    }
}

#[test]
fn stop_23_too_little_room() {
    let script = [prefix(), record(TICK, &[0])].concat();
    // Log records of 5, 9 and 14 bytes, each fitting exactly at its end.
    for room in 0..30 {
        let (number, place, log_length, records_done) = match room {
            0..5 => (23, 0, 0, 0),
            5..14 => (23, 7, 5, 1),
            14..28 => (23, 14, 14, 2),
            _ => (0, 19, 28, 3),
        };
        let (answer, log) = play_in(&script, room, ENOUGH);
        assert_eq!(answer, stop_at(number, place, log_length, records_done));
        assert_eq!(log[..log_length.min(14)], PREFIX_LOG[..log_length.min(14)]);
    }
}

#[test]
fn each_stop_comes_before_the_later_ones() {
    let cut_unknown = [2, 0, 5, 0, 0];
    let cut_tick = [1, 0, 3, 0];
    // (first record, room, limit, number)
    let rows: [(&[u8], usize, usize, u8); 13] = [
        (&cut_tick, 0, 0, 27),
        (&record(9, &[]), 0, 0, 27),
        (&setup(), 0, 0, 27),
        (&cut_unknown, 0, 1, 20),
        (&cut_tick, 0, 1, 20),
        (&record(5, &[0, 0, 0]), 0, 1, 21),
        (&record(TICK, &[2, 2]), 0, 1, 22),
        (&record(SETUP, &[9, 9]), 0, 1, 22),
        (&record(TICK, &[2]), 0, 1, 24),
        (&record(READ, &[0, 0, 16]), 0, 1, 24),
        (&record(SETUP, &[9, 16, 1]), 0, 1, 1),
        (&record(SETUP, &[8, 9, 1]), 0, 1, 2),
        (&record(SETUP, &[8, 16, 0]), 0, 1, 3),
    ];
    for (script, room, limit, number) in rows {
        assert_eq!(number_of(script, room, limit), number, "{script:?}");
    }
    // After a setup, with no room left.
    for (second, number) in [
        (record(SETUP, &[9, 9]), 22),
        (record(SETUP, &[9, 9, 0]), 24),
        (record(TICK, &[2]), 26),
        (record(TICK, &[1]), 23),
    ] {
        let (answer, _) = play_in(&[setup(), second].concat(), 5, ENOUGH);
        assert_eq!(answer, stop_at(number, 7, 5, 1));
    }
}

/// Script records beside the log payloads they must give.
const STORY: [(u16, &[u8], &[u8]); 14] = [
    (SETUP, &[8, 16, 2], &[0]),
    // Interrupts on: DGIER bit 31, IPIER bit 1 (slave MODF).
    (WRITE, &[0x1C, 0, 15, 0, 0, 0, 0x80], &[0, 0, 0, 0, 0]),
    (WRITE, &[0x28, 0, 15, 2, 0, 0, 0], &[0, 0, 0, 0, 0]),
    // Refusals 10 and 11 are logged and stop nothing.
    (READ, &[0x64, 0, 7], &[10, 0, 0, 0, 0]),
    (WRITE, &[0x64, 1, 15, 1, 2, 3, 4], &[11, 0, 0, 0, 0]),
    // A tick of a disabled core: MISO undriven shows 1, both SS lines high.
    (TICK, &[0], &[0, 0, 0, 0, 0, 0b00100, 3, 0, 0, 0]),
    // SPISEL falls on it: slave MODF raises the interrupt.
    (LINE_STEP, &[0], &[0, 0, 0, 0, 0, 0b01100, 3, 0, 0, 0]),
    // SPISSR 1 selects slave 1; an enabled manual master with CPOL 1.
    (WRITE, &[0x70, 0, 15, 1, 0, 0, 0], &[0, 0, 0, 0, 0]),
    (WRITE, &[0x60, 0, 15, 0x8E, 0, 0, 0], &[0, 0, 0, 0, 0]),
    (WRITE, &[0x68, 0, 15, 0x80, 0, 0, 0], &[0, 0, 0, 0, 0]),
    // The start drives the first bit, 1; edge 1 leaves CPOL; edge 2 brings the next, 0.
    (TICK, &[1], &[1, 0, 0, 0, 0, 0b01111, 1, 0, 0, 0]),
    (TICK, &[1], &[1, 0, 0, 0, 0, 0b01110, 1, 0, 0, 0]),
    (TICK, &[1], &[1, 0, 0, 0, 0, 0b01101, 1, 0, 0, 0]),
    (READ, &[0x20, 0, 15], &[0, 2, 0, 0, 0]),
];

#[test]
fn log_of_a_story_byte_for_byte() {
    let script: Vec<u8> = STORY.iter().flat_map(|row| record(row.0, row.1)).collect();
    let expected: Vec<u8> = STORY
        .iter()
        .flat_map(|row| record(row.0 + 0x8000, row.2))
        .collect();
    let (answer, log) = play_in(&script, 1_000, ENOUGH);
    assert_eq!(log, expected);
    assert_eq!(answer, stop_at(0, script.len(), expected.len(), 14));
}

#[test]
fn log_of_a_slave_shows_miso_driven_and_the_element() {
    let mut script = setup();
    let mut expected = record(0x8000, &[0]);
    let mut play_on = |kind: u16, payload: &[u8], logged: &[u8]| {
        script.extend(record(kind, payload));
        expected.extend(record(kind + 0x8000, logged));
    };
    play_on(WRITE, &[0x60, 0, 15, 2, 0, 0, 0], &[0, 0, 0, 0, 0]);
    play_on(WRITE, &[0x68, 0, 15, 0xFF, 0, 0, 0], &[0, 0, 0, 0, 0]);
    // Selected: it shows the first bit of 0xFF, driven.
    play_on(LINE_STEP, &[0b000], &[0, 0, 0, 0, 0, 0b10100, 1, 0, 0, 0]);
    for edge in 1..16 {
        // SCK high at odd edges; MOSI high at the last odd one, so 0x01 comes in.
        let line_byte = if edge == 15 { 0b110 } else { edge % 2 * 0b010 };
        let logged = [1, 0, 0, 0, 0, 0b10100, 1, 0, 0, 0];
        play_on(LINE_STEP, &[line_byte], &logged);
    }
    // Finished: the store is empty, so MISO shows 0.
    play_on(LINE_STEP, &[0b000], &[2, 1, 0, 0, 0, 0b10000, 1, 0, 0, 0]);
    play_on(LINE_STEP, &[0b001], &[0, 0, 0, 0, 0, 0b00100, 1, 0, 0, 0]);
    assert_eq!(play_in(&script, 1_000, ENOUGH).1, expected);
}

#[test]
fn the_program_plays_standard_input() {
    let mut program = Command::new(env!("CARGO_BIN_EXE_second"))
        .stdin(Stdio::piped())
        .stdout(Stdio::piped())
        .spawn()
        .unwrap();
    // The pipe closes at the end of this statement.
    program.stdin.take().unwrap().write_all(&prefix()).unwrap();
    let output = program.wait_with_output().unwrap();
    assert!(output.status.success());
    let closing = [5, 0, 0xFF, 0xFF, 0, 14, 0, 0, 0];
    assert_eq!(output.stdout, [&PREFIX_LOG[..], &closing].concat());
}
