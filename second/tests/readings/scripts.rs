//! Readings 27 to 29: scripts.

use crate::common::*;
use second::script::{play, PlayAnswer};

fn play_whole(script: &[u8], limit: usize) -> (PlayAnswer, Vec<u8>) {
    let mut log = vec![0; 1_000];
    let answer = play(script, &mut log, limit);
    log.truncate(answer.log_length);
    (answer, log)
}

#[test]
fn reading_27_order_at_each_record() {
    let setup = record(0, &[8, 16, 1]);
    let ended = play_whole(&setup, 1).0;
    assert_eq!(
        (ended.number, ended.place),
        (0, 7),
        "0 with the limit spent"
    );
    assert_eq!(play_whole(&[], 0).0.number, 0);
    // (the second record, limit, number)
    for (second, limit, number) in [
        (vec![9], 1, 27),
        (vec![1, 0, 9, 0], 2, 20),
        (record(9, &[1]), 2, 21),
        (record(0, &[1]), 2, 22),
        (record(0, &[9, 9, 0]), 2, 24),
        (record(3, &[2]), 2, 26),
    ] {
        let stopped = play_whole(&[setup.clone(), second].concat(), limit).0;
        assert_eq!((stopped.number, stopped.place), (number, 7));
    }
    for first in [record(1, &[0; 7]), record(2, &[0; 3]), record(3, &[2])] {
        assert_eq!(play_whole(&first, 2).0.number, 24);
    }
}

#[test]
fn reading_28_places_and_exact_room() {
    let too_long = vec![0; 16_385];
    let (answer, log) = play_whole(&too_long, 4_096);
    let nothing_done = PlayAnswer {
        number: 25,
        place: 0,
        log_length: 0,
        records_done: 0,
    };
    assert_eq!((answer, log), (nothing_done, vec![]));
    // One byte less is allowed; its first record is then a setup of no bytes.
    assert_eq!(play_whole(&too_long[1..], 4_096).0.number, 22);
    // A setup's log record has 5 bytes.
    let setup = record(0, &[8, 16, 1]);
    assert_eq!(play(&setup, &mut [0; 5], 9).number, 0);
    assert_eq!(play(&setup, &mut [0; 4], 9).number, 23);
}

#[test]
fn reading_29_lanes_below_15_and_idle_lines_are_logged() {
    for lanes in 0..15 {
        let script = [record(0, &[8, 16, 1]), record(2, &[0x64, 0, lanes])].concat();
        let logged = [record(0x8000, &[0]), record(0x8002, &[10, 0, 0, 0, 0])].concat();
        assert_eq!(play_whole(&script, 9).1, logged);
    }
    for (slaves, ss) in [
        (1, [1, 0, 0, 0]),
        (9, [0xFF, 1, 0, 0]),
        (31, [0xFF, 0xFF, 0xFF, 0x7F]),
        (32, [0xFF; 4]),
    ] {
        let script = [record(0, &[16, 0, slaves]), record(3, &[0])].concat();
        // Outcome and element 0; of the lines only MISO (bit 2) shows 1.
        let payload = [&[0, 0, 0, 0, 0, 4][..], &ss].concat();
        let logged = [record(0x8000, &[0]), record(0x8003, &payload)].concat();
        assert_eq!(play_whole(&script, 9).1, logged);
    }
}
