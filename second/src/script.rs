//! Scripts and logs: plays the records of a script on one core and logs the answers.

use crate::core::{Core, Outputs};
use crate::registers::Answer;
use crate::transfer::Step;

/// A longer script is refused with 25.
pub const LONGEST_SCRIPT: usize = 16_384;
/// The limit of records the program lends.
pub const PROGRAM_LIMIT: usize = 4_096;

const HEADER: usize = 4;
const SETUP_LOG: usize = 1;
const ACCESS_LOG: usize = 5;
const LINES_LOG: usize = 10;

/// How a script ended: number 0 at its end, otherwise what stopped it.
#[derive(Clone, Copy, Debug, PartialEq, Eq)]
pub struct PlayAnswer {
    pub number: u8,
    /// Where the first record not done begins.
    pub place: usize,
    pub log_length: usize,
    pub records_done: usize,
}

/// Plays `script`; writes whole log records and touches no byte of `log` after them.
pub fn play(script: &[u8], log: &mut [u8], limit: usize) -> PlayAnswer {
    let mut answer = PlayAnswer {
        number: 0,
        place: 0,
        log_length: 0,
        records_done: 0,
    };
    if script.len() > LONGEST_SCRIPT {
        answer.number = 25;
        return answer;
    }
    let mut player = Player {
        core: None,
        log: Log {
            lent: log,
            length: 0,
        },
    };
    while answer.place < script.len() {
        if answer.records_done == limit {
            answer.number = 27;
            break;
        }
        match player.play_record(&script[answer.place..]) {
            Ok(record_length) => answer.place += record_length,
            Err(number) => {
                answer.number = number;
                break;
            }
        }
        answer.records_done += 1;
    }
    answer.log_length = player.log.length;
    answer
}

/// What the program writes for `script`: the log, then the record of kind 0xFFFF.
pub fn program_output(script: &[u8]) -> Vec<u8> {
    let mut output = vec![0; PROGRAM_LIMIT * (HEADER + LINES_LOG)];
    let answer = play(script, &mut output, PROGRAM_LIMIT);
    output.truncate(answer.log_length);
    output.extend([5, 0, 0xFF, 0xFF, answer.number]);
    output.extend((answer.place as u32).to_le_bytes());
    output
}

#[derive(Clone, Copy, Debug, PartialEq, Eq)]
enum Record {
    Setup {
        width: u8,
        depth: u8,
        slave_count: u8,
    },
    Write {
        offset: u16,
        lanes: u8,
        value: u32,
    },
    Read {
        offset: u16,
        lanes: u8,
    },
    Tick {
        miso: u8,
    },
    LineStep {
        lines: u8,
    },
}

impl Record {
    /// The record of this kind and payload, or 21 (unknown kind) or 22 (wrong length).
    fn understand(kind: u16, payload: &[u8]) -> Result<Record, u8> {
        match (kind, payload) {
            (0, &[width, depth, slave_count]) => Ok(Record::Setup {
                width,
                depth,
                slave_count,
            }),
            (1, &[o0, o1, lanes, v0, v1, v2, v3]) => Ok(Record::Write {
                offset: u16::from_le_bytes([o0, o1]),
                lanes,
                value: u32::from_le_bytes([v0, v1, v2, v3]),
            }),
            (2, &[o0, o1, lanes]) => Ok(Record::Read {
                offset: u16::from_le_bytes([o0, o1]),
                lanes,
            }),
            (3, &[miso]) => Ok(Record::Tick { miso }),
            (4, &[lines]) => Ok(Record::LineStep { lines }),
            (0..=4, _) => Err(22),
            _ => Err(21),
        }
    }

    fn is_setup(self) -> bool {
        matches!(self, Record::Setup { .. })
    }

    // 26: "lanes over 15, MISO over 1 or line byte over 7".
    fn is_in_range(self) -> bool {
        match self {
            Record::Setup { .. } => true,
            Record::Write { lanes, .. } | Record::Read { lanes, .. } => lanes <= 15,
            Record::Tick { miso } => miso <= 1,
            Record::LineStep { lines } => lines <= 7,
        }
    }

    /// A setup's core, or its refusal 1 to 3; other records bring none.
    fn new_core(self) -> Result<Option<Core>, u8> {
        match self {
            Record::Setup {
                width,
                depth,
                slave_count,
            } => Core::setup(width.into(), depth.into(), slave_count.into()).map(Some),
            _ => Ok(None),
        }
    }

    /// How many bytes its log record takes, header included.
    fn log_record_length(self) -> usize {
        match self {
            Record::Setup { .. } => HEADER + SETUP_LOG,
            Record::Write { .. } | Record::Read { .. } => HEADER + ACCESS_LOG,
            Record::Tick { .. } | Record::LineStep { .. } => HEADER + LINES_LOG,
        }
    }
}

struct Player<'a> {
    /// There is one from the first record on, as 24 lets nothing but a setup come first.
    core: Option<Core>,
    log: Log<'a>,
}

impl Player<'_> {
    /// Plays the record `rest` begins with and answers its length, or what stops it.
    fn play_record(&mut self, rest: &[u8]) -> Result<usize, u8> {
        let (kind, payload) = split_record(rest)?;
        let record = Record::understand(kind, payload)?;
        if record.is_setup() == self.core.is_some() {
            return Err(24);
        }
        if !record.is_in_range() {
            return Err(26);
        }
        let new_core = record.new_core()?;
        if self.log.room() < record.log_record_length() {
            return Err(23);
        }
        if new_core.is_some() {
            self.core = new_core;
        }
        let core = self.core.as_mut().ok_or(24)?;
        self.log.header(kind, record.log_record_length());
        carry_out(record, core, &mut self.log);
        Ok(HEADER + payload.len())
    }
}

fn carry_out(record: Record, core: &mut Core, log: &mut Log) {
    match record {
        Record::Setup { .. } => log.bytes(&[0]),
        Record::Write {
            offset,
            lanes,
            value,
        } => log.answer(core.write(offset.into(), lanes, value)),
        Record::Read { offset, lanes } => log.answer(core.read(offset.into(), lanes)),
        Record::Tick { miso } => {
            let step = core.tick(miso == 1);
            log.step(step, core.outputs());
        }
        Record::LineStep { lines } => {
            let step = core.line_step(lines & 1 != 0, lines & 2 != 0, lines & 4 != 0);
            log.step(step, core.outputs());
        }
    }
}

/// The lent log and how much of it is written.
struct Log<'a> {
    lent: &'a mut [u8],
    length: usize,
}

impl Log<'_> {
    fn room(&self) -> usize {
        self.lent.len() - self.length
    }

    // "Log kind is script kind + 0x8000."
    fn header(&mut self, kind: u16, record_length: usize) {
        let payload_length = (record_length - HEADER) as u16;
        self.bytes(&payload_length.to_le_bytes());
        self.bytes(&(kind + 0x8000).to_le_bytes());
    }

    fn answer(&mut self, answer: Answer) {
        self.bytes(&[answer.refusal]);
        self.bytes(&answer.value.to_le_bytes());
    }

    fn step(&mut self, step: Step, outputs: Outputs) {
        self.bytes(&[step.outcome.number()]);
        self.bytes(&step.element.to_le_bytes());
        self.bytes(&[lines_byte(outputs)]);
        self.bytes(&outputs.ss.to_le_bytes());
    }

    fn bytes(&mut self, bytes: &[u8]) {
        let end = self.length + bytes.len();
        self.lent[self.length..end].copy_from_slice(bytes);
        self.length = end;
    }
}

/// Kind and payload of the record `rest` begins with, or 20 if it is cut short.
fn split_record(rest: &[u8]) -> Result<(u16, &[u8]), u8> {
    let header = rest.get(..HEADER).ok_or(20)?;
    let length = usize::from(u16::from_le_bytes([header[0], header[1]]));
    let kind = u16::from_le_bytes([header[2], header[3]]);
    let payload = rest.get(HEADER..HEADER + length).ok_or(20)?;
    Ok((kind, payload))
}

// "Bit 0 SCK, 1 MOSI, 2 MISO, 3 interrupt, 4 MISO driven".
fn lines_byte(outputs: Outputs) -> u8 {
    u8::from(outputs.sck)
        | u8::from(outputs.mosi) << 1
        | u8::from(outputs.miso) << 2
        | u8::from(outputs.interrupt) << 3
        | u8::from(outputs.miso_driven) << 4
}
