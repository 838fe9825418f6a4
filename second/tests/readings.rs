//! One test for each numbered reading of document 01, under the readings' own headings.

mod common;

#[path = "readings/bench.rs"]
mod bench;
#[path = "readings/flags.rs"]
mod flags;
#[path = "readings/master.rs"]
mod master;
#[path = "readings/registers.rs"]
mod registers;
#[path = "readings/scripts.rs"]
mod scripts;
#[path = "readings/slave.rs"]
mod slave;
