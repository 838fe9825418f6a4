//! A second model of the AXI SPI core, written from document 01 alone, against
//! which the proved model is compared. It is a plain sequential simulation.

pub mod bench;
pub mod core;
pub mod registers;
pub mod script;
pub mod transfer;
