//! Demand 3's lists, held against pseudo-random storms of calls on one core and on the
//! joined bench, with a count of the deep states each storm came through.

mod common;

#[path = "accounts/bench_storm.rs"]
mod bench_storm;
#[path = "accounts/core_storm.rs"]
mod core_storm;
#[path = "accounts/ledger.rs"]
mod ledger;
#[path = "accounts/sights.rs"]
mod sights;
