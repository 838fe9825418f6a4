//! The yardstick: 1,000,000 elements of 8 bits through the ticks of one core in loopback, refilled as they drain.
//! It writes the sum of the elements read back, as crates/pace does.

use second::core::Core;
use second::transfer::Outcome;

fn main() {
    let mut core = Core::setup(8, 16, 1).expect("a valid setup");
    core.write(0x60, 15, 0x87);
    core.write(0x68, 15, 1);
    core.write(0x68, 15, 2);
    let (mut next, mut sum) = (3, 0_u64);
    for _ in 0..18_000_000 {
        if core.tick(true).outcome == Outcome::Stored {
            sum += u64::from(core.read(0x6C, 15).value);
            core.write(0x68, 15, next);
            next = next % 251 + 1;
        }
    }
    println!("{sum}");
}
