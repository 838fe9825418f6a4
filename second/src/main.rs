//! Reads a script on standard input and writes its log and the closing record.

use std::io::{self, Read, Write};

fn main() -> io::Result<()> {
    let mut script = Vec::new();
    io::stdin().read_to_end(&mut script)?;
    io::stdout().write_all(&second::script::program_output(&script))
}
