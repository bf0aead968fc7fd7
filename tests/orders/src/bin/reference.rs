//! The reference drill as a program: reads records from standard input and
//! prints what the plain ledger says. With DRILL set to it, the comparison can
//! be tried without the proved drill, and `bench` has like to compare with
//! like. It is not the drill.

use std::io::{self, Read, Write};

fn main() -> io::Result<()> {
    let mut input = Vec::new();
    io::stdin().lock().read_to_end(&mut input)?;
    io::stdout().lock().write_all(&orders::drill::output(&input))
}
