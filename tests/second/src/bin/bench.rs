//! The program `bench`: a script on standard input, its answers on standard
//! output.

use std::io::{self, BufWriter, Write};

use second::{fault, script};

fn main() -> io::Result<()> {
    fault::plant_from_environment().map_err(io::Error::other)?;
    let mut output = BufWriter::new(io::stdout().lock());
    script::bench(io::stdin().lock(), &mut output)?;
    output.flush()
}
