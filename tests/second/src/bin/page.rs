//! The program `page`: what `bench` or `rig` printed on standard input, its
//! shift pages on standard output.

use std::io::{self, Read, Write};

use second::{fault, printed};

fn main() -> io::Result<()> {
    fault::plant_from_environment().map_err(io::Error::other)?;
    let mut text = Vec::new();
    io::stdin().lock().read_to_end(&mut text)?;
    let (pages, passed_over) = printed::pages(&text);
    let mut output = io::stdout().lock();
    output.write_all(&pages)?;
    output.flush()?;
    // Changes: "the count goes to standard error".
    if passed_over > 0 {
        writeln!(io::stderr(), "page: lines passed over: {passed_over}")?;
    }
    Ok(())
}
