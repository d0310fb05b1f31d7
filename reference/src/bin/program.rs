//! Reads a line DDMMYY and up to 800 records on standard input, prints the
//! answer.

use std::io::{self, Read};

fn main() -> io::Result<()> {
    let mut input = Vec::new();
    // One byte more than the longest input there is an answer to.
    io::stdin().lock().take(7 + 800 * 81 + 1).read_to_end(&mut input)?;
    println!("{}", reference::program::answer(&input));
    Ok(())
}
