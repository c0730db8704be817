//! Prints what the program `replay` prints for standard input, by the engine's static library.

use std::io::{self, Read, Write};

fn main() -> io::Result<()> {
    let mut input = Vec::new();
    if let Err(error) = io::stdin().read_to_end(&mut input) {
        eprintln!("print: the input could not be read; nothing was judged");
        return Err(error);
    }
    io::stdout().write_all(brothlantern::print(&input).as_bytes())
}
