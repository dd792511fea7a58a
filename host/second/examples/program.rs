//! Reads a catalogue from standard input and writes the selection, the sheet, or one frame that tells number and line.

use std::io::{self, Read, Write};

fn main() -> io::Result<()> {
    let mut text = Vec::new();
    io::stdin().read_to_end(&mut text)?;
    io::stdout().write_all(&second::answer_text(&text))
}
