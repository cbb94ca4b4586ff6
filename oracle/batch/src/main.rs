//! `batch`: draws the puzzles of the kept file and writes them as its lines.

use std::io::{self, Write};

fn main() -> io::Result<()> {
    io::stdout().write_all(&inputs::lines_of(&batch::drawn()))
}
