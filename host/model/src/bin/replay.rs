//! Reads a list of calls from standard input and prints every answer, as the program `replay` must.
//! The format is that of [`model::replay`].

use std::io::{self, BufWriter};

fn main() -> io::Result<()> {
    model::replay::run(io::stdin().lock(), BufWriter::new(io::stdout().lock()))
}
