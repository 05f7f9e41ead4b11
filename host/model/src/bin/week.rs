//! Reads a week of designers from standard input and prints what the program `week` must. The format is
//! that of [`model::week`]. With an argument it prints a week instead: an example by its name (`seven`), the
//! long one (`stored`), or that of a seed, a number.

use std::io::{self, BufWriter, Write};

use model::week;

fn main() -> io::Result<()> {
    let output = BufWriter::new(io::stdout().lock());
    let Some(name) = std::env::args().nth(1) else {
        return week::run(io::stdin().lock(), output);
    };
    let mut examples = week::examples().into_iter();
    let text = match examples.find(|(of, _)| *of == name) {
        Some((_, text)) => text,
        None if name == "stored" => week::stored(),
        None => week::seeded(name.parse().map_err(io::Error::other)?, 400),
    };
    { output }.write_all(&text)
}
