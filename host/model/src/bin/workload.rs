//! Prints the list of calls that is stored as the input of the program `replay`; with the argument `notices`
//! the worked lists of document 02's Req 10 alone, with `givings` those of Req 11 and 12.

use std::io::{self, Write};

use model::workload;

fn main() -> io::Result<()> {
    let list = match std::env::args().nth(1).as_deref() {
        None => workload::calls(),
        Some("notices") => workload::worked_notices(),
        Some("givings") => workload::worked_givings(),
        Some(other) => return Err(io::Error::other(format!("{other:?} is no list"))),
    };
    io::stdout().write_all(&list)
}
