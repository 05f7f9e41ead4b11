//! Reads and sets measures at the node of a studio.

mod words;

use std::io::{self, BufRead, BufReader, Read, Write};
use std::os::unix::net::UnixStream;
use std::path::{Path, PathBuf};
use std::process::ExitCode;
use std::time::{Duration, Instant};

use clap::{Parser, Subcommand};
use stemline_node::lists;
use stemline_node::protocol::{Change, Request, Told};

/// Reads and sets the measures of a group, at the node of a studio.
///
/// The status is 0 where it was shown or committed; 1 where it was refused or aborted, and nothing was changed; 2 for
/// other arguments, and a file that cannot be read; 3 where the node is not reached; 4 where the node ended before the
/// outcome was known, so that a change may be committed or not.
#[derive(Parser)]
#[command(name = "stemline", version)]
struct Arguments {
    /// The socket of the node; else STEMLINE_SOCKET names it
    #[arg(long, global = true)]
    socket: Option<PathBuf>,
    /// Print what the node tells as it comes: JSON, in lines
    #[arg(long, global = true)]
    json: bool,
    #[command(subcommand)]
    what: What,
}

#[derive(Subcommand)]
enum What {
    /// Print what measures are set to: of one its value, of several NAME = VALUE, of all where none is named
    Get {
        /// By name or number
        measures: Vec<String>,
        /// Wait until so many transactions of the group are committed here
        #[arg(long, default_value_t = 0)]
        after: u32,
    },
    /// Set a measure, and wait until that is committed
    Set {
        /// By name or number
        measure: String,
        /// A whole number
        #[arg(allow_negative_numbers = true)]
        value: i32,
        #[command(flatten)]
        tries: Tries,
    },
    /// Remove a measure, and wait until that is committed
    Remove {
        /// By name or number
        measure: String,
        #[command(flatten)]
        tries: Tries,
    },
    /// Make the changes of a file as one transaction: up to 8 lines NAME = VALUE, or NAME = removed
    Apply {
        /// The file; - for standard input
        file: PathBuf,
        #[command(flatten)]
        tries: Tries,
    },
    /// Print all that is committed from now on, a line for each transaction
    Watch,
    /// Print where the node and its group are
    Status,
    /// Have the node take what is new in its file of notices
    Notices,
}

#[derive(clap::Args)]
struct Tries {
    /// How often it is begun at most, where another studio's change of the same measure comes first
    #[arg(long, default_value_t = 10, value_parser = clap::value_parser!(u32).range(1..))]
    tries: u32,
}

/// How long a node that does not answer is knocked at.
const PATIENCE: Duration = Duration::from_secs(1);

/// How it ends. The numbers are the statuses.
#[derive(Clone, Copy, PartialEq)]
#[repr(u8)]
enum End {
    Done = 0,
    Refused = 1,
    Usage = 2,
    Unreachable = 3,
    Unknown = 4,
}

fn main() -> ExitCode {
    let end = run(Arguments::parse()).unwrap_or_else(|(end, words)| {
        words::complain(&words);
        end
    });
    ExitCode::from(end as u8)
}

fn run(arguments: Arguments) -> Result<End, (End, String)> {
    let usage = |words| (End::Usage, words);
    let request = arguments.what.request().map_err(usage)?;
    let named = std::env::var_os("STEMLINE_SOCKET").map(PathBuf::from);
    let socket = arguments.socket.or(named).ok_or_else(|| {
        usage("which node? --socket or STEMLINE_SOCKET names its socket".to_string())
    })?;
    let told = ask(&socket, &request)?;
    let mut last = None;
    for told in told {
        let (line, told) = told.map_err(|words| (lost(&request), words))?;
        let end = end(&told);
        let shown = match arguments.json {
            true => print(&line),
            false => words::show(&request, &told),
        };
        if let Err(error) = shown {
            // Nobody reads it any more, say; what was changed is changed.
            let words = format!("cannot print: {error}");
            return if error.kind() == io::ErrorKind::BrokenPipe {
                Ok(end)
            } else {
                Err((End::Usage, words))
            };
        }
        last = Some(end);
        if !told.goes_on() && request != Request::Watch {
            return Ok(end);
        }
    }
    match (last, &request) {
        (Some(_), Request::Watch) => Err((End::Unreachable, "the node has ended".to_string())),
        _ => Err((lost(&request), "the node has closed the socket".to_string())),
    }
}

fn print(line: &str) -> io::Result<()> {
    let mut out = io::stdout().lock();
    out.write_all(line.as_bytes())?;
    out.flush()
}

/// Where the node is gone before it has told everything.
fn lost(request: &Request) -> End {
    match request {
        Request::Set { .. } => End::Unknown,
        _ => End::Unreachable,
    }
}

fn end(told: &Told) -> End {
    match told {
        Told::Refused { .. } | Told::Aborted { .. } => End::Refused,
        Told::Unknown { .. } => End::Unknown,
        _ => End::Done,
    }
}

impl What {
    fn request(&self) -> Result<Request, String> {
        let one = |measure: &String, value, tries: &Tries| {
            let measure = measure.clone();
            Request::Set {
                changes: vec![Change { measure, value }],
                tries: tries.tries,
            }
        };
        Ok(match self {
            What::Get { measures, after } => Request::Get {
                measures: measures.clone(),
                after: *after,
            },
            What::Set {
                measure,
                value,
                tries,
            } => one(measure, Some(*value), tries),
            What::Remove { measure, tries } => one(measure, None, tries),
            What::Apply { file, tries } => {
                let words = |words: String| format!("{}: {words}", file.display());
                let text = text(file).map_err(|error| words(error.to_string()))?;
                let changes = lists::changes(&text).map_err(words)?;
                Request::Set {
                    changes,
                    tries: tries.tries,
                }
            }
            What::Watch => Request::Watch,
            What::Status => Request::Status,
            What::Notices => Request::Notices,
        })
    }
}

fn text(file: &Path) -> io::Result<String> {
    let mut text = String::new();
    match file == Path::new("-") {
        true => io::stdin().read_to_string(&mut text)?,
        false => std::fs::File::open(file)?.read_to_string(&mut text)?,
    };
    Ok(text)
}

/// A node that is being started may need a moment.
fn connect(socket: &Path) -> io::Result<UnixStream> {
    let begun = Instant::now();
    loop {
        match UnixStream::connect(socket) {
            Err(_) if begun.elapsed() < PATIENCE => std::thread::sleep(PATIENCE / 20),
            connected => return connected,
        }
    }
}

/// What the node tells, line by line.
fn ask(
    socket: &Path,
    request: &Request,
) -> Result<impl Iterator<Item = Result<(String, Told), String>>, (End, String)> {
    let words = |error: io::Error| {
        let words = format!("no node answers at {}: {error}", socket.display());
        (End::Unreachable, words)
    };
    let mut stream = connect(socket).map_err(words)?;
    let mut line = serde_json::to_vec(request).map_err(|error| (End::Usage, error.to_string()))?;
    line.push(b'\n');
    stream.write_all(&line).map_err(words)?;
    let mut reader = BufReader::new(stream);
    Ok(std::iter::from_fn(move || {
        let mut line = String::new();
        match reader.read_line(&mut line) {
            Ok(0) => None,
            Ok(_) => Some(match serde_json::from_str(&line) {
                Ok(told) => Ok((line, told)),
                Err(error) => Err(format!("the node tells what is not known here: {error}")),
            }),
            Err(error) => Some(Err(format!("the node is gone: {error}"))),
        }
    }))
}
