//! Shows and checks journals and blocks.
//!
//! - `journal show FILE` prints whose journal it is, as [`Head`] writes it, which slots its head has copies
//!   of, a line for each notice that its replica took, as [`Notice`] writes it, a line for each good block, as
//!   [`Block`] writes it, with a mark where its slot is out, and a last one that says where they stop and why.
//! - `journal check FILE` prints the same without notices and blocks. The status is 0 where the file is good
//!   blocks to its end, 1 where they stop before or the head has a copy of more, where notices are lost, and
//!   where it is no journal.
//! - `journal values FILE` prints the values that the good blocks leave, a line `ITEM VALUE` for each of the
//!   128, as the present values to begin a new run from. What is wrong with the file is said in a line on
//!   standard error, and the status is then 1.
//! - `journal block HEX..` prints a line for each block given as hexadecimal digits; `journal block -` for
//!   those on standard input, one on each line. The status is 1 where one of them is no good block.
//! - `journal --help` prints these in a line, `journal --version` the version.
//!
//! What is wrong is said in a line on standard error. The status is 2 where the arguments are none of
//! these, and where something cannot be read or printed. No file is locked or changed: the journal of a
//! replica at work can be looked at too, and may then end in a torn block. How much is behind the good
//! blocks is told of a plain file alone: a pipe or a device may never end.

use std::ffi::{OsStr, OsString};
use std::fs::File;
use std::io::{self, BufRead, BufReader, BufWriter, Read, Write};
use std::path::Path;
use std::process::ExitCode;
use std::{env, iter};

use stemline::{Block, Blocks, Head, Notice, Stop, BLOCK, HEAD};

const USAGE: &str = "usage: journal show FILE | journal check FILE | journal values FILE | \
    journal block HEX.. | journal block - | journal --help | journal --version";
/// What is kept of a line of the input: much more than the digits of a block.
const KEPT: usize = 8 * BLOCK;

/// Why the program ends before it is done.
enum End {
    /// Something cannot be done, in words.
    Cannot(String),
    /// Nobody reads what is printed any more.
    Closed,
}

fn main() -> ExitCode {
    let arguments: Vec<OsString> = env::args_os().skip(1).collect();
    let mut out = BufWriter::new(io::stdout().lock());
    let done = match start::is_closed() {
        true => Err(End::Cannot(
            "cannot print: standard output is closed".to_string(),
        )),
        false => run(&arguments, &mut out),
    };
    let done = match printed(out.flush()) {
        Err(End::Cannot(words)) => Err(End::Cannot(words)),
        _ => done,
    };
    match done {
        Ok(good) => ExitCode::from(u8::from(!good)),
        Err(End::Closed) => ExitCode::SUCCESS,
        Err(End::Cannot(words)) => {
            complain(&words);
            ExitCode::from(2)
        }
    }
}

/// Does what the arguments ask for. False where the status is to say that something is not good.
fn run(arguments: &[OsString], out: &mut impl Write) -> Result<bool, End> {
    let words: Vec<&OsStr> = arguments.iter().map(OsString::as_os_str).collect();
    match words[..] {
        [verb, file] if verb == "show" => look(Path::new(file), true, out).map(|_| true),
        [verb, file] if verb == "check" => look(Path::new(file), false, out),
        [verb, file] if verb == "values" => values(Path::new(file), out),
        [verb, dash] if verb == "block" && dash == "-" => blocks(lines(io::stdin().lock()), out),
        [verb, _, ..] if verb == "block" => {
            let digits = words[1..].iter().map(|word| word.to_string_lossy());
            blocks(digits.map(|digits| Ok(Some(digits.into_owned()))), out)
        }
        [word] if word == "--help" || word == "-h" => {
            printed(writeln!(out, "{USAGE}")).map(|()| true)
        }
        [word] if word == "--version" => {
            let version = env!("CARGO_PKG_VERSION");
            printed(writeln!(out, "journal of Stemline {version}")).map(|()| true)
        }
        _ => Err(End::Cannot(USAGE.to_string())),
    }
}

/// A file that has a head: that, its length if it is a plain file, its copies, and the blocks behind.
struct Opened {
    head: Head,
    length: Option<u64>,
    copies: Vec<Vec<Block>>,
    /// The notices beside it, or what is wrong with them.
    notices: Result<Vec<Notice>, String>,
    blocks: Blocks<BufReader<File>>,
}

/// Opens a file; or gives in words why it is no journal, `None` where it is empty.
fn open(file: &Path) -> Result<Result<Opened, Option<String>>, End> {
    let unread = unread(file);
    let source = File::open(file).map_err(unread)?;
    let about = source.metadata().map_err(unread)?;
    let mut source = BufReader::new(source);
    let mut front = Vec::new();
    let mut part = source.by_ref().take(HEAD as u64);
    let read = part.read_to_end(&mut front).map_err(unread)?;
    Ok(match Head::read(&front) {
        _ if read == 0 => Err(None),
        Ok(_) if read < HEAD => Err(Some("it ends within its head".to_string())),
        Err(words) => Err(Some(words)),
        Ok(head) => Ok(Opened {
            length: about.is_file().then_some(about.len()),
            copies: head.copies(&front),
            notices: head.notices(&front, file).map_err(unread)?,
            blocks: Blocks::of(source, head.replicas(), 0),
            head,
        }),
    })
}

/// What is said of a file that cannot be read.
fn unread(file: &Path) -> impl Fn(io::Error) -> End + Copy + '_ {
    move |error| End::Cannot(format!("cannot read {}: {error}", file.display()))
}

impl Opened {
    /// Goes through the good blocks. Gives the line that says where they stop and why, and whether that is
    /// the file's end, and that of the copies.
    fn all(
        mut self,
        file: &Path,
        mut each: impl FnMut(Block) -> Result<(), End>,
    ) -> Result<(String, bool), End> {
        let unread = unread(file);
        let mut good = 0;
        let stop = loop {
            match self.blocks.next_block().map_err(unread)? {
                Ok(block) => each(block)?,
                Err(stop) => break stop,
            }
            good += 1;
        };
        let length = self.length;
        let left = length.map(|length| length.saturating_sub(place(good)));
        let sent = self
            .copies
            .iter()
            .filter_map(|copy| copy.last())
            .map(Block::slot);
        let more = sent.max().filter(|&slot| u64::from(slot) >= good);
        let words = more.map_or(String::new(), |slot| {
            format!("; the head has a copy of slot {slot}")
        });
        let line = format!("{}{words}", ending(good, stop, left));
        Ok((line, stop == Stop::End && more.is_none()))
    }
}

/// Prints the head of a file and where its good blocks stop, and before that each of them if they are to be
/// shown. Gives whether they go to the file's end, and to that of the copies.
fn look(file: &Path, shown: bool, out: &mut impl Write) -> Result<bool, End> {
    let opened = match open(file)? {
        Ok(opened) => opened,
        Err(None) => {
            printed(writeln!(out, "is empty: a journal not yet begun"))?;
            return Ok(true);
        }
        Err(Some(words)) => {
            printed(writeln!(out, "is not to be taken up: {words}"))?;
            return Ok(false);
        }
    };
    let copies = copied(&opened.copies);
    let notices = opened.notices.clone();
    let taken = match &notices {
        Ok(taken) if taken.is_empty() => String::new(),
        Ok(taken) => format!("; {}", many(taken.len() as u64, "notice")),
        Err(words) => format!("; {words}"),
    };
    printed(writeln!(out, "{}; {copies}{taken}", opened.head))?;
    let taken = notices.as_deref().unwrap_or_default();
    for notice in taken.iter().filter(|_| shown) {
        printed(writeln!(out, "notice: {notice}"))?;
    }
    let n = opened.head.replicas();
    let (line, good) = opened.all(file, |block| {
        let mark = match Notice::is_out(taken, n, block.slot()) {
            true => ", out",
            false => "",
        };
        match shown {
            true => printed(writeln!(out, "{block}{mark}")),
            false => Ok(()),
        }
    })?;
    printed(writeln!(out, "{line}"))?;
    Ok(good && notices.is_ok())
}

/// Prints the values that the good blocks of a file leave. Gives whether these are all.
fn values(file: &Path, out: &mut impl Write) -> Result<bool, End> {
    let opened = match open(file)? {
        Ok(opened) => opened,
        Err(words) => {
            let words = words.unwrap_or("it is empty".to_string());
            complain(&format!("{}: {words}", file.display()));
            return Ok(false);
        }
    };
    let mut values = *opened.head.values();
    let (line, good) = opened.all(file, |block| {
        for entry in block.records().flat_map(|record| record.entries) {
            values[usize::from(entry.item)] = entry.value;
        }
        Ok(())
    })?;
    for (item, value) in values.iter().enumerate() {
        printed(writeln!(out, "{item} {value}"))?;
    }
    if !good {
        printed(out.flush())?;
        complain(&format!("{}: {line}", file.display()));
    }
    Ok(good)
}

/// The slots of the copies in a head.
fn copied(copies: &[Vec<Block>]) -> String {
    let slots = copies.iter().filter_map(|copy| {
        let (first, last) = (copy.first()?.slot(), copy.last()?.slot());
        Some(format!("{first} to {last}"))
    });
    let slots: Vec<String> = slots.collect();
    match slots.is_empty() {
        true => "no copies".to_string(),
        false => format!("copies of slots {}", slots.join(" and ")),
    }
}

/// The byte of a file behind so many blocks.
fn place(blocks: u64) -> u64 {
    HEAD as u64 + blocks * BLOCK as u64
}

/// So many of something.
fn many(count: u64, what: &str) -> String {
    match count {
        1 => format!("1 {what}"),
        _ => format!("{count} {what}s"),
    }
}

/// The line of so many good blocks, why they stop, and how many bytes are behind them, where that is known.
fn ending(good: u64, stop: Stop, left: Option<u64>) -> String {
    let place = format!("after {}, at byte {}", many(good, "block"), place(good));
    let left = left.map_or(String::new(), |left| {
        format!(", {} before the end", many(left, "byte"))
    });
    match stop {
        Stop::End => format!("ends {place}"),
        _ => format!("stops {place}{left}: {stop}"),
    }
}

/// Prints a line for each block in hexadecimal digits, `None` for more of them than are kept. Gives whether
/// all are good.
fn blocks(
    all: impl Iterator<Item = Result<Option<String>, End>>,
    out: &mut impl Write,
) -> Result<bool, End> {
    let mut good = true;
    for (at, digits) in all.enumerate() {
        let read = match digits? {
            Some(digits) => digits.parse::<Block>().map_err(|error| error.to_string()),
            None => Err(format!(
                "a block has {} hexadecimal digits, and this line has more than {KEPT}",
                2 * BLOCK
            )),
        };
        match read {
            Ok(block) => printed(writeln!(out, "{block}"))?,
            Err(words) => {
                good = false;
                printed(out.flush())?;
                complain(&format!("block {}: {words}", at + 1));
            }
        }
    }
    Ok(good)
}

/// The lines of an input of any bytes, without what ends them; of one that is longer than what is kept
/// `None`, as soon as that is known, and the rest of it is passed over.
fn lines(mut input: impl BufRead) -> impl Iterator<Item = Result<Option<String>, End>> {
    let unread = |error| End::Cannot(format!("cannot read the input: {error}"));
    let mut line = Vec::new();
    let mut long = false;
    iter::from_fn(move || {
        if long {
            long = false;
            if let Err(error) = input.skip_until(b'\n') {
                return Some(Err(unread(error)));
            }
        }
        line.clear();
        let mut part = input.by_ref().take(KEPT as u64 + 1);
        match part.read_until(b'\n', &mut line) {
            Ok(0) => None,
            Ok(_) if line.len() > KEPT && !line.ends_with(b"\n") => {
                long = true;
                Some(Ok(None))
            }
            Ok(_) => {
                let text = String::from_utf8_lossy(&line);
                Some(Ok(Some(text.trim_end().to_string())))
            }
            Err(error) => Some(Err(unread(error))),
        }
    })
}

fn printed(result: io::Result<()>) -> Result<(), End> {
    result.map_err(|error| match error.kind() {
        io::ErrorKind::BrokenPipe => End::Closed,
        _ => End::Cannot(format!("cannot print: {error}")),
    })
}

/// A line on standard error. If it cannot be told there, the status tells it.
fn complain(words: &str) {
    let _ = writeln!(io::stderr(), "journal: {words}");
}

/// Whether standard output was closed when the program was started. Rust's own start opens the null device
/// in its place, so this is asked before.
#[cfg(target_os = "linux")]
mod start {
    use std::ffi::c_int;
    use std::sync::atomic::{AtomicBool, Ordering};

    static CLOSED: AtomicBool = AtomicBool::new(false);

    #[used]
    #[link_section = ".init_array"]
    static ASK: extern "C" fn() = ask;

    extern "C" fn ask() {
        extern "C" {
            fn fcntl(file: c_int, what: c_int, ...) -> c_int;
        }
        const F_GETFD: c_int = 1;
        // SAFETY: it takes two numbers and looks at no memory.
        let flags = unsafe { fcntl(1, F_GETFD) };
        CLOSED.store(flags < 0, Ordering::Relaxed);
    }

    pub fn is_closed() -> bool {
        CLOSED.load(Ordering::Relaxed)
    }
}

/// Elsewhere that is not known.
#[cfg(not(target_os = "linux"))]
mod start {
    pub fn is_closed() -> bool {
        false
    }
}
