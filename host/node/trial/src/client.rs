//! A designer's program at the node's socket: a line of JSON each way.

use std::io::{self, BufRead, BufReader, Write};
use std::os::unix::net::UnixStream;
use std::path::Path;
use std::thread::sleep;
use std::time::Duration;

use serde_json::{json, Value};

/// A connection to a node.
pub struct Client {
    stream: BufReader<UnixStream>,
}

/// How a transaction ended, as a client was told.
#[derive(Clone, Debug, PartialEq)]
pub enum Told {
    /// Committed: its ticket, and its place in the group's sequence, counted from 1.
    Committed(u32, u32),
    /// Not committed, and never will be.
    Aborted,
    /// Nothing was done.
    Refused(String),
    /// Nobody said how it ended.
    Unknown(String),
}

impl Client {
    /// To the socket of a node; what takes longer than so long fails.
    pub fn connect(socket: &Path, most: Duration) -> io::Result<Client> {
        let stream = UnixStream::connect(socket)?;
        stream.set_read_timeout(Some(most))?;
        stream.set_write_timeout(Some(most))?;
        Ok(Client {
            stream: BufReader::new(stream),
        })
    }

    /// The last line that is told of a request.
    pub fn ask(&mut self, request: &Value) -> io::Result<Value> {
        let mut line = request.to_string();
        line.push('\n');
        self.stream.get_mut().write_all(line.as_bytes())?;
        loop {
            line.clear();
            if self.stream.read_line(&mut line)? == 0 {
                return Err(io::ErrorKind::UnexpectedEof.into());
            }
            let told: Value = serde_json::from_str(&line)?;
            if told["told"] != "waits" {
                return Ok(told);
            }
        }
    }

    /// Sets measures as one transaction.
    pub fn set(&mut self, writes: &[(u32, i32)], tries: u32) -> Told {
        let change =
            |&(item, value): &(u32, i32)| json!({"measure": item.to_string(), "value": value});
        let changes: Vec<Value> = writes.iter().map(change).collect();
        match self.ask(&json!({"do": "set", "changes": changes, "tries": tries})) {
            Ok(told) => outcome(&told),
            Err(error) => Told::Unknown(error.to_string()),
        }
    }

    /// The same by steps: begins, writes, waits a while, and asks. What is refused on the way is withdrawn.
    pub fn set_by_steps(&mut self, writes: &[(u32, i32)], pause: Duration) -> Told {
        let told = self.steps(writes, pause);
        told.unwrap_or_else(|error| Told::Unknown(error.to_string()))
    }

    fn steps(&mut self, writes: &[(u32, i32)], pause: Duration) -> io::Result<Told> {
        let begun = self.ask(&json!({"do": "begin"}))?;
        let Some(ticket) = begun["ticket"].as_u64() else {
            return Ok(outcome(&begun));
        };
        for (item, value) in writes {
            let write = json!({"do": "write", "ticket": ticket, "measure": item.to_string(), "value": value});
            let told = self.ask(&write)?;
            match told["told"].as_str() {
                Some("written") => {}
                Some("aborted") => return Ok(Told::Aborted),
                _ => {
                    self.ask(&json!({"do": "withdraw", "ticket": ticket}))?;
                    return Ok(outcome(&told));
                }
            }
        }
        sleep(pause);
        Ok(outcome(&self.ask(&json!({"do": "ask", "ticket": ticket}))?))
    }

    /// Where the node and its group are.
    pub fn status(&mut self) -> io::Result<Value> {
        self.ask(&json!({"do": "status"}))
    }

    /// The values of all measures; those that are removed are `None`.
    pub fn values(&mut self) -> io::Result<Vec<Option<i32>>> {
        let all: Vec<String> = (0..stemline::ITEMS).map(|item| item.to_string()).collect();
        let told = self.ask(&json!({"do": "get", "measures": all}))?;
        let Some(measures) = told["measures"].as_array() else {
            return Err(io::Error::other(told.to_string()));
        };
        let value = |measure: &Value| measure["value"].as_i64().map(|value| value as i32);
        Ok(measures.iter().map(value).collect())
    }
}

/// The outcome of a transaction in a line that was told.
pub fn outcome(told: &Value) -> Told {
    let number = |name: &str| told[name].as_u64().unwrap_or_default() as u32;
    let words = || told["words"].as_str().unwrap_or_default().to_string();
    match told["told"].as_str() {
        Some("committed") => Told::Committed(number("ticket"), number("place")),
        Some("aborted") => Told::Aborted,
        Some("refused") => Told::Refused(words()),
        Some("unknown") => Told::Unknown(words()),
        _ => Told::Unknown(told.to_string()),
    }
}
