//! The socket of the designers' programs: a Unix socket of the owner alone.

use std::fs::{self, Permissions};
use std::io;
use std::os::unix::fs::{DirBuilderExt, MetadataExt, PermissionsExt};
use std::os::unix::net::UnixStream as Knock;
use std::path::{Path, PathBuf};
use std::sync::atomic::{AtomicU64, Ordering};
use std::sync::Arc;
use std::time::Duration;

use stemline::driver::Change as Committed;
use tokio::io::{AsyncBufReadExt, AsyncReadExt, AsyncWriteExt, BufReader};
use tokio::net::unix::{OwnedReadHalf, OwnedWriteHalf};
use tokio::net::{UnixListener, UnixStream};
use tokio::sync::broadcast::error::RecvError;
use tokio::sync::{broadcast, mpsc, oneshot, Semaphore};
use tracing::{debug, warn};

use crate::config::Config;
use crate::engine::{Call, Caller, Event, Look};
use crate::protocol::{Change, Request, Told};
use crate::state;

/// The longest line of a client.
const LINE: u64 = 1 << 16;
/// How often it is looked whether what is waited for has come, if nothing says so.
const LOOKS: Duration = Duration::from_millis(200);
/// Transactions of clients that are under way at once.
pub const SETS: u32 = 1 << 12;

/// What sockets and pages know of their node.
pub struct Node {
    /// As it was read.
    pub config: Arc<Config>,
    /// Where events are sent to.
    pub engine: mpsc::Sender<Event>,
    /// Where changes come from.
    pub changes: broadcast::Sender<Arc<Committed>>,
    /// The number of the next connection or call.
    pub next: AtomicU64,
    /// Held by the transactions under way.
    pub sets: Semaphore,
}

impl Node {
    /// What there is to see now; `None` where the engine has ended.
    pub async fn look(&self) -> Option<Look> {
        let (answer, look) = oneshot::channel();
        self.engine.send(Event::Look(answer)).await.ok()?;
        look.await.ok()
    }
}

/// A socket in the file system, which is taken away with it.
pub struct Socket {
    listener: UnixListener,
    path: PathBuf,
    owner: u32,
}

impl Drop for Socket {
    fn drop(&mut self) {
        let _ = fs::remove_file(&self.path);
    }
}

impl Socket {
    /// Makes it, of mode 0600 from the first moment on: in a folder of the owner alone, and then moved to its place.
    pub fn bind(path: &Path) -> Result<Socket, String> {
        if Knock::connect(path).is_ok() {
            return Err(format!("{}: another node listens there", path.display()));
        }
        let mut name = path.as_os_str().to_owned();
        name.push(".new");
        let folder = PathBuf::from(name);
        let made = folder.join("s");
        let words = |error: io::Error| format!("{}: {error}", path.display());
        // One that was killed here has left some of it.
        let _ = fs::remove_file(&made);
        let _ = fs::remove_dir(&folder);
        let mut builder = fs::DirBuilder::new();
        builder.mode(0o700).create(&folder).map_err(words)?;
        let bound = UnixListener::bind(&made).and_then(|listener| {
            fs::set_permissions(&made, Permissions::from_mode(0o600))?;
            fs::rename(&made, path)?;
            Ok(listener)
        });
        let _ = fs::remove_file(&made);
        fs::remove_dir(&folder).map_err(words)?;
        Ok(Socket {
            listener: bound.map_err(words)?,
            path: path.to_path_buf(),
            owner: fs::metadata(path).map_err(words)?.uid(),
        })
    }

    /// Serves clients for as long as the node runs.
    pub async fn serve(&self, node: Arc<Node>) {
        loop {
            match self.listener.accept().await {
                Ok((stream, _)) => match stream.peer_cred() {
                    Ok(who) if who.uid() == self.owner => {
                        tokio::spawn(talk(Arc::clone(&node), stream));
                    }
                    Ok(who) => warn!("a client of user {} is turned away", who.uid()),
                    Err(error) => warn!("a client that is nobody is turned away: {error}"),
                },
                Err(error) => {
                    warn!("a client cannot be taken: {error}");
                    tokio::time::sleep(Duration::from_millis(100)).await;
                }
            }
        }
    }
}

/// Answers one client, request by request.
async fn talk(node: Arc<Node>, stream: UnixStream) {
    let (reader, writer) = stream.into_split();
    let connection = node.next.fetch_add(1, Ordering::Relaxed);
    let mut client = Client {
        node: Arc::clone(&node),
        connection,
        reader: BufReader::new(reader),
        writer,
    };
    let gone = loop {
        match client.request().await {
            Ok(true) => {}
            Ok(false) => break Ok(()),
            Err(error) => break Err(error),
        }
    };
    if let Err(error) = gone {
        debug!("a client is gone: {error}");
    }
    let _ = node.engine.send(Event::Left(connection)).await;
}

struct Client {
    node: Arc<Node>,
    connection: u64,
    reader: BufReader<OwnedReadHalf>,
    writer: OwnedWriteHalf,
}

impl Client {
    /// Takes one request. False where there are no more.
    async fn request(&mut self) -> io::Result<bool> {
        let mut line = Vec::new();
        let mut part = (&mut self.reader).take(LINE);
        part.read_until(b'\n', &mut line).await?;
        if line.is_empty() {
            return Ok(false);
        }
        if line.last() != Some(&b'\n') {
            let told = Told::refused("a request is a line of JSON, of 65536 bytes at most");
            self.tell(&told).await?;
            return Ok(false);
        }
        match serde_json::from_slice(&line) {
            Ok(request) => self.answer(request).await,
            Err(error) => {
                let told = Told::refused(format!("that is no request: {error}"));
                self.tell(&told).await?;
                Ok(true)
            }
        }
    }

    async fn answer(&mut self, request: Request) -> io::Result<bool> {
        let told = match request {
            Request::Set { changes, tries } => match self.writes(&changes) {
                Ok(writes) => return self.set(writes, tries).await,
                Err(words) => Told::refused(words),
            },
            Request::Watch => return self.watch().await,
            Request::Notices => self.notices().await,
            Request::Get { measures, after } => match self.look(after).await {
                Some(look) => state::measures(&self.node.config, &look, &measures),
                None => return Ok(false),
            },
            Request::Status => match self.node.look().await {
                Some(look) => Told::Status(Box::new(state::state(&self.node.config, &look))),
                None => return Ok(false),
            },
            step => match self.call(step) {
                Ok(call) => return self.hand(|caller| Event::Call(caller, call)).await,
                Err(words) => Told::refused(words),
            },
        };
        self.tell(&told).await?;
        Ok(true)
    }

    /// The step of a transaction that is asked for.
    fn call(&self, request: Request) -> Result<Call, String> {
        let item = |measure: String| self.node.config.names.item(&measure);
        Ok(match request {
            Request::Begin => Call::Begin,
            Request::Read { ticket, measure } => Call::Read {
                ticket,
                item: item(measure)?,
            },
            Request::Write {
                ticket,
                measure,
                value,
            } => Call::Write {
                ticket,
                item: item(measure)?,
                content: value,
            },
            Request::Ask { ticket } => Call::Ask { ticket },
            Request::Withdraw { ticket } => Call::Withdraw { ticket },
            _ => return Err("that is no step of a transaction".to_string()),
        })
    }

    /// What there is to see once so many writesets are committed. A node that has stopped commits no more.
    async fn look(&mut self, commits: u32) -> Option<Look> {
        let mut changes = self.node.changes.subscribe();
        loop {
            let look = self.node.look().await?;
            if look.status.digest.commits >= commits || look.status.stopped.is_some() {
                return Some(look);
            }
            tokio::select! {
                _ = changes.recv() => {}
                () = tokio::time::sleep(LOOKS) => {}
                () = closed(&mut self.reader) => return None,
            }
        }
    }

    /// The items of a transaction.
    fn writes(&self, changes: &[Change]) -> Result<Vec<(u32, Option<i32>)>, String> {
        let mut writes: Vec<(u32, Option<i32>)> = Vec::new();
        for change in changes {
            let item = self.node.config.names.item(&change.measure)?;
            if writes.iter().any(|&(named, _)| named == item) {
                return Err(format!("\"{}\" is changed twice", change.measure));
            }
            writes.push((item, change.value));
        }
        Ok(writes)
    }

    /// Hands a whole transaction to the engine.
    async fn set(&mut self, writes: Vec<(u32, Option<i32>)>, tries: u32) -> io::Result<bool> {
        self.hand(|Caller { client, tell, .. }| Event::Set {
            client,
            writes,
            tries,
            tell,
        })
        .await
    }

    /// Hands something to the engine and tells what becomes of it. Who closes before is gone.
    async fn hand(&mut self, event: impl FnOnce(Caller) -> Event) -> io::Result<bool> {
        let node = Arc::clone(&self.node);
        let Ok(_under_way) = node.sets.acquire().await else {
            return Ok(false);
        };
        let client = node.next.fetch_add(1, Ordering::Relaxed);
        let (tell, mut told) = mpsc::unbounded_channel();
        let connection = self.connection;
        let event = event(Caller {
            connection,
            client,
            tell,
        });
        if node.engine.send(event).await.is_err() {
            return Ok(false);
        }
        loop {
            let next = tokio::select! {
                next = told.recv() => next,
                () = closed(&mut self.reader) => {
                    let _ = node.engine.send(Event::Gone(client)).await;
                    return Ok(false);
                }
            };
            // The engine tells each client before it ends.
            let Some(next) = next else { return Ok(false) };
            self.tell(&next).await?;
            if !next.goes_on() {
                return Ok(true);
            }
        }
    }

    /// Tells all that is committed.
    async fn watch(&mut self) -> io::Result<bool> {
        let mut changes = self.node.changes.subscribe();
        loop {
            let next = tokio::select! {
                next = changes.recv() => next,
                () = closed(&mut self.reader) => return Ok(false),
            };
            let told = match next {
                Ok(change) => state::change(&self.node.config, &change),
                Err(RecvError::Lagged(changes)) => Told::Missed { changes },
                Err(RecvError::Closed) => return Ok(false),
            };
            self.tell(&told).await?;
        }
    }

    async fn notices(&self) -> Told {
        match self.node.config.said() {
            Err(words) => Told::refused(words),
            Ok(said) => {
                let read = said.len();
                match self.node.engine.send(Event::Notices(said)).await {
                    Ok(()) => Told::Notices { read },
                    Err(_) => Told::refused("the node ends"),
                }
            }
        }
    }

    async fn tell(&mut self, told: &Told) -> io::Result<()> {
        let mut line = serde_json::to_vec(told)?;
        line.push(b'\n');
        self.writer.write_all(&line).await
    }
}

/// Ends when the client has closed its side, and not where it has asked for more already.
async fn closed(reader: &mut BufReader<OwnedReadHalf>) {
    if reader.fill_buf().await.is_ok_and(|more| !more.is_empty()) {
        std::future::pending::<()>().await;
    }
}
