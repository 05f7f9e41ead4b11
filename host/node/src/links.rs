//! Links to the peers: dialled or taken, each with both certificates shown, and frames both ways.

use std::future::Future;
use std::io;
use std::net::SocketAddr;
use std::sync::atomic::{AtomicU64, Ordering};
use std::sync::Arc;
use std::time::Duration;

use rustls::{Certificate, ServerName};
use stemline::driver::{Frames, Peer};
use tokio::io::{AsyncRead, AsyncReadExt, AsyncWrite, AsyncWriteExt};
use tokio::net::{TcpListener, TcpStream};
use tokio::sync::{mpsc, Semaphore};
use tokio::time::{sleep, timeout, Instant};
use tokio_rustls::{TlsAcceptor, TlsConnector};
use tracing::{debug, info, warn};

use crate::config::{Config, Other};
use crate::engine::Event;
use crate::pins::Pin;

/// Frames that wait to be written to a link. What comes when it is full is lost; the driver sends it again.
const QUEUE: usize = 256;
/// Connections that have not shown yet whose they are.
const STRANGERS: usize = 256;
/// How long a connection and its handshake may take.
const HANDSHAKE: Duration = Duration::from_secs(10);
/// How long a dialler waits behind the first failure; the configuration says how long at most.
const FIRST_WAIT: Duration = Duration::from_millis(100);
/// A link that stood for so long was a good one.
const STOOD: Duration = Duration::from_secs(10);

/// A link, as the engine holds it.
pub struct Link {
    /// No other link of this node has it.
    pub id: u64,
    /// Where whole frames are written; dropped, the link is closed.
    pub out: Option<mpsc::Sender<Arc<[u8]>>>,
}

/// What all links of a node have in common.
pub struct Links {
    config: Arc<Config>,
    engine: mpsc::Sender<Event>,
    next: AtomicU64,
}

impl Links {
    /// Of a node whose engine takes these events.
    pub fn new(config: Arc<Config>, engine: mpsc::Sender<Event>) -> Arc<Links> {
        Arc::new(Links {
            config,
            engine,
            next: AtomicU64::new(0),
        })
    }

    /// Dials those whom this node is to dial, for as long as it runs.
    pub fn dial_all(self: &Arc<Self>) -> Result<(), String> {
        for (at, other) in self.config.peers.iter().enumerate() {
            if self.config.dials(other) {
                let tls = TlsConnector::from(self.config.identity.client(other.pin)?);
                tokio::spawn(Arc::clone(self).dial(at, tls));
            }
        }
        Ok(())
    }

    /// Takes the connections of a listener, for as long as the node runs.
    pub fn take_all(
        self: Arc<Self>,
        listener: TcpListener,
    ) -> Result<impl Future<Output = ()>, String> {
        let pins = self.config.peers.iter().map(|other| other.pin).collect();
        let tls = TlsAcceptor::from(self.config.identity.server(pins)?);
        Ok(self.take_each(listener, tls))
    }

    async fn take_each(self: Arc<Self>, listener: TcpListener, tls: TlsAcceptor) {
        let strangers = Arc::new(Semaphore::new(STRANGERS));
        loop {
            let Ok(place) = Arc::clone(&strangers).acquire_owned().await else {
                return;
            };
            match listener.accept().await {
                Ok((stream, from)) => {
                    let (links, tls) = (Arc::clone(&self), tls.clone());
                    tokio::spawn(async move {
                        let taken = links.take(stream, from, tls).await;
                        drop(place);
                        if let Some((at, stream)) = taken {
                            links.carry(&links.config.peers[at], stream).await;
                        }
                    });
                }
                Err(error) => {
                    // No file descriptors are left, say: they come back.
                    warn!("a connection cannot be taken: {error}");
                    sleep(FIRST_WAIT).await;
                }
            }
        }
    }

    /// The handshake with one that connects: who it is, by its place among the peers.
    async fn take(
        &self,
        stream: TcpStream,
        from: SocketAddr,
        tls: TlsAcceptor,
    ) -> Option<(usize, impl AsyncRead + AsyncWrite)> {
        let shaken = timeout(HANDSHAKE, tls.accept(stream)).await;
        let stream = match shaken.unwrap_or_else(|_| Err(io::ErrorKind::TimedOut.into())) {
            Ok(stream) => stream,
            Err(error) => {
                let words = said(&error);
                warn!("the connection from {from} ended in the handshake: {words}");
                return None;
            }
        };
        let shown = stream.get_ref().1.peer_certificates();
        let at = self.place(shown.and_then(<[Certificate]>::first)?)?;
        let _ = stream.get_ref().0.set_nodelay(true);
        info!(
            "linked to {}, which dialled from {from}",
            self.config.peers[at].peer
        );
        Some((at, stream))
    }

    /// Where the peers have the one with this certificate.
    fn place(&self, certificate: &Certificate) -> Option<usize> {
        let pin = Pin::of(certificate);
        self.config.peers.iter().position(|other| other.pin == pin)
    }

    /// Dials one peer again and again.
    async fn dial(self: Arc<Self>, at: usize, tls: TlsConnector) {
        let other = &self.config.peers[at];
        let most = self.config.reconnect;
        let mut wait = FIRST_WAIT.min(most);
        let mut said = String::new();
        loop {
            let began = Instant::now();
            match self.reach(other, &tls).await {
                Ok(stream) => {
                    info!("linked to {}", other.peer);
                    said.clear();
                    self.carry(other, stream).await;
                }
                Err(words) if words == said => debug!("{words}"),
                Err(words) => {
                    warn!("{words}; it is dialled again");
                    said = words;
                }
            }
            if began.elapsed() >= STOOD {
                wait = FIRST_WAIT.min(most);
            }
            sleep(wait).await;
            wait = most.min(2 * wait);
        }
    }

    /// A connection to one peer, with the handshake done.
    async fn reach(
        &self,
        other: &Other,
        tls: &TlsConnector,
    ) -> Result<impl AsyncRead + AsyncWrite, String> {
        let address = other.address.as_deref().unwrap_or_default();
        let words = |error: io::Error| format!("{} at {address}: {}", other.peer, said(&error));
        let reached = timeout(HANDSHAKE, async {
            let stream = TcpStream::connect(address).await?;
            stream.set_nodelay(true)?;
            // Whose certificate it must be is pinned; this name stands for nothing.
            let name = ServerName::try_from("stemline").map_err(io::Error::other)?;
            tls.connect(name, stream).await
        });
        let late = || io::Error::from(io::ErrorKind::TimedOut);
        reached.await.unwrap_or_else(|_| Err(late())).map_err(words)
    }

    /// Carries frames both ways until one side ends.
    async fn carry(&self, other: &Other, stream: impl AsyncRead + AsyncWrite) {
        let (out, queue) = mpsc::channel(QUEUE);
        let id = self.next.fetch_add(1, Ordering::Relaxed);
        let out = Some(out);
        let up = Event::Up(other.peer, Link { id, out });
        if self.engine.send(up).await.is_err() {
            return;
        }
        let (reader, writer) = tokio::io::split(stream);
        let why = tokio::select! {
            why = self.read(other.peer, id, reader) => why,
            why = write(writer, queue) => why,
        };
        // Where the engine has ended, so have all links.
        if self.engine.send(Event::Down(other.peer, id)).await.is_ok() {
            warn!("the link to {} ended: {why}", other.peer);
        }
    }

    /// Hands on what comes, and says why it ended.
    async fn read(&self, peer: Peer, id: u64, mut reader: impl AsyncRead + Unpin) -> String {
        let mut frames = Frames::new();
        let mut bytes = vec![0; 1 << 14];
        loop {
            let silent = self.config.silent;
            match timeout(silent, reader.read(&mut bytes)).await {
                Err(_) => return format!("nothing came for {} ms", silent.as_millis()),
                Ok(Err(error)) => return said(&error),
                Ok(Ok(0)) => return "the other side closed it".to_string(),
                Ok(Ok(count)) => frames.push(&bytes[..count]),
            }
            while let Some(frame) = frames.next() {
                let event = match frame {
                    Ok(frame) => Event::Frame(peer, id, Box::new(frame)),
                    Err(error) => return error.to_string(),
                };
                if self.engine.send(event).await.is_err() {
                    return "the node ends".to_string();
                }
            }
        }
    }
}

/// What rustls says of what this program has said to it begins as if it were a fault of its own.
fn said(error: &io::Error) -> String {
    let words = error.to_string();
    words
        .strip_prefix("unexpected error: ")
        .map_or(words.clone(), str::to_string)
}

/// Writes what the engine hands out, and says why it ended.
async fn write(
    mut writer: impl AsyncWrite + Unpin,
    mut queue: mpsc::Receiver<Arc<[u8]>>,
) -> String {
    while let Some(bytes) = queue.recv().await {
        if let Err(error) = together(&mut writer, bytes, &mut queue).await {
            return error.to_string();
        }
    }
    let _ = timeout(Duration::from_secs(1), writer.shutdown()).await;
    "this node closed it".to_string()
}

/// What has come together leaves together.
async fn together(
    writer: &mut (impl AsyncWrite + Unpin),
    first: Arc<[u8]>,
    queue: &mut mpsc::Receiver<Arc<[u8]>>,
) -> io::Result<()> {
    writer.write_all(&first).await?;
    while let Ok(bytes) = queue.try_recv() {
        writer.write_all(&bytes).await?;
    }
    writer.flush().await
}
