//! One node, from its start to its end.

use std::io;
use std::path::Path;
use std::sync::atomic::AtomicU64;
use std::sync::Arc;
use std::thread;
use std::time::Duration;

use tokio::net::TcpListener;
use tokio::runtime::Runtime;
use tokio::signal::unix::{signal, Signal, SignalKind};
use tokio::sync::{mpsc, oneshot, Semaphore};
use tokio::task::JoinHandle;
use tokio::time::timeout;
use tracing::info;

use crate::config::Config;
use crate::engine::{Engine, Event};
use crate::links::Links;
use crate::page;
use crate::socket::{Node, Socket, SETS};

/// How long the last words to clients may take.
const LAST_WORDS: Duration = Duration::from_millis(500);
/// Sent where a file may not become longer, SIGXFSZ: the write is to fail, and not the node to end.
const FILE_TOO_LONG: i32 = 25;

/// Runs the node of a configuration until it is told to end, by SIGTERM, SIGINT or SIGHUP. What keeps it from
/// starting is said in a line.
pub fn run(path: &Path) -> Result<(), String> {
    let config = Arc::new(Config::read(path)?);
    let runtime = Runtime::new().map_err(|error| error.to_string())?;
    let done = runtime.block_on(live(config, &runtime));
    runtime.shutdown_timeout(LAST_WORDS);
    done
}

async fn live(config: Arc<Config>, runtime: &Runtime) -> Result<(), String> {
    let caught = |number| signal(SignalKind::from_raw(number)).map_err(|error| error.to_string());
    let _too_long = caught(FILE_TOO_LONG)?;
    let mut told = Ends::catch().map_err(|error| error.to_string())?;
    let (engine, events, changes) = Engine::new(Arc::clone(&config), runtime.handle().clone());
    let (opened, open) = oneshot::channel();
    let (ended, mut end) = mpsc::channel::<()>(1);
    thread::spawn(move || {
        engine.run(opened);
        drop(ended);
    });
    open.await.map_err(|_| "the engine ended".to_string())??;
    let node = Arc::new(Node {
        config,
        engine: events.clone(),
        changes,
        next: AtomicU64::new(0),
        sets: Semaphore::new(SETS as usize),
    });
    let served = serve(&node).await;
    let done = match &served {
        Err(words) => Err(words.clone()),
        Ok(_) => until_told(&node.config, &mut told, &mut end).await,
    };
    // The engine needs the runtime to its end, and clients are being told how their transactions ended.
    let _ = events.send(Event::End).await;
    let _ = end.recv().await;
    let _ = timeout(LAST_WORDS, node.sets.acquire_many(SETS)).await;
    if let Ok(socket) = served {
        socket.abort();
        let _ = socket.await;
    }
    done
}

/// Until a signal comes, or the engine has ended.
async fn until_told(
    config: &Config,
    told: &mut Ends,
    end: &mut mpsc::Receiver<()>,
) -> Result<(), String> {
    info!("{} runs", who(config));
    tokio::select! {
        name = told.next() => {
            info!("{name}: the node ends");
            Ok(())
        }
        _ = end.recv() => Err("the engine ended before it was told to".to_string()),
    }
}

/// Opens what the configuration asks for, and nothing else.
async fn serve(node: &Arc<Node>) -> Result<JoinHandle<()>, String> {
    let config = &node.config;
    let links = Links::new(Arc::clone(config), node.engine.clone());
    if let Some(address) = &config.listen {
        let listener = bind(address).await?;
        let taking = Arc::clone(&links).take_all(listener)?;
        tokio::spawn(taking);
    }
    if let Some(address) = config.page {
        let listener = bind(&address.to_string()).await?;
        tokio::spawn(page::serve(listener, Arc::clone(node)));
    }
    let socket = Socket::bind(&config.socket)?;
    let node = Arc::clone(node);
    let serving = tokio::spawn(async move { socket.serve(node).await });
    links.dial_all()?;
    Ok(serving)
}

async fn bind(address: &str) -> Result<TcpListener, String> {
    let bound = TcpListener::bind(address).await;
    bound.map_err(|error| format!("cannot listen at {address}: {error}"))
}

/// Who this node is, in words.
fn who(config: &Config) -> String {
    let (group, n) = (config.group.name(), config.group.replicas());
    match config.own {
        Some(own) => format!("studio {own} of {n} of the group \"{group}\""),
        None => format!("a station of the group \"{group}\" of {n}"),
    }
}

/// The signals that end a node.
struct Ends([(&'static str, Signal); 3]);

impl Ends {
    fn catch() -> io::Result<Ends> {
        Ok(Ends([
            ("SIGTERM", signal(SignalKind::terminate())?),
            ("SIGINT", signal(SignalKind::interrupt())?),
            ("SIGHUP", signal(SignalKind::hangup())?),
        ]))
    }

    async fn next(&mut self) -> &'static str {
        let [(term, a), (int, b), (hup, c)] = &mut self.0;
        tokio::select! {
            _ = a.recv() => term,
            _ = b.recv() => int,
            _ = c.recv() => hup,
        }
    }
}
