//! The page: what the group holds and where it is, served on loopback to look at.

use std::io;
use std::net::SocketAddr;
use std::sync::Arc;
use std::time::{Duration, Instant};

use ring::rand::{SecureRandom, SystemRandom};
use tokio::io::{AsyncReadExt, AsyncWriteExt};
use tokio::net::{TcpListener, TcpStream};
use tokio::sync::Semaphore;
use tokio::time::{sleep, timeout};
use tracing::{debug, warn};

use crate::socket::Node;
use crate::state;

/// The page as it stands, with places for a nonce and for what is shown first.
const PAGE: &str = include_str!("page.html");
/// The longest head of a request, and how long it may take.
const HEAD: u64 = 1 << 13;
const PATIENCE: Duration = Duration::from_secs(5);
/// Pages that are served at once.
const VIEWERS: usize = 64;
/// How often it is looked whether something has changed, and what comes together behind a change.
const LOOKS: Duration = Duration::from_millis(500);
const TOGETHER: Duration = Duration::from_millis(50);
/// How often a viewer is told something at least, by which it is seen whether it is still there.
const SIGN: Duration = Duration::from_secs(10);

/// Serves the page for as long as the node runs.
pub async fn serve(listener: TcpListener, node: Arc<Node>) {
    let viewers = Arc::new(Semaphore::new(VIEWERS));
    loop {
        let Ok(place) = Arc::clone(&viewers).acquire_owned().await else {
            return;
        };
        match listener.accept().await {
            Ok((stream, from)) => {
                let node = Arc::clone(&node);
                tokio::spawn(async move {
                    if let Err(error) = answer(stream, from, node).await {
                        debug!("a viewer is gone: {error}");
                    }
                    drop(place);
                });
            }
            Err(error) => {
                warn!("a viewer cannot be taken: {error}");
                sleep(LOOKS).await;
            }
        }
    }
}

/// Answers one request, and closes.
async fn answer(mut stream: TcpStream, from: SocketAddr, node: Arc<Node>) -> io::Result<()> {
    let local = stream.local_addr()?;
    let head = timeout(PATIENCE, head(&mut stream)).await??;
    let Some(request) = Request::read(&head) else {
        return plain(&mut stream, "400 Bad Request", "no request\n").await;
    };
    // A page of elsewhere whose name leads to loopback is not to read this one.
    if !from.ip().is_loopback() || !request.is_for(local) {
        return plain(&mut stream, "403 Forbidden", "this page is for localhost\n").await;
    }
    match (request.method, request.path) {
        ("GET", "/") => page(&mut stream, &node).await,
        ("GET", "/state") => match seen(&node).await {
            Some(json) => {
                send(
                    &mut stream,
                    "200 OK",
                    "application/json",
                    "",
                    json.as_bytes(),
                )
                .await
            }
            None => plain(&mut stream, "503 Service Unavailable", "the node ends\n").await,
        },
        ("GET", "/events") => follow(&mut stream, &node).await,
        ("GET", _) => plain(&mut stream, "404 Not Found", "there is / alone\n").await,
        _ => {
            plain(
                &mut stream,
                "405 Method Not Allowed",
                "this page is to be looked at\n",
            )
            .await
        }
    }
}

/// The head of a request, up to its empty line.
async fn head(stream: &mut TcpStream) -> io::Result<Vec<u8>> {
    let mut head = Vec::new();
    let mut part = stream.take(HEAD);
    while !head.ends_with(b"\r\n\r\n") {
        if part.read_buf(&mut head).await? == 0 {
            return Err(io::ErrorKind::InvalidData.into());
        }
    }
    Ok(head)
}

/// What counts of a request.
struct Request<'a> {
    method: &'a str,
    path: &'a str,
    host: &'a str,
}

impl Request<'_> {
    fn read(head: &[u8]) -> Option<Request<'_>> {
        let mut lines = std::str::from_utf8(head).ok()?.split("\r\n");
        let mut words = lines.next()?.split(' ');
        let (method, path) = (words.next()?, words.next()?);
        let fields = lines.filter_map(|line| line.split_once(':'));
        let mut hosts = fields.filter(|(name, _)| name.eq_ignore_ascii_case("host"));
        let host = hosts.next()?.1.trim();
        let path = path.split('?').next()?;
        hosts
            .next()
            .is_none()
            .then_some(Request { method, path, host })
    }

    /// Whether it names this address, or localhost at its port.
    fn is_for(&self, local: SocketAddr) -> bool {
        let port = local.port();
        let names = [format!("localhost:{port}"), local.to_string()];
        // Port 80 is left out by who asks.
        let bare = port == 80 && (self.host == "localhost" || self.host == local.ip().to_string());
        bare || names.iter().any(|name| name == self.host)
    }
}

/// The state, as JSON. How long ago somebody was heard is left out while there is a link: it is always short.
async fn seen(node: &Node) -> Option<String> {
    let look = node.look().await?;
    let mut state = state::state(&node.config, &look);
    for member in state.studios.iter_mut().chain(&mut state.stations) {
        let seconds = member.heard_ms.map(|heard| heard / 1000 * 1000);
        member.heard_ms = seconds.filter(|_| !member.linked);
    }
    serde_json::to_string(&state).ok()
}

/// The page with the present state in it.
async fn page(stream: &mut TcpStream, node: &Node) -> io::Result<()> {
    let mut random = [0; 16];
    let filled = SystemRandom::new().fill(&mut random);
    filled.map_err(|_| io::Error::other("no random bytes"))?;
    let nonce: String = random.iter().map(|byte| format!("{byte:02x}")).collect();
    let state = seen(node).await.unwrap_or_else(|| "null".to_string());
    let html = PAGE
        .replace("{nonce}", &nonce)
        .replace("{state}", &harmless(&state));
    let policy = format!(
        "Content-Security-Policy: default-src 'none'; style-src 'nonce-{nonce}'; \
         script-src 'nonce-{nonce}'; connect-src 'self'; img-src data:; base-uri 'none'; \
         form-action 'none'; frame-ancestors 'none'\r\n"
    );
    let kind = "text/html; charset=utf-8";
    send(stream, "200 OK", kind, &policy, html.as_bytes()).await
}

/// JSON that ends no element of HTML around it.
fn harmless(json: &str) -> String {
    json.replace('<', "\\u003c")
}

/// Tells the state again and again, as it changes.
async fn follow(stream: &mut TcpStream, node: &Node) -> io::Result<()> {
    let mut changes = node.changes.subscribe();
    let head = "HTTP/1.1 200 OK\r\nContent-Type: text/event-stream\r\nCache-Control: no-store\r\n\
                Connection: close\r\n\r\n";
    stream.write_all(head.as_bytes()).await?;
    let (mut last, mut told) = (String::new(), Instant::now());
    while let Some(json) = seen(node).await {
        if json != last {
            stream
                .write_all(format!("data: {json}\n\n").as_bytes())
                .await?;
            (last, told) = (json, Instant::now());
        } else if told.elapsed() >= SIGN {
            stream.write_all(b": still here\n\n").await?;
            told = Instant::now();
        }
        tokio::select! {
            _ = changes.recv() => sleep(TOGETHER).await,
            () = sleep(LOOKS) => {}
        }
    }
    Ok(())
}

async fn plain(stream: &mut TcpStream, status: &str, words: &str) -> io::Result<()> {
    send(
        stream,
        status,
        "text/plain; charset=utf-8",
        "",
        words.as_bytes(),
    )
    .await
}

async fn send(
    stream: &mut TcpStream,
    status: &str,
    kind: &str,
    more: &str,
    body: &[u8],
) -> io::Result<()> {
    let head = format!(
        "HTTP/1.1 {status}\r\nContent-Type: {kind}\r\nContent-Length: {}\r\nCache-Control: no-store\r\n\
         X-Content-Type-Options: nosniff\r\nReferrer-Policy: no-referrer\r\nConnection: close\r\n{more}\r\n",
        body.len()
    );
    stream.write_all(head.as_bytes()).await?;
    stream.write_all(body).await?;
    stream.shutdown().await
}

#[cfg(test)]
mod tests {
    use super::*;

    #[test]
    fn requests() {
        let read = |head: &'static str| Request::read(head.as_bytes());
        let request = read("GET /state?x HTTP/1.1\r\nHost: localhost:7780\r\n\r\n").unwrap();
        assert_eq!((request.method, request.path), ("GET", "/state"));
        let at = |text: &str| text.parse().unwrap();
        assert!(request.is_for(at("127.0.0.1:7780")));
        assert!(!request.is_for(at("127.0.0.1:7781")));
        let other = read("GET / HTTP/1.1\r\nhost: studio.example:7780\r\n\r\n").unwrap();
        assert!(!other.is_for(at("127.0.0.1:7780")));
        let six = read("GET / HTTP/1.1\r\nHost: [::1]:7780\r\n\r\n").unwrap();
        assert!(six.is_for(at("[::1]:7780")));
        assert!(read("GET / HTTP/1.1\r\n\r\n").is_none());
        assert!(read("GET / HTTP/1.1\r\nHost: a\r\nHost: b\r\n\r\n").is_none());
        assert!(read("\r\n\r\n").is_none());
    }

    #[test]
    fn no_name_ends_the_script() {
        let name = serde_json::to_string("</script><b>\"&'").unwrap();
        assert_eq!(harmless(&name), "\"\\u003c/script>\\u003cb>\\\"&'\"");
    }
}
