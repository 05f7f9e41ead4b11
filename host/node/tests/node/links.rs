//! Who is let in.

use std::io;
use std::path::PathBuf;
use std::sync::Arc;
use std::time::Duration;

use rustls::{ClientConfig, ServerName};
use stemline_node::init::certificate;
use stemline_node::pins::{self, Identity, Pin};
use tokio::io::AsyncReadExt;
use tokio::net::TcpStream;
use tokio::time::timeout;
use tokio_rustls::TlsConnector;

use crate::group::{wait, Group};

/// Dials a port, and reads what the other side says first.
fn knock(port: u16, config: Arc<ClientConfig>) -> io::Result<usize> {
    let runtime = tokio::runtime::Builder::new_current_thread()
        .enable_all()
        .build()?;
    runtime.block_on(async {
        let stream = TcpStream::connect(("127.0.0.1", port)).await?;
        let name = ServerName::try_from("stemline").map_err(io::Error::other)?;
        let mut stream = TlsConnector::from(config).connect(name, stream).await?;
        timeout(Duration::from_secs(20), stream.read(&mut [0; 64])).await?
    })
}

#[test]
fn a_strangers_connection_ends_in_the_handshake() {
    let mut group = Group::new("stranger", 2, 0, false);
    group.start("studio-0");
    let file = |name: &str| -> PathBuf { group.path(name) };
    let pin = |name: &str| Pin::of(&pins::certificate(&file(name)).unwrap());
    let known = Identity::read(&file("studio-1.crt"), &file("studio-1.key")).unwrap();
    // The one who is in the list hears a hello.
    let config = known.client(pin("studio-0.crt")).unwrap();
    assert!(knock(group.port, config).unwrap() > 0);
    // A stranger does not, nor one who shows a certificate without having its key, nor one who shows none.
    certificate(&group.folder, "stranger").unwrap();
    let stranger = Identity::read(&file("stranger.crt"), &file("stranger.key")).unwrap();
    let thief = Identity::read(&file("studio-1.crt"), &file("stranger.key")).unwrap();
    for identity in [&stranger, &thief] {
        let error = knock(group.port, identity.client(pin("studio-0.crt")).unwrap()).unwrap_err();
        assert!(error.to_string().contains("alert"), "{error}");
    }
    let stranger = format!(
        "ended in the handshake: a stranger's certificate, {}",
        pin("stranger.crt")
    );
    assert!(
        wait(|| group.log("studio-0").contains(&stranger)),
        "{}",
        group.log("studio-0")
    );
    // A node that is not the one that was dialled is a stranger too.
    let error = knock(group.port, known.client(pin("studio-1.crt")).unwrap()).unwrap_err();
    assert!(
        error.to_string().contains("a stranger's certificate"),
        "{error}"
    );
    let links = group.log("studio-0").matches("linked to").count();
    assert_eq!(links, 1, "{}", group.log("studio-0"));
}

#[test]
fn a_node_with_a_strangers_certificate_is_not_linked() {
    let mut group = Group::new("impostor", 2, 0, false);
    group.start("studio-0");
    // It has taken studio 1's number, and all but its certificate.
    certificate(&group.folder, "stranger").unwrap();
    group.edit("studio-1", |text| {
        text.replace("studio-1.crt", "stranger.crt")
            .replace("studio-1.key", "stranger.key")
    });
    group.start("studio-1");
    assert!(wait(|| group
        .log("studio-0")
        .contains("a stranger's certificate")));
    std::thread::sleep(Duration::from_millis(500));
    assert!(
        !group.log("studio-0").contains("linked to"),
        "{}",
        group.log("studio-0")
    );
    let status = group.asked("studio-0", &["status"]);
    assert!(status.contains("studio 1 (Porto): not linked"), "{status}");
}

#[test]
fn one_of_another_group_is_closed_out() {
    let mut group = Group::new("other", 2, 0, false);
    group.edit("studio-1", |text| text.replacen("grotesque", "antiqua", 1));
    group.start_all(&["studio-0", "studio-1"]);
    let words = "antiqua";
    assert!(
        wait(|| group.log("studio-0").contains(words)),
        "{}",
        group.log("studio-0")
    );
    assert!(
        wait(|| group.log("studio-0").contains("this node closed it")),
        "{}",
        group.log("studio-0")
    );
    let status = group.asked("studio-0", &["status"]);
    assert!(status.contains("turn 1, 0 writesets"), "{status}");
}

#[test]
fn a_port_that_is_not_asked_for_is_not_opened() {
    let mut group = Group::new("silent", 2, 0, false);
    // Studio 0 only dials: the other one is dialled by it, though its number is higher.
    group.edit("studio-0", |text| {
        let lines = text.lines().filter(|line| !line.starts_with("listen"));
        lines.map(|line| format!("{line}\n")).collect()
    });
    let address = format!("address = \"127.0.0.1:{}\"\n", group.port);
    group.edit("studio-1", |text| text.replacen(&address, "", 1));
    group.start_all(&["studio-0", "studio-1"]);
    group.asked("studio-1", &["set", "5", "7"]);
    group.comes("studio-0", "5", "7");
    let closed = std::net::TcpStream::connect(("127.0.0.1", group.port));
    assert_eq!(closed.unwrap_err().kind(), io::ErrorKind::ConnectionRefused);
}

/// One that was killed while it made its socket, and one whose socket cannot be made.
#[test]
fn sockets_that_are_left_behind() {
    let mut group = Group::new("socket", 2, 0, false);
    std::fs::create_dir(group.path("studio-0.socket.new")).unwrap();
    group.start("studio-0");
    group.kill("studio-0");
    assert!(group.path("studio-0.socket").exists());
    group.start("studio-0");
    group.terminate("studio-0");
    std::fs::create_dir(group.path("studio-0.socket")).unwrap();
    std::fs::write(group.path("studio-0.log"), "").unwrap();
    assert_eq!(group.refused("studio-0").code(), Some(1));
    let log = group.log("studio-0");
    let last = log.lines().last().unwrap_or_default();
    assert!(
        last.starts_with("stemline-node: ") && !log.contains("panicked"),
        "{log}"
    );
}

/// Root's node turns away who is not root, though the socket's mode would let him.
#[test]
fn only_the_owner_is_answered() {
    let mut group = Group::new("owner", 2, 0, false);
    let is_root = std::fs::metadata("/proc/self").unwrap();
    if std::os::unix::fs::MetadataExt::uid(&is_root) != 0 {
        return eprintln!("not tried: only root can be another user for a while");
    }
    // In a folder that others come to.
    let folder = std::env::temp_dir().join(format!("stemline-owner-{}", std::process::id()));
    std::fs::create_dir(&folder).unwrap();
    let (socket, program) = (folder.join("s"), folder.join("stemline"));
    std::fs::copy(env!("CARGO_BIN_EXE_stemline"), &program).unwrap();
    std::os::unix::fs::symlink(&socket, group.path("studio-0.socket")).unwrap();
    group.edit("studio-0", |text| {
        text.replace("studio-0.socket", socket.to_str().unwrap())
    });
    group.start("studio-0");
    let open = |mode| {
        std::fs::set_permissions(&socket, std::os::unix::fs::PermissionsExt::from_mode(mode))
    };
    let nobody = || {
        let mut other = std::process::Command::new("setpriv");
        other
            .args(["--reuid=65534", "--clear-groups"])
            .arg(&program)
            .arg("--socket");
        let output = other.arg(&socket).arg("status").output().unwrap();
        (
            output.status.code(),
            String::from_utf8_lossy(&output.stderr).into_owned(),
        )
    };
    let (status, words) = nobody();
    assert!(
        status == Some(3) && words.contains("Permission denied"),
        "{words}"
    );
    open(0o666).unwrap();
    let (status, words) = nobody();
    assert!(
        status == Some(3) && !words.contains("Permission denied"),
        "{words}"
    );
    assert!(group
        .log("studio-0")
        .contains("a client of user 65534 is turned away"));
    group.asked("studio-0", &["status"]);
    group.terminate("studio-0");
    std::fs::remove_dir_all(folder).unwrap();
}
