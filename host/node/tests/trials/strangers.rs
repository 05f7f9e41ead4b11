//! Strangers: whoever has not the certificate of a peer comes no further than the handshake.

use std::process::Stdio;
use std::time::Duration;

use serde_json::Value;
use trial::client::Told;
use trial::{certificate, until};

use super::{able, from_here, group, Designer, MOST};

/// A node with a stranger's certificate in the place of a peer is let in by nobody, and lets nobody in; when the peer
/// is back, all goes on.
#[test]
fn a_stranger_in_the_place_of_a_peer() {
    if !able() {
        return;
    }
    let mut group = group("stranger", 0);
    group.start().unwrap();
    let mut designer = Designer::new();
    (0..3).for_each(|node| designer.commits(&group, node));
    group.nodes[1].process.end(MOST).unwrap();
    certificate::make(&group.plan.folder, "stranger", group.net.host(1)).unwrap();
    let journal = group.plan.folder.join("stranger.journal");
    let says: Vec<_> = group
        .nodes
        .iter()
        .map(|node| from_here(&node.process))
        .collect();
    let mut stranger = group.node(1, "stranger", &journal).unwrap();
    stranger.process.start().unwrap();
    // Number 1 dials 0, and is dialled by 2: both ends see whom they have before them.
    for k in [0, 2] {
        until("the stranger is seen", MOST, || {
            says[k](&group.nodes[k].process).contains("stranger")
        })
        .unwrap();
    }
    let told = designer.sets(&group, 0, Duration::from_secs(2));
    let told = [told, designer.sets(&group, 0, Duration::from_secs(2))];
    assert!(matches!(told[1], Told::Unknown(_)), "{told:?}");
    for (node, k) in [(0, 1), (2, 1)] {
        let status = group.nodes[node].status().unwrap();
        assert_eq!(status["studios"][k]["linked"], false, "{status}");
    }
    // It has heard nothing of the group.
    let status = stranger.status().unwrap();
    assert_eq!(
        (&status["turn"], &status["studios"][0]["turn"]),
        (&0.into(), &Value::Null),
        "{status}"
    );
    stranger.process.kill();
    let journals = group.journals();
    designer.verdict(group, &journals);
}

/// By `openssl s_client`: with a stranger's certificate, with none, with an old TLS, or without any TLS, nothing but
/// an alert comes back, and the connection is closed.
#[test]
fn a_stranger_at_the_port() {
    if !able() {
        return;
    }
    let mut group = group("port", 1);
    group.start().unwrap();
    certificate::make(&group.plan.folder, "stranger", "127.0.0.1").unwrap();
    let at = group.net.address(0).to_string();
    let base = [
        "s_client",
        "-connect",
        &at,
        "-alpn",
        "stemline/1",
        "-quiet",
        "-no_ign_eof",
    ];
    let own = ["-cert", "stranger.crt", "-key", "stranger.key"];
    let attempts: [&[&str]; 3] = [&own, &[], &["-cert", "3.crt", "-key", "3.key", "-tls1_2"]];
    for more in attempts {
        let said = attempt(&group, &base, more);
        assert!(said.0.is_empty(), "{more:?}: {said:?}");
        assert!(said.1.contains("alert"), "{more:?}: {said:?}");
    }
    // With the station's own certificate the hello comes back: the attempts above failed by theirs.
    let (hello, complaints) = attempt(&group, &base, &["-cert", "3.crt", "-key", "3.key"]);
    assert!(!hello.is_empty(), "{complaints}");
    let journals = group.journals();
    assert_eq!(Designer::new().verdict(group, &journals).committed, 3);
}

/// What a client by openssl gets from the node within two seconds, and what it says of that itself.
fn attempt(group: &trial::group::Group, base: &[&str], more: &[&str]) -> (Vec<u8>, String) {
    let mut command = group.net.command(3, "timeout".as_ref());
    command.args(["2", "openssl"]).args(base).args(more);
    // Its input stays open, so that it waits for what comes.
    let child = command
        .current_dir(&group.plan.folder)
        .stdin(Stdio::piped())
        .stdout(Stdio::piped())
        .stderr(Stdio::piped())
        .spawn();
    let mut child = child.unwrap();
    let input = child.stdin.take();
    let out = child.wait_with_output().unwrap();
    drop(input);
    (
        out.stdout,
        String::from_utf8_lossy(&out.stderr).into_owned(),
    )
}
