//! A group of etcd on this machine, as near to a group of nodes as it can be: links between members with mutual TLS,
//! clients at Unix sockets, durable before a put is answered.

use std::fs;
use std::path::{Path, PathBuf};
use std::time::Duration;

use super::grpc::{fields, put, put_number, Connection, Field};
use crate::certificate;
use crate::net::Net;
use crate::process::Process;
use crate::until;

/// A group of etcd. All goes when this is dropped: first the processes, then what they stand on.
pub struct Etcd {
    members: Vec<Process>,
    /// Where clients reach the members.
    pub sockets: Vec<PathBuf>,
    /// What the members stand on.
    pub net: Net,
}

impl Etcd {
    /// Starts a group. The first folder has certificates, sockets and logs and is made anew, the other the data.
    pub fn start(net: Net, folder: &Path, data: &Path) -> Result<Etcd, String> {
        let words = |error: std::io::Error| error.to_string();
        let _ = fs::remove_dir_all(folder);
        fs::create_dir_all(folder).map_err(words)?;
        let n = net.count();
        let mut all = String::new();
        for k in 0..n {
            certificate::make(folder, &k.to_string(), net.host(k))?;
            all += &fs::read_to_string(folder.join(format!("{k}.crt"))).map_err(words)?;
        }
        fs::write(folder.join("all.crt"), all).map_err(words)?;
        let mut etcd = Etcd {
            members: Vec::new(),
            sockets: (0..n).map(|k| folder.join(socket(k))).collect(),
            net,
        };
        for k in 0..n {
            let mut command = etcd.net.command(k, Path::new("etcd"));
            command
                .args(etcd.arguments(k, folder, data))
                .current_dir(folder);
            let mut member = Process::new(command, &folder.join(format!("{k}.log")));
            member.start().map_err(words)?;
            etcd.members.push(member);
        }
        etcd.ready()?;
        Ok(etcd)
    }

    /// Waits until every member answers a put.
    fn ready(&self) -> Result<(), String> {
        for (k, socket) in self.sockets.iter().enumerate() {
            let said = || crate::group::tail(&self.members[k].said());
            until("a member of etcd answers", Duration::from_secs(30), || {
                let client = Client::connect(socket);
                client.is_ok_and(|mut client| client.put(0, 0).is_ok())
            })
            .map_err(|words| format!("{words}: {}", said()))?;
        }
        Ok(())
    }

    /// What a member is started with: defaults but for names, places and TLS.
    fn arguments(&self, k: usize, folder: &Path, data: &Path) -> Vec<String> {
        let url = |k: usize| format!("https://{}", self.net.address(k));
        let member = |k| format!("m{k}={}", url(k));
        let cluster: Vec<String> = (0..self.net.count()).map(member).collect();
        let file = |name: String| folder.join(name).to_string_lossy().into_owned();
        let client = format!("unix://{}", socket(k));
        let pairs = [
            ("name", format!("m{k}")),
            (
                "data-dir",
                data.join(format!("m{k}")).to_string_lossy().into_owned(),
            ),
            ("listen-peer-urls", url(k)),
            ("initial-advertise-peer-urls", url(k)),
            ("listen-client-urls", client.clone()),
            ("advertise-client-urls", client),
            ("initial-cluster", cluster.join(",")),
            ("initial-cluster-state", "new".to_string()),
            ("peer-cert-file", file(format!("{k}.crt"))),
            ("peer-key-file", file(format!("{k}.key"))),
            ("peer-trusted-ca-file", file("all.crt".to_string())),
            ("peer-client-cert-auth", "true".to_string()),
            ("logger", "zap".to_string()),
            ("log-level", "warn".to_string()),
        ];
        pairs
            .map(|(name, value)| format!("--{name}={value}"))
            .to_vec()
    }
}

/// The socket of a member in its folder. etcd wants a host and a port there too.
fn socket(k: usize) -> String {
    format!("m{k}:1")
}

/// A client of one member.
pub struct Client {
    connection: Connection,
}

/// A key of an item, as long as any other.
fn key(item: u32) -> [u8; 4] {
    [
        b'm',
        b'0' + (item / 100) as u8,
        b'0' + (item / 10 % 10) as u8,
        b'0' + (item % 10) as u8,
    ]
}

impl Client {
    /// To the socket of a member.
    pub fn connect(socket: &Path) -> Result<Client, String> {
        let connection = Connection::connect(socket, Duration::from_secs(20))
            .map_err(|error| error.to_string())?;
        Ok(Client { connection })
    }

    fn call(&mut self, method: &str, message: &[u8]) -> Result<Vec<u8>, String> {
        let method = format!("/etcdserverpb.KV/{method}");
        self.connection
            .call(&method, message)
            .map_err(|error| format!("{method}: {error}"))
    }

    /// Puts one value, durable at most members when this comes back.
    pub fn put(&mut self, item: u32, value: i32) -> Result<(), String> {
        self.call("Put", &put_message(item, value)).map(drop)
    }

    /// The revision of the store that this member has seen, and the one that an item was last put at; 0 for never.
    pub fn revision(&mut self, item: u32) -> Result<(u64, u64), String> {
        let mut message = Vec::new();
        put(&mut message, 1, &key(item));
        // What this member has, without asking the others.
        put_number(&mut message, 7, 1);
        let answer = self.call("Range", &message)?;
        let (mut store, mut changed) = (0, 0);
        for field in fields(&answer) {
            match field {
                (1, Field::Bytes(header)) => store = number(header, 3),
                (2, Field::Bytes(pair)) => changed = number(pair, 3),
                _ => {}
            }
        }
        Ok((store, changed))
    }

    /// Puts values where none of their items was put since these revisions. Whether it did.
    pub fn put_unless_changed(
        &mut self,
        writes: &[(u32, i32)],
        since: &[u64],
    ) -> Result<bool, String> {
        let mut message = Vec::new();
        for (&(item, _), &revision) in writes.iter().zip(since) {
            // Equal, by the revision of the last change.
            let mut compare = Vec::new();
            put_number(&mut compare, 2, 2);
            put(&mut compare, 3, &key(item));
            put_number(&mut compare, 6, revision);
            put(&mut message, 1, &compare);
        }
        for &(item, value) in writes {
            let mut operation = Vec::new();
            put(&mut operation, 2, &put_message(item, value));
            put(&mut message, 2, &operation);
        }
        let answer = self.call("Txn", &message)?;
        Ok(number(&answer, 2) == 1)
    }
}

fn put_message(item: u32, value: i32) -> Vec<u8> {
    let mut message = Vec::new();
    put(&mut message, 1, &key(item));
    put(&mut message, 2, value.to_string().as_bytes());
    message
}

/// A number of a message; 0 where it is left out.
fn number(message: &[u8], wanted: u64) -> u64 {
    let found = fields(message).into_iter().find_map(|field| match field {
        (number, Field::Number(value)) if number == wanted => Some(value),
        _ => None,
    });
    found.unwrap_or_default()
}
