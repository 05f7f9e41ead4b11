//! Makes a group to try things with: certificates, and a configuration for each node.

use std::fmt::Write;
use std::fs;
use std::path::Path;
use std::process::Command;

use crate::pins::{self, Pin};

/// What a trial group is to be like.
pub struct Trial {
    /// Its name.
    pub group: String,
    /// How many replicas it has.
    pub replicas: u32,
    /// How many stations.
    pub stations: u32,
    /// The port of replica 0; the others have the next ones.
    pub port: u16,
    /// The port of replica 0's page, if the nodes are to serve one; the others have the next ones.
    pub page: Option<u16>,
}

/// The cities of the trial's studios.
const CITIES: [&str; 6] = ["Berlin", "Porto", "Lyon", "Oslo", "Gdańsk", "Turin"];
/// What measures are called in a trial.
const NAMES: &str = include_str!("../../../examples/measures.txt");

/// Writes certificates, configurations and names into a folder that is not there yet. Gives the configurations.
pub fn trial(folder: &Path, trial: &Trial) -> Result<Vec<String>, String> {
    let words = |error: std::io::Error| format!("{}: {error}", folder.display());
    if !(2..=6).contains(&trial.replicas) {
        return Err("a group has 2 to 6 replicas".to_string());
    }
    let last = trial
        .port
        .checked_add(5)
        .zip(trial.page.unwrap_or(1).checked_add(16));
    last.ok_or("the ports end at 65535")?;
    fs::create_dir(folder).map_err(words)?;
    let studios = (0..trial.replicas).map(|number| format!("studio-{number}"));
    let stations = (0..trial.stations).map(|number| format!("station-{number}"));
    let nodes: Vec<String> = studios.chain(stations).collect();
    fs::write(folder.join("measures.txt"), NAMES).map_err(words)?;
    for node in &nodes {
        certificate(folder, node)?;
    }
    for (at, node) in nodes.iter().enumerate() {
        let file = folder.join(format!("{node}.toml"));
        fs::write(file, trial.configuration(at as u32, node)).map_err(words)?;
    }
    Ok(nodes)
}

/// Makes a key of the owner alone and a certificate that it signs itself, by openssl.
pub fn certificate(folder: &Path, name: &str) -> Result<Pin, String> {
    let key = folder.join(format!("{name}.key"));
    let certificate = folder.join(format!("{name}.crt"));
    if let Some(there) = [&key, &certificate].into_iter().find(|file| file.exists()) {
        return Err(format!("{} is there already", there.display()));
    }
    // The key is made in a file that nobody else can read from the first moment on.
    let mut options = fs::OpenOptions::new();
    std::os::unix::fs::OpenOptionsExt::mode(&mut options, 0o600);
    let made = options.write(true).create_new(true).open(&key);
    made.map_err(|error| format!("{}: {error}", key.display()))?;
    let mut openssl = Command::new("openssl");
    openssl.args([
        "req",
        "-x509",
        "-newkey",
        "ec",
        "-pkeyopt",
        "ec_paramgen_curve:P-256",
    ]);
    openssl.args(["-nodes", "-sha256", "-days", "36500", "-subj"]);
    openssl
        .arg(format!("/CN={name}"))
        .arg("-keyout")
        .arg(&key)
        .arg("-out")
        .arg(&certificate);
    let output = openssl.output().map_err(|error| {
        format!("openssl, which makes certificates, cannot be started: {error}")
    })?;
    if !output.status.success() {
        let words = String::from_utf8_lossy(&output.stderr);
        let words = words.lines().last().unwrap_or_default();
        return Err(format!("openssl made no certificate: {words}"));
    }
    pins::key(&key)?;
    Ok(Pin::of(&pins::certificate(&certificate)?))
}

impl Trial {
    /// The configuration of one node.
    fn configuration(&self, at: u32, node: &str) -> String {
        let mut text = String::new();
        self.own(&mut text, at, node);
        for number in 0..self.replicas {
            let name = CITIES.get(number as usize).copied().unwrap_or_default();
            let port = u32::from(self.port) + number;
            let _ = write!(
                text,
                "\n[[replicas]] # {number}\nname = \"{name}\"\naddress = \"127.0.0.1:{port}\"\n\
                 certificate = \"studio-{number}.crt\"\n"
            );
        }
        for number in 0..self.stations {
            let _ = write!(
                text,
                "\n[[stations]]\nname = \"print room {number}\"\ncertificate = \"station-{number}.crt\"\n"
            );
        }
        text
    }

    /// What the node has for itself.
    fn own(&self, text: &mut String, at: u32, node: &str) {
        // A string of TOML is written as one of JSON is.
        let group = serde_json::Value::from(self.group.as_str());
        let _ = writeln!(text, "group = {group}");
        match at < self.replicas {
            true => {
                let port = u32::from(self.port) + at;
                let _ = writeln!(text, "number = {at}\njournal = \"{node}.journal\"");
                let _ = writeln!(text, "listen = \"127.0.0.1:{port}\"");
            }
            false => {
                let _ = writeln!(text, "station = true");
            }
        }
        let _ = writeln!(text, "socket = \"{node}.socket\"");
        if let Some(page) = self.page {
            let _ = writeln!(text, "page = \"127.0.0.1:{}\"", u32::from(page) + at);
        }
        let _ = writeln!(text, "certificate = \"{node}.crt\"\nkey = \"{node}.key\"");
        let _ = writeln!(text, "names = \"measures.txt\"");
    }
}
