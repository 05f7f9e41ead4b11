//! A trial group in a folder of its own, whose nodes end with it.

use std::fs::{self, File};
use std::net::TcpListener;
use std::path::{Path, PathBuf};
use std::process::{Child, Command, ExitStatus, Output, Stdio};
use std::sync::atomic::{AtomicU16, Ordering};
use std::thread::sleep;
use std::time::{Duration, Instant};

use stemline_node::init::{trial, Trial};

/// How long anything may take on a machine that has other things to do.
pub const PATIENCE: Duration = Duration::from_secs(60);

pub struct Group {
    pub folder: PathBuf,
    pub port: u16,
    nodes: Vec<(String, Child)>,
}

/// So many ports in a row that nobody has.
fn free_ports(count: u16) -> u16 {
    static NEXT: AtomicU16 = AtomicU16::new(0);
    let process = (std::process::id() % 1000) as u16;
    loop {
        let base = 20_000 + (process * 20 + NEXT.fetch_add(20, Ordering::Relaxed)) % 12_000;
        let bound: Vec<_> = (base..base + count)
            .map_while(|port| TcpListener::bind(("127.0.0.1", port)).ok())
            .collect();
        if bound.len() == usize::from(count) {
            return base;
        }
    }
}

impl Group {
    /// Of replicas and stations with short waits; `page` has each serve one, at ports 10 above.
    pub fn new(name: &str, replicas: u32, stations: u32, page: bool) -> Group {
        let temporary = PathBuf::from(env!("CARGO_TARGET_TMPDIR"));
        let folder = temporary.join(format!("{name}-{}", std::process::id()));
        let _ = fs::remove_dir_all(&folder);
        let port = free_ports(20);
        let wanted = Trial {
            group: "grotesque".to_string(),
            replicas,
            stations,
            port,
            page: page.then_some(port + 10),
        };
        let nodes = trial(&folder, &wanted).unwrap();
        let group = Group {
            folder,
            port,
            nodes: Vec::new(),
        };
        for node in nodes {
            let waits = "[waits]\nidle_ms = 50\nresend_ms = 50\nask_ms = 50\nsilent_ms = 2000\nreconnect_ms = 200\n";
            group.edit(&node, |text| format!("{text}\n{waits}"));
        }
        group
    }

    pub fn path(&self, name: &str) -> PathBuf {
        self.folder.join(name)
    }

    /// Changes a node's configuration.
    pub fn edit(&self, node: &str, change: impl FnOnce(String) -> String) {
        let file = self.path(&format!("{node}.toml"));
        let text = fs::read_to_string(&file).unwrap();
        fs::write(&file, change(text)).unwrap();
    }

    fn command(&self, node: &str) -> Command {
        let log = self.path(&format!("{node}.log"));
        let log = File::options().create(true).append(true).open(log).unwrap();
        let mut command = Command::new(env!("CARGO_BIN_EXE_stemline-node"));
        command.arg("run").arg(self.path(&format!("{node}.toml")));
        command
            .stderr(log)
            .stdout(Stdio::null())
            .stdin(Stdio::null());
        command
    }

    /// Starts a node, and waits until it answers.
    pub fn start(&mut self, node: &str) {
        let child = self.command(node).spawn().unwrap();
        self.nodes.push((node.to_string(), child));
        let up = wait(|| self.ask(node, &["status"]).status.success());
        assert!(up, "{node} does not answer: {}", self.log(node));
    }

    pub fn start_all(&mut self, nodes: &[&str]) {
        nodes.iter().for_each(|node| self.start(node));
    }

    /// Runs a node that ends by itself.
    pub fn refused(&self, node: &str) -> ExitStatus {
        self.command(node).status().unwrap()
    }

    /// The process of a node.
    pub fn id(&self, node: &str) -> u32 {
        let found = self.nodes.iter().find(|(name, _)| name == node);
        found.unwrap().1.id()
    }

    fn taken(&mut self, node: &str) -> Child {
        let at = self
            .nodes
            .iter()
            .position(|(name, _)| name == node)
            .unwrap();
        self.nodes.remove(at).1
    }

    /// Cuts a node off as a cut of the power does.
    pub fn kill(&mut self, node: &str) {
        let mut child = self.taken(node);
        child.kill().unwrap();
        child.wait().unwrap();
    }

    /// Tells a node to end, and waits until it has.
    pub fn terminate(&mut self, node: &str) -> ExitStatus {
        let mut child = self.taken(node);
        let kill = Command::new("kill").arg(child.id().to_string()).status();
        assert!(kill.unwrap().success());
        let mut status = None;
        let ended = wait(|| {
            status = child.try_wait().unwrap();
            status.is_some()
        });
        assert!(ended, "{node} does not end: {}", self.log(node));
        status.unwrap()
    }

    pub fn log(&self, node: &str) -> String {
        fs::read_to_string(self.path(&format!("{node}.log"))).unwrap_or_default()
    }

    /// The designers' program at a node, not yet started.
    pub fn stemline(&self, node: &str, arguments: &[&str]) -> Command {
        let mut command = Command::new(env!("CARGO_BIN_EXE_stemline"));
        command
            .arg("--socket")
            .arg(self.path(&format!("{node}.socket")));
        command.args(arguments).stdin(Stdio::null());
        command
    }

    pub fn ask(&self, node: &str, arguments: &[&str]) -> Output {
        self.stemline(node, arguments).output().unwrap()
    }

    /// What it prints where all goes well.
    pub fn asked(&self, node: &str, arguments: &[&str]) -> String {
        let output = self.ask(node, arguments);
        let words = String::from_utf8_lossy(&output.stderr);
        assert!(output.status.success(), "{arguments:?} at {node}: {words}");
        String::from_utf8(output.stdout).unwrap()
    }

    /// Waits until a measure has a value at a node.
    pub fn comes(&self, node: &str, measure: &str, value: &str) {
        let mut last = String::new();
        let came = wait(|| {
            last = self.asked(node, &["get", measure]).trim().to_string();
            last == value
        });
        assert!(came, "{measure} is {last} at {node}, not {value}");
    }
}

impl Drop for Group {
    fn drop(&mut self) {
        for (_, child) in &mut self.nodes {
            let _ = child.kill();
            let _ = child.wait();
        }
        if std::thread::panicking() {
            eprintln!("left behind: {}", self.folder.display());
        } else {
            let _ = fs::remove_dir_all(&self.folder);
        }
    }
}

/// Waits until it holds; false where it does not in time.
pub fn wait(mut holds: impl FnMut() -> bool) -> bool {
    let begun = Instant::now();
    while begun.elapsed() < PATIENCE {
        if holds() {
            return true;
        }
        sleep(Duration::from_millis(20));
    }
    false
}

/// The mode of a file.
pub fn mode(path: &Path) -> u32 {
    use std::os::unix::fs::PermissionsExt;
    fs::metadata(path).unwrap().permissions().mode() & 0o777
}
