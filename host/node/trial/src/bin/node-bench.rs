//! Measures groups of nodes beside groups of etcd, and prints the tables of docs/MEASUREMENTS.md.

use std::fs;
use std::path::{Path, PathBuf};
use std::process::ExitCode;
use std::time::Duration;

use trial::bench::commits::{self, Clients, Commits};
use trial::bench::loads::{self, Done, Load};
use trial::bench::store::{Setting, System};
use trial::bench::{fsyncs, Times};
use trial::space::SmallDisk;

const USAGE: &str =
    "usage: node-bench [commits] [loads] [--seconds S] [--rounds R] [--replicas 2,3,6] [--folder FOLDER]
  commits     commits a second and the time from ask to outcome, on loopback, on disk and in memory
  loads       completion times and aborts under the papers' loads, over lines of a LAN and a WAN
              (neither named: both)
  --seconds   how long each group is measured (8); a light load lasts longer
  --rounds    how often commits are measured, both by turns (3); the median is printed
  --replicas  the sizes of the groups
  --folder    where journals and data are kept: one that is not there yet (among the system's temporary ones)";

/// What the arguments ask for.
struct Asked {
    commits: bool,
    loads: bool,
    seconds: u64,
    rounds: usize,
    replicas: Vec<usize>,
    folder: PathBuf,
}

fn main() -> ExitCode {
    if std::env::args().any(|argument| argument == "--help" || argument == "-h") {
        println!("{USAGE}");
        return ExitCode::SUCCESS;
    }
    match asked().and_then(|asked| run(&asked)) {
        Ok(()) => ExitCode::SUCCESS,
        Err(words) => {
            eprintln!("node-bench: {words}");
            ExitCode::FAILURE
        }
    }
}

/// A folder that was not there before, and goes when this is dropped.
struct Folder(PathBuf);

impl Folder {
    fn new(path: &Path) -> Result<Folder, String> {
        let made = fs::create_dir(path).map(|()| Folder(path.to_path_buf()));
        made.map_err(|error| format!("{}: {error}", path.display()))
    }
}

impl Drop for Folder {
    fn drop(&mut self) {
        let _ = fs::remove_dir_all(&self.0);
    }
}

fn asked() -> Result<Asked, String> {
    let mut asked = Asked {
        commits: false,
        loads: false,
        seconds: 8,
        rounds: 3,
        replicas: vec![2, 3, 6],
        folder: std::env::temp_dir().join(format!("node-bench-{}", std::process::id())),
    };
    let mut arguments = std::env::args().skip(1);
    let wrong = || "no such argument; --help says which there are".to_string();
    while let Some(argument) = arguments.next() {
        let mut value = || arguments.next().ok_or_else(wrong);
        match argument.as_str() {
            "commits" => asked.commits = true,
            "loads" => asked.loads = true,
            "--seconds" => asked.seconds = value()?.parse().map_err(|_| wrong())?,
            "--rounds" => asked.rounds = value()?.parse().map_err(|_| wrong())?,
            "--replicas" => {
                let sizes: Result<_, _> = value()?.split(',').map(str::parse).collect();
                asked.replicas = sizes.map_err(|_| wrong())?;
            }
            "--folder" => asked.folder = PathBuf::from(value()?),
            _ => return Err(wrong()),
        }
    }
    if !asked.commits && !asked.loads {
        (asked.commits, asked.loads) = (true, true);
    }
    Ok(asked)
}

fn run(asked: &Asked) -> Result<(), String> {
    trial::able()?;
    trial::run("etcd", &["--version"]).map_err(|_| "no etcd here: install etcd-server")?;
    let _folder = Folder::new(&asked.folder)?;
    let memory = asked.folder.join("memory");
    let _memory = SmallDisk::new(&memory, 4 << 30)?;
    let disk = asked.folder.join("disk");
    fs::create_dir_all(&disk).map_err(|error| error.to_string())?;
    machine(&disk, &memory)?;
    if asked.commits {
        commits_table(asked, &[("disk", &disk), ("memory", &memory)])?;
    }
    if asked.loads {
        loads_table(asked, &disk)?;
    }
    Ok(())
}

/// What it is measured on.
fn machine(disk: &Path, memory: &Path) -> Result<(), String> {
    let cores = std::thread::available_parallelism().map_or(0, usize::from);
    let load = fs::read_to_string("/proc/loadavg").unwrap_or_default();
    let etcd = trial::run("etcd", &["--version"])?;
    let etcd = etcd.lines().next().unwrap_or_default().to_string();
    println!("{cores} cores; load before: {}; {etcd}", load.trim());
    for (name, folder) in [("disk", disk), ("memory", memory)] {
        let times = fsyncs(folder)?;
        let (median, most) = (times.at(50), times.at(99));
        println!("append of a block and fsync, {name}: median {median:.3} ms, 99th {most:.3} ms");
    }
    Ok(())
}

fn setting(asked: &Asked, system: System, replicas: usize, data: &Path) -> Result<Setting, String> {
    let own = std::env::current_exe().map_err(|error| error.to_string())?;
    Ok(Setting {
        system,
        replicas,
        delay: None,
        folder: asked.folder.join("group"),
        data: data.join("data"),
        program: own.with_file_name("stemline-node"),
    })
}

fn commits_table(asked: &Asked, places: &[(&str, &Path)]) -> Result<(), String> {
    println!("\n| Data | Replicas | Clients | nodes: commits/s | median ms | 99th ms | etcd: commits/s | median ms | 99th ms | commits, nodes/etcd |");
    println!("|---|---|---|---|---|---|---|---|---|---|");
    for (name, data) in places {
        for &n in &asked.replicas {
            for clients in [Clients::One, Clients::Each(1), Clients::Each(6)] {
                let (nodes, etcd) = by_turns(asked, n, data, clients)?;
                let clients = match clients {
                    Clients::One => 1,
                    Clients::Each(count) => count * n,
                };
                let ratio = nodes.rate / etcd.rate;
                println!(
                    "| {name} | {n} | {clients} | {} | {} | {ratio:.2} |",
                    cells(&nodes),
                    cells(&etcd)
                );
            }
        }
    }
    Ok(())
}

/// Both by turns, and of each the round of the median rate.
fn by_turns(
    asked: &Asked,
    n: usize,
    data: &Path,
    clients: Clients,
) -> Result<(Commits, Commits), String> {
    let (mut nodes, mut etcd) = (Vec::new(), Vec::new());
    for _ in 0..asked.rounds.max(1) {
        for (system, rounds) in [(System::Nodes, &mut nodes), (System::Etcd, &mut etcd)] {
            let setting = setting(asked, system, n, data)?;
            let long = Duration::from_secs(asked.seconds);
            rounds.push(commits::measure(&setting, clients, long)?);
        }
    }
    let middle = |mut rounds: Vec<Commits>| {
        rounds.sort_by(|one, other| one.rate.total_cmp(&other.rate));
        rounds.swap_remove(rounds.len() / 2)
    };
    Ok((middle(nodes), middle(etcd)))
}

fn cells(commits: &Commits) -> String {
    let Commits { rate, times } = commits;
    format!("{rate:.0} | {:.2} | {:.2}", times.at(50), times.at(99))
}

fn loads_table(asked: &Asked, data: &Path) -> Result<(), String> {
    println!("\n| Line | Replicas | Only reading | Asked/s | nodes: ended/s | mean ms | 99th ms | aborted | etcd: ended/s | mean ms | 99th ms | aborted |");
    println!("|---|---|---|---|---|---|---|---|---|---|---|---|");
    for (name, delay) in [("LAN, 3 ms", 3), ("WAN, 40 ms", 40)] {
        for &n in &asked.replicas {
            for (reading, rate) in [(0, 30), (0, 100), (0, 300), (80, 30), (80, 100), (80, 300)] {
                // A light load lasts longer, so that there is enough to count.
                let seconds = asked.seconds.max(asked.seconds * 100 / rate);
                let load = Load {
                    rate: rate as f64,
                    reading,
                    long: Duration::from_secs(seconds),
                };
                let measured = |system| {
                    let mut setting = setting(asked, system, n, data)?;
                    setting.delay = Some(Duration::from_millis(delay));
                    loads::measure(&setting, load, rate + n as u64)
                };
                let (nodes, etcd) = (measured(System::Nodes)?, measured(System::Etcd)?);
                println!(
                    "| {name} | {n} | {reading}% | {rate} | {} | {} |",
                    ends(&nodes),
                    ends(&etcd)
                );
            }
        }
    }
    Ok(())
}

fn ends(done: &Done) -> String {
    let Done {
        committed,
        aborted,
        rate,
    } = done;
    let part = share(aborted, committed);
    format!(
        "{rate:.0} | {:.0} | {:.0} | {part:.1}%",
        committed.mean(),
        committed.at(99)
    )
}

/// How many of a hundred with writes were aborted.
fn share(aborted: &Times, committed: &Times) -> f64 {
    100.0 * aborted.count() as f64 / (aborted.count() + committed.count()) as f64
}
