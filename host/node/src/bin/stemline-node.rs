//! The node of a studio.

use std::path::{Path, PathBuf};
use std::process::ExitCode;

use clap::{Args, Parser, Subcommand, ValueEnum};
use stemline_node::init::{self, Trial};
use stemline_node::{config::Config, node};
use tracing::Level;

/// Runs the node of a studio: one replica of a group, or a station.
///
/// The status is 0 where it ended as it was told to, 1 where it could not start or go on, and 2 for other arguments.
#[derive(Parser)]
#[command(version)]
struct Arguments {
    #[command(subcommand)]
    what: What,
}

#[derive(Subcommand)]
enum What {
    /// Run a node until SIGTERM, SIGINT or SIGHUP
    Run {
        /// Its configuration, in TOML
        config: PathBuf,
        /// What is written to standard error
        #[arg(long, value_enum, default_value = "info")]
        log: Log,
    },
    /// Read a configuration and the files that it names, and say what is wrong with them
    Check {
        /// The configuration
        config: PathBuf,
    },
    /// Make a key and a certificate in this folder: NAME.key and NAME.crt, and print the fingerprint for the others
    Certificate {
        /// What it is for, as studio-0
        name: String,
    },
    /// Make a group to try things with, on this machine: certificates, and a configuration for each node
    Init {
        /// A folder that is not there yet
        folder: PathBuf,
        #[command(flatten)]
        trial: Wanted,
    },
}

#[derive(Args)]
struct Wanted {
    /// Its name
    #[arg(long, default_value = "grotesque")]
    group: String,
    /// How many replicas, 2 to 6
    #[arg(long, default_value_t = 3)]
    replicas: u32,
    /// How many stations
    #[arg(long, default_value_t = 0)]
    stations: u32,
    /// The port of studio 0; the others have the next ones
    #[arg(long, default_value_t = 7700)]
    port: u16,
    /// Have each node serve a page, at this port and the next ones
    #[arg(long, num_args = 0..=1, default_missing_value = "7780")]
    page: Option<u16>,
}

#[derive(Clone, Copy, ValueEnum)]
enum Log {
    Error,
    Warn,
    Info,
    Debug,
}

fn main() -> ExitCode {
    match run(Arguments::parse().what) {
        Ok(()) => ExitCode::SUCCESS,
        Err(words) => {
            eprintln!("stemline-node: {words}");
            ExitCode::FAILURE
        }
    }
}

fn run(what: What) -> Result<(), String> {
    match what {
        What::Run { config, log } => {
            let lines = tracing_subscriber::fmt().with_writer(std::io::stderr);
            let lines = lines.with_target(false).with_ansi(false);
            lines.with_max_level(log.level()).init();
            node::run(&config)
        }
        What::Check { config } => {
            Config::read(&config)?;
            println!("{} is good", config.display());
            Ok(())
        }
        What::Certificate { name } => {
            let pin = init::certificate(Path::new(""), &name)?;
            println!("fingerprint = \"{pin}\"");
            Ok(())
        }
        What::Init { folder, trial } => {
            for node in init::trial(&folder, &trial.into())? {
                println!("stemline-node run {}/{node}.toml", folder.display());
            }
            Ok(())
        }
    }
}

impl Log {
    fn level(self) -> Level {
        match self {
            Log::Error => Level::ERROR,
            Log::Warn => Level::WARN,
            Log::Info => Level::INFO,
            Log::Debug => Level::DEBUG,
        }
    }
}

impl From<Wanted> for Trial {
    fn from(wanted: Wanted) -> Trial {
        let Wanted {
            group,
            replicas,
            stations,
            port,
            page,
        } = wanted;
        Trial {
            group,
            replicas,
            stations,
            port,
            page,
        }
    }
}
