//! The load of Burrows' table on one cell.
//!
//! It starts a server over TCP, brings up the sessions, open files, caches, locks and directories that the table counts, times a factor, and
//! holds the table's rates of messages for as long as it is told. Clients come from several addresses of loopback, and talk by the bytes of
//! docs/PROTOCOL.md alone. Each read, each answer of a cache and each cache beside a change that was done is tested by what was written.

mod cell;
mod client;
mod counts;
mod fail_overs;
mod links;
mod load;
mod names;
mod plot;
mod run;
mod table;
mod wire;
mod work;

use anyhow::{Context, Result, bail};
use cell::Kill;
use clap::Parser;
use std::path::PathBuf;
use std::process::ExitCode;

/// The load of Burrows' table on one cell: a line a second, and what was counted at the end. The status is 1 where something was wrong.
#[derive(Debug, Parser)]
#[command(version, args_override_self = true)]
pub struct Options {
    /// The table times this: 0.01 to 4, and on.
    #[arg(long, default_value_t = 0.05)]
    factor: f64,
    /// So many clients, in place of as many as the table says: a process may have fewer descriptors.
    #[arg(long)]
    clients: Option<usize>,
    /// So long the rates are held, in seconds, once all is there.
    #[arg(long, default_value_t = 60)]
    seconds: u64,
    /// Kills the master so many seconds after the beginning of the rates: master@10, server@30 or standby@50; may be given again.
    #[arg(long, value_parser = kill_at)]
    kill: Vec<(Kill, u64)>,
    /// So many clients cache one more file, which is set each so many seconds.
    #[arg(long, default_value_t = 0)]
    shared: usize,
    #[arg(long, default_value_t = 30)]
    every: u64,
    /// Of so many clients that go one is killed, and the others leave; with 0 all leave. (A master that comes up waits for the killed.)
    #[arg(long, default_value_t = 10)]
    killed: u32,
    /// Within so many seconds after a fail-over caches are filled again.
    #[arg(long, default_value_t = 120)]
    refill: u64,
    /// Clients wait for no random time.
    #[arg(long)]
    herded: bool,
    /// The lease, in milliseconds.
    #[arg(long, default_value_t = 12_000)]
    lease: u64,
    /// A line for the server's table of limits, as connections=50000; may be given again.
    #[arg(long)]
    limit: Vec<String>,
    /// By which chance goes.
    #[arg(long, default_value_t = 1)]
    seed: u64,
    /// The server, and the master beside it where none is named.
    #[arg(long, default_value = "hosts/rust/target/release/tillermossd")]
    server: PathBuf,
    #[arg(long)]
    master: Option<PathBuf>,
    /// The rows stand in this etcd, a program; with it a second server stands by.
    #[arg(long)]
    etcd: Option<PathBuf>,
    /// Where the store stands; a folder that goes again where none is named.
    #[arg(long)]
    folder: Option<PathBuf>,
    /// Draws the lines of such a file as an SVG beside it, and does nothing else.
    #[arg(long, value_name = "FILE")]
    plot: Option<PathBuf>,
}

fn kill_at(word: &str) -> Result<(Kill, u64)> {
    let (kind, at) = word.split_once('@').context("KIND@SECONDS")?;
    let kind = <Kill as clap::ValueEnum>::from_str(kind, true).map_err(anyhow::Error::msg)?;
    Ok((kind, at.parse()?))
}

fn main() -> Result<ExitCode> {
    let options = Options::parse();
    if let Some(lines) = &options.plot {
        plot::draw(lines)?;
        return Ok(ExitCode::SUCCESS);
    }
    if !(0.001..=64.0).contains(&options.factor) {
        bail!("--factor is 0.001 to 64");
    }
    run::run(&options)
}
