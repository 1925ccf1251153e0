//! A cell for clients on this machine and others: starts the proved master as a child, and carries the messages of its clients to
//! it.

mod admin;
mod configuration;
mod etcd;
mod master;
mod net;
mod options;
mod serving;
mod settings;
mod signals;

use clap::error::ErrorKind;
use clap::{CommandFactory, Parser};
use nix::sys::stat::{Mode, umask};
use options::{Job, Log, ServerOptions};
use std::io::{self, Write};
use std::process::ExitCode;
use tracing::error;
use tracing_subscriber::EnvFilter;

fn main() -> ExitCode {
    let options = read();
    // (whatever is made from here on is this user's alone)
    umask(Mode::from_bits_truncate(0o077));
    begin_log(&options);
    let done = match &options.command {
        Some(Job::Restore { copy, store }) => master::restoring::restore(copy, store),
        Some(Job::Copy { from, to, master, trust }) => {
            etcd::copying::copy(from, to, trust, &master.clone().unwrap_or_else(serving::cellctl))
        }
        Some(Job::Guard { rows, revision, trust }) => etcd::guard::guard(rows, trust, *revision),
        None => serving::serve(options),
    };
    match done {
        Ok(()) => ExitCode::SUCCESS,
        Err(fault) => {
            error!("{fault:#}");
            ExitCode::FAILURE
        }
    }
}

// Help, the version and a wrong command line end here, with 0 or 2.
fn read() -> ServerOptions {
    let complete = configuration::complete(std::env::args_os().collect());
    let (words, file) =
        complete.unwrap_or_else(|fault| ServerOptions::command().error(ErrorKind::InvalidValue, format!("{fault:#}")).exit());
    ServerOptions::try_parse_from(words).unwrap_or_else(|error| {
        if let Some(file) = file.filter(|_| error.use_stderr()) {
            // (where that is closed, nobody is told)
            let _ = writeln!(io::stderr(), "tillermossd: with the table `server` of {}:", file.display());
        }
        error.exit()
    })
}

fn begin_log(options: &ServerOptions) {
    let default = if options.trace { "info,tillermossd::master=trace" } else { "info" };
    let filter = EnvFilter::try_from_default_env().unwrap_or_else(|_| EnvFilter::new(default));
    let log = tracing_subscriber::fmt().with_env_filter(filter).with_writer(io::stderr).with_ansi(false);
    match options.log {
        Log::Text => log.init(),
        Log::Json => log.json().flatten_event(true).init(),
    }
}
