//! A cell over HTTP: any number of readers share one cache, and each answer is what the master holds.
//!
//! What is read comes from [`tillermoss::Reader`], which keeps what the cache answers and publishes it: nothing here knows of leases or
//! invalidations but the time that a reader tells.

mod answers;
mod desks;
mod doors;
mod faults;
mod files;
mod gateway;
mod locks;
mod options;
mod routes;
mod sessions;
mod shown;
mod tokens;
mod watches;

use anyhow::{Context, Result};
use clap::Parser;
use doors::{HttpDoor, HttpHall, context};
use gateway::Gateway;
use host_wire::Address;
use host_wire::handshakes::Certificates;
use nix::sys::resource::{Resource, getrlimit, setrlimit};
use options::{GatewayLog, GatewayOptions};
use sd_notify::NotifyState;
use std::io::{self, Write};
use std::process::ExitCode;
use std::sync::Arc;
use tokio::signal::unix::{SignalKind, signal};
use tracing::{error, info, warn};
use tracing_subscriber::EnvFilter;

/// How many threads wait for the master at most, for all principals.
const THREADS: usize = 4096;

fn main() -> ExitCode {
    let options = GatewayOptions::parse();
    begin_log(options.log);
    match serve(options) {
        Ok(()) => ExitCode::SUCCESS,
        Err(fault) => {
            error!("{fault:#}");
            ExitCode::FAILURE
        }
    }
}

fn begin_log(log: GatewayLog) {
    let filter = EnvFilter::try_from_default_env().unwrap_or_else(|_| EnvFilter::new("info"));
    let lines = tracing_subscriber::fmt().with_env_filter(filter).with_writer(io::stderr).with_ansi(false);
    match log {
        GatewayLog::Text => lines.init(),
        GatewayLog::Json => lines.json().flatten_event(true).init(),
    }
}

fn serve(options: GatewayOptions) -> Result<()> {
    let (_, most) = getrlimit(Resource::RLIMIT_NOFILE)?;
    setrlimit(Resource::RLIMIT_NOFILE, most, most)?;
    let runtime = tokio::runtime::Builder::new_multi_thread().enable_all().max_blocking_threads(THREADS).build()?;
    let gateway = Arc::new(Gateway::new(options.clone())?);
    let served = runtime.block_on(run(&options, &gateway));
    gateway.leave();
    // (what still waits for the master goes with the process)
    runtime.shutdown_background();
    served
}

// Serves until it is told to go.
async fn run(options: &GatewayOptions, gateway: &Arc<Gateway>) -> Result<()> {
    let (mut term, mut int, mut hup) = (signal(SignalKind::terminate())?, signal(SignalKind::interrupt())?, signal(SignalKind::hangup())?);
    let certificates = options.cert.is_some().then(|| context(options)).transpose()?.map(Certificates::new).transpose()?.map(Arc::new);
    let hall = Arc::new(HttpHall::new(options.connections));
    let mut listening = Vec::new();
    for address in &options.listen {
        let (door, bound) = HttpDoor::open(address, options, certificates.as_ref()).await?;
        tokio::spawn(door.serve(gateway.clone(), hall.clone()));
        listening.push(bound);
    }
    let sessions = gateway.clone();
    tokio::spawn(async move { sessions.sessions.keep().await });
    tell(&listening, options)?;
    loop {
        tokio::select! {
            _ = term.recv() => break,
            _ = int.recv() => break,
            _ = hup.recv() => renew(options, gateway, certificates.as_deref()),
        }
    }
    info!("going");
    Ok(())
}

fn tell(listening: &[Address], options: &GatewayOptions) -> Result<()> {
    if options.everybody.is_some() {
        warn!("who connects at tcp: on this machine acts for the principal of --as");
    }
    for address in listening {
        info!(%address, "listening");
        writeln!(io::stdout(), "listening {address}").context("the standard output")?;
    }
    // (without a service manager nobody is told)
    let _ = sd_notify::notify(false, &[NotifyState::Ready]);
    Ok(())
}

fn renew(options: &GatewayOptions, gateway: &Gateway, certificates: Option<&Certificates>) {
    let read = gateway.renew().and_then(|()| certificates.map(|_| context(options)).transpose());
    match read {
        Ok(read) => {
            certificates.into_iter().zip(read).for_each(|(certificates, context)| certificates.renew(context));
            info!("tokens and certificates were read again");
        }
        Err(fault) => warn!(reason = %format_args!("{fault:#}"), "tokens and certificates stay as they were"),
    }
}
