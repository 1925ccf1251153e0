//! The command line.

use clap::{Parser, ValueEnum};
use host_wire::{Address, is_component};
use std::path::PathBuf;

const AFTER: &str = "\
Who asks is known by a client certificate (its common name), at unix: by the user that the system names, or by a token of --tokens,
shown as `Authorization: Bearer TOKEN`. Each acts by a client of its own, which shows the cell NAME.pem of --credentials at tls:.

It prints `listening ADDRESS` for each once it serves. On SIGTERM or SIGINT its sessions leave the cell, and the status is 0; on SIGHUP
tokens and certificates are read again. The status is 1 where it can't serve, 2 for a wrong command line.
RUST_LOG says what is logged, as `warn` or `tillermoss_gateway=debug`.";

/// Answers HTTP for a cell: files, lists, watches, sessions and locks, read out of a cache that shows what the master holds.
#[derive(Clone, Debug, PartialEq, Eq, Parser)]
#[command(version = tillermoss::VERSION, after_help = AFTER)]
pub struct GatewayOptions {
    /// Where to listen: unix:PATH, tls:HOST:PORT or tcp:HOST:PORT. PORT alone is tcp: on loopback; 0 is any free one
    #[arg(required = true)]
    pub listen: Vec<Address>,
    /// The cell's server, or its servers between commas
    #[arg(long, env = "TILLERMOSS_SERVER", default_value = "127.0.0.1:7171")]
    pub server: String,
    /// The name of the cell, for names that don't begin with a /
    #[arg(long, env = "TILLERMOSS_CELL", default_value = "c", value_parser = component)]
    pub cell: String,
    /// At a tls: of the cell, the folder with NAME.pem and NAME.key of each principal
    #[arg(long)]
    pub credentials: Option<PathBuf>,
    /// The authorities that sign the certificate of the cell's server, in PEM
    #[arg(long)]
    pub authority: Option<PathBuf>,
    /// The gateway's own certificate, in PEM, with those of the authorities between
    #[arg(long, requires = "key")]
    pub cert: Option<PathBuf>,
    /// The key of the certificate, in PEM
    #[arg(long, requires = "cert")]
    pub key: Option<PathBuf>,
    /// The authorities that sign the certificates of clients, in PEM
    #[arg(long)]
    pub client_ca: Option<PathBuf>,
    /// The lists of their certificates that are revoked, in PEM
    #[arg(long, requires = "client_ca")]
    pub client_crl: Option<PathBuf>,
    /// A file with a line for each token: its SHA-256 in hexadecimal, a space, and the principal who shows it
    #[arg(long)]
    pub tokens: Option<PathBuf>,
    /// For whom acts who shows nothing, at tcp: on loopback alone
    #[arg(long = "as", value_parser = component)]
    pub everybody: Option<String>,
    /// Listens with tcp: on other addresses than loopback too: nothing is encrypted there, tokens neither
    #[arg(long)]
    pub insecure: bool,
    /// How many seconds at most what is refused for now is tried again, before the answer is 503
    #[arg(long, default_value_t = 2, value_parser = clap::value_parser!(u64).range(0..=60))]
    pub patience: u64,
    /// How many connections at once
    #[arg(long, default_value_t = 10_000)]
    pub connections: usize,
    /// How many watches of a principal at once
    #[arg(long, default_value_t = 8_000)]
    pub watches: usize,
    /// How many sessions of a principal at once
    #[arg(long, default_value_t = 256)]
    pub sessions: usize,
    /// How many requests of a principal that wait for the master at once
    #[arg(long, default_value_t = 128)]
    pub waiting: usize,
    /// How the log on the standard error is written
    #[arg(long, value_enum, default_value_t = GatewayLog::Text)]
    pub log: GatewayLog,
}

/// How the log is written.
#[derive(Clone, Copy, Debug, PartialEq, Eq, ValueEnum)]
pub enum GatewayLog {
    /// A line of text for each event
    Text,
    /// An object of JSON for each, one a line
    Json,
}

fn component(word: &str) -> Result<String, String> {
    if is_component(word) { Ok(word.to_owned()) } else { Err("it is 1 to 64 of a-z 0-9 . _ -".to_owned()) }
}

#[cfg(test)]
mod tests {
    use super::*;

    fn read(line: &str) -> Result<GatewayOptions, clap::Error> {
        GatewayOptions::try_parse_from(["tillermoss-gateway"].into_iter().chain(line.split_whitespace()))
    }

    #[test]
    fn options_are_read() {
        let options =
            read("7 tls:h:8 --server a:1,b:2 --cell k --credentials d --authority a --cert c --key k --client-ca a --tokens t").unwrap();
        assert_eq!(options.listen, ["7", "tls:h:8"].map(|word| word.parse().unwrap()));
        assert_eq!((options.server.as_str(), options.cell.as_str(), options.patience), ("a:1,b:2", "k", 2));
        assert_eq!((options.tokens, options.everybody, options.insecure), (Some("t".into()), None, false));
        for line in ["", "7 --cert c", "7 --client-crl r", "7 --as Ann", "7 --cell C", "7 --patience 61", "seven"] {
            assert!(read(line).is_err(), "{line}");
        }
    }
}
