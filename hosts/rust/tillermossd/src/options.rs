//! The command line.

use crate::etcd::mastership::SPAN;
use crate::etcd::{Place, Trust};
use clap::{Parser, Subcommand, ValueEnum};
use host_wire::Address;
use std::path::PathBuf;
use std::str::FromStr;

/// How long etcd keeps what stood there before, unless an operator says otherwise.
const HISTORY: u64 = 300;

/// Serves a cell: starts `cellctl serve`, and carries the messages of clients to it.
#[derive(Debug, PartialEq, Eq, Parser)]
#[command(version, args_conflicts_with_subcommands = true, subcommand_negates_reqs = true, after_help = AFTER)]
pub struct ServerOptions {
    /// Where to listen: unix:PATH, tls:HOST:PORT or tcp:HOST:PORT. PORT alone is tcp: on loopback, and so is tcp:PORT; 0 is any free one
    #[arg(required = true)]
    pub listen: Vec<Address>,
    /// The SQLite file of the store, which is made where there is none
    #[arg(long, required_unless_present = "rows")]
    pub store: Option<PathBuf>,
    /// In place of a store: the members of an etcd and the cell's prefix there, as etcd://H1:2379,H2:2379,H3:2379/CELL; of several
    /// servers one is master, and the others stand by
    #[arg(long, conflicts_with_all = ["store", "first"])]
    pub rows: Option<Place>,
    /// Where clients find this server, as the others tell them; without it the first address that it listens at
    #[arg(long, requires = "rows", conflicts_with = "store")]
    pub advertise: Option<Address>,
    /// How many seconds a mastership lasts that its server doesn't renew: for so long a cell has no master whose server was killed
    #[arg(long, requires = "rows", conflicts_with = "store", default_value_t = SPAN, value_parser = clap::value_parser!(u64).range(2..=60))]
    pub mastership: u64,
    /// For so many seconds etcd keeps what stood there before; the server that is master has it forget what is older. 0: it doesn't
    #[arg(long, requires = "rows", conflicts_with = "store", default_value_t = HISTORY)]
    pub etcd_history: u64,
    /// How etcd is reached by TLS
    #[command(flatten)]
    pub trust: Trust,
    /// The settings of the cell and the limits of the server, in TOML; its table `server` has a key for each option here, with _ for -,
    /// which holds where the command line doesn't say it
    #[arg(long)]
    pub settings: Option<PathBuf>,
    /// The program cellctl; without it the one beside this program, else the one on the path
    #[arg(long)]
    pub master: Option<PathBuf>,
    /// The first client's number over a store without FILE-numbers: above all that were used with it
    #[arg(long, value_parser = clap::value_parser!(u64).range(1..1 << 53))]
    pub first: Option<u64>,
    /// The server's certificate, in PEM, with those of the authorities between
    #[arg(long, requires = "key")]
    pub cert: Option<PathBuf>,
    /// The key of the certificate, in PEM
    #[arg(long, requires = "cert")]
    pub key: Option<PathBuf>,
    /// The authorities that sign the certificates of clients, in PEM
    #[arg(long)]
    pub client_ca: Option<PathBuf>,
    /// The lists of their certificates that are revoked, in PEM: one of each authority that signs some, which SIGHUP reads again
    #[arg(long, requires = "client_ca")]
    pub client_crl: Option<PathBuf>,
    /// Listens with tcp: on other addresses than loopback too: nothing is encrypted there, and who connects acts for anybody
    #[arg(long)]
    pub insecure: bool,
    /// Where operators look: unix:PATH, which also gives copies of the store; tls:HOST:PORT with --operator or --admin-token;
    /// tcp:HOST:PORT on loopback, or elsewhere with --admin-token; or several of these
    #[arg(long)]
    pub admin: Vec<Address>,
    /// At tls: the common name of an operator's certificate, which an authority of --client-ca has signed; may be given several times
    #[arg(long, requires = "admin", requires = "client_ca")]
    pub operator: Vec<String>,
    /// A file whose text operators beyond this machine show, as `Authorization: Bearer TEXT`: 16 characters or more
    #[arg(long, requires = "admin")]
    pub admin_token: Option<PathBuf>,
    /// How the log on the standard error is written
    #[arg(long, value_enum, default_value_t = Log::Text)]
    pub log: Log,
    /// The master's lines go to the log too
    #[arg(long)]
    pub trace: bool,
    /// What is done instead of serving
    #[command(subcommand)]
    pub command: Option<Job>,
}

const AFTER: &str = "\
Beside the store stand FILE-numbers, the next client's number and the last epoch, and FILE-lock, which one server holds at a time.

At unix: a client acts for the user that the system names, at tls: for the common name of its certificate, at tcp: for whom it says.

It prints `listening ADDRESS` for each once it serves. On SIGTERM or SIGINT the master goes down in order, and the status is 0; where
that takes 15 seconds, or at a second such signal, the server ends at once, and the status is 1. On SIGHUP limits and certificates are read again, save for the limits nodes, bytes and locks. The status is 1 where it can't serve or has to stop, 2 for a wrong command line.
RUST_LOG says what is logged, as `warn` or `tillermossd=debug`.";

/// What is done instead of serving.
#[derive(Debug, PartialEq, Eq, Subcommand)]
pub enum Job {
    /// Makes a store of a copy that `tillermoss backup` took. All sessions of the copy are ended, and all locks free
    Restore {
        /// The copy
        copy: PathBuf,
        /// The store, which isn't there
        #[arg(long)]
        store: PathBuf,
    },
    /// Moves a cell from a store in a file into etcd, or back. Its servers have to be down
    Copy {
        /// Where its rows stand: FILE or etcd://HOST:PORT,HOST:PORT/CELL
        #[arg(long)]
        from: CopyEnd,
        /// Where no cell stands yet
        #[arg(long)]
        to: CopyEnd,
        /// The program cellctl, as in serving
        #[arg(long)]
        master: Option<PathBuf>,
        /// How etcd is reached by TLS
        #[command(flatten)]
        trust: Trust,
    },
    /// Waits until the server that has started it is gone, which holds the other end of its input, and gives back its mastership
    #[command(hide = true)]
    Guard {
        /// Where the rows of its cell stand
        #[arg(long)]
        rows: Place,
        /// By which revision the mastership began
        #[arg(long)]
        revision: i64,
        /// How etcd is reached by TLS
        #[command(flatten)]
        trust: Trust,
    },
}

/// Where the rows of a cell stand that are moved.
#[derive(Clone, Debug, PartialEq, Eq)]
pub enum CopyEnd {
    /// In a SQLite file.
    File(PathBuf),
    /// In etcd.
    Etcd(Place),
}

impl FromStr for CopyEnd {
    type Err = anyhow::Error;

    fn from_str(word: &str) -> Result<CopyEnd, anyhow::Error> {
        if word.starts_with("etcd:") { Ok(CopyEnd::Etcd(word.parse()?)) } else { Ok(CopyEnd::File(word.into())) }
    }
}

/// How the log is written.
#[derive(Clone, Copy, Debug, PartialEq, Eq, ValueEnum)]
pub enum Log {
    /// A line of text for each event
    Text,
    /// An object of JSON for each, one a line
    Json,
}

#[cfg(test)]
mod tests {
    use super::*;

    fn read(line: &str) -> Result<ServerOptions, clap::Error> {
        ServerOptions::try_parse_from(["tillermossd"].into_iter().chain(line.split_whitespace()))
    }

    #[test]
    fn each_option_is_read() {
        let line = "7 unix:/s tls:h:8 --store s --settings t --master m --first 5 --cert c --key k --client-ca a --client-crl r --insecure \
                    --admin unix:/a --operator o --operator p --log json --trace";
        let wanted = ServerOptions {
            listen: ["7", "unix:/s", "tls:h:8"].map(|word| word.parse().unwrap()).to_vec(),
            store: Some("s".into()),
            rows: None,
            advertise: None,
            mastership: 5,
            etcd_history: 300,
            trust: Trust::default(),
            settings: Some("t".into()),
            master: Some("m".into()),
            first: Some(5),
            cert: Some("c".into()),
            key: Some("k".into()),
            client_ca: Some("a".into()),
            client_crl: Some("r".into()),
            insecure: true,
            admin: vec!["unix:/a".parse().unwrap()],
            operator: vec!["o".to_owned(), "p".to_owned()],
            admin_token: None,
            log: Log::Json,
            trace: true,
            command: None,
        };
        assert_eq!(read(line).unwrap(), wanted);
        let options = read("7 --rows etcd://a:1,b:2/c --advertise h:7").unwrap();
        assert_eq!(options.rows, Some(Place { members: vec!["a:1".to_owned(), "b:2".to_owned()], cell: "c".to_owned() }));
        assert_eq!(options.advertise, Some("h:7".parse().unwrap()));
        let trust = Trust { etcd_ca: Some("a".into()), etcd_cert: Some("c".into()), etcd_key: Some("k".into()), ..Trust::default() };
        let by_tls = "--etcd-ca a --etcd-cert c --etcd-key k";
        assert_eq!(read(&format!("7 --rows etcd://a:1/c {by_tls}")).unwrap().trust, trust);
        let as_user = read("7 --rows etcd://a:1/c --etcd-user ann --etcd-password p").unwrap().trust;
        assert_eq!(as_user, Trust { etcd_user: Some("ann".to_owned()), etcd_password: Some("p".into()), ..Trust::default() });
        let copy = read(&format!("copy --from s --to etcd://a:1/c {by_tls}")).unwrap().command;
        let to = CopyEnd::Etcd(Place { members: vec!["a:1".to_owned()], cell: "c".to_owned() });
        assert_eq!(copy, Some(Job::Copy { from: CopyEnd::File("s".into()), to, master: None, trust: trust.clone() }));
        let place = Place { members: vec!["a:1".to_owned(), "b:2".to_owned()], cell: "c".to_owned() };
        let trust = Trust { etcd_user: Some("ann".to_owned()), etcd_password: Some("p".into()), ..trust };
        let words = trust.words().into_iter().map(|word| word.into_string().unwrap()).collect::<Vec<_>>().join(" ");
        let guard = read(&format!("guard --rows {place} --revision 7 {words}")).unwrap().command;
        assert_eq!(guard, Some(Job::Guard { rows: place, revision: 7, trust }));
        let restore = Job::Restore { copy: "c".into(), store: "s".into() };
        assert_eq!(read("restore c --store s").unwrap().command, Some(restore));
    }

    #[test]
    fn other_words_are_refused() {
        let rows = [
            "",
            "7",
            "--store s",
            "7 --store",
            "7 --store s --who",
            "seven --store s",
            "7 --store s --first 0",
            "7 --store s --admin-token t",
            "7 --store s --client-ca a --operator o",
            "7 --store s --admin tls:8 --operator o",
        ];
        let rows = rows.into_iter().chain([
            "7 --rows etcd://a:1/c --store s",
            "7 --rows a:1/c",
            "7 --rows etcd://a:1",
            "7 --store s --advertise h:7",
            "7 --rows etcd://a:1/c --mastership 1",
            "7 --rows etcd://a:1/c --etcd-cert c --etcd-key k",
            "7 --rows etcd://a:1/c --etcd-ca a --etcd-cert c",
            "7 --rows etcd://a:1/c --etcd-user ann",
            "7 --store s --etcd-history 0",
        ]);
        for line in rows.chain(["65536 --store s", "7 --store s --cert c", "restore c", "7 --store s --log x"]) {
            assert!(read(line).is_err(), "{line}");
        }
    }
}
