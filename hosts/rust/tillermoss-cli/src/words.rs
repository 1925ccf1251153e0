//! The words of the command line.

use crate::faults::Fault;
use clap::{ArgGroup, Args, Parser, Subcommand, ValueEnum};
use std::ffi::OsString;
use std::fs;
use std::os::unix::net::UnixStream;
use std::path::{Path, PathBuf};
use std::time::Duration;
use tillermoss::{Admin, Options, own_principal};

/// What stands after the options and the commands.
const STATUSES: &str = "\
A name that begins with / is whole; another is one of the cell: motd is /ls/CELL/motd.

Exit status:
  0    done
  1    there is no such node, or no such parent of a new one
  2    a wrong command line
  3    refused by the cell or the server, which say why
  4    the server can't be reached, or no session began in time
  5    the session is lost, or with it whether a call was done
  6    the input can't be read, the output can't be written, or a command can't be started
  141  what reads the output has closed it
A command that ran under lock, elect or register ends with the command's status, 128 and its number where a signal ended it.";

/// What stands after the options of lock.
const LOCKING: &str = "\
Where there is no file it is made, and stays. The command has in its environment
  TILLERMOSS_SEQUENCER        the sequencer in hexadecimal, by which others test that the lock is held (tillermoss check)
  TILLERMOSS_FENCING_NUMBER   a number of up to 128 bits that rises from one holder of this name to the next, whatever becomes of the file
  TILLERMOSS_LOCK_GENERATION  one of 64 bits, which does so as long as the file is permanent and isn't deleted
SIGTERM, SIGINT and SIGHUP are passed on to the command; one that comes while the lock is waited for ends the wait, at once also for
the cell.
Where this client's lease ends the lock may soon be another's: then the command is ended, by SIGTERM, and by SIGKILL once --grace is
over, and the status is 5. Where the standard input is no terminal these go to all processes of the command. The lock stays closed
for as long (--delay). So the next holder begins after this command's end, unless this program itself is stopped or killed.";

/// The longest grace in seconds that a lock-delay of 60 s covers.
const LONGEST_GRACE: u64 = 55;

/// Asks a cell that tillermossd serves.
#[derive(Debug, Parser)]
#[command(name = "tillermoss", version = tillermoss::VERSION, after_help = STATUSES, subcommand_required = true, arg_required_else_help = true)]
pub struct Words {
    /// Where the server is and for whom it is asked.
    #[command(flatten)]
    pub reach: Target,
    /// How answers are printed.
    #[arg(short, long, global = true, value_enum, default_value_t = Output::Text, value_name = "FORM")]
    output: Output,
    /// Prints answers as JSON: the same as -o json
    #[arg(long, global = true)]
    json: bool,
    /// What is asked.
    #[command(subcommand)]
    pub verb: Verb,
}

impl Words {
    /// How answers are printed.
    pub fn output(&self) -> Output {
        if self.json { Output::Json } else { self.output }
    }
}

/// Where the server is, for whom it is asked, and whose names are short.
#[derive(Clone, Debug, Args)]
pub struct Target {
    /// The server's address: unix:PATH, tls:HOST:PORT, tcp:HOST:PORT or HOST:PORT; of several servers of one cell all, between commas.
    /// Without it unix:/run/tillermoss/cell, where the service of this machine listens, else 127.0.0.1:7171
    #[arg(long, visible_alias = "servers", global = true, env = "TILLERMOSS_SERVER", value_name = "ADDRESS")]
    server: Option<String>,
    /// The principal to act for; without it the user at unix:, the certificate's common name at tls:, and ann at tcp:
    #[arg(long = "as", global = true, env = "TILLERMOSS_PRINCIPAL", value_name = "PRINCIPAL")]
    pub principal: Option<String>,
    /// At tls:, the client's certificate, in PEM
    #[arg(long, global = true, env = "TILLERMOSS_CERT", value_name = "FILE")]
    pub cert: Option<PathBuf>,
    /// At tls:, the key of the certificate, in PEM
    #[arg(long, global = true, env = "TILLERMOSS_KEY", value_name = "FILE")]
    pub key: Option<PathBuf>,
    /// At tls:, the authorities that sign the server's certificate, in PEM
    #[arg(long, global = true, env = "TILLERMOSS_CA", value_name = "FILE")]
    pub ca: Option<PathBuf>,
    /// Where the server listens to operators: unix:PATH, tcp:HOST:PORT or tls:HOST:PORT, for status, sessions, locks, end and backup.
    /// Without it that of the service of this machine, where no --server is named
    #[arg(long, global = true, env = "TILLERMOSS_ADMIN", value_name = "ADDRESS")]
    admin: Option<String>,
    /// Beyond this machine, a file with the token of operators
    #[arg(long, global = true, env = "TILLERMOSS_ADMIN_TOKEN", value_name = "FILE")]
    admin_token: Option<PathBuf>,
    /// The cell of names that don't begin with /
    #[arg(long, global = true, env = "TILLERMOSS_CELL", default_value = "c")]
    pub cell: String,
    /// Gives up after so many seconds where the server can't be reached, or refuses for now
    #[arg(long, global = true, env = "TILLERMOSS_PATIENCE", default_value_t = 90, value_name = "SECONDS")]
    pub patience: u64,
}

/// Where the service of this machine listens to clients and to operators, as its package has it.
const SERVICE: &str = "/run/tillermoss/cell";
const OPERATORS: &str = "/run/tillermoss/admin";

impl Target {
    /// The server's address.
    pub fn server(&self) -> String {
        let service = || if Path::new(SERVICE).exists() { format!("unix:{SERVICE}") } else { "127.0.0.1:7171".to_owned() };
        self.server.clone().unwrap_or_else(service)
    }

    /// Where it listens to operators, where that is known and this user gets there.
    pub fn admin(&self) -> Option<String> {
        let is_open = || self.server.is_none() && UnixStream::connect(OPERATORS).is_ok();
        self.admin.clone().or_else(|| is_open().then(|| format!("unix:{OPERATORS}")))
    }

    /// What the operators' address is asked by; None where it isn't known.
    pub fn operators(&self) -> Result<Option<Admin>, Fault> {
        let Some(address) = self.admin() else {
            return Ok(None);
        };
        let mut admin = Admin::new(&address).map_err(Fault::Operators)?;
        if let Some(authority) = self.ca.as_ref().filter(|_| address.starts_with("tls:")) {
            let own = self.cert.as_deref().zip(self.key.as_deref());
            admin = admin.with_certificates(authority, own).map_err(Fault::Operators)?;
        }
        if let Some(file) = &self.admin_token {
            let text = fs::read_to_string(file).map_err(|error| Fault::Token(file.clone(), error))?;
            admin = admin.with_token(text.trim());
        }
        Ok(Some(admin))
    }

    /// How a client is connected.
    pub fn options(&self) -> Options {
        let server = self.server();
        let own = || own_principal(&server, self.cert.as_deref());
        let principal = self.principal.clone().or_else(own).unwrap_or("ann".to_owned());
        Options {
            patience: Duration::from_secs(self.patience),
            certificate: self.cert.clone(),
            key: self.key.clone(),
            authority: self.ca.clone(),
            ..Options::new(&server, &principal)
        }
    }

    /// The whole name.
    pub fn whole(&self, name: &str) -> String {
        if name.starts_with('/') { name.to_owned() } else { format!("/ls/{}/{name}", self.cell) }
    }
}

/// How answers are printed.
#[derive(Clone, Copy, Debug, PartialEq, Eq, ValueEnum)]
pub enum Output {
    /// As text.
    Text,
    /// As JSON, one value a line.
    Json,
}

/// A verb with its words.
#[derive(Debug, Subcommand)]
pub enum Verb {
    /// Prints the content of a file
    Get {
        /// The file; of several each content in its turn
        #[arg(required = true)]
        names: Vec<String>,
        /// Prints the bytes as they are, with no line feed added after them
        #[arg(long)]
        raw: bool,
    },
    /// Writes the content of a file, and makes the file where there is none
    #[command(after_help = "\
The whole content is written in one change. It waits until no client has the old one in its cache. With --json it prints the
generation that the content has from then on.")]
    Put(PutWords),
    /// Lists the children of a directory, one a line
    Ls {
        /// The directory; without it the cell's root. Of several each stands after its name and a colon
        names: Vec<String>,
        /// Lists what stands in its directories too, by their names from it on
        #[arg(short, long)]
        recursive: bool,
    },
    /// Makes a directory
    Mkdir {
        /// The directory, or several
        #[arg(required = true)]
        names: Vec<String>,
        /// Makes those above it too, where they aren't there; one that is there is no fault
        #[arg(short, long)]
        parents: bool,
    },
    /// Deletes a file or an empty directory
    #[command(visible_alias = "del")]
    Rm {
        /// The node, or several
        #[arg(required = true)]
        names: Vec<String>,
        /// Deletes what stands in a directory first. Not of the cell's root, and not of its directory acl
        #[arg(short, long)]
        recursive: bool,
    },
    /// Prints the numbers, the ACLs and the length of a node
    Stat {
        /// The node, or several
        #[arg(required = true)]
        names: Vec<String>,
    },
    /// Prints or changes by which ACLs a node is read, written, and its ACLs changed
    #[command(
        after_help = "An ACL is a file of the directory acl of the cell: a principal a line. It is named by its last component, as base."
    )]
    Acl {
        /// What is done with them
        #[command(subcommand)]
        act: Acl,
    },
    /// Runs a command while it holds the lock of a file
    #[command(after_help = LOCKING)]
    Lock(LockWords),
    /// Waits to be elected, writes a value into the file, and runs a command while it is elected
    #[command(after_help = "\
The candidates of an election name the same file, whose lock the elected one holds and whose content it writes; who asks for the
elected one reads or watches the file. After the command the file is emptied. The file, the environment, signals and a lease that
ends: as lock has them.")]
    Elect(Elect),
    /// Makes a file that is there as long as a command runs
    #[command(after_help = "\
The file is ephemeral: it goes when the command has ended; where this program is killed or cut off, when its lease has run out. A
file of the name that is there is waited for. Signals are passed on to the command. Where the session is lost the command is ended,
by SIGTERM and two seconds later by SIGKILL, and the status is 5.")]
    Register(Hold),
    /// Asks the cell whether the lock of a sequencer is held still, and prints what the sequencer says
    #[command(after_help = "\
It prints the lock's name, how it is held, and its fencing number, which rises from one holder of a name to the next. Where the lock is
held no more the status is 3.")]
    Check {
        /// The sequencer in hexadecimal, as TILLERMOSS_SEQUENCER has it
        sequencer: String,
    },
    /// Prints what happens to a file or a directory from then on, until it is deleted
    #[command(after_help = "\
It first says on the standard error that it watches. Where two writes come close together the later content may stand for both.")]
    Watch {
        /// The node
        name: String,
        /// Prints the content before each write too
        #[arg(long)]
        prev: bool,
        /// Ends after so many lines of events
        #[arg(long, value_name = "N")]
        count: Option<u64>,
    },
    /// Says whether the cell answers, and how fast; with --admin how the server stands
    Status,
    /// Lists the live sessions: client, principal, whether it is connected, and the milliseconds that its lease runs. Wants --admin
    Sessions,
    /// Lists the locks that aren't free: name, mode, generation, who holds it and who waits. Wants --admin
    Locks,
    /// Ends a client, or all of a principal: they are cut off and come back no more, and their sessions end with their leases. Wants
    /// --admin unix:PATH
    #[command(group(ArgGroup::new("whom").required(true).args(["client", "principal"])))]
    End {
        /// The number of the client, as sessions prints it
        client: Option<u64>,
        /// All clients that act for this principal now
        #[arg(long)]
        principal: Option<String>,
    },
    /// Takes a copy of a running server's store, for tillermossd restore. Wants --admin unix:PATH
    Backup {
        /// The copy, which isn't there yet
        file: PathBuf,
    },
    /// Prints a script for a shell, by which it completes the words of this program
    Completions {
        /// The shell
        shell: clap_complete::Shell,
    },
}

/// The words of a put.
#[derive(Debug, Args)]
pub struct PutWords {
    /// The file
    pub name: String,
    /// The content; without it, and as -, what the standard input has; as @FILE what a file has
    pub content: Option<OsString>,
    /// Only where this is the present content generation; 0: only where there is no such file
    #[arg(long, value_name = "N")]
    pub if_generation: Option<u64>,
    /// Prints the content that it replaces
    #[arg(long)]
    pub prev: bool,
}

/// What is done with the ACLs of a node.
#[derive(Debug, Subcommand)]
pub enum Acl {
    /// Prints them
    Get {
        /// The node
        name: String,
    },
    /// Changes those that are named; the others stay
    Set {
        /// The node
        name: String,
        /// By which it is read
        #[arg(long, value_name = "ACL")]
        read: Option<String>,
        /// By which it is written, and its lock is taken
        #[arg(long, value_name = "ACL")]
        write: Option<String>,
        /// By which its ACLs are changed
        #[arg(long, value_name = "ACL", required_unless_present_any = ["read", "write"])]
        change: Option<String>,
        /// Only where this is the present ACL generation
        #[arg(long, value_name = "N")]
        if_generation: Option<u64>,
    },
}

impl Acl {
    /// The node.
    pub fn name(&self) -> &str {
        match self {
            Acl::Get { name } | Acl::Set { name, .. } => name,
        }
    }
}

/// The words of a lock.
#[derive(Debug, Args)]
pub struct LockWords {
    /// The file
    pub name: String,
    /// Is refused where the lock is held, in place of waiting for it
    #[arg(long)]
    pub no_wait: bool,
    /// Holds it beside others that share it
    #[arg(long)]
    pub shared: bool,
    /// What becomes of the command where the lease ends.
    #[command(flatten)]
    pub ending: Ending,
    /// The command, with its words
    #[arg(required = true, last = true)]
    pub command: Vec<OsString>,
}

/// What becomes of a command under a lock where the lease ends.
#[derive(Clone, Copy, Debug, Args)]
pub struct Ending {
    /// How many seconds the command has after SIGTERM to end, before SIGKILL
    #[arg(long, default_value_t = 5, value_name = "SECONDS", value_parser = clap::value_parser!(u64).range(..=LONGEST_GRACE))]
    pub grace: u64,
    /// How many milliseconds the lock stays closed where this program is lost while it holds it, at most 60000; by default as long as the
    /// command may take to its end
    #[arg(long, value_name = "MILLISECONDS")]
    pub delay: Option<u64>,
    /// Lets the command run on where the lease has ended: for work that is fenced by its sequencer or its fencing number
    #[arg(long)]
    pub keep_running: bool,
    /// Makes a file that goes with its last user
    #[arg(long)]
    pub ephemeral: bool,
    /// Gives up after so many seconds of waiting
    #[arg(long, value_name = "SECONDS", conflicts_with = "no_wait")]
    pub timeout: Option<u64>,
}

impl Ending {
    /// How many milliseconds the lock stays closed. A client's lease ends before the master's view of it does; the grace is counted by the
    /// client's clock, which may go slower than the master's, 16 to 17; and a second is for what SIGKILL takes.
    pub fn lock_delay(&self) -> u64 {
        self.delay.unwrap_or(if self.keep_running { 0 } else { (1000 * self.grace * 17).div_ceil(16) + 1000 })
    }
}

/// The words of an election.
#[derive(Debug, Args)]
pub struct Elect {
    /// The file, what it says, and the command.
    #[command(flatten)]
    pub hold: Hold,
    /// What becomes of the command where the lease ends.
    #[command(flatten)]
    pub ending: Ending,
}

/// The words of what is held while a command runs.
#[derive(Debug, Args)]
pub struct Hold {
    /// The file
    pub name: String,
    /// What the file says
    pub value: OsString,
    /// Is refused where another is there, in place of waiting
    #[arg(long)]
    pub no_wait: bool,
    /// The command, with its words; without one it holds until SIGTERM, SIGINT or SIGHUP
    #[arg(last = true)]
    pub command: Vec<OsString>,
}

impl Verb {
    /// The verb's own word, and the names that it speaks of.
    pub fn words(&self) -> (&'static str, Vec<&str>) {
        match self {
            Verb::Get { names, .. } => ("get", all(names)),
            Verb::Put(put) => ("put", vec![&put.name]),
            Verb::Ls { names, .. } => ("ls", all(names)),
            Verb::Mkdir { names, .. } => ("mkdir", all(names)),
            Verb::Rm { names, .. } => ("rm", all(names)),
            Verb::Stat { names } => ("stat", all(names)),
            Verb::Acl { act } => ("acl", vec![act.name()]),
            Verb::Lock(lock) => ("lock", vec![&lock.name]),
            Verb::Elect(elect) => ("elect", vec![&elect.hold.name]),
            Verb::Register(hold) => ("register", vec![&hold.name]),
            Verb::Watch { name, .. } => ("watch", vec![name]),
            Verb::Check { .. } => ("check", vec![]),
            Verb::Status => ("status", vec![]),
            Verb::Sessions => ("sessions", vec![]),
            Verb::Locks => ("locks", vec![]),
            Verb::End { .. } => ("end", vec![]),
            Verb::Backup { .. } => ("backup", vec![]),
            Verb::Completions { .. } => ("completions", vec![]),
        }
    }
}

fn all(names: &[String]) -> Vec<&str> {
    names.iter().map(String::as_str).collect()
}

#[cfg(test)]
mod tests {
    use super::*;
    use clap::CommandFactory;

    #[test]
    fn the_words_fit_together() {
        Words::command().debug_assert();
    }

    #[test]
    fn options_stand_anywhere() {
        for line in ["--as bob get f -o json", "get --as bob f --output json", "-o json get f --as bob", "get f --json --as bob"] {
            let words = Words::try_parse_from(["tillermoss"].into_iter().chain(line.split(' '))).unwrap();
            assert_eq!((words.reach.principal.as_deref(), words.output()), (Some("bob"), Output::Json), "{line}");
            assert_eq!(words.verb.words(), ("get", vec!["f"]), "{line}");
        }
    }

    #[test]
    fn several_servers_are_one_word() {
        for line in ["--servers h:7,tls:i:8 get f", "get f --server h:7,tls:i:8"] {
            let words = Words::try_parse_from(["tillermoss"].into_iter().chain(line.split(' '))).unwrap();
            assert_eq!(words.reach.server(), "h:7,tls:i:8", "{line}");
        }
    }

    #[test]
    fn what_stands_behind_two_dashes_is_the_commands() {
        let words = Words::try_parse_from(["tillermoss", "lock", "f", "--", "run", "--as", "x"]).unwrap();
        let Verb::Lock(lock) = words.verb else { panic!("another verb") };
        assert_eq!(lock.command, ["run", "--as", "x"]);
    }

    #[test]
    fn a_lock_stays_closed_for_as_long_as_its_command_may_take_to_end() {
        let rows = [("", 6313), ("--grace 0", 1000), ("--grace 55", 59_438), ("--delay 7", 7), ("--keep-running", 0)];
        for (options, wanted) in rows {
            let line = format!("tillermoss elect {options} f v");
            let words = Words::try_parse_from(line.split_whitespace()).unwrap();
            let Verb::Elect(elect) = words.verb else { panic!("another verb") };
            assert_eq!(elect.ending.lock_delay(), wanted, "{options}");
        }
        assert!(Words::try_parse_from("tillermoss lock --grace 56 f -- true".split(' ')).is_err());
    }

    #[test]
    fn names_are_made_whole() {
        let words = Words::try_parse_from(["tillermoss", "--cell", "k", "ls"]).unwrap();
        for (name, wanted) in [("f", "/ls/k/f"), ("d/f", "/ls/k/d/f"), ("/ls/d/f", "/ls/d/f")] {
            assert_eq!(words.reach.whole(name), wanted);
        }
    }

    #[test]
    fn other_words_are_refused() {
        let lines = [
            "",
            "--server",
            "get",
            "acl get a b",
            "acl set a",
            "acl",
            "lock f --timeout 1 --no-wait -- true",
            "lock f",
            "lock f --",
            "lock f run",
            "put",
            "seek f",
            "--who a get f",
            "rm",
            "end",
            "end 1 --principal ann",
        ];
        for line in lines {
            let words = ["tillermoss"].into_iter().chain(line.split_whitespace());
            assert!(Words::try_parse_from(words).unwrap_err().use_stderr(), "{line}");
        }
    }
}
