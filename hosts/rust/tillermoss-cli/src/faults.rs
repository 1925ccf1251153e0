//! Why the program ends as it does.

use crate::output::say;
use crate::words::Words;
use std::io::{self, ErrorKind};
use std::path::PathBuf;
use tillermoss::{Error, Kind, Refusal, TurnedAway};

/// Why nothing came of a command.
#[derive(Debug)]
pub enum Fault {
    /// The cell, the server or the client library.
    Cell(Error),
    /// The standard input can't be read, or the standard output can't be written.
    Stream(&'static str, io::Error),
    /// The standard input is closed.
    NoInput,
    /// A file of this machine can't be read.
    File(PathBuf, io::Error),
    /// The command can't be started or waited for.
    Command(String, io::Error),
    /// This signal ended a wait.
    Signal(i32),
    /// There is no directory of this name, in which a node was to be made.
    Parent(String),
    /// The file for a copy can't be made.
    Copy(PathBuf, &'static str),
    /// The lease ended while a command ran under a lock.
    Lease,
    /// It isn't deleted with all that stands below it.
    Kept,
    /// The content of an ACL file, in which this line is no principal: nobody would be let in by it.
    AclLine(String),
    /// There is no ACL of this name.
    NoAcl(String),
    /// The word is no name.
    Name(String),
    /// The word is no sequencer.
    Sequencer,
    /// Nobody says where the server listens to operators.
    Admin,
    /// The server, as its operators reach it.
    Operators(Error),
    /// The file of the token of operators can't be read.
    Token(PathBuf, io::Error),
    /// Another holds the lock, and it wasn't had in the time for which it was waited for.
    Late,
}

impl From<Error> for Fault {
    fn from(error: Error) -> Fault {
        Fault::Cell(error)
    }
}

impl From<Refusal> for Fault {
    fn from(refusal: Refusal) -> Fault {
        Fault::Cell(refusal.into())
    }
}

impl From<io::Error> for Fault {
    fn from(error: io::Error) -> Fault {
        Fault::Stream("the standard output", error)
    }
}

/// Why the node of this name couldn't be made.
pub fn at_making(name: &str, error: Error) -> Fault {
    match error {
        Error::Refused(Refusal::NotFound) => Fault::Parent(name.rsplit_once('/').map_or("", |(parent, _)| parent).to_owned()),
        error => Fault::Cell(error),
    }
}

/// Says on the standard error what came of the words: the verb, the name, the server and the reason, and what to do. Of an output that
/// was closed nothing.
pub fn tell(words: &Words, name: Option<&str>, fault: &Fault) {
    if fault.status() == 141 {
        return;
    }
    let (verb, names) = words.verb.words();
    let own = match (fault, &names[..]) {
        (Fault::Name(name), _) => Some(name.clone()),
        (_, [name]) => Some(words.reach.whole(name)),
        _ => None,
    };
    let name = name.map(str::to_owned).or(own).map(|name| format!(" {name}")).unwrap_or_default();
    let is_operators = matches!(verb, "sessions" | "locks" | "end" | "backup" | "status");
    let server = words.reach.admin().filter(|_| is_operators).unwrap_or_else(|| words.reach.server());
    say(&format!("{verb}{name} at {server}: {}", fault.reason()));
    if let Some(cure) = fault.cure() {
        say(cure);
    }
}

impl Fault {
    /// This fault, met at the operators' address.
    pub fn at_operators(self) -> Fault {
        match self {
            Fault::Cell(error) => Fault::Operators(error),
            fault => fault,
        }
    }

    /// Whether the next name of several would meet it too.
    pub fn is_of_all(&self) -> bool {
        !matches!(self.status(), 1 | 3)
    }

    /// The exit status, as the help lists them.
    pub fn status(&self) -> u8 {
        match self {
            Fault::Cell(Error::Refused(refusal)) => refusal_status(*refusal),
            Fault::Cell(Error::TurnedAway(_) | Error::Limited(_)) => 3,
            Fault::Cell(Error::Io(error)) | Fault::Operators(Error::Io(error)) if error.kind() == ErrorKind::InvalidInput => 2,
            Fault::Operators(Error::NotDone { status: 404, .. }) => 1,
            Fault::Operators(Error::NotDone { status: 400..500, .. }) => 3,
            Fault::Cell(Error::Io(_) | Error::Unavailable | Error::Malformed(_)) | Fault::Operators(_) => 4,
            Fault::Cell(_) => 5,
            Fault::Late => 3,
            Fault::Stream(_, error) if error.kind() == io::ErrorKind::BrokenPipe => 141,
            Fault::Stream(..) | Fault::NoInput | Fault::File(..) | Fault::Command(..) | Fault::Token(..) => 6,
            Fault::Lease => 5,
            Fault::Parent(_) | Fault::NoAcl(_) => 1,
            Fault::Copy(..) => 6,
            Fault::Kept => 3,
            Fault::Name(_) | Fault::AclLine(_) | Fault::Sequencer | Fault::Admin => 2,
            Fault::Signal(signal) => u8::try_from(128 + signal).unwrap_or(u8::MAX),
        }
    }

    /// What to do, where that can be said.
    pub fn cure(&self) -> Option<&'static str> {
        match self {
            Fault::NoInput => Some("give the content as a word, as @FILE, or by an input that is open"),
            Fault::Stream(_, error) if error.kind() == ErrorKind::StorageFull => Some("make room there, or name another output"),
            Fault::File(..) => Some("@FILE names a file of this machine; a content that begins with @ comes by the standard input"),
            Fault::Command(..) => Some("after -- stands a program that is there and may be run; sh -c takes the words of a shell"),
            Fault::Kept => Some("the root goes never, and without its ACLs nobody could mend the cell: name what is to go"),
            Fault::Name(_) => Some("a name is /ls/CELL and components of 1 to 64 of a-z 0-9 . _ -, 512 bytes in all"),
            Fault::AclLine(_) => Some("an ACL file has a principal a line, each of 1 to 64 of a-z 0-9 . _ -"),
            Fault::NoAcl(_) => Some("an ACL is a file of the directory acl, a principal a line: tillermoss put makes one"),
            Fault::Parent(_) => Some("tillermoss mkdir -p makes a directory, and those above it"),
            Fault::Copy(..) => Some("a copy is a new file: name another, or move that one away, or make the folder"),
            Fault::Lease => Some("--keep-running lets it run on, where who it writes to tests its sequencer or its fencing number"),
            Fault::Sequencer => Some("TILLERMOSS_SEQUENCER has one in the environment of a command under lock or elect"),
            Fault::Admin => Some("--admin or TILLERMOSS_ADMIN names the one that tillermossd --admin listens at"),
            Fault::Token(..) => Some("--admin-token names a file that has the token of tillermossd --admin-token"),
            Fault::Late => Some("another holds it: a greater --timeout waits longer"),
            Fault::Cell(Error::Refused(refusal)) => refusal_cure(*refusal),
            Fault::Cell(Error::TurnedAway(reason)) => turned_away_cure(*reason),
            Fault::Cell(Error::Unavailable) => Some("a master that comes up waits for each live session; --patience waits longer"),
            Fault::Cell(Error::Io(error)) => Some(reach_cure(error.kind()).unwrap_or(NOT_THERE)),
            Fault::Operators(Error::Io(error)) => Some(reach_cure(error.kind()).unwrap_or(NO_DESK)),
            Fault::Operators(Error::NotDone { status, .. }) => operators_cure(*status),
            _ => None,
        }
    }

    /// The reason in words.
    pub fn reason(&self) -> String {
        match self {
            Fault::Cell(Error::Refused(Refusal::NotFound)) => "NotFound: no such node".to_owned(),
            Fault::Cell(error) | Fault::Operators(error) => error.to_string(),
            Fault::Late => "Held: it wasn't free in that time".to_owned(),
            Fault::Token(path, error) => format!("{}: {error}", path.display()),
            Fault::Parent(name) => format!("NotFound: no such directory: {name}"),
            Fault::Copy(file, reason) => format!("{}: {reason}", file.display()),
            Fault::Stream(stream, error) => format!("{stream}: {error}"),
            Fault::NoInput => "the standard input is closed".to_owned(),
            Fault::File(path, error) => format!("{}: {error}", path.display()),
            Fault::Command(command, error) => format!("{command}: {error}"),
            Fault::Signal(_) => "a signal ended the wait".to_owned(),
            Fault::Lease => "the lease has ended".to_owned(),
            Fault::Kept => "the cell's root and its directory acl aren't deleted with all that is in them".to_owned(),
            Fault::NoAcl(name) => format!("NotFound: no such ACL: {name}"),
            Fault::Name(_) => "not a name".to_owned(),
            Fault::AclLine(line) => format!("not the content of an ACL file: {line:?} is no principal"),
            Fault::Sequencer => "not a sequencer".to_owned(),
            Fault::Admin => "no address for operators".to_owned(),
        }
    }
}

fn refusal_status(refusal: Refusal) -> u8 {
    match refusal {
        Refusal::NotFound | Refusal::StaleInstance => 1,
        Refusal::NoSession | Refusal::SessionExpired | Refusal::Unknown => 5,
        Refusal::Recovering | Refusal::InJeopardy => 4,
        _ => 3,
    }
}

const NOT_THERE: &str = "is tillermossd running there? --server or TILLERMOSS_SERVER names another address";
const NO_DESK: &str = "does tillermossd --admin listen there? --admin or TILLERMOSS_ADMIN names another address";

// Why no server is reached: a wrong word, what one of both ends shows by TLS, or another way of listening.
fn reach_cure(kind: ErrorKind) -> Option<&'static str> {
    match kind {
        ErrorKind::InvalidInput => Some(
            "an address is unix:PATH, tcp:HOST:PORT, or tls:HOST:PORT by the name that its certificate has: there --cert, --key and --ca \
             name a certificate, its key, and the server's authorities",
        ),
        ErrorKind::InvalidData => Some(
            "--cert and --key name a certificate that the server takes (its --client-ca says whose), --ca those who signed the server's",
        ),
        ErrorKind::UnexpectedEof => Some("--server says by tls: or tcp: how it listens there, as tillermossd prints it"),
        _ => None,
    }
}

fn turned_away_cure(reason: TurnedAway) -> Option<&'static str> {
    match reason {
        TurnedAway::BadPrincipal => Some("--as takes 1 to 64 of a-z 0-9 . _ -"),
        TurnedAway::OtherPrincipal => Some("a socket and a certificate say who acts: leave --as out"),
        TurnedAway::Full | TurnedAway::FullForPrincipal => Some("end some clients, or raise the limits of tillermossd"),
        _ => None,
    }
}

fn operators_cure(status: u16) -> Option<&'static str> {
    match status {
        401 => Some("--admin-token names the file of the token; at tls: --cert and --key a certificate of tillermossd --operator"),
        404 => Some("tillermoss sessions lists the clients that there are"),
        _ => None,
    }
}

fn refusal_cure(refusal: Refusal) -> Option<&'static str> {
    match refusal {
        Refusal::NotFound => Some("tillermoss ls shows what is there"),
        Refusal::Exists => Some("it stays as it is: mkdir -p takes one that is there, and put without --if-generation 0 writes it"),
        Refusal::WrongKind(Kind::Directory) => Some("tillermoss ls lists a directory"),
        Refusal::WrongKind(Kind::File) => Some("tillermoss get prints a file"),
        Refusal::NotEmpty => Some("tillermoss rm -r deletes what stands in it first"),
        Refusal::Held(_) | Refusal::Delayed(_) => Some("another holds it, or did: without --no-wait it is waited for"),
        Refusal::SequencerStale | Refusal::NotHolder => Some("the lock is held no more: do nothing under it"),
        Refusal::DelayTooLong => Some("--delay takes 60,000 milliseconds at most"),
        Refusal::StoreRefused => Some("the server's log says why its store refuses: the disk may be full"),
        Refusal::OtherCell => Some("--cell names the cell"),
        Refusal::BadPrincipal => Some("--as takes 1 to 64 of a-z 0-9 . _ -"),
        Refusal::Denied(_) => Some("who may is said by the ACLs that stat shows; --as acts for another principal"),
        Refusal::TooLarge => Some("a file has 262,144 bytes at most: what is larger stands elsewhere, and a file here says where"),
        Refusal::WrongGeneration(_) => Some("it was written meanwhile: read it again"),
        Refusal::SessionExpired => Some("what it held is lost"),
        Refusal::NoRoom(_) => Some("delete or release what isn't needed; who runs the cell may raise the limit"),
        _ => None,
    }
}

#[cfg(test)]
mod tests {
    use super::*;
    use tillermoss::Right;

    #[test]
    fn each_fault_has_its_status() {
        let not_done = |status| Fault::Operators(Error::NotDone { status, reason: String::new() });
        let rows: [(Fault, u8); 27] = [
            (Refusal::NotFound.into(), 1),
            (Refusal::StaleInstance.into(), 1),
            (Refusal::Denied(Right::Read).into(), 3),
            (Refusal::WrongKind(Kind::File).into(), 3),
            (Refusal::NoRoom(4).into(), 3),
            (Error::Limited("bytes_of_a_principal".to_owned()).into(), 3),
            (Refusal::InJeopardy.into(), 4),
            (Error::Unavailable.into(), 4),
            (Error::Io(io::ErrorKind::ConnectionRefused.into()).into(), 4),
            (Error::Io(io::ErrorKind::InvalidInput.into()).into(), 2),
            (Fault::Operators(io::Error::from(io::ErrorKind::ConnectionRefused).into()), 4),
            (not_done(404), 1),
            (not_done(401), 3),
            (not_done(503), 4),
            (Fault::Token("t".into(), io::ErrorKind::NotFound.into()), 6),
            (Fault::Late, 3),
            (Refusal::SessionExpired.into(), 5),
            (Refusal::Unknown.into(), 5),
            (io::Error::from(io::ErrorKind::BrokenPipe).into(), 141),
            (Fault::Command("none".to_owned(), io::ErrorKind::NotFound.into()), 6),
            (Fault::Signal(15), 143),
            (Fault::Name("F".to_owned()), 2),
            (Fault::Sequencer, 2),
            (Fault::Lease, 5),
            (Fault::Copy("copy".into(), "is there"), 6),
            (at_making("/ls/c/d/f", Refusal::NotFound.into()), 1),
            (at_making("/ls/c/d/f", Refusal::Exists.into()), 3),
        ];
        for (fault, status) in rows {
            assert_eq!(fault.status(), status, "{fault:?}");
        }
    }

    #[test]
    fn what_is_not_there_is_named() {
        assert_eq!(at_making("/ls/c/d/f", Refusal::NotFound.into()).reason(), "NotFound: no such directory: /ls/c/d");
        assert_eq!(Fault::from(Refusal::NotFound).reason(), "NotFound: no such node");
        assert_eq!(Fault::from(Refusal::NoRoom(4)).reason(), "NoRoom 4: this limit of the cell leaves no room");
    }
}
