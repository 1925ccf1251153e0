//! What the verbs do.

use crate::faults::{Fault, tell};
use crate::files::{acl, get, list, make_directory, put, remove, stat};
use crate::holding::{check, elect, lock, register};
use crate::operating::{answers, backup, end, locks, sessions, status_of};
use crate::output::write;
use crate::waiting::Waiting;
use crate::watching::watch;
use crate::words::{Output, Target, Verb, Words};
use clap::CommandFactory;
use host_wire::is_name;
use tillermoss::{Client, Error};

/// Who asks: where, and how answers are printed.
pub struct Asker<'a> {
    words: &'a Words,
    /// Where the server is, for whom it is asked, and whose names are short.
    pub reach: &'a Target,
    /// How answers are printed.
    pub output: Output,
}

impl Asker<'_> {
    /// Connects, and begins a session.
    pub fn connect(&self) -> Result<Client, Error> {
        let _waiting = self.wait();
        Client::connect(&self.reach.options())
    }

    /// From now on something is waited for.
    pub fn wait(&self) -> Waiting {
        let (verb, names) = self.words.verb.words();
        let names: String = names.iter().map(|name| format!(" {}", self.reach.whole(name))).collect();
        Waiting::begin(self.reach, &format!("{verb}{names}"))
    }

    /// As `wait`, for what this client asks.
    pub fn wait_by(&self, client: &Client) -> Waiting {
        let waiting = self.wait();
        waiting.by(client);
        waiting
    }

    // Does it for each name, also where it fails for one of several: that is told then. The status is that of the last fault.
    fn each(&self, names: &[String], mut act: impl FnMut(&Client, &str) -> Result<(), Fault>) -> Result<u8, Fault> {
        let client = self.connect()?;
        let _waiting = self.wait_by(&client);
        let mut status = 0;
        for name in names.iter().map(|name| self.reach.whole(name)) {
            if let Err(fault) = act(&client, &name) {
                if names.len() == 1 || fault.is_of_all() {
                    return Err(fault);
                }
                tell(self.words, Some(&name), &fault);
                status = fault.status();
            }
        }
        Ok(status)
    }
}

/// Does what the words ask for; gives the status.
pub fn run(words: &Words) -> Result<u8, Fault> {
    let asker = Asker { words, reach: &words.reach, output: words.output() };
    let Asker { reach, output, .. } = asker;
    if let Some(name) = words.verb.words().1.into_iter().find(|name| !is_name(&reach.whole(name))) {
        return Err(Fault::Name(reach.whole(name)));
    }
    match &words.verb {
        Verb::Get { names, raw } => return asker.each(names, |client, name| get(client, output, name, *raw)),
        Verb::Put(asked) => put(&asker, asked)?,
        Verb::Ls { names, recursive } => {
            let root = [format!("/ls/{}", reach.cell)];
            let names = if names.is_empty() { &root[..] } else { names };
            return asker.each(names, |client, name| list(client, output, name, *recursive, names.len() > 1));
        }
        Verb::Mkdir { names, parents } => return asker.each(names, |client, name| make_directory(client, name, *parents)),
        Verb::Rm { names, recursive } => return asker.each(names, |client, name| remove(client, name, *recursive)),
        Verb::Stat { names } => return asker.each(names, |client, name| stat(client, output, name)),
        Verb::Acl { act } => acl(&asker, act)?,
        Verb::Lock(asked) => return lock(&asker, &reach.whole(&asked.name), asked),
        Verb::Elect(asked) => return elect(&asker, &reach.whole(&asked.hold.name), asked),
        Verb::Register(asked) => return register(&asker, &reach.whole(&asked.name), asked),
        Verb::Watch { name, prev, count } => watch(&asker.connect()?, output, &reach.whole(name), *prev, *count)?,
        Verb::Check { sequencer } => check(&asker, sequencer)?,
        Verb::Completions { shell } => completions(*shell)?,
        verb => operate(&asker, verb)?,
    }
    Ok(0)
}

fn operate(asker: &Asker<'_>, verb: &Verb) -> Result<(), Fault> {
    let Some(admin) = asker.reach.operators()? else {
        return if matches!(verb, Verb::Status) { answers(asker) } else { Err(Fault::Admin) };
    };
    let done = match verb {
        Verb::Sessions => sessions(&admin, asker.output),
        Verb::Locks => locks(&admin, asker.output),
        Verb::End { client, principal } => end(&admin, asker.output, *client, principal.as_deref()),
        Verb::Backup { file } => backup(&admin, asker.output, file),
        _ => status_of(&admin, asker.output),
    };
    done.map_err(Fault::at_operators)
}

fn completions(shell: clap_complete::Shell) -> Result<(), Fault> {
    let mut script = Vec::new();
    clap_complete::generate(shell, &mut Words::command(), "tillermoss", &mut script);
    Ok(write(&script)?)
}
