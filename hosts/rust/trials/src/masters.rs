//! Clients of a master by itself, without a server.

use programs::{Master, NOW};
use std::io::{self, ErrorKind};
use tillermoss::{Bare, Create, Error, Mode, Opening};

fn broken(what: &str) -> io::Error {
    io::Error::new(ErrorKind::InvalidData, what.to_owned())
}

// Hands a master what a client has to say, and the client what is said to that; the handle that the client opened by it.
fn serve(master: &mut Master, client: &mut Bare, message: Option<Vec<u8>>) -> io::Result<Option<u64>> {
    let own = client.number();
    let said = master.ask(NOW, &message.ok_or_else(|| broken("a client that says nothing"))?)?;
    let mut opened = None;
    for (_, message) in said.iter().filter(|(number, _)| *number == own) {
        opened = client.give(NOW, message).or(opened);
    }
    Ok(opened)
}

/// A client of this number, for this principal, that has a session with this master.
///
/// # Errors
///
/// If there is no such client, or the master is gone.
pub fn client_of(master: &mut Master, number: u64, principal: &str) -> Result<Bare, Error> {
    let mut client = Bare::new(number, principal)?;
    let start = client.beat(NOW);
    serve(master, &mut client, start)?;
    Ok(client)
}

/// How a file is opened to read and to write, which is made with this content where there is none.
#[must_use]
pub fn opening(name: &str, content: &[u8]) -> Opening {
    let create = Create { content: Some(content.to_vec()), ..Create::default() };
    Opening { create: Some(create), ..Opening::new(name, Mode::READ.and(Mode::WRITE)) }
}

/// What a client of this number says to a master of the first epoch: a Start for this principal, a Beat, and a call to make a file.
///
/// # Errors
///
/// As `client_of`.
pub fn messages(master: &mut Master, number: u64, principal: &str) -> Result<[Vec<u8>; 3], Error> {
    let start = Bare::new(number, principal)?.beat(NOW);
    let mut client = client_of(master, number, principal)?;
    let (beat, call) = (client.beat(NOW), client.open(NOW, &opening("/ls/c/mutated", b"content")));
    let all = [start, beat, call].map(|message| message.ok_or_else(|| broken("a client that says nothing")));
    let [start, beat, call] = all;
    Ok([start?, beat?, call?])
}

/// What a client of this number says to a master of this epoch to set a content, by a handle that a master of the first epoch gave it for
/// the node of this name, over a store whose secret everybody knows: so it forges the handle for any other store of this secret.
///
/// # Errors
///
/// As `client_of`, and where there is no such node.
pub fn forged(client: u64, epoch: u64, name: &str, content: &[u8]) -> Result<Vec<u8>, Error> {
    let mut master = Master::start()?;
    let mut client = client_of(&mut master, client, "ann")?;
    let open = client.open(NOW, &Opening::new(name, Mode::READ.and(Mode::WRITE)));
    let handle = serve(&mut master, &mut client, open)?.ok_or_else(|| broken("no handle"))?;
    (1..epoch).try_for_each(|_| master.again())?;
    // (it is told of the epoch)
    let beat = client.beat(NOW);
    serve(&mut master, &mut client, beat)?;
    Ok(client.set(NOW, handle, content).ok_or_else(|| broken("a client that says nothing"))?)
}
