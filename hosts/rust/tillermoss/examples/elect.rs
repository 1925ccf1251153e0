//! Elects a primary among all who run this program. Arguments: the server, and who this one is.

use tillermoss::{Client, Create, Error, LockMode, Mode, Opening, Options};

fn main() -> Result<(), Error> {
    let mut words = std::env::args().skip(1);
    let server = words.next().unwrap_or("127.0.0.1:7171".to_owned());
    let own = words.next().unwrap_or("alpha".to_owned());
    let client = Client::connect(&Options::new(&server, "ann"))?;

    // Who holds the file's lock is the primary, and says so in it. The file stays, so the generation of its lock goes on.
    let file = Create { content: Some(vec![]), ..Create::default() };
    let primary = client.open_with(&Opening { create: Some(file), ..Opening::new("/ls/c/primary", Mode::READ.and(Mode::WRITE)) })?;
    client.acquire(primary, LockMode::Exclusive)?;
    client.set(primary, own.as_bytes(), None)?;

    // What the primary does for others it does under its sequencer: they can ask the cell whether it still holds. Who can't ask keeps
    // the greatest fencing number that it has seen, and refuses a smaller one: each primary's is greater than those of all before it.
    let sequencer = client.sequencer(primary)?;
    client.check_sequencer(&sequencer)?;
    println!("{} is the primary", String::from_utf8_lossy(&client.read(primary)?.content));
    println!("its fencing number is {}", client.fencing_number(primary)?);

    client.set(primary, b"", None)?;
    client.close(primary)
}
