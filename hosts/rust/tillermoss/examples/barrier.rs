//! Waits until so many have come, and goes on when all have. Arguments: the server, this one's name, and how many there are.

use tillermoss::{Client, Create, Error, Events, Life, Mode, Opening, Options, Refusal};

fn main() -> Result<(), Error> {
    let mut words = std::env::args().skip(1);
    let server = words.next().unwrap_or("127.0.0.1:7171".to_owned());
    let own = words.next().unwrap_or("a".to_owned());
    let wanted = words.next().and_then(|word| word.parse().ok()).unwrap_or(3);
    let client = Client::connect(&Options::new(&server, "ann"))?;

    // The directory is made where there is none, and watched.
    let directory = Opening { events: Events::CHILDREN, create: Some(Create::default()), ..Opening::new("/ls/c/barrier", Mode::READ) };
    let barrier = client.watch_with(&directory)?;
    let file = Create { must: true, content: Some(vec![]), life: Life::Ephemeral, acl: None };
    client.open_with(&Opening { create: Some(file), ..Opening::new(&format!("/ls/c/barrier/{own}"), Mode::WRITE) })?;

    // The event of a child that came is told after its file is there: so the next listing has it.
    while client.list(barrier.handle)?.len() < wanted {
        if barrier.events.recv().is_err() {
            return Err(Refusal::SessionExpired.into());
        }
    }
    println!("{own} goes on: {wanted} are here");
    Ok(())
}
