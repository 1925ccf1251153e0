//! Does a job unless another machine does it now. Arguments: the server.

use tillermoss::{Client, Create, Error, Life, LockMode, Mode, Opening, Options, Refusal};

fn main() -> Result<(), Error> {
    let server = std::env::args().nth(1).unwrap_or("127.0.0.1:7171".to_owned());
    let client = Client::connect(&Options::new(&server, "ann"))?;

    let file = Create { content: Some(vec![]), life: Life::Ephemeral, ..Create::default() };
    let lock = client.open_with(&Opening { create: Some(file), ..Opening::new("/ls/c/nightly", Mode::WRITE) })?;
    match client.try_acquire(lock, LockMode::Exclusive) {
        Ok(()) => println!("the job runs here"),
        Err(Error::Refused(Refusal::Held(_) | Refusal::Delayed(_))) => println!("another machine does the job"),
        Err(error) => return Err(error),
    }
    client.close(lock)
}
