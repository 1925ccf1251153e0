//! Makes a file, reads it, reads it again, and lets another client write it. The server's address is the one argument.

use tillermoss::{Client, Error, Handle, Mode, Options};

fn show(client: &Client, file: Handle) -> Result<(), Error> {
    let view = client.read(file)?;
    let who = if view.is_served { "the cache" } else { "the master" };
    println!("{}: {who} answers", String::from_utf8_lossy(&view.content));
    Ok(())
}

fn main() -> Result<(), Error> {
    let server = std::env::args().nth(1).unwrap_or("127.0.0.1:7171".to_owned());
    let client = Client::connect(&Options::new(&server, "ann"))?;
    let file = client.create("/ls/c/first", b"hello")?;
    println!("/ls/c/first is made");
    show(&client, file)?;
    show(&client, file)?;

    let other = Client::connect(&Options::new(&server, "bob"))?;
    println!("another client's write waits until this one has let go of what it cached");
    other.set(other.open("/ls/c/first", Mode::WRITE)?, b"world", None)?;
    show(&client, file)
}
