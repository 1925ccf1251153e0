//! Says where a worker is, as long as it is there, and who else is. Arguments: the server, the worker's name and its address.

use tillermoss::{Client, Create, Error, Life, Mode, Opening, Options};

fn main() -> Result<(), Error> {
    let mut words = std::env::args().skip(1);
    let server = words.next().unwrap_or("127.0.0.1:7171".to_owned());
    let name = words.next().unwrap_or("a".to_owned());
    let address = words.next().unwrap_or("10.0.0.1:80".to_owned());
    let client = Client::connect(&Options::new(&server, "ann"))?;

    // The directory is made where there is none.
    let workers = client.open_with(&Opening { create: Some(Create::default()), ..Opening::new("/ls/c/workers", Mode::READ) })?;

    // An ephemeral file goes when nobody holds it open: when this program closes it, or its session ends.
    let file = Create { must: true, content: Some(address.into_bytes()), life: Life::Ephemeral, acl: None };
    let own = client.open_with(&Opening { create: Some(file), ..Opening::new(&format!("/ls/c/workers/{name}"), Mode::WRITE) })?;

    for worker in client.list(workers)? {
        let view = client.read(client.open(&format!("/ls/c/workers/{worker}"), Mode::READ)?)?;
        println!("{worker} is at {}", String::from_utf8_lossy(&view.content));
    }
    client.delete(own)
}
