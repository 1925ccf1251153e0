//! Measures how long after a set 1,000 who watch the file through two gateways are told. Usage: watchers [COUNT [SETS]].

use std::error::Error;
use std::fs;
use tillermoss::{Client, Options};
use trials::{GatewayProcess, Start, folder, tell_watchers};

fn main() -> Result<(), Box<dyn Error>> {
    let mut words = std::env::args().skip(1);
    let mut number = |default: usize| words.next().map_or(Ok(default), |word| word.parse());
    let (count, sets) = (number(1000)?, number(20)?);
    let folder = folder("watchers");
    let server = Start::new(&folder.join("store.db")).start()?;
    let words = ["0", "--server", &server.address, "--as", "ann"];
    let gateways = [GatewayProcess::start(&folder, &words)?, GatewayProcess::start(&folder, &words)?];
    let client = Client::connect(&Options::new(&server.address, "ann"))?;
    let file = client.create("/ls/c/watched", b"")?;
    let times = tell_watchers(&[&gateways[0], &gateways[1]], "watched", count, (&client, file), sets)?;
    for time in &times {
        println!(
            "watchers: set done {} µs, half told {} µs, all told {} µs",
            time.done.as_micros(),
            time.half.as_micros(),
            time.all.as_micros()
        );
    }
    let worst = times.iter().map(|time| time.all).max().unwrap_or_default();
    println!("watchers: {count}, {sets} sets: the last was told {} ms after its set was asked for", worst.as_millis());
    drop((client, gateways, server));
    fs::remove_dir_all(folder)?;
    Ok(())
}
