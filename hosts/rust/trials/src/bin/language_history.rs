//! A history of clients in any language, by their drivers, at a server that is killed each ten seconds. `checks/languages` runs it.
//! Usage: language_history SECONDS -- DRIVER.. [-- DRIVER..].

use std::error::Error;
use std::time::Duration;
use trials::{folder, run_languages};

/// How long a server lives.
const LIFE: Duration = Duration::from_secs(10);

fn main() -> Result<(), Box<dyn Error>> {
    let words: Vec<String> = std::env::args().skip(1).collect();
    let mut parts = words.split(|word| word == "--");
    let seconds = parts.next().and_then(|part| part.first()).ok_or("usage: language_history SECONDS -- DRIVER.. [-- DRIVER..]")?;
    let drivers: Vec<Vec<String>> = parts.map(<[String]>::to_vec).collect();
    let folder = folder("languages");
    let (kills, deeds) = run_languages(&folder, &drivers, Duration::from_secs(seconds.parse()?), LIFE)?;
    for (driver, deeds) in drivers.iter().zip(&deeds) {
        let lost = deeds.writes.iter().filter(|write| write.end.is_none()).count();
        println!(
            "languages: {}: reads {}, {} of them served; writes {}, {lost} of them lost; sessions lost {}",
            driver.join(" "),
            deeds.reads.len(),
            deeds.served,
            deeds.writes.len(),
            deeds.lost
        );
    }
    println!("languages: {seconds} s, {kills} kills: what was read was there");
    std::fs::remove_dir_all(folder)?;
    Ok(())
}
