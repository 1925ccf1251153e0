//! A history of reads and writes by HTTP at two gateways, with kills of the server and stops of servers and gateways.
//! Usage: gateway_history [ROUNDS]: of ten kills and six stops each, which take ten minutes.

use std::error::Error;
use std::time::{Duration, Instant};
use trials::{Trouble, folder, run_gateway_history};

/// The time between two troubles.
const BETWEEN: Duration = Duration::from_secs(25);

fn main() -> Result<(), Box<dyn Error>> {
    use Trouble::{GatewayStopped, InOrder, Killed, Master, ServerStopped};
    let rounds = std::env::args().nth(1).map_or(Ok(1), |word| word.parse())?;
    let round = [
        Killed,
        ServerStopped(5),
        Master,
        GatewayStopped(13),
        InOrder,
        ServerStopped(20),
        Killed,
        Master,
        GatewayStopped(60),
        InOrder,
        Killed,
        ServerStopped(60),
        Master,
        InOrder,
        GatewayStopped(30),
        Killed,
    ];
    let folder = folder("gateway-history");
    let begun = Instant::now();
    let tally = run_gateway_history(&folder, &round.repeat(rounds), BETWEEN)?;
    println!("gateway: {} s, {} kills: {tally:?}", begun.elapsed().as_secs(), rounds * 10);
    std::fs::remove_dir_all(folder)?;
    Ok(())
}
