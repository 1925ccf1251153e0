//! What is read through gateways was there, also where servers are killed, and a gateway or its server is stopped for longer than a lease.
//! (`--bin gateway_history` runs this for ten minutes.)

use std::time::Duration;
use trials::{Trouble, folder, run_gateway_history};

#[test]
fn what_is_read_by_http_was_there() {
    let folder = folder("gateway-history");
    let troubles = [Trouble::Killed, Trouble::GatewayStopped(15), Trouble::Master, Trouble::ServerStopped(14), Trouble::InOrder];
    let tally = run_gateway_history(&folder, &troubles, Duration::from_secs(4)).unwrap();
    println!("gateway: {} kills: {tally:?}", 3);
    assert!(tally.reads > 1000 && tally.served * 10 > tally.reads && tally.refused > 10 && tally.writes.0 > 50, "too little was done");
    std::fs::remove_dir_all(folder).unwrap();
}
