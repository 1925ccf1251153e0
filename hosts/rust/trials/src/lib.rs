//! What server, clients and command line are tested with.

mod asking;
mod disks;
mod etcd;
mod fail_overs;
mod far;
mod gateway_history;
mod gateways;
mod history;
mod holder;
mod holds;
mod languages;
mod masters;
mod members;
mod plain;
mod proxy;
mod relay;
mod stops;
mod strangers;
mod watchers;
mod workers;

use programs as servers;

pub use disks::{Filled, fill};
pub use etcd::{Etcd, rows};
pub use fail_overs::{
    Going, Noticed, fail_over, fail_over_to_one_that_stands_by, start_after_clients_that_left, write_beside_one_that_keeps,
    write_beside_one_that_starts, write_beside_one_that_stays_behind,
};
pub use far::{Network, far_from};
pub use gateway_history::{Tally, Trouble, run_gateway_history};
pub use gateways::{Answered, GatewayProcess, curl};
pub use history::{Read, Write, check_history};
pub use holder::Holder;
pub use holds::{Hold, check_holds};
pub use languages::run_languages;
pub use masters::{client_of, forged, messages, opening};
pub use members::Member;
pub use plain::{Plain, Talker, again, answer, new, start};
pub use programs::{
    Kill, Master, Server, Start, certificates, folder, free, guards, master_program, masters, program, revoke, server_of_its_own,
};
pub use proxy::{Counts, Proxy};
pub use relay::{Passing, Relay};
pub use stops::{Kind, Stopped, stop_for};
pub use strangers::{Stranger, expired};
pub use watchers::{TellingTime, tell_watchers};
pub use workers::{Deeds, FILES, Rules, Worker, check_deeds};
