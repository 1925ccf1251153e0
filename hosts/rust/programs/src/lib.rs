//! The server and the master as processes, for tests and examples. What a client does with them stands in `trials`.

mod masters;
mod servers;

pub use masters::{Master, NOW};
pub use servers::{
    Kill, Server, Start, certificates, folder, free, guards, master_program, masters, program, revoke, server_of_its_own, with_server,
};
