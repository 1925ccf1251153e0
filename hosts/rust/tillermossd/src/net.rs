//! What comes over the network: the sockets, who comes in by them, and what goes back.

pub(crate) mod changes;
pub(crate) mod connections;
pub(crate) mod crowd;
pub(crate) mod doors;
pub(crate) mod outgoing;
pub(crate) mod rates;
pub(crate) mod routes;
pub(crate) mod tls;
