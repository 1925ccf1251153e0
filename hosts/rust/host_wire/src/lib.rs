//! What a host's server and its clients say to each other over a stream of bytes.
//!
//! A stream is blocks, each after its length in four bytes, big-endian. The first block each way greets: the client says who it
//! is ([`Hello`]), the server which number the connection is bound to ([`Welcome`]). Every later block is one message between
//! client and master, and what a master and its server say to each other are blocks too: their bytes the library of `crates/server_exports` knows alone. A
//! server that doesn't hand a call on says why ([`Notice`]).

mod addresses;
mod asked;
mod blocks;
mod components;
mod fields;
mod greetings;
pub mod handshakes;
mod heard;
mod library;
pub mod lobby;
mod notices;
mod numbers;
mod refusals;
pub mod rows;
mod said;
mod shown;
pub mod sockets;
pub mod trust;

pub use addresses::{Address, NoAddress};
pub use asked::{Act, Asked, Deed};
pub use blocks::{Blocks, framed, put_block, write_block};
pub use components::{is_component, is_name};
pub use fields::Fields;
pub use greetings::{GREETING_LIMIT, Hello, Malformed, TurnedAway, Welcome};
pub use heard::{Frame, Heard, Locked, Printed, Put, Text, Told};
pub use notices::Notice;
pub use refusals::refusal_name;
pub use said::{MasterAnswer, Said, write_store_refused};
pub use shown::{LockShown, NodeShown, RecoveryShown, SessionShown, Shown, Status, WaitShown};

/// The longest block that a client sends, in bytes: a frame that carries it to the master has at most 1,048,576, ten of them
/// before the message.
pub const REQUEST_LIMIT: usize = 1_048_576 - 10;

/// The longest block that a client takes from its server, and a server from its master, in bytes: as many as a length can say,
/// because a listing grows with its directory. Memory is taken for what came.
pub const ANSWER_LIMIT: usize = u32::MAX as usize;
