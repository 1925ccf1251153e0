//! A client of a cell, over a socket of this machine, TLS or TCP.
//!
//! [`Client`] keeps its session by itself: a thread beats for it, takes what comes, and connects again where the connection is
//! lost. What the client was once told it reads out of its cache while its lease runs, and that is what the master holds: the
//! cache is the proved library's, which [`Client`] drives with a clock and a socket.
//!
//! ```
//! use tillermoss::{Client, Options};
//!
//! # let server = programs::server_of_its_own();
//! # let address = server.address.as_str();
//! let client = Client::connect(&Options::new(address, "ann"))?;
//! let file = client.create("/ls/c/motd", b"hello")?;
//! assert!(!client.read(file)?.is_served);         // the master answers
//! assert!(client.read(file)?.is_served);          // the cache answers
//! # Ok::<(), tillermoss::Error>(())
//! ```
//!
//! `examples/` has a program for each task of the guide: an election, a lock, a registration, a configuration, a barrier.

mod admin;
mod bare;
mod calls;
mod client;
mod clock;
mod core;
mod denials;
mod errors;
mod events;
mod handle_reader;
mod keeper;
mod library;
mod lines;
mod nodes;
mod numbers;
mod outgoing;
mod reaching;
mod reader;
mod refusals;
mod sequencers;

pub use admin::Admin;
pub use bare::Bare;
pub use calls::{Create, Life, Opening};
pub use client::{Client, Handle, Options, Watch};
pub use errors::Error;
pub use events::{Event, Events};
pub use handle_reader::HandleReader;
/// ```
/// use tillermoss::Address;
///
/// let address: Address = "127.0.0.1:7171".parse().unwrap();
/// assert_eq!(address.to_string(), "tcp:127.0.0.1:7171");
/// assert!(address.is_local() && "127.0.0.1".parse::<Address>().is_err());
/// ```
pub use host_wire::Address;
/// ```
/// # use tillermoss::*;
/// # let server = programs::server_of_its_own();
/// # let (address, admin) = (server.address.as_str(), server.admin.as_deref().unwrap());
/// let client = Client::connect(&Options::new(address, "ann"))?;
/// client.acquire(client.create("/ls/c/f", b"")?, LockMode::Exclusive)?;
/// let locks: Vec<LockShown> = Admin::new(admin)?.locks()?;
/// assert_eq!((locks[0].name.as_str(), &locks[0].holders[..]), ("/ls/c/f", &[client.number()][..]));
/// # Ok::<(), Error>(())
/// ```
pub use host_wire::LockShown;
/// ```
/// # use tillermoss::*;
/// # let server = programs::server_of_its_own();
/// # let (address, admin) = (server.address.as_str(), server.admin.as_deref().unwrap());
/// let client = Client::connect(&Options::new(address, "bob"))?;
/// let sessions: Vec<SessionShown> = Admin::new(admin)?.sessions()?;
/// assert_eq!((sessions[0].client, sessions[0].principal.as_str()), (client.number(), "bob"));
/// # Ok::<(), Error>(())
/// ```
pub use host_wire::SessionShown;
/// ```
/// # use tillermoss::*;
/// # let server = programs::server_of_its_own();
/// # let admin = server.admin.as_deref().unwrap();
/// let status: Status = Admin::new(admin)?.status()?;
/// assert_eq!((status.epoch, status.locks), (1, 0));
/// # Ok::<(), Error>(())
/// ```
pub use host_wire::Status;
/// ```
/// # use tillermoss::*;
/// # let server = programs::server_of_its_own();
/// # let address = server.address.as_str();
/// let refused = Client::connect(&Options::new(address, "not a principal"));
/// assert!(matches!(refused, Err(Error::TurnedAway(TurnedAway::BadPrincipal))));
/// # Ok::<(), Error>(())
/// ```
pub use host_wire::TurnedAway;
/// ```
/// # use tillermoss::*;
/// # let server = programs::server_of_its_own();
/// # let (address, admin) = (server.address.as_str(), server.admin.as_deref().unwrap());
/// Client::connect(&Options::new(address, "ann"))?.create("/ls/c/f", b"hello")?;
/// let shown: Shown = Admin::new(admin)?.all()?;
/// let nodes: &[NodeShown] = &shown.nodes;
/// assert_eq!((nodes.last().unwrap().name.as_str(), &shown.waits[..]), ("/ls/c/f", &[] as &[WaitShown]));
/// # Ok::<(), Error>(())
/// ```
pub use host_wire::{NodeShown, RecoveryShown, Shown, WaitShown};
pub use nodes::{Kind, LockMode, Mode, Right, Stat, View};
pub use reaching::own_principal;
pub use reader::{Page, Reader, Sight, TaskWatch};
pub use refusals::Refusal;
pub use sequencers::Sequencer;

/// The version of this crate, and whether its client library was built without proof.
///
/// ```
/// assert!(tillermoss::VERSION.starts_with(env!("CARGO_PKG_VERSION")));
/// ```
pub const VERSION: &str = env!("TILLERMOSS_VERSION");
