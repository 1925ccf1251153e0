//! The master, which is a child of the server: what it is told and tells, the store that it keeps, and the numbers that it gives.

pub(crate) mod child;
pub(crate) mod clock;
pub(crate) mod lines;
pub(crate) mod locks;
pub(crate) mod numbers;
pub(crate) mod picture;
pub(crate) mod program;
pub(crate) mod pulse;
pub(crate) mod restoring;
pub(crate) mod starts;
pub(crate) mod store;
