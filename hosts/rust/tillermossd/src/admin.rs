//! What operators see and may do.

pub(crate) mod desks;
pub(crate) mod metrics;
pub(crate) mod pages;
pub(crate) mod processes;
pub(crate) mod showing;
