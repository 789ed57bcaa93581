//! Takes the place of the crate's lib.rs.
#![allow(dead_code)]
pub(crate) mod fmt;
mod ppp;
pub mod pppos;
mod state;
mod wire;
pub use ppp::{Config, Ipv4Status, Phase, Status};
pub use state::St;

/// As in the crate's lib.rs.
#[derive(Debug, PartialEq, Eq, Clone, Copy)]
pub struct InvalidStateError;
