//! Sequences of calls over a host's memory: put to one loader or to several side by side, written down with their answers
//! (`scripts`) or from a seed (`driver`).

pub mod answers;
pub mod call;
pub mod driver;
mod forge;
mod intents;
#[cfg(test)]
mod ledger;
pub mod loader;
pub mod marks;
pub mod memory;
mod nonsense;
mod plain;
pub mod pool;
pub mod scripts;
pub mod session;
pub mod world;

pub use call::{Buffer, Call, Does};
pub use loader::Loader;
pub use session::Session;
pub use world::World;
