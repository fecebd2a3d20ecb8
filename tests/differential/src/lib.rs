//! Independent tests of the payload library: a second loader, payloads to try, and what document 01 says of them.

#[cfg(test)]
mod alone;
pub mod damage;
pub mod mutations;
pub mod objects;
pub mod payloads;
pub mod rng;
pub mod second;
pub mod sequences;
pub mod stated;
pub mod surrounded;
