//! Payloads to try: a description of one (`draft`), its bytes (`assemble`), a fixed payload that has a section of every
//! kind (`template`), and valid payloads of wide variety from a seed (`random`).

pub mod assemble;
pub mod draft;
pub mod random;
pub mod template;

pub use assemble::{Assembled, Field};
pub use draft::{Contents, Draft, Record, Ref, Relocation, Section, Symbol};

/// All that one call of the library gets, and how long its buffers are.
#[derive(Clone, Debug)]
pub struct Input {
    pub file: Vec<u8>,
    pub list: Vec<u8>,
    pub text_base: u64,
    pub text_len: u64,
    pub slot_base: u64,
    /// Lengths of the image, edit and summary buffers.
    pub buffers: [usize; 3],
}
