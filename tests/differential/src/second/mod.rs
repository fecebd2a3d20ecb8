//! A second loader of live-patch payloads, written from document 01 alone. It shares no code, constant or
//! definition with the library that it is compared with, and uses other means on purpose: growing vectors, hash
//! maps, sums in 128 bits.
//!
//! The limits stand once, in `limits`. The stages of `prepare` stand in document 01's order: the symbol list, then the file
//! alone (`payload`), then what the slot, the text range and the symbol list decide (`image`, `relocations`, `functions`).
//! The calls, which keep a state in a records buffer, are in `calls`.

pub mod bytes;
pub mod calls;
pub mod counts;
pub mod functions;
pub mod header;
pub mod image;
pub mod kinds;
pub mod limits;
pub mod lookup;
pub mod notes;
pub mod payload;
pub mod prepare;
pub mod refusal;
pub mod relocations;
pub mod sections;
pub mod symbol_list;

pub use prepare::{prepare, prepare_into, Prepared, Surroundings};
pub use refusal::{Place, Refusal};

/// What the library's `urddolwy_check_symbols` answers: 0, or the refusal's code.
pub fn check_symbols(list: &[u8]) -> u64 {
    code(symbol_list::SymbolList::read(list))
}

/// What the library's `urddolwy_check_file` answers: 0, or the refusal's code.
pub fn check_file(file: &[u8]) -> u64 {
    code(payload::Payload::read(file))
}

/// 0 for an answer that is no refusal, else the refusal's code.
pub fn code<T>(answer: Result<T, Refusal>) -> u64 {
    answer.map_or_else(|refusal| refusal.code(), |_| 0)
}
