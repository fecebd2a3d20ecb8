//! A loader by its functions: those of the C boundary, with slices for pointers and lengths.

use crate::second::calls;

#[derive(Clone, Copy)]
#[allow(clippy::type_complexity)] // as many slices as the calls have
pub struct Loader {
    pub name: &'static str,
    pub start: fn(&mut [u8], &[u8], u64, &mut [u8], u64, &mut [u8], &mut [u8], &[u8], u32) -> u64,
    pub upload: fn(&mut [u8], &mut [u8], &mut [u8], &[u8], &[u8], &[u8]) -> u64,
    pub get: fn(&[u8], &[u8], &mut [u8]) -> u64,
    pub list: fn(&[u8], u32, u32, &mut [u8], &mut [u8], &mut [u8], &mut [u8]) -> u64,
    pub action: fn(&mut [u8], &mut [u8], &mut [u8], &mut [u8], &[u8], &[u8], u32, u32) -> u64,
    pub report: fn(&mut [u8], u32) -> u64,
    pub tick: fn(&mut [u8]) -> u64,
    pub work: fn(&mut [u8], &mut [u8], &mut [u8]) -> u64,
    pub top_build_id: fn(&[u8], &[u8], &[u8], &mut [u8]) -> u64,
}

/// The second loader.
pub fn second() -> Loader {
    Loader {
        name: "second loader",
        start: calls::start,
        upload: calls::upload,
        get: calls::get,
        list: calls::list,
        action: calls::action,
        report: calls::report,
        tick: calls::tick,
        work: calls::work,
        top_build_id: calls::top_build_id,
    }
}
