//! The library's functions over the C ABI, as include/urddolwy.h has them, for every program that links it from Rust. A slice
//! passes as a pointer and a length.
#![allow(dead_code, unused_imports)] // not every program calls all of them

mod boundary_calls;

pub use boundary_calls::*;

#[link(name = "urddolwy", kind = "static")]
extern "C" {
    fn urddolwy_check_symbols(list: *const u8, list_len: usize) -> u64;
    fn urddolwy_check_file(file: *const u8, file_len: usize) -> u64;
    fn urddolwy_prepare(
        file: *const u8,
        file_len: usize,
        symbols: *const u8,
        symbols_len: usize,
        text_base: u64,
        text_len: u64,
        slot_base: u64,
        image: *mut u8,
        image_len: usize,
        edits: *mut u8,
        edits_len: usize,
        summary: *mut u8,
        summary_len: usize,
    ) -> u64;
}

pub fn check_symbols(list: &[u8]) -> u64 {
    // SAFETY: pointer and length are those of one slice, which the function only reads.
    unsafe { urddolwy_check_symbols(list.as_ptr(), list.len()) }
}

pub fn check_file(file: &[u8]) -> u64 {
    // SAFETY: pointer and length are those of one slice, which the function only reads.
    unsafe { urddolwy_check_file(file.as_ptr(), file.len()) }
}

/// The text and the slot that a payload is prepared for.
#[derive(Clone, Copy)]
pub struct Place {
    pub text_base: u64,
    pub text_len: u64,
    pub slot_base: u64,
}

/// Prepares a payload; the buffers are image, edits and summary.
pub fn prepare(file: &[u8], list: &[u8], place: Place, buffers: [&mut [u8]; 3]) -> u64 {
    let [image, edits, summary] = buffers;
    // SAFETY: each pointer and length are those of one slice; the three that are written overlap nothing.
    unsafe {
        urddolwy_prepare(
            file.as_ptr(),
            file.len(),
            list.as_ptr(),
            list.len(),
            place.text_base,
            place.text_len,
            place.slot_base,
            image.as_mut_ptr(),
            image.len(),
            edits.as_mut_ptr(),
            edits.len(),
            summary.as_mut_ptr(),
            summary.len(),
        )
    }
}
