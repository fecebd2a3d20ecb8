//! The lookup and the comparison with their counts (crates/lookups) over the C ABI, for every program that links them from Rust. A
//! slice passes as a pointer and a length.

#[link(name = "lookups", kind = "static")]
extern "C" {
    fn lookups_find(
        list: *const u8,
        list_len: usize,
        name: *const u8,
        name_len: usize,
        address: *mut u64,
        compared: *mut u64,
    ) -> u64;
    fn lookups_compare(a: *const u8, a_len: usize, b: *const u8, b_len: usize, compared: *mut u64) -> u64;
}

/// The answer, 0 or 3, the address that it leaves, and how many entries were compared.
pub fn find(list: &[u8], name: &[u8]) -> (u64, u64, u64) {
    let (mut address, mut compared) = (u64::MAX, u64::MAX);
    // SAFETY: pointer and length are those of one slice each, which the function only reads; the numbers are written.
    let answer =
        unsafe { lookups_find(list.as_ptr(), list.len(), name.as_ptr(), name.len(), &mut address, &mut compared) };
    (answer, address, compared)
}

/// The answer, 0, 1 or 2, and how many bytes were compared.
#[allow(dead_code)] // the bench does not compare
pub fn compare(a: &[u8], b: &[u8]) -> (u64, u64) {
    let mut compared = u64::MAX;
    // SAFETY: pointer and length are those of one slice each, which the function only reads; the number is written.
    let answer = unsafe { lookups_compare(a.as_ptr(), a.len(), b.as_ptr(), b.len(), &mut compared) };
    (answer, compared)
}
