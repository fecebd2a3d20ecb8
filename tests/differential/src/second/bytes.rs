//! Numbers, ranges and names in bytes.

/// A little-endian number.
pub fn little(bytes: &[u8]) -> u64 {
    bytes.iter().rev().fold(0, |number, byte| number << 8 | u64::from(*byte))
}

/// A big-endian number.
pub fn big(bytes: &[u8]) -> u64 {
    bytes.iter().fold(0, |number, byte| number << 8 | u64::from(*byte))
}

/// The little-endian field of `width` bytes at `at`.
pub fn field(bytes: &[u8], at: usize, width: usize) -> u64 {
    little(&bytes[at..at + width])
}

/// Whether `size` bytes from `offset` on lie inside `whole` bytes, by ordinary sums.
pub fn inside(offset: u64, size: u64, whole: u64) -> bool {
    u128::from(offset) + u128::from(size) <= u128::from(whole)
}

/// The next multiple of a step, or the number itself where it is one.
pub fn rounded_up(number: u64, step: u64) -> u64 {
    match number % step {
        0 => number,
        over => number + (step - over),
    }
}

/// The name at `at` of a table: the bytes up to the first zero byte, which must stand within the table.
pub fn name_at(table: &[u8], at: u64) -> Option<&[u8]> {
    let from = table.get(usize::try_from(at).ok()?..)?;
    let end = from.iter().position(|byte| *byte == 0)?;
    Some(&from[..end])
}

/// The first `n` bytes and those after them, where there are as many.
pub fn take(bytes: &[u8], n: usize) -> Option<(&[u8], &[u8])> {
    (n <= bytes.len()).then(|| bytes.split_at(n))
}

#[cfg(test)]
mod tests {
    use super::*;

    #[test]
    fn names_end_within_their_table() {
        assert_eq!(name_at(b"\0ab\0c", 0), Some(&b""[..]));
        assert_eq!(name_at(b"\0ab\0c", 1), Some(&b"ab"[..]));
        assert_eq!(name_at(b"\0ab\0c", 2), Some(&b"b"[..]));
        assert_eq!(name_at(b"\0ab\0c", 4), None);
        assert_eq!(name_at(b"\0ab\0c", 5), None);
        assert_eq!(name_at(b"\0ab\0c", 6), None);
        assert_eq!(name_at(b"\0ab\0c", u64::MAX), None);
    }

    #[test]
    fn multiples() {
        assert_eq!([0, 1, 7, 8, 9].map(|number| rounded_up(number, 8)), [0, 8, 8, 8, 16]);
        assert_eq!([rounded_up(5, 1), rounded_up(u64::MAX - 7, 8)], [5, u64::MAX - 7]);
    }

    #[test]
    fn ranges_do_not_wrap() {
        assert!(inside(5, 0, 5) && inside(0, 5, 5));
        assert!(!inside(6, 0, 5) && !inside(u64::MAX, 1, 5) && !inside(1 << 63, 1 << 63, 5));
    }
}
