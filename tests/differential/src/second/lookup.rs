//! A name looked up in a symbol list, and two byte strings compared, with the counts of document 02's W3: a lookup compares the
//! entries up to the first that is not smaller, and with it; a comparison the bytes up to the first difference, and with it, or
//! up to the end of the shorter string.

use super::bytes::{big, take};
use std::cmp::Ordering;

/// How `a` stands to `b`, and how many bytes are compared.
pub fn compare(a: &[u8], b: &[u8]) -> (Ordering, u64) {
    let shorter = a.len().min(b.len());
    let same = a.iter().zip(b).position(|(x, y)| x != y);
    (a.cmp(b), same.map_or(shorter, |at| at + 1) as u64)
}

/// The address of the name, and how many entries are compared. Of bytes that are no list, the whole entries at the front are
/// searched, as many as the count says.
pub fn lookup(list: &[u8], name: &[u8]) -> (Option<u64>, u64) {
    let entries = entries(list);
    let smaller = entries.iter().take_while(|(entry, _)| *entry < name).count();
    match entries.get(smaller) {
        Some((entry, address)) => ((*entry == name).then_some(*address), smaller as u64 + 1),
        None => (None, smaller as u64),
    }
}

/// The whole entries, up to the first that is cut short.
fn entries(list: &[u8]) -> Vec<(&[u8], u64)> {
    let mut entries = Vec::new();
    let (count, mut rest) = take(list, 7).map_or((0, list), |(head, rest)| (big(&head[5..]), rest));
    while let Some((name, address, after)) = entry(rest).filter(|_| (entries.len() as u64) < count) {
        entries.push((name, address));
        rest = after;
    }
    entries
}

fn entry(bytes: &[u8]) -> Option<(&[u8], u64, &[u8])> {
    let (address, rest) = take(bytes, 8)?;
    let (length, rest) = take(rest, 1)?;
    let (name, rest) = take(rest, usize::from(length[0]))?;
    Some((name, big(address), rest))
}

#[cfg(test)]
mod tests {
    use super::*;
    use crate::payloads::assemble::list_bytes;

    fn list(names: &[&str]) -> Vec<u8> {
        list_bytes(
            &names.iter().zip(10..).map(|(name, address)| (name.as_bytes().to_vec(), address)).collect::<Vec<_>>(),
        )
    }

    #[test]
    fn entries_up_to_the_first_not_smaller() {
        let list = list(&["b", "d", "dd", "f"]);
        let answers = [
            ("", (None, 1)),
            ("a", (None, 1)),
            ("b", (Some(10), 1)),
            ("c", (None, 2)),
            ("d", (Some(11), 2)),
            ("da", (None, 3)),
            ("dd", (Some(12), 3)),
            ("ddd", (None, 4)),
            ("f", (Some(13), 4)),
            ("g", (None, 4)),
        ];
        for (name, answer) in answers {
            assert_eq!(lookup(&list, name.as_bytes()), answer, "{name}");
        }
    }

    #[test]
    fn no_entry() {
        assert_eq!(lookup(&list(&[]), b"a"), (None, 0));
        assert_eq!(lookup(b"", b"a"), (None, 0));
        assert_eq!(lookup(&[0, 0, 0, 3, 1, 0], b"a"), (None, 0));
        assert_eq!(lookup(&[0, 0, 0, 3, 1, 0, 1], b"a"), (None, 0));
    }

    #[test]
    fn names_that_fall() {
        let list = list(&["d", "b", "c"]);
        assert_eq!(lookup(&list, b"c"), (None, 1));
        assert_eq!(lookup(&list, b"e"), (None, 3));
    }

    #[test]
    fn bytes_up_to_the_first_difference_or_an_end() {
        let answers: [(&[u8], &[u8], (Ordering, u64)); 10] = [
            (b"", b"", (Ordering::Equal, 0)),
            (b"", b"a", (Ordering::Less, 0)),
            (b"a", b"", (Ordering::Greater, 0)),
            (b"a", b"b", (Ordering::Less, 1)),
            (b"ba", b"ab", (Ordering::Greater, 1)),
            (b"ab", b"ac", (Ordering::Less, 2)),
            (b"ab", b"abc", (Ordering::Less, 2)),
            (b"abc", b"ab", (Ordering::Greater, 2)),
            (b"abc", b"abc", (Ordering::Equal, 3)),
            (b"\x7fa", b"\x80a", (Ordering::Less, 1)),
        ];
        for (a, b, answer) in answers {
            assert_eq!(compare(a, b), answer, "{a:02x?} {b:02x?}");
        }
    }
}
