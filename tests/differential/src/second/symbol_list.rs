//! The symbol list: a big-endian count of the bytes that follow, version 1, an entry count, entries of an address, a
//! name length and a name. Names strictly rise.

use super::bytes::{big, take};
use super::refusal::Refusal;
use std::collections::HashMap;

pub struct SymbolList<'a> {
    addresses: HashMap<&'a [u8], u64>,
}

impl<'a> SymbolList<'a> {
    pub fn read(list: &'a [u8]) -> Result<SymbolList<'a>, Refusal> {
        read_entries(list).map(|addresses| SymbolList { addresses }).ok_or(Refusal::nowhere(22))
    }

    /// The address of a listed name.
    pub fn address(&self, name: &[u8]) -> Option<u64> {
        self.addresses.get(name).copied()
    }
}

fn read_entries(list: &[u8]) -> Option<HashMap<&[u8], u64>> {
    let (length, rest) = take(list, 4)?;
    if big(length) != rest.len() as u64 {
        return None;
    }
    let (version, rest) = take(rest, 1)?;
    let (count, mut rest) = take(rest, 2)?;
    if version != [1] {
        return None;
    }
    let mut addresses = HashMap::new();
    let mut previous: &[u8] = b"";
    for _ in 0..big(count) {
        let (name, address, after) = read_entry(rest)?;
        if name <= previous {
            return None;
        }
        addresses.insert(name, address);
        previous = name;
        rest = after;
    }
    rest.is_empty().then_some(addresses)
}

/// One entry's name and address, and the bytes after the entry.
fn read_entry(bytes: &[u8]) -> Option<(&[u8], u64, &[u8])> {
    let (address, rest) = take(bytes, 8)?;
    let (length, rest) = take(rest, 1)?;
    let (name, rest) = take(rest, usize::from(length[0]))?;
    let fit = (1..=127).contains(&name.len()) && !name.contains(&0);
    fit.then(|| (name, big(address), rest))
}

#[cfg(test)]
mod tests {
    use super::*;

    #[test]
    fn the_papers_list() {
        let mut list = vec![0, 0, 0, 0x1d, 1, 0, 1, 0xff, 0xff, 0x82, 0xd0, 0x80, 0x13, 0x96, 0x3c, 0x11];
        list.extend(b"xen_extra_version");
        assert_eq!(list.len(), 33);
        let read = SymbolList::read(&list).ok().unwrap();
        assert_eq!(read.address(b"xen_extra_version"), Some(0xffff82d08013963c));
        assert_eq!(read.address(b"xen_extra_versio"), None);
        assert_eq!(read.address(b"xen_extra_version2"), None);
        assert_eq!(read.address(b""), None);
        for cut in 0..list.len() {
            assert!(SymbolList::read(&list[..cut]).is_err());
        }
    }

    #[test]
    fn an_empty_list() {
        let read = SymbolList::read(&[0, 0, 0, 3, 1, 0, 0]).ok().unwrap();
        assert_eq!(read.address(b"a"), None);
    }
}
