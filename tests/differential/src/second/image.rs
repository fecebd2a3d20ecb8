//! Placement: the placed sections one after the other in a slot.

use super::bytes::rounded_up;
use super::limits::SLOT;
use super::payload::Payload;
use super::refusal::Refusal;
use std::collections::HashMap;

/// The placed bytes, and where each placed section begins in them.
pub struct Image {
    pub bytes: Vec<u8>,
    pub base: u64,
    starts: HashMap<usize, u64>,
}

impl Image {
    pub fn place(payload: &Payload, base: u64) -> Result<Image, Refusal> {
        let mut image = Image { bytes: Vec::new(), base, starts: HashMap::new() };
        for section in payload.sections.iter().filter(|section| section.kind.is_placed()) {
            let (start, end) = next(image.bytes.len() as u64, section.alignment, section.size);
            if end > SLOT as u128 {
                return Err(Refusal::section(12, section.index));
            }
            image.bytes.resize(start as usize, 0);
            image.bytes.extend_from_slice(section.contents(payload.file));
            image.bytes.resize(end as usize, 0);
            image.starts.insert(section.index, start);
        }
        Ok(image)
    }

    /// Where a placed section begins in the image.
    pub fn start(&self, section: usize) -> Option<u64> {
        self.starts.get(&section).copied()
    }

    /// The address of a byte of the image.
    pub fn address(&self, offset: u64) -> u64 {
        self.base.wrapping_add(offset)
    }

    /// The offset of an address in the image; `None` where it isn't that of a placed byte.
    pub fn offset(&self, address: u64) -> Option<usize> {
        let offset = usize::try_from(address.checked_sub(self.base)?).ok()?;
        (offset < self.bytes.len()).then_some(offset)
    }
}

/// Where a section begins and ends that comes after `end` bytes.
pub fn next(end: u64, alignment: u64, size: u64) -> (u64, u128) {
    let start = rounded_up(end, alignment.max(1));
    (start, u128::from(start) + u128::from(size))
}

#[cfg(test)]
mod tests {
    use super::*;

    #[test]
    fn k6() {
        let (first, end) = next(0, 16, 13);
        let (second, end) = next(end as u64, 8, 5);
        assert_eq!((first, second, end), (0, 16, 21));
    }

    #[test]
    fn sizes_do_not_wrap() {
        assert_eq!(next(1, 0, u64::MAX), (1, 1 << 64));
        assert_eq!(next(8192, 4096, 0), (8192, 8192));
    }
}
