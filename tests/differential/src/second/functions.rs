//! Function records, read from the relocated image, and the edits that they ask for.

use super::bytes::{field, inside, name_at};
use super::image::Image;
use super::limits::UNDO_RECORD;
use super::payload::Payload;
use super::prepare::Surroundings;
use super::refusal::Refusal;
use super::relocations::displacement;
use super::symbol_list::SymbolList;

/// Bytes to write over the text.
#[derive(Clone, PartialEq, Eq, Debug)]
pub struct Edit {
    pub address: u64,
    pub bytes: Vec<u8>,
}

/// The edits of all records, in their order.
pub fn read_edits(
    payload: &Payload,
    list: &SymbolList,
    image: &Image,
    around: &Surroundings,
) -> Result<Vec<Edit>, Refusal> {
    let start = image.start(payload.functions).unwrap_or(0) as usize;
    let records = &image.bytes[start..start + payload.sections[payload.functions].size as usize];
    let mut edits = Vec::new();
    for (index, record) in records.chunks(64).enumerate() {
        let edit = read_edit(record, list, image, around).map_err(|number| Refusal::record(number, index))?;
        edits.push(edit);
    }
    match first_touching(&edits) {
        Some(later) => Err(Refusal::record(22, later)),
        None => Ok(edits),
    }
}

/// The edit of one record; in a refusal, its number.
fn read_edit(record: &[u8], list: &SymbolList, image: &Image, around: &Surroundings) -> Result<Edit, u64> {
    let new_addr = field(record, 8, 8);
    let (new_size, old_size) = (field(record, 24, 4), field(record, 28, 4));
    let old = match field(record, 16, 8) {
        0 => named_function(field(record, 0, 8), list, image)?,
        given => given,
    };
    if record[32] != 1 || record[33..].iter().any(|byte| *byte != 0) {
        return Err(22);
    }
    let sizes_fit = match new_addr {
        0 => (1..=UNDO_RECORD as u64).contains(&new_size) && new_size <= old_size,
        _ => new_size >= 1 && old_size >= 5 && inside_image(image, new_addr, new_size),
    };
    if !sizes_fit || !around.text_holds(old, old_size) {
        return Err(22);
    }
    let bytes = match new_addr {
        0 => vec![0x90; new_size as usize],
        _ => jump(old, new_addr).ok_or(34u64)?,
    };
    Ok(Edit { address: old, bytes })
}

/// The listed address of the function whose name stands in the image at an address.
fn named_function(name: u64, list: &SymbolList, image: &Image) -> Result<u64, u64> {
    let offset = image.offset(name).ok_or(22u64)?;
    let name = name_at(&image.bytes, offset as u64).ok_or(22u64)?;
    if !(1..=127).contains(&name.len()) {
        return Err(22);
    }
    list.address(name).ok_or(3)
}

fn inside_image(image: &Image, address: u64, size: u64) -> bool {
    address.checked_sub(image.base).map_or(false, |offset| inside(offset, size, image.bytes.len() as u64))
}

/// The jump from one address to another, if its displacement fits.
pub fn jump(from: u64, to: u64) -> Option<Vec<u8>> {
    let displacement = displacement(to, from.wrapping_add(5))?;
    Some([&[0xe9], &displacement[..]].concat())
}

/// The lowest edit that touches a byte of an earlier one.
pub fn first_touching(edits: &[Edit]) -> Option<usize> {
    let touches = |a: &Edit, b: &Edit| {
        let (a_start, b_start) = (u128::from(a.address), u128::from(b.address));
        a_start < b_start + b.bytes.len() as u128 && b_start < a_start + a.bytes.len() as u128
    };
    (0..edits.len()).find(|&later| edits[..later].iter().any(|earlier| touches(earlier, &edits[later])))
}

#[cfg(test)]
mod tests {
    use super::*;

    #[test]
    fn k1_and_k2() {
        let (a, b) = (0xffff82d08013963c, 0xffff82d0801a0000);
        assert_eq!(jump(a, b).unwrap(), [0xe9, 0xbf, 0x69, 0x06, 0x00]);
        assert_eq!(jump(b, a).unwrap(), [0xe9, 0x37, 0x96, 0xf9, 0xff]);
    }

    #[test]
    fn pairs() {
        let edit = |address, length| Edit { address, bytes: vec![0x90; length] };
        assert_eq!(first_touching(&[edit(10, 5), edit(15, 5), edit(5, 5)]), None);
        assert_eq!(first_touching(&[edit(10, 5), edit(30, 5), edit(34, 1), edit(10, 1)]), Some(2));
        assert_eq!(first_touching(&[edit(u64::MAX, 1), edit(0, 1)]), None);
    }
}
