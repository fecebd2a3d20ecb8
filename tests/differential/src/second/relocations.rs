//! Relocations, by section index and then by entry, and the symbols that they use.

use super::bytes::{field, inside, name_at};
use super::counts::Relocated;
use super::image::Image;
use super::payload::Payload;
use super::refusal::{Place, Refusal};
use super::symbol_list::SymbolList;

/// Applies every relocation to the image.
pub fn relocate(payload: &Payload, list: &SymbolList, image: &mut Image) -> Result<(), Refusal> {
    for part in &payload.relocated {
        for (entry, bytes) in payload.contents(part.section).chunks(24).enumerate() {
            let place = Place::Relocation { section: part.section, entry };
            apply(payload, list, image, part, bytes).map_err(|number| Refusal { number, place })?;
        }
    }
    Ok(())
}

/// Applies one relocation; in a refusal, its number.
fn apply(payload: &Payload, list: &SymbolList, image: &mut Image, part: &Relocated, entry: &[u8]) -> Result<(), u64> {
    let (offset, relocation_type) = (field(entry, 0, 8), field(entry, 8, 4));
    let (symbol, addend) = (field(entry, 12, 4), field(entry, 16, 8));
    let width = match relocation_type {
        0 => return Ok(()),
        1 => 8,
        2 | 4 => 4,
        _ => return Err(95),
    };
    if !inside(offset, width, payload.sections[part.target].size) {
        return Err(22);
    }
    let sum = symbol_value(payload, list, image, symbol)?.wrapping_add(addend);
    let at = image.start(part.target).ok_or(22u64)? + offset;
    let stored = match relocation_type {
        1 => sum.to_le_bytes().to_vec(),
        _ => displacement(sum, image.address(at)).ok_or(34u64)?.to_vec(),
    };
    image.bytes[at as usize..(at + width) as usize].copy_from_slice(&stored);
    Ok(())
}

/// The difference of two addresses in 4 bytes, where it fits them as a signed number.
pub fn displacement(to: u64, from: u64) -> Option<[u8; 4]> {
    let difference = i64::from_le_bytes(to.wrapping_sub(from).to_le_bytes());
    i32::try_from(difference).ok().map(i32::to_le_bytes)
}

/// Whether st_info has weak binding.
fn is_weak(info: u64) -> bool {
    info & 0xf0 == 0x20
}

/// The value of a symbol that a relocation uses; in a refusal, its number.
fn symbol_value(payload: &Payload, list: &SymbolList, image: &Image, number: u64) -> Result<u64, u64> {
    if number == 0 {
        return Ok(0);
    }
    let entry = payload.contents(payload.symbols).chunks(24).nth(number as usize).ok_or(22u64)?;
    let value = field(entry, 8, 8);
    match field(entry, 6, 2) {
        0 => {
            let strings = payload.contents(payload.sections[payload.symbols].link as usize);
            let name = name_at(strings, field(entry, 0, 4)).ok_or(22u64)?;
            let missing = if is_weak(field(entry, 4, 1)) { Ok(0) } else { Err(3) };
            list.address(name).map_or(missing, Ok)
        }
        0xfff1 => Ok(value),
        0xff00.. => Err(95),
        home => {
            let section = payload.sections.get(home as usize).ok_or(22u64)?;
            let start = image.start(section.index).ok_or(22u64)?;
            if value > section.size {
                return Err(22);
            }
            Ok(image.address(start).wrapping_add(value))
        }
    }
}

#[cfg(test)]
mod tests {
    use super::*;

    #[test]
    fn weak_binding_is_2_in_the_upper_half() {
        let weak: Vec<u64> = (0..=255).filter(|info| is_weak(*info)).collect();
        assert_eq!(weak, (32..48).collect::<Vec<u64>>());
    }

    #[test]
    fn k3() {
        let sum = 0xffff82d08015fbb9u64.wrapping_add(-4i64 as u64);
        assert_eq!(displacement(sum, 0xffff82d080104a6a), Some([0x4b, 0xb1, 0x05, 0x00]));
    }

    #[test]
    fn k4_and_k5() {
        let from = 0xffff_8000_0000_1000u64;
        assert_eq!(displacement(from + 0x7fff_ffff, from), Some([0xff, 0xff, 0xff, 0x7f]));
        assert_eq!(displacement(from + 0x8000_0000, from), None);
        assert_eq!(displacement(from - 0x8000_0000, from), Some([0, 0, 0, 0x80]));
        assert_eq!(displacement(from - 0x8000_0001, from), None);
        assert_eq!(displacement(5, 5u64.wrapping_sub(15)), Some([15, 0, 0, 0]));
    }
}
