//! From a payload file to a slot's bytes and the edits, and the same over the library's buffers.

use super::functions::{read_edits, Edit};
use super::image::Image;
use super::limits::{BUFFERS, EDIT_ENTRY, ID, SLOT};
use super::payload::Payload;
use super::refusal::Refusal;
use super::relocations::relocate;
use super::symbol_list::SymbolList;

/// Where the hypervisor's text and the payload's slot lie.
#[derive(Clone, Copy, Debug)]
pub struct Surroundings {
    pub text_base: u64,
    pub text_len: u64,
    pub slot_base: u64,
}

impl Surroundings {
    /// Whether these are numbers that a loader can have.
    pub fn stand(&self) -> bool {
        let top = u128::from(u64::MAX);
        let text_end = u128::from(self.text_base) + u128::from(self.text_len);
        let slot_end = u128::from(self.slot_base) + SLOT as u128;
        let apart = text_end <= u128::from(self.slot_base) || slot_end <= u128::from(self.text_base);
        let placed = self.slot_base != 0 && self.slot_base % 4096 == 0 && slot_end <= top + 1;
        (1..=1 << 24).contains(&self.text_len) && text_end <= top + 1 && placed && apart
    }

    /// Whether `size` bytes from `address` on all lie in the text, by ordinary sums.
    pub fn text_holds(&self, address: u64, size: u64) -> bool {
        let end = u128::from(address) + u128::from(size);
        address >= self.text_base && end <= u128::from(self.text_base) + u128::from(self.text_len)
    }
}

/// An accepted payload.
#[derive(PartialEq, Eq, Debug)]
pub struct Prepared {
    /// The relocated placed bytes.
    pub placed: Vec<u8>,
    pub edits: Vec<Edit>,
    pub build_id: Vec<u8>,
    pub dependency: Vec<u8>,
}

pub fn prepare(file: &[u8], symbols: &[u8], around: &Surroundings) -> Result<Prepared, Refusal> {
    prepare_listed(file, &SymbolList::read(symbols)?, around)
}

/// The same with a symbol list that is read already.
pub fn prepare_listed(file: &[u8], list: &SymbolList, around: &Surroundings) -> Result<Prepared, Refusal> {
    let payload = Payload::read(file)?;
    let mut image = Image::place(&payload, around.slot_base)?;
    relocate(&payload, list, &mut image)?;
    let edits = read_edits(&payload, list, &image, around)?;
    let Payload { build_id, dependency, .. } = payload;
    Ok(Prepared { placed: image.bytes, edits, build_id, dependency })
}

/// What the library's `urddolwy_prepare` does: the answer is 0 or the refusal's code, and the three buffers are written
/// on acceptance only.
pub fn prepare_into(file: &[u8], symbols: &[u8], around: &Surroundings, buffers: [&mut [u8]; 3]) -> u64 {
    let [image, edits, summary] = buffers;
    if [image.len(), edits.len(), summary.len()] != BUFFERS || !around.stand() {
        return Refusal::nowhere(22).code();
    }
    match prepare(file, symbols, around) {
        Err(refusal) => refusal.code(),
        Ok(prepared) => {
            write(image, &[&prepared.placed]);
            let written = prepared.edits.iter().map(written_edit).collect::<Vec<_>>().concat();
            write(edits, &[&written]);
            write(summary, &[&written_summary(&prepared)]);
            0
        }
    }
}

/// Fills a buffer with the parts and then zeros.
fn write(buffer: &mut [u8], parts: &[&[u8]]) {
    let mut bytes = parts.concat();
    bytes.resize(buffer.len(), 0);
    buffer.copy_from_slice(&bytes);
}

fn written_edit(edit: &Edit) -> Vec<u8> {
    let mut entry = vec![0; EDIT_ENTRY];
    write(&mut entry, &[&edit.address.to_le_bytes(), &(edit.bytes.len() as u32).to_le_bytes(), &edit.bytes]);
    entry
}

fn written_summary(prepared: &Prepared) -> Vec<u8> {
    let lengths = [prepared.placed.len(), prepared.edits.len(), prepared.build_id.len(), prepared.dependency.len()];
    let mut summary: Vec<u8> = lengths.iter().flat_map(|length| (*length as u32).to_le_bytes()).collect();
    for id in [&prepared.build_id, &prepared.dependency] {
        let mut kept = vec![0; ID];
        write(&mut kept, &[id]);
        summary.extend(kept);
    }
    summary
}
