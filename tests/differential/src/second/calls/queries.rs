//! What only reads: get, list, the top build-id.

use super::host::sizes;
use super::state::{is_name, Loaded, State};
use crate::second::limits::{ID, NAME};
use crate::second::refusal::Refusal;

impl Loaded {
    /// Status and result, in 4 bytes each.
    fn status_bytes(&self) -> [u8; 8] {
        let mut bytes = [0; 8];
        bytes[..4].copy_from_slice(&self.status.to_le_bytes());
        bytes[4..].copy_from_slice(&self.result.wrapping_neg().to_le_bytes());
        bytes
    }
}

/// The part of whichever buffer holds the top build-id.
#[derive(Clone, Copy, PartialEq, Eq, Debug)]
pub struct TopId {
    pub in_store: bool,
    pub offset: usize,
    pub length: usize,
}

/// The parts of the list's buffers that one entry takes: status and result, name, length of the name.
const ENTRY: [usize; 3] = [8, NAME, 4];

impl State {
    pub fn get(&self, name: &[u8]) -> Result<[u8; 8], Refusal> {
        self.target(name).map(|index| self.payloads[index].status_bytes())
    }

    /// The index of the payload that a call names.
    pub fn target(&self, name: &[u8]) -> Result<usize, Refusal> {
        if !is_name(name) {
            return Err(Refusal::nowhere(22));
        }
        self.index_of_name(name).ok_or(Refusal::nowhere(2))
    }

    /// Writes entries to the three buffers; how many, how many are left, and the version.
    pub fn list(&self, idx: u32, nr: u32, buffers: [&mut [u8]; 3]) -> Result<[u32; 3], Refusal> {
        if nr > 8 {
            return Err(Refusal::nowhere(7));
        }
        let from = self.payloads.get(idx as usize..).ok_or(Refusal::nowhere(22))?;
        if buffers.iter().zip(ENTRY).any(|(buffer, size)| buffer.len() < size * nr as usize) {
            return Err(Refusal::nowhere(22));
        }
        let [statuses, names, lengths] = buffers;
        let written = from.len().min(nr as usize);
        for (at, payload) in from[..written].iter().enumerate() {
            statuses[8 * at..8 * at + 8].copy_from_slice(&payload.status_bytes());
            names[NAME * at..NAME * (at + 1)].copy_from_slice(&payload.name);
            lengths[4 * at..4 * at + 4].copy_from_slice(&payload.name_len.to_le_bytes());
        }
        Ok([written as u32, (from.len() - written) as u32, self.version])
    }

    pub fn top_build_id(&self, build_id: &[u8], ids: &[u8]) -> Result<TopId, Refusal> {
        if !self.has_build_id(build_id) || !sizes(None, None, Some(ids)) {
            return Err(Refusal::nowhere(22));
        }
        Ok(self.top_id())
    }

    pub fn has_build_id(&self, build_id: &[u8]) -> bool {
        build_id.len() == self.host.build_id_len as usize
    }

    /// Where the id stands that the stack stands on.
    pub fn top_id(&self) -> TopId {
        match self.top().and_then(|slot| self.in_slot(slot)) {
            Some(top) => TopId { in_store: true, offset: ID * top.slot as usize, length: top.id_len as usize },
            None => TopId { in_store: false, offset: 0, length: self.host.build_id_len as usize },
        }
    }
}
