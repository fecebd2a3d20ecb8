//! What the file alone decides: header, sections, counts, type 4 headers, notes.

use super::counts::{count, relocated, Relocated};
use super::header::Header;
use super::notes::read_notes;
use super::refusal::Refusal;
use super::sections::{read_sections, Section};

pub struct Payload<'f> {
    pub file: &'f [u8],
    pub sections: Vec<Section>,
    pub symbols: usize,
    pub functions: usize,
    pub relocated: Vec<Relocated>,
    pub build_id: Vec<u8>,
    pub dependency: Vec<u8>,
}

impl<'f> Payload<'f> {
    pub fn read(file: &'f [u8]) -> Result<Payload<'f>, Refusal> {
        let header = Header::read(file)?;
        let sections = read_sections(file, &header)?;
        let single = count(&sections)?;
        let relocated = relocated(&sections, single.symbols)?;
        let notes = read_notes(file, &sections)?;
        let described =
            |index| notes.iter().find(|note| note.0 == index).map(|note| note.1.clone()).unwrap_or_default();
        Ok(Payload {
            file,
            symbols: single.symbols,
            functions: single.functions,
            relocated,
            build_id: described(single.build_id),
            dependency: described(single.dependency),
            sections,
        })
    }

    /// The bytes of one section in the file.
    pub fn contents(&self, index: usize) -> &'f [u8] {
        self.sections[index].contents(self.file)
    }
}
