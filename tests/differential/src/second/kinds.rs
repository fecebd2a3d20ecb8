//! The kind of a section, by its name, its type and flag 0x2.

/// What a section is to the loader.
#[derive(Clone, Copy, PartialEq, Eq, Debug)]
pub enum Kind {
    /// Type 0, of which nothing else is consulted.
    Null,
    /// Placed code or data: `.text`, `.rodata`, `.data`, `.bss` and what follows them after a dot.
    Plain,
    /// `.livepatch.funcs`
    Functions,
    /// `.livepatch.depends`
    Dependency { placed: bool },
    /// `.note.gnu.build-id`
    BuildId { placed: bool },
    /// Type 2.
    Symbols,
    /// Type 3.
    Strings,
    /// Type 4.
    Relocations,
    /// Contents that mean nothing here: comments, debugging information.
    Ignored,
}

impl Kind {
    pub fn is_placed(self) -> bool {
        match self {
            Kind::Plain | Kind::Functions => true,
            Kind::Dependency { placed } | Kind::BuildId { placed } => placed,
            _ => false,
        }
    }

    pub fn is_note(self) -> bool {
        matches!(self, Kind::Dependency { .. } | Kind::BuildId { .. })
    }
}

/// The kind of a section whose type is not 0; `None` where document 01 names none. `allocated` is flag 0x2.
pub fn kind_of(name: &[u8], section_type: u64, allocated: bool) -> Option<Kind> {
    match (name, section_type, allocated) {
        (b".livepatch.funcs", 1, true) => Some(Kind::Functions),
        (b".livepatch.depends", 1 | 7, placed) => Some(Kind::Dependency { placed }),
        (b".note.gnu.build-id", 1 | 7, placed) => Some(Kind::BuildId { placed }),
        (b".livepatch.funcs" | b".livepatch.depends" | b".note.gnu.build-id", _, _) => None,
        (_, 2, false) => Some(Kind::Symbols),
        (_, 3, false) => Some(Kind::Strings),
        (_, 4, false) => Some(Kind::Relocations),
        (_, 1 | 7 | 8, true) if is_plain_name(name) => Some(Kind::Plain),
        (_, 1, false) if is_ignored_name(name) => Some(Kind::Ignored),
        _ => None,
    }
}

fn is_plain_name(name: &[u8]) -> bool {
    let stems: [&[u8]; 4] = [b".text", b".rodata", b".data", b".bss"];
    stems.iter().filter_map(|stem| name.strip_prefix(*stem)).any(|rest| {
        // alone, or a dot and at least one byte more
        rest.is_empty() || (rest[0] == b'.' && rest.len() > 1)
    })
}

fn is_ignored_name(name: &[u8]) -> bool {
    name == b".comment" || name == b".note.GNU-stack" || name.starts_with(b".debug_")
}

#[cfg(test)]
mod tests {
    use super::*;

    #[test]
    fn names() {
        for name in [".text", ".text.x", ".text..", ".data.rel.ro", ".rodata.str1.1", ".bss"] {
            assert_eq!(kind_of(name.as_bytes(), 1, true), Some(Kind::Plain), "{name}");
        }
        for name in [".text.", ".textx", ".tex", "text", "", ".eh_frame", ".livepatch.hooks.load", ".livepatch.funcs.x"]
        {
            assert_eq!(kind_of(name.as_bytes(), 1, true), None, "{name}");
        }
        for name in [".comment", ".debug_", ".debug_info", ".note.GNU-stack"] {
            assert_eq!(kind_of(name.as_bytes(), 1, false), Some(Kind::Ignored), "{name}");
            assert_eq!(kind_of(name.as_bytes(), 7, false), None, "{name}");
            assert_eq!(kind_of(name.as_bytes(), 1, true), None, "{name}");
        }
    }
}
