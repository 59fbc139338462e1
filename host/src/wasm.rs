//! Modules: sections, imports, exports and names, as the archive reads them.

use std::fmt;

use crate::error::{Refusal, Result};
use crate::ffi;
use crate::rows::{name, number, with_room, Cells};

/// The four bytes that open every module.
pub const WASM_MAGIC: [u8; 4] = *b"\0asm";

/// The bytes of all four tables at their limits.
const ROOM: usize = 8 * (256 * 5 + 1024 * 12 + 1024 * 4 + 4096 * 3);

/// The bytes of a page of memory.
const PAGE: u64 = 65_536;

/// The kind of an import or export.
#[derive(Debug, Clone, Copy, PartialEq, Eq, Hash)]
#[allow(missing_docs)]
pub enum ExternalKind {
    Func,
    Table,
    Memory,
    Global,
    /// Any other byte; an export's alone.
    Other(u8),
}

impl ExternalKind {
    fn from_byte(byte: u8) -> ExternalKind {
        match byte {
            0 => ExternalKind::Func,
            1 => ExternalKind::Table,
            2 => ExternalKind::Memory,
            3 => ExternalKind::Global,
            other => ExternalKind::Other(other),
        }
    }

    /// Stable slug used in reports.
    pub fn slug(self) -> String {
        self.to_string()
    }
}

impl fmt::Display for ExternalKind {
    fn fmt(&self, f: &mut fmt::Formatter<'_>) -> fmt::Result {
        match self {
            ExternalKind::Func => f.write_str("func"),
            ExternalKind::Table => f.write_str("table"),
            ExternalKind::Memory => f.write_str("memory"),
            ExternalKind::Global => f.write_str("global"),
            ExternalKind::Other(byte) => write!(f, "other:{byte:#04x}"),
        }
    }
}

/// The name of a section's id.
pub fn section_name(id: u8) -> &'static str {
    const NAMES: [&str; 14] = [
        "custom",
        "type",
        "import",
        "function",
        "table",
        "memory",
        "global",
        "export",
        "start",
        "element",
        "code",
        "data",
        "data-count",
        "tag",
    ];
    NAMES.get(usize::from(id)).copied().unwrap_or("unknown")
}

/// A section: where its payload is, and a custom section's name (empty of others).
#[derive(Debug, Clone, Copy, PartialEq, Eq)]
#[non_exhaustive]
#[allow(missing_docs)]
pub struct SectionInfo<'a> {
    pub id: u8,
    pub name: &'static str,
    pub custom_name: &'a str,
    pub offset: usize,
    pub size: usize,
}

/// The limits of a table, in entries, or of a memory, in pages of 65,536 bytes, as the file states them: a most may be below the least.
#[derive(Debug, Clone, Copy, PartialEq, Eq)]
#[non_exhaustive]
pub struct Limits {
    /// The flag byte as it is. Where its bit 0 is set there is a most.
    pub flag: u8,
    /// How many there must be.
    pub least: u32,
    /// How many there may be, where that is stated. 0 is not none.
    pub most: Option<u32>,
}

impl Limits {
    /// Of a memory, the bytes that it must have.
    pub fn least_bytes(&self) -> u64 {
        u64::from(self.least) * PAGE
    }

    /// Of a memory, the bytes that it may have, where that is stated.
    pub fn most_bytes(&self) -> Option<u64> {
        self.most.map(|most| u64::from(most) * PAGE)
    }
}

/// What an import asks for: its descriptor. Type bytes and mutability are as the file has them; they are not validated.
#[derive(Debug, Clone, Copy, PartialEq, Eq)]
#[allow(missing_docs)]
pub enum Desc {
    Func { type_index: u32 },
    Table { element: u8, limits: Limits },
    Memory { limits: Limits },
    Global { value: u8, mutability: u8 },
}

/// An import.
#[derive(Debug, Clone, Copy, PartialEq, Eq)]
#[non_exhaustive]
#[allow(missing_docs)]
pub struct Import<'a> {
    pub module: &'a str,
    pub field: &'a str,
    pub kind: ExternalKind,
    desc: Desc,
}

impl Import<'_> {
    /// What it asks for.
    pub fn desc(&self) -> Desc {
        self.desc
    }
}

/// The numbers of a row that are there go by the kind and the flag's bit 0, and `given` has a bit for each of them.
fn desc(kind: usize, [index, type_byte, flag, least, most, mutability, given]: [usize; 7]) -> Result<Desc> {
    let bounded = given & 16 != 0;
    let limits = || Ok(Limits { flag: number(flag)?, least: number(least)?, most: bounded.then(|| number(most)).transpose()? });
    match (kind, given) {
        (0, 1) => Ok(Desc::Func { type_index: number(index)? }),
        (1, 14 | 30) => Ok(Desc::Table { element: number(type_byte)?, limits: limits()? }),
        (2, 12 | 28) => Ok(Desc::Memory { limits: limits()? }),
        (3, 34) => Ok(Desc::Global { value: number(type_byte)?, mutability: number(mutability)? }),
        _ => Err(Refusal::STRANGE),
    }
}

/// An export.
#[derive(Debug, Clone, Copy, PartialEq, Eq)]
#[non_exhaustive]
#[allow(missing_docs)]
pub struct Export<'a> {
    pub field: &'a str,
    pub kind: ExternalKind,
    pub index: u32,
}

/// A module that was read and accepted, with the file that it was read from.
#[derive(Debug, Clone)]
pub struct Module<'a> {
    file: &'a [u8],
    version: u32,
    sections: Vec<SectionInfo<'a>>,
    imports: Vec<Import<'a>>,
    exports: Vec<Export<'a>>,
    module_name: Option<&'a str>,
    function_names: Vec<(u32, &'a str)>,
}

/// Reads a module's file.
pub fn parse(file: &[u8]) -> Result<Module<'_>> {
    let (told, out) = with_room(ROOM, |out| ffi::module(file, out))?;
    let mut cells = Cells::of(&out, told.bytes)?;
    let sections = cells.rows(told.sections, |[id, offset, size, from, len]| {
        let id = number(id)?;
        Ok(SectionInfo { id, name: section_name(id), custom_name: name(file, from, len)?, offset, size })
    })?;
    let imports = cells.rows(told.imports, |[module, module_len, field, field_len, kind, asked @ ..]: [usize; 12]| {
        let (desc, kind) = (desc(kind, asked)?, ExternalKind::from_byte(number(kind)?));
        Ok(Import { module: name(file, module, module_len)?, field: name(file, field, field_len)?, kind, desc })
    })?;
    let exports = cells.rows(told.exports, |[from, len, kind, index]| {
        let kind = ExternalKind::from_byte(number(kind)?);
        Ok(Export { field: name(file, from, len)?, kind, index: number(index)? })
    })?;
    let function_names = cells.rows(told.symbols, |[index, from, len]| Ok((number(index)?, name(file, from, len)?)))?;
    let module_name = match told.named {
        0 => None,
        _ => Some(name(file, told.start, told.size)?),
    };
    Ok(Module { file, version: told.version, sections, imports, exports, module_name, function_names })
}

/// Whether a module's file is read strictly: it is accepted, or refused as [`parse`] refuses it, or it breaks one of the eight
/// [rules](crate::StrictRule) of strict reading: 20, and [`Refusal::rule`](crate::Refusal::rule) is the lowest that is broken.
///
/// A file that is read strictly is clean in what is read: header, sections, imports, exports and names. It is not validated: type bytes,
/// the inside of name sections, and what other sections hold, may still be wrong.
pub fn test_strict(file: &[u8]) -> Result<()> {
    ffi::strict(file)
}

/// Reads a module's file where it is read strictly, as [`test_strict`] says: clean in what is read, and not validated. What is read is what
/// [`parse`] reads.
pub fn parse_strict(file: &[u8]) -> Result<Module<'_>> {
    test_strict(file)?;
    parse(file)
}

impl<'a> Module<'a> {
    /// The file.
    pub fn file(&self) -> &'a [u8] {
        self.file
    }

    /// The version that the header states, never 0.
    pub fn version(&self) -> u32 {
        self.version
    }

    /// The sections, in the order of the file.
    pub fn sections(&self) -> &[SectionInfo<'a>] {
        &self.sections
    }

    /// The imports, of the last import section.
    pub fn imports(&self) -> &[Import<'a>] {
        &self.imports
    }

    /// The exports, of the last export section.
    pub fn exports(&self) -> &[Export<'a>] {
        &self.exports
    }

    /// The module's name, of the last `name` section that has one.
    pub fn module_name(&self) -> Option<&'a str> {
        self.module_name
    }

    /// Functions' names, by index.
    pub fn function_names(&self) -> &[(u32, &'a str)] {
        &self.function_names
    }

    /// How long the file is.
    pub fn byte_len(&self) -> usize {
        self.file.len()
    }

    /// How many imports are functions.
    pub fn imported_functions(&self) -> usize {
        self.imports.iter().filter(|import| import.kind == ExternalKind::Func).count()
    }

    /// How many imports are memories.
    pub fn imported_memories(&self) -> usize {
        self.imports.iter().filter(|import| import.kind == ExternalKind::Memory).count()
    }

    /// The limits of each memory that is imported: what a sandbox must hold for the module.
    pub fn imported_memory_limits(&self) -> Vec<Limits> {
        let limits = |import: &Import| match import.desc {
            Desc::Memory { limits } => Some(limits),
            _ => None,
        };
        self.imports.iter().filter_map(limits).collect()
    }

    /// The module names of all imports, by bytes, each once.
    pub fn import_namespaces(&self) -> Vec<&'a str> {
        let mut names: Vec<_> = self.imports.iter().map(|import| import.module).collect();
        names.sort_unstable();
        names.dedup();
        names
    }
}

#[cfg(test)]
mod tests {
    use super::*;

    /// What the archive cannot answer is told, and not taken for a descriptor.
    #[test]
    fn a_strange_descriptor() {
        for (kind, given) in (0..6).flat_map(|kind| (0..70).map(move |given| (kind, given))) {
            let fits = matches!((kind, given), (0, 1) | (1, 14 | 30) | (2, 12 | 28) | (3, 34));
            assert_eq!(desc(kind, [0, 0, 0, 0, 0, 0, given]).is_ok(), fits, "kind {kind}, given {given}");
        }
        for (kind, cells) in [
            (0, [1 << 32, 0, 0, 0, 0, 0, 1]),
            (1, [0, 256, 0, 0, 0, 0, 14]),
            (2, [0, 0, 256, 0, 0, 0, 12]),
            (2, [0, 0, 0, 1 << 32, 0, 0, 12]),
            (2, [0, 0, 1, 0, 1 << 32, 0, 28]),
            (3, [0, 0, 0, 0, 0, 256, 34]),
        ] {
            assert_eq!(desc(kind, cells), Err(Refusal::STRANGE), "kind {kind}, {cells:?}");
        }
    }
}
