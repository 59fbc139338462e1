//! Manifests: packages, worlds and the interfaces that they import and export, as the archive reads them.

use crate::error::{Refusal, Result};
use crate::ffi;
use crate::rows::{name, with_room, Cells};

/// The bytes of both tables and both lists at their limits.
const ROOM: usize = 8 * (64 * 2 + 1024 * 7 + 1024);

/// An import or export: a path, and what stands after its `:`, if there is one.
#[derive(Debug, Clone, Copy, PartialEq, Eq)]
#[allow(missing_docs)]
pub struct InterfaceRef<'a> {
    pub path: &'a str,
    pub signature: Option<&'a str>,
}

/// A world, with what it imports and exports in the order of the text.
#[derive(Debug, Clone, PartialEq, Eq)]
#[allow(missing_docs)]
pub struct World<'a> {
    pub name: &'a str,
    pub imports: Vec<InterfaceRef<'a>>,
    pub exports: Vec<InterfaceRef<'a>>,
}

/// A manifest that was read and accepted.
#[derive(Debug, Clone, PartialEq, Eq)]
pub struct Manifest<'a> {
    package: Option<&'a str>,
    worlds: Vec<World<'a>>,
    all_imports: Vec<&'a str>,
    all_exports: Vec<&'a str>,
}

/// A reference with its world's row and its direction, 0 an import.
struct Row<'a> {
    world: usize,
    direction: usize,
    interface: InterfaceRef<'a>,
}

/// Reads a manifest's text.
pub fn parse<T: AsRef<[u8]> + ?Sized>(text: &T) -> Result<Manifest<'_>> {
    let text = text.as_ref();
    let (told, out) = with_room(ROOM, |out| ffi::manifest(text, out))?;
    let mut cells = Cells::of(&out, told.bytes)?;
    let mut worlds =
        cells.rows(told.worlds, |[from, len]| Ok(World { name: name(text, from, len)?, imports: Vec::new(), exports: Vec::new() }))?;
    let rows = cells.rows(told.references, |[world, direction, from, len, signed, sign, sign_len]| {
        let signature = if signed == 0 { None } else { Some(name(text, sign, sign_len)?) };
        Ok(Row { world, direction, interface: InterfaceRef { path: name(text, from, len)?, signature } })
    })?;
    let path = |[row]: [usize; 1]| rows.get(row).map(|row: &Row| row.interface.path).ok_or(Refusal::STRANGE);
    let all_imports = cells.rows(told.imported, path)?;
    let all_exports = cells.rows(told.exported, path)?;
    for row in rows {
        let world = worlds.get_mut(row.world).ok_or(Refusal::STRANGE)?;
        let list = if row.direction == 0 { &mut world.imports } else { &mut world.exports };
        list.push(row.interface);
    }
    let package = match told.packaged {
        0 => None,
        _ => Some(name(text, told.start, told.size)?),
    };
    Ok(Manifest { package, worlds, all_imports, all_exports })
}

impl<'a> Manifest<'a> {
    /// What the last `package` line says, if there is one.
    pub fn package(&self) -> Option<&'a str> {
        self.package
    }

    /// The worlds, in the order of the text.
    pub fn worlds(&self) -> &[World<'a>] {
        &self.worlds
    }

    /// All imported paths, by bytes, each once.
    pub fn all_imports(&self) -> &[&'a str] {
        &self.all_imports
    }

    /// All exported paths, by bytes, each once.
    pub fn all_exports(&self) -> &[&'a str] {
        &self.all_exports
    }
}
