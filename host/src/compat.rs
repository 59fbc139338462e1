//! Whether a candidate can stand in for a baseline.

use std::fmt;

use crate::error::{Refusal, Result};
use crate::ffi;
use crate::policy::Domain;
use crate::rows::{with_room, Cells};
use crate::wasm::{ExternalKind, Module};

/// The bytes of both lists at their limits; the breaking reasons come on top.
const ROOM: usize = 8 * 2048 * (2 + 3);

/// Which of both has it.
#[derive(Debug, Clone, Copy, PartialEq, Eq, Hash)]
pub enum Change {
    /// The baseline alone.
    Removed,
    /// The candidate alone.
    Added,
}

impl Change {
    /// Stable slug used in reports.
    pub fn slug(self) -> &'static str {
        match self {
            Change::Removed => "removed",
            Change::Added => "added",
        }
    }

    fn numbered(number: usize) -> Result<Change> {
        match number {
            0 => Ok(Change::Removed),
            1 => Ok(Change::Added),
            _ => Err(Refusal::STRANGE),
        }
    }

    /// The build that a row number of this change is of.
    fn side<T>(self, baseline: T, candidate: T) -> T {
        match self {
            Change::Removed => baseline,
            Change::Added => candidate,
        }
    }
}

impl fmt::Display for Change {
    fn fmt(&self, f: &mut fmt::Formatter<'_>) -> fmt::Result {
        f.write_str(self.slug())
    }
}

/// An export that only one of both has; the name is a part of that one's file.
#[derive(Debug, Clone, Copy, PartialEq, Eq)]
#[non_exhaustive]
#[allow(missing_docs)]
pub struct ExportDiff<'a> {
    pub change: Change,
    pub name: &'a str,
    pub kind: ExternalKind,
}

/// A pair of domain and source (a module name) that only one of both needs, and the field of its first import.
#[derive(Debug, Clone, Copy, PartialEq, Eq)]
#[non_exhaustive]
#[allow(missing_docs)]
pub struct CapabilityDiff<'a> {
    pub change: Change,
    pub domain: Domain,
    pub source: &'a str,
    pub detail: &'a str,
}

/// A comparison of two modules that was accepted.
#[derive(Debug, Clone)]
pub struct Compatibility<'a> {
    export_diffs: Vec<ExportDiff<'a>>,
    capability_diffs: Vec<CapabilityDiff<'a>>,
    compatible: bool,
    reasons: Vec<String>,
}

/// Compares two modules.
pub fn compare_modules<'a>(baseline: &Module<'a>, candidate: &Module<'a>) -> Result<Compatibility<'a>> {
    let (told, out) = with_room(ROOM, |out| ffi::compare(baseline.file(), candidate.file(), out))?;
    let mut cells = Cells::of(&out, told.bytes)?;
    let export_diffs = cells.rows(told.exports, |[change, row]| {
        let change = Change::numbered(change)?;
        let export = change.side(baseline, candidate).exports().get(row).ok_or(Refusal::STRANGE)?;
        Ok(ExportDiff { change, name: export.field, kind: export.kind })
    })?;
    let capability_diffs = cells.rows(told.capabilities, |[change, domain, row]| {
        let change = Change::numbered(change)?;
        let import = change.side(baseline, candidate).imports().get(row).ok_or(Refusal::STRANGE)?;
        Ok(CapabilityDiff { change, domain: Domain::numbered(domain)?, source: import.module, detail: import.field })
    })?;
    let removed = export_diffs.iter().filter(|diff| diff.change == Change::Removed);
    let removed = removed.map(|diff| "export removed:  ()".len() + diff.name.len() + diff.kind.slug().len());
    let added = capability_diffs.iter().filter(|diff| diff.change == Change::Added);
    let added = added.map(|diff| "new capability required:  via ".len() + diff.domain.slug().len() + diff.source.len());
    let reasons = lines(cells.text(told.reasons)?, removed.chain(added))?;
    Ok(Compatibility { export_diffs, capability_diffs, compatible: told.compatible != 0, reasons })
}

/// The text cut into lines so long, each with LF after it: a name may have LF in it.
fn lines(text: &str, lengths: impl Iterator<Item = usize>) -> Result<Vec<String>> {
    let mut rest = text;
    let lines: Option<Vec<_>> = lengths
        .map(|length| {
            let line = rest.get(..length)?;
            rest = rest[length..].strip_prefix('\n')?;
            Some(line.to_string())
        })
        .collect();
    lines.filter(|_| rest.is_empty()).ok_or(Refusal::STRANGE)
}

impl<'a> Compatibility<'a> {
    /// Whether the candidate can stand in: no export was removed, and no pair of domain and source added.
    pub fn is_compatible(&self) -> bool {
        self.compatible
    }

    /// The exports that only one of both has, by name, then kind.
    pub fn export_diffs(&self) -> &[ExportDiff<'a>] {
        &self.export_diffs
    }

    /// The pairs that only one of both needs, by domain, then source.
    pub fn capability_diffs(&self) -> &[CapabilityDiff<'a>] {
        &self.capability_diffs
    }

    /// Why the candidate cannot stand in, in the original's words, as the archive writes them.
    pub fn breaking_reasons(&self) -> Vec<String> {
        self.reasons.clone()
    }
}
