//! compat.rs: what the original says of two modules, and what the port's tables 8 and 9 say, in the same words. The original has no rows:
//! docs/RULES.md says which a difference is, the next of those that are alike for an export, the lowest for a capability.
use crate::asked::{bad, WIDTH};
use crate::case::hex;
use crate::limits::module_alone;
use crate::says::{
    answered, answered_of, inside, into_room, kind_of, latin, number_of, parse, part, port_written, refused, rows_tested, zeros_to,
};
use crate::says::{DOMAINS, LONGEST_MODULE};
use original::compat::{compare_modules, CapabilityDiff, Change, Compatibility, ExportDiff};
use original::policy::requirements_from_module;
use original::wasm::{Export, ExternalKind, Import, Module};
use std::collections::HashMap;

/// The rows of tables 8 and 9.
const MOST: u64 = 2048;

/// Both modules, read into tables at their limits, and then compared. Numbers: the cells of tables 8 and 9, and the room for reasons.
pub fn files(baseline: &[u8], candidate: &[u8], n: &[u64]) -> String {
    for file in [baseline, candidate] {
        let read = if file.len() > LONGEST_MODULE { refused(14, 0) } else { module_alone(file) };
        if read.starts_with("refused") {
            return read;
        }
    }
    let read = |file: &[u8]| parse(file).expect("a module that is read");
    compared(&read(baseline), &read(candidate), n, |name| name.as_bytes().to_vec())
}

/// A module's tables handed in: the counts of tables 2 and 3, and their cells.
pub struct Handed<'a> {
    pub file: &'a [u8],
    pub counts: [u64; 2],
    pub imports: &'a [u64],
    pub exports: &'a [u64],
}

impl Handed<'_> {
    /// 15 for table 2, then for table 3.
    fn tested(&self) -> Result<(), String> {
        let out = |r: &[u64], k: usize| !inside(self.file, r[k], r[k + 1]);
        rows_tested(self.imports, WIDTH, 1024, self.counts[0], |r| bad(r) || out(r, 0) || out(r, 2))?;
        rows_tested(self.exports, 4, 1024, self.counts[1], |r| r[2] > 255 || out(r, 0))
    }

    fn module(&self) -> Module {
        let text = |r: &[u64], k: usize| latin(self.file, r[k], r[k + 1]);
        let imports = self.imports.chunks_exact(WIDTH).take(self.counts[0] as usize);
        let exports = self.exports.chunks_exact(4).take(self.counts[1] as usize);
        Module {
            imports: imports.map(|r| Import { module: text(r, 0), field: text(r, 2), kind: kind_of(r[4]) }).collect(),
            exports: exports.map(|r| Export { field: text(r, 0), kind: kind_of(r[2]), index: 0 }).collect(),
            ..Module::default()
        }
    }
}

/// Numbers: the counts of both modules' tables, how many cells the first three have, the cells.
pub fn handed<'a>(baseline: &'a [u8], candidate: &'a [u8], n: &'a [u64]) -> (Handed<'a>, Handed<'a>) {
    let (a, rest) = n[7..].split_at(n[4] as usize);
    let (b, rest) = rest.split_at(n[5] as usize);
    let (c, d) = rest.split_at(n[6] as usize);
    let first = Handed { file: baseline, counts: [n[0], n[1]], imports: a, exports: b };
    (first, Handed { file: candidate, counts: [n[2], n[3]], imports: c, exports: d })
}

/// 14 of either; 15 of the baseline's tables, then of the candidate's.
pub fn both_tested(b: &Handed, c: &Handed) -> Result<(Module, Module), String> {
    if b.file.len() > LONGEST_MODULE || c.file.len() > LONGEST_MODULE {
        return Err(refused(14, 0));
    }
    b.tested()?;
    c.tested()?;
    Ok((b.module(), c.module()))
}

/// Bytes of a `latin` String.
pub fn unlatin(name: &str) -> Vec<u8> {
    name.chars().map(|c| c as u8).collect()
}

/// Numbers: the cells of tables 8 and 9, the room for reasons, then both modules' tables.
pub fn tables(baseline: &[u8], candidate: &[u8], n: &[u64]) -> String {
    let (b, c) = handed(baseline, candidate, &n[3..]);
    match both_tested(&b, &c) {
        Ok((b, c)) => compared(&b, &c, n, unlatin),
        Err(why) => why + &zeros_to(&n[..2]),
    }
}

/// 13 of table 8, then of table 9; else both lists, each difference by its row and its content, and the reasons.
fn compared(b: &Module, c: &Module, cells: &[u64], bytes: fn(&str) -> Vec<u8>) -> String {
    let zeros = zeros_to(&cells[..2]);
    let d = compare_modules(b, "a", c, "b");
    if d.export_diffs.len() as u64 > (cells[0] / 2).min(MOST) {
        return refused(13, 8) + &zeros;
    }
    if d.capability_diffs.len() as u64 > (cells[1] / 3).min(MOST) {
        return refused(13, 9) + &zeros;
    }
    listed(b, c, &d, bytes) + &zeros + "; " + &into_room(&text_of(&d, bytes), cells[2])
}

/// A line for each reason.
pub fn text_of(d: &Compatibility, bytes: fn(&str) -> Vec<u8>) -> Vec<u8> {
    d.breaking_reasons().iter().flat_map(|r| bytes(&format!("{r}\n"))).collect()
}

pub fn listed(b: &Module, c: &Module, d: &Compatibility, bytes: fn(&str) -> Vec<u8>) -> String {
    let mut exports = [alike(b), alike(c)];
    let needs = [lowest(b), lowest(c)];
    let mut out = format!("{} {} {}", d.export_diffs.len(), d.capability_diffs.len(), d.is_compatible());
    for e in &d.export_diffs {
        let rows = exports[side(e.change)].get_mut(&(e.name.clone(), e.kind.clone())).unwrap();
        out += &format!("; {} row {} {} {}", e.change.slug(), rows.remove(0), hex(&bytes(&e.name)), e.kind);
    }
    for e in &d.capability_diffs {
        let row = needs[side(e.change)][&(number_of(e.domain), e.source.clone())];
        out += &format!("; {} row {row} {} {}", e.change.slug(), e.domain.slug(), hex(&bytes(&e.source)));
    }
    out
}

fn side(change: Change) -> usize {
    match change {
        Change::Removed => 0,
        Change::Added => 1,
    }
}

/// Of each name and kind the rows, in order.
fn alike(m: &Module) -> HashMap<(String, String), Vec<usize>> {
    let mut out: HashMap<_, Vec<usize>> = HashMap::new();
    for (i, e) in m.exports.iter().enumerate() {
        out.entry((e.field.clone(), e.kind.slug())).or_default().push(i);
    }
    out
}

/// Of each domain and source the lowest row.
fn lowest(m: &Module) -> HashMap<(usize, String), usize> {
    let mut out = HashMap::new();
    let functions = m.imports.iter().enumerate().filter(|(_, i)| i.kind == ExternalKind::Func);
    for ((i, _), r) in functions.zip(requirements_from_module(m)) {
        out.entry((number_of(r.domain), r.source)).or_insert(i);
    }
    out
}

/// Of each difference its change and row, then of an export the name's range and the kind, of a capability the domain and the source's
/// range; then the name that the port hands out for it, its length and bytes. Before them the answer on reasons, whose text is `bytes`.
pub fn port(baseline: &[u8], candidate: &[u8], t: &[u64], bytes: &[u8]) -> String {
    if t.len() == 3 {
        return answered_of(t, 3, |_| "accepted".into());
    }
    answered(&t[..5], 5, |h| {
        let mut out = format!("{} {} {}", h[2], h[3], h[4] == 1);
        let mut rest = &t[10..];
        for i in 0..h[2] + h[3] {
            if rest.len() < 6 {
                return out + "; and no more rows";
            }
            let (word, file) = match rest[0] {
                0 => ("removed", baseline),
                1 => ("added", candidate),
                _ => ("another change", candidate),
            };
            let name = part(file, rest[2], rest[3]);
            out += &if i < h[2] {
                format!("; {word} row {} {name} {}", rest[1], kind_of(rest[4]).slug())
            } else {
                format!("; {word} row {} {} {name}", rest[1], DOMAINS[rest[4] as usize % 7].slug())
            };
            let (told, later) = name_told(&rest[5..]);
            if told != name {
                out += &format!(" named {told}");
            }
            rest = later;
        }
        out
    }) + &zeros_to(&t[5..7])
        + &if t[0] == 0 { "; ".to_string() + &port_written(&t[7..10], bytes) } else { String::new() }
}

fn name_told(t: &[u64]) -> (String, &[u64]) {
    let (name, rest) = t[1..].split_at((t[0] as usize).min(t.len() - 1));
    (hex(&name.iter().map(|b| *b as u8).collect::<Vec<_>>()), rest)
}

/// Numbers: the change, the row, both counts, how many cells the baseline's table has, the cells of both. A row that is not there is empty.
pub fn name(baseline: &[u8], candidate: &[u8], n: &[u64], width: usize) -> String {
    let (first, second) = n[5..].split_at(n[4] as usize);
    let (file, cells, count) = if n[0] == 0 { (baseline, first, n[2]) } else { (candidate, second, n[3]) };
    let row = cells.chunks_exact(width).take(count.min(1024) as usize).nth(n[1].min(1024) as usize);
    row.filter(|r| inside(file, r[0], r[1])).map_or(String::new(), |r| part(file, r[0], r[1]))
}

pub fn port_name(t: &[u64]) -> String {
    name_told(t).0
}

/// Numbers: the room, the counts of tables 8 and 9, how many cells they have, their cells, then both modules' tables.
pub fn reasons(baseline: &[u8], candidate: &[u8], n: &[u64]) -> String {
    let (exports, rest) = n[5..].split_at(n[3] as usize);
    let (needs, rest) = rest.split_at(n[4] as usize);
    let (b, c) = handed(baseline, candidate, rest);
    let side = |change: u64, k: usize| if change == 0 { b.counts[k] } else { c.counts[k] };
    let tested = both_tested(&b, &c).and_then(|both| {
        rows_tested(exports, 2, MOST, n[1], |r| r[1] >= side(r[0], 1))?;
        rows_tested(needs, 3, MOST, n[2], |r| r[1] > 6 || r[2] >= side(r[0], 0))?;
        Ok(both)
    });
    let (first, second) = match tested {
        Ok(both) => both,
        Err(why) => return why + "; the rest untouched",
    };
    let of = |change: u64| if change == 0 { (Change::Removed, &first) } else { (Change::Added, &second) };
    let export_diffs = exports.chunks_exact(2).take(n[1] as usize).map(|r| {
        let (change, m) = of(r[0]);
        let e = &m.exports[r[1] as usize];
        ExportDiff { change, name: e.field.clone(), kind: e.kind.slug() }
    });
    let capability_diffs = needs.chunks_exact(3).take(n[2] as usize).map(|r| {
        let (change, m) = of(r[0]);
        CapabilityDiff { change, domain: DOMAINS[r[1] as usize], source: m.imports[r[2] as usize].module.clone() }
    });
    let d = Compatibility {
        baseline_name: String::new(),
        candidate_name: String::new(),
        export_diffs: export_diffs.collect(),
        capability_diffs: capability_diffs.collect(),
    };
    into_room(&text_of(&d, unlatin), n[0])
}
