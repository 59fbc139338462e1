//! What the original says of a case, and what the port's answer says, in the same words. Where the original has nothing to say (limits,
//! lent memory, tables that are handed in), docs/RULES.md decides, and this file says what that is.
use crate::asked::{self, Asked};
use crate::bad::{in_module, which_bad};
use crate::case::{hex, Answer, Call, Case};
use crate::cells;
use crate::compare;
use crate::places;
use crate::strict;
use original::compat::Change;
use original::error::{Error, ErrorKind};
use original::leb::Reader;
use original::policy::{self, Domain, DomainRule, Policy, Requirement};
use original::wasm::{self, ExternalKind, Import, Module};
use original::wit::{self, InterfaceRef, Manifest, World};

pub const MARK: u8 = 0xa5;
pub const LONGEST_MODULE: usize = 16_777_216;
pub const LONGEST_TEXT: usize = 65_536;
pub const DOMAINS: [Domain; 7] =
    [Domain::Filesystem, Domain::Environment, Domain::Clock, Domain::Network, Domain::Random, Domain::Stdio, Domain::Unknown];

pub fn refused(number: u64, place: u64) -> String {
    format!("refused {number} at {place}")
}

pub fn original_says(case: &Case) -> String {
    let n = &case.numbers;
    let s = |i: usize| &case.strings[i][..];
    match case.call {
        Call::Uleb128 => read(s(0), n[0], |r| r.uleb128().map(|v| v.to_string())),
        Call::Uleb128U32 => read(s(0), n[0], |r| r.uleb128_u32().map(|v| v.to_string())),
        Call::Sleb128 => read_number(s(0), n[0], true, |r| r.sleb128().map(|v| v.to_string())),
        Call::Name => read(s(0), n[0], |r| r.name().map(|v| hex(v.as_bytes()))),
        Call::Module => crate::limits::module(s(0), [n[0], n[1], n[2], n[3]]),
        Call::Functions => kinds(n, Module::imported_functions),
        Call::Memories => kinds(n, Module::imported_memories),
        Call::Namespaces => namespaces(s(0), n),
        Call::Policy => policy_read(s(0)),
        Call::Token => token(s(0), n),
        Call::Write => written(s(0), &n[1..], n[0]),
        Call::Evaluate | Call::EvaluateRecords => evaluated(n),
        Call::Import => classified(s(0), s(1)).to_string(),
        Call::Path => classified_path(s(0)).to_string(),
        Call::Rewrite => rewritten(s(0), n[0]),
        Call::Manifest => crate::limits::manifest(s(0), [n[0], n[1]]),
        Call::Requirements => requirements(s(0), n),
        Call::AllImports => paths(s(0), n, false),
        Call::AllExports => paths(s(0), n, true),
        Call::Check => checked(s(0), s(1)),
        Call::Needs => needs(s(0), n),
        Call::Compare => compare::files(s(0), s(1), n),
        Call::Differences => compare::tables(s(0), s(1), n),
        Call::ExportName => compare::name(s(0), s(1), n, 4),
        Call::SourceName => compare::name(s(0), s(1), n, asked::WIDTH),
        Call::Reasons => compare::reasons(s(0), s(1), n),
        Call::CModule => cells::module(s(0), n[0]),
        Call::CManifest => cells::manifest(s(0), n[0]),
        Call::CCompare => cells::compare(s(0), s(1), n[0]),
        Call::CTokens => cells::tokens(s(0), n[1], n[0]),
        Call::Strict => strict::module(s(0), [n[0], n[1], n[2], n[3]]),
        Call::CStrict => strict::answer(s(0)),
        Call::U8 => read(s(0), n[0], |r| r.u8().map(|v| v.to_string())),
        Call::U32Le => read(s(0), n[0], |r| r.u32_le().map(|v| v.to_string())),
        Call::Take => taken(s(0), n[0], n[1], |r, k| r.take(k).map(hex)),
        Call::Skip => taken(s(0), n[0], n[1], |r, k| r.skip(k).map(|()| String::new())),
        Call::Left => left(s(0), n[0]),
        Call::Kind => format!("{} {}", n[0], hex(kind_of(n[0]).slug().as_bytes())),
        Call::Section => hex(wasm::section_name(n[0] as u8).as_bytes()),
        Call::ChangeWord => hex([Change::Removed, Change::Added][(n[0] != 0) as usize].slug().as_bytes()),
    }
}

/// The original alone, without what docs/RULES.md adds: limits, whole texts, cursors past the end, places that it does not tell.
pub fn alone(case: &Case) -> String {
    let n = &case.numbers;
    let s = |i: usize| &case.strings[i][..];
    match case.call {
        Call::Uleb128 => moved(s(0), n[0], |r| r.uleb128().map(|v| v.to_string())),
        Call::Uleb128U32 => moved(s(0), n[0], |r| r.uleb128_u32().map(|v| v.to_string())),
        Call::Take if n[0] > s(0).len() as u64 => "cannot be asked: its reader does not stand past the end".into(),
        Call::Module => match parse(s(0)) {
            Err(e) if e.offset().is_none() => format!("refused without an offset: {e}"),
            Err(e) => error_says(&e, one_kind),
            Ok(m) => module_told(&m, &[]),
        },
        Call::Policy => policy_alone(s(0)),
        Call::Manifest => of_text(s(0), |t| manifest_says(&wit::parse(t))),
        _ => original_says(case),
    }
}

fn of_text(s: &[u8], says: impl Fn(&str) -> String) -> String {
    std::str::from_utf8(s).map_or("cannot be asked: it takes text that is UTF-8 already".into(), says)
}

pub fn port_says(case: &Case, a: &Answer) -> String {
    let t = &a.numbers;
    let s = |i: usize| &case.strings[i][..];
    match case.call {
        Call::Uleb128 | Call::Uleb128U32 => port_read(t, |t| t[2].to_string()),
        Call::Sleb128 => port_read(t, |t| (t[2] as i64).to_string()),
        Call::Name => port_read(t, |t| part(s(0), t[2], t[3])),
        Call::Module | Call::Strict => port_module(s(0), t),
        Call::Functions | Call::Memories => answered(t, 3, |t| t[2].to_string()),
        Call::Namespaces | Call::AllImports | Call::AllExports => port_listed(t),
        Call::Policy => port_policy(s(0), t),
        Call::Token => answered(t, 6, |t| format!("{} {} {} {}", t[2], t[3], t[4], t[5])),
        Call::Write | Call::Rewrite => port_written(t, &a.bytes),
        Call::Evaluate | Call::EvaluateRecords | Call::Check => {
            answered_of(t, 27, |t| format!("{:?} {} {} {}", &t[2..23], t[23], t[24], t[25]))
        }
        Call::Import | Call::Path => t[0].to_string(),
        Call::Manifest => port_manifest(s(0), t),
        Call::Requirements | Call::Needs => port_requirements(t),
        Call::Compare | Call::Differences => compare::port(s(0), s(1), t, &a.bytes),
        Call::Reasons => port_written(t, &a.bytes),
        Call::CModule => cells::port_module(s(0), t, &a.bytes),
        Call::CManifest => cells::port_manifest(s(0), t, &a.bytes),
        Call::CCompare => cells::port_compare(s(0), s(1), t, &a.bytes),
        Call::CTokens => cells::port_tokens(s(0), t, &a.bytes),
        Call::CStrict => answered_of(t, 3, |_| strict::ACCEPTED.into()),
        Call::ExportName | Call::SourceName | Call::Section | Call::ChangeWord => compare::port_name(t),
        Call::U8 | Call::U32Le => port_read(t, |t| t[2].to_string()),
        Call::Take => port_read(t, |t| part(s(0), t[2], t[3])),
        Call::Skip => port_read(t, |_| String::new()),
        Call::Left => format!("at {} left {} none {}", t[0], t[1], t[2] == 1),
        Call::Kind => format!("{} {}", t[0], compare::port_name(&t[1..])),
    }
}

/// An answer of number, place and values: refused, every value is zero.
pub fn answered(t: &[u64], len: usize, values: impl Fn(&[u64]) -> String) -> String {
    if t.len() != len {
        return format!("an answer of {} numbers", t.len());
    }
    match t[0] {
        0 if t[1] == 0 => values(t),
        0 => format!("accepted at {}", t[1]),
        _ if t[2..].iter().any(|v| *v != 0) => format!("{} with values {:?}", refused(t[0], t[1]), &t[2..]),
        _ => refused(t[0], t[1]),
    }
}

/// An answer for a module, whose last number is the offset: it comes beside 5, and is 0 for any other.
pub fn answered_of(t: &[u64], len: usize, values: impl Fn(&[u64]) -> String) -> String {
    let Some((offset, told)) = t.split_last() else { return "an answer of no number".into() };
    let said = answered(told, len - 1, values);
    match (told.first(), offset) {
        (Some(5), offset) => beside(&said, *offset),
        (_, 0) => said,
        (_, offset) => format!("{said} with offset {offset}"),
    }
}

/// A refusal of 5 with the offset of its byte.
fn beside(said: &str, offset: u64) -> String {
    format!("{said}, offset {offset}")
}

/// The bytes of a range that the port gave.
pub fn part(s: &[u8], from: u64, len: u64) -> String {
    match from.checked_add(len) {
        Some(end) if end <= s.len() as u64 => hex(&s[from as usize..end as usize]),
        _ => format!("a range {from}, {len} outside"),
    }
}

// ---- cursor

/// A refusal by the original; of a number that is bad, the judge's own rule says which of 17, 18 and 19 it is.
fn error_says(e: &Error, bad: impl Fn() -> Option<u64>) -> String {
    let number = match e.kind() {
        ErrorKind::UnexpectedEof => 1,
        ErrorKind::BadMagic => 2,
        ErrorKind::BadLeb128 => match bad() {
            Some(which) => which,
            None => return format!("another error: {e}"),
        },
        ErrorKind::BadUtf8 => 4,
        ErrorKind::MalformedSection => 5,
        _ => return format!("another error: {e}"),
    };
    if let Some(offset) = e.offset() {
        return refused(number, offset as u64);
    }
    // an import kind has no offset in the original, and its byte in the message
    let text = e.to_string();
    let kind = text.split("kind byte 0x").nth(1).and_then(|t| u64::from_str_radix(t, 16).ok());
    kind.map_or(format!("another error: {e}"), |k| refused(number, k))
}

fn read(s: &[u8], at: u64, f: impl Fn(&mut Reader) -> original::error::Result<String>) -> String {
    read_number(s, at, false, f)
}

fn read_number(s: &[u8], at: u64, signed: bool, f: impl Fn(&mut Reader) -> original::error::Result<String>) -> String {
    // the original's reader cannot stand past the end
    if at > s.len() as u64 {
        return refused(1, at);
    }
    let mut r = Reader::new(s);
    r.skip(at as usize).unwrap();
    match f(&mut r) {
        Ok(v) => format!("{v} next {}", r.position()),
        Err(e) => error_says(&e, || Some(which_bad(&s[at as usize..], signed))),
    }
}

/// The original's own kind of a bad number, which docs/RULES.md tells apart.
fn one_kind() -> Option<u64> {
    Some(3)
}

/// The same by the original alone, and where the reader stands after a refusal.
fn moved(s: &[u8], at: u64, f: impl Fn(&mut Reader) -> original::error::Result<String>) -> String {
    let mut r = Reader::new(s);
    r.skip(at as usize).unwrap();
    match f(&mut r) {
        Ok(v) => format!("{v} next {}", r.position()),
        Err(e) => format!("{}, and its reader stands at {}", error_says(&e, one_kind), r.position()),
    }
}

/// So many bytes on: a sum beyond the address range is told where the reader stands, in the original too.
fn taken(s: &[u8], at: u64, n: u64, f: impl Fn(&mut Reader, usize) -> original::error::Result<String>) -> String {
    read(s, at, |r| f(r, n as usize))
}

/// The original's reader cannot stand past the end, where nothing is left.
fn left(s: &[u8], at: u64) -> String {
    if at > s.len() as u64 {
        return format!("at {at} left 0 none true");
    }
    let mut r = Reader::new(s);
    r.skip(at as usize).unwrap();
    format!("at {} left {} none {}", r.position(), r.remaining(), r.is_empty())
}

fn port_read(t: &[u64], value: impl Fn(&[u64]) -> String) -> String {
    answered(t, t.len(), |t| format!("{} next {}", value(t), t[t.len() - 1]))
}

// ---- module

fn kind_byte(kind: ExternalKind) -> u8 {
    match kind {
        ExternalKind::Func => 0,
        ExternalKind::Table => 1,
        ExternalKind::Memory => 2,
        ExternalKind::Global => 3,
        ExternalKind::Other(b) => b,
    }
}

/// The original's refusal of a file. Its offset is of what its reader was given: the start of that is added.
fn from_byte_0(file: &[u8], e: &Error) -> String {
    let said = error_says(e, || in_module(file));
    match e.offset() {
        Some(offset) => said.replace(&format!(" at {offset}"), &format!(" at {}", places::start(file) + offset)),
        None => places::kind(file).map_or(format!("no kind byte is found: {said}"), |at| beside(&said, at as u64)),
    }
}

pub fn module_says(file: &[u8]) -> String {
    match parse(file) {
        Ok(m) => module_told(&m, &Asked::of(file)),
        Err(e) => from_byte_0(file, &e),
    }
}

/// A module in words; each import with what it asks for, or none of them.
fn module_told(m: &Module, asked: &[Asked]) -> String {
    let mut out = format!("version {} length {} name ", m.version, m.byte_len);
    out += &m.module_name.as_ref().map_or("none".into(), |n| format!("={}", hex(n.as_bytes())));
    for s in &m.sections {
        out += &format!("; section {} {} {} {}", s.id, s.offset, s.size, hex(s.custom_name.as_bytes()));
    }
    for (n, i) in m.imports.iter().enumerate() {
        out += &format!("; import {} {} {}", hex(i.module.as_bytes()), hex(i.field.as_bytes()), kind_byte(i.kind));
        out += &asked.get(n).map_or(String::new(), |a| asks(&a.cells()));
    }
    for e in &m.exports {
        out += &format!("; export {} {} {}", hex(e.field.as_bytes()), kind_byte(e.kind), e.index);
    }
    for (index, name) in &m.function_names {
        out += &format!("; symbol {index} {}", hex(name.as_bytes()));
    }
    out
}

/// Cells 5 to 11 of an import.
fn asks(cells: &[u64]) -> String {
    format!(" asks {cells:?}")
}

/// The rows of the tables as told: cells, then where the first cell is that is not zero.
fn tables<'a>(mut t: &'a [u64], widths: &[usize]) -> (Vec<std::slice::ChunksExact<'a, u64>>, Vec<u64>) {
    let (mut rows, mut zeros) = (Vec::new(), Vec::new());
    for w in widths {
        let n = t[0] as usize;
        rows.push(t[1..1 + n].chunks_exact(*w));
        zeros.push(t[1 + n]);
        t = &t[2 + n..];
    }
    (rows, zeros)
}

pub fn port_module(s: &[u8], t: &[u64]) -> String {
    let (rows, zeros) = tables(&t[12..], &[5, asked::WIDTH, 4, 3]);
    let mut out = answered_of(&t[..12], 12, |t| {
        let mut out = format!("version {} length {} name ", t[2], t[3]);
        out += &match (t[4], t[5], t[6]) {
            (0, 0, 0) => "none".into(),
            (1, from, len) => format!("={}", part(s, from, len)),
            other => format!("{other:?}"),
        };
        for r in rows[0].clone() {
            out += &format!("; section {} {} {} {}", r[0], r[1], r[2], part(s, r[3], r[4]));
            if r[0] != 0 && (r[3], r[4]) != (0, 0) {
                out += " with a range";
            }
        }
        for r in rows[1].clone() {
            out += &format!("; import {} {} {}{}", part(s, r[0], r[1]), part(s, r[2], r[3]), r[4], asks(&r[asked::FIRST..]));
        }
        for r in rows[2].clone() {
            out += &format!("; export {} {} {}", part(s, r[0], r[1]), r[2], r[3]);
        }
        for r in rows[3].clone() {
            out += &format!("; symbol {} {}", r[0], part(s, r[1], r[2]));
        }
        out
    });
    // every cell past the rows is zero; how many cells there are was the case's to say
    out += &format!("; zeros to {zeros:?}");
    out
}

/// The words for lent tables that are zero past the rows, as `port_module` puts them.
pub fn zeros_to(cells: &[u64]) -> String {
    format!("; zeros to {cells:?}")
}

// ---- tables handed in

pub fn kind_of(byte: u64) -> ExternalKind {
    match byte {
        0 => ExternalKind::Func,
        1 => ExternalKind::Table,
        2 => ExternalKind::Memory,
        3 => ExternalKind::Global,
        b => ExternalKind::Other(b as u8),
    }
}

/// 15 for table 2: of a row its kind and descriptor, and what else is bad, its ranges where there is a file.
fn imports_tested(cells: &[u64], n: u64, bad: impl Fn(&[u64]) -> bool) -> Option<String> {
    rows_tested(cells, asked::WIDTH, 1024, n, |r| asked::bad(r) || bad(r)).err()
}

fn kinds(numbers: &[u64], count: impl Fn(&Module) -> usize) -> String {
    let (n, cells) = (numbers[0], &numbers[1..]);
    imports_tested(cells, n, |_| false).unwrap_or_else(|| {
        let rows = cells.chunks_exact(asked::WIDTH).take(n as usize);
        let imports = rows.map(|r| Import { module: String::new(), field: String::new(), kind: kind_of(r[4]) }).collect();
        count(&Module { imports, ..Module::default() }).to_string()
    })
}

pub fn inside(s: &[u8], from: u64, len: u64) -> bool {
    from.checked_add(len).is_some_and(|end| end <= s.len() as u64)
}

/// Bytes as a String whose order is that of the bytes: the original compares Strings, and a range need not be UTF-8.
pub fn latin(s: &[u8], from: u64, len: u64) -> String {
    s[from as usize..(from + len) as usize].iter().map(|b| *b as char).collect()
}

fn namespaces(file: &[u8], numbers: &[u64]) -> String {
    let (room, n, cells) = (numbers[0], numbers[1], &numbers[2..]);
    let bad = |r: &[u64]| !inside(file, r[0], r[1]) || !inside(file, r[2], r[3]);
    let mut out = if file.len() > LONGEST_MODULE {
        refused(14, 0)
    } else if let Some(bad) = imports_tested(cells, n, bad) {
        bad
    } else {
        let rows = cells.chunks_exact(asked::WIDTH).take(n as usize);
        let imports = rows.map(|r| Import { module: latin(file, r[0], r[1]), field: String::new(), kind: kind_of(r[4]) });
        let m = Module { imports: imports.collect(), ..Module::default() };
        let names = m.import_namespaces();
        let lowest = |name: &String| m.imports.iter().position(|i| i.module == *name).unwrap();
        if names.len() as u64 > room.min(1024) {
            refused(13, 15)
        } else {
            format!("{}: {:?}", names.len(), names.iter().map(lowest).collect::<Vec<_>>())
        }
    };
    out += &zeros_to(&[room]);
    out
}

fn port_listed(t: &[u64]) -> String {
    let (rows, zeros) = tables(&t[3..], &[1]);
    let listed: Vec<u64> = rows[0].clone().map(|r| r[0]).collect();
    answered(&t[..3], 3, |t| format!("{}: {listed:?}", t[2])) + &zeros_to(&zeros)
}

// ---- policies

/// 14, then 4 over the whole text.
pub fn whole(text: &[u8]) -> Result<&str, String> {
    if text.len() > LONGEST_TEXT {
        return Err(refused(14, 0));
    }
    std::str::from_utf8(text).map_err(|e| refused(4, e.valid_up_to() as u64))
}

/// The original's words for each fault of a line, after `line N: `.
const FAULTS: [(u64, &str); 8] = [
    (6, "unrecognized policy directive '"),
    (6, "unrecognized directive '"),
    (7, "default must be allow|deny, got '"),
    (8, "unknown capability domain '"),
    (9, "'package' cannot appear inside a world"),
    (10, "world requires a name"),
    (11, "unmatched '}'"),
    (12, "import/export outside of a world"),
];

fn line_error(e: &Error) -> String {
    let text = e.to_string();
    let told = text.strip_prefix("[bad-manifest] line ").and_then(|t| t.split_once(": "));
    let fault = told.and_then(|(_, words)| FAULTS.iter().find(|f| words.starts_with(f.1)));
    match (told.and_then(|t| t.0.parse().ok()), fault) {
        (Some(line), Some(fault)) => refused(fault.0, line),
        _ => format!("another error: {text}"),
    }
}

fn parsed(text: &[u8]) -> Result<Policy, String> {
    Policy::parse(whole(text)?).map_err(|e| line_error(&e))
}

/// The original alone, whatever the text's length.
pub fn policy_alone(text: &[u8]) -> String {
    of_text(text, |t| Policy::parse(t).map_or_else(|e| line_error(&e), |p| policy_says(&p)))
}

fn policy_read(text: &[u8]) -> String {
    parsed(text).map_or_else(|why| why, |p| policy_says(&p))
}

fn policy_says(p: &Policy) -> String {
    let mut out = format!("name {} default {}", hex(p.name.as_bytes()), p.default_allow);
    for (d, domain) in DOMAINS.iter().enumerate() {
        let Some(rule) = p.rules.get(domain) else { continue };
        let tokens: Vec<String> = rule.allow_list.iter().map(|t| hex(t.as_bytes())).collect();
        out += &format!("; {d} {} {tokens:?}", rule.allow);
    }
    out
}

/// The tokens of a domain's rule; none of a domain that has no rule, and of a number that is no domain's.
pub fn tokens_of(text: &[u8], domain: u64) -> Result<Vec<String>, String> {
    let p = parsed(text)?;
    let rule = DOMAINS.get(domain as usize).and_then(|d| p.rules.get(d));
    Ok(rule.map_or(Vec::new(), |r| r.allow_list.iter().map(|t| hex(t.as_bytes())).collect()))
}

fn port_policy(s: &[u8], t: &[u64]) -> String {
    if t[0] != 0 {
        return answered(t, 27, |_| String::new());
    }
    let name = match (t[2], t[3], t[4]) {
        (0, 0, 0) => hex(b"default-deny"),
        (1, from, len) => part(s, from, len),
        other => format!("{other:?}"),
    };
    let mut out = format!("name {name} default {}", t[5] == 1);
    let mut rest = &t[27..];
    for d in 0..7 {
        let count = rest[0] as usize;
        let tokens: Vec<String> = rest[1..1 + 2 * count].chunks_exact(2).map(|r| part(s, r[0], r[1])).collect();
        rest = &rest[1 + 2 * count..];
        let rule = &t[6 + 3 * d..9 + 3 * d];
        match rule[0] {
            0 if rule == [0, 0, 0] && count == 0 => continue,
            stance => out += &format!("; {d} {} {tokens:?}", stance == 1),
        }
    }
    out
}

/// A policy handed in as 25 cells: named, start, size, permit, then stance, from, len of each rule.
struct Cells<'a>(&'a [u64]);

impl Cells<'_> {
    fn rule(&self, d: usize) -> (u64, u64, u64) {
        (self.0[4 + 3 * d], self.0[5 + 3 * d], self.0[6 + 3 * d])
    }

    /// 14, 4, then 15: rows 0 to 6 are the rules' ranges, 7 is the name's.
    fn tested<'t>(&self, text: &'t [u8]) -> Result<&'t str, String> {
        let s = whole(text)?;
        let ranges = (0..7).map(|d| (self.rule(d).1, self.rule(d).2)).chain([(self.0[1], self.0[2])]);
        for (row, (from, len)) in ranges.enumerate() {
            if !inside(text, from, len) {
                return Err(refused(15, row as u64));
            }
        }
        Ok(s)
    }

    /// The tokens of a domain's list, as the original splits and trims them: each with its offset and the offset after its comma.
    fn tokens<'t>(&self, s: &'t str, d: usize, from: u64) -> Vec<(usize, &'t str, usize)> {
        let (stance, start, len) = self.rule(d);
        let (start, len) = if stance == 0 { (0, 0) } else { (start, len) };
        let end = (start + len) as usize;
        let mut at = from.clamp(start, start + len) as usize;
        let mut out = Vec::new();
        while at < end {
            let part = s[at..end].split(',').next().unwrap();
            let comma = at + part.len();
            let token = part.trim();
            if !token.is_empty() {
                out.push((at + (part.len() - part.trim_start().len()), token, (comma + 1).min(end)));
            }
            at = comma + 1;
        }
        out
    }

    fn policy(&self) -> Policy {
        let mut p = Policy { default_allow: self.0[3] != 0, ..Policy::default() };
        for (d, domain) in DOMAINS.iter().enumerate() {
            if self.rule(d).0 != 0 {
                p.rules.insert(*domain, DomainRule { allow: self.rule(d).0 == 1, allow_list: Vec::new() });
            }
        }
        p
    }
}

fn token(text: &[u8], n: &[u64]) -> String {
    let (domain, from, cells) = (n[0], n[1], Cells(&n[2..]));
    let s = match cells.tested(text) {
        Ok(s) => s,
        Err(why) => return why,
    };
    match cells.tokens(s, domain as usize, from).first() {
        Some((at, token, next)) => format!("1 {at} {} {next}", token.len()),
        None => "0 0 0 0".into(),
    }
}

/// docs/RULES.md, "Policy writer".
fn form(name: &str, permit: bool, rules: &[Option<(bool, Vec<&str>)>]) -> String {
    let stance = |allow: bool| if allow { "allow" } else { "deny" };
    let mut out = format!("policy \"{name}\"\ndefault {}\n", stance(permit));
    for (rule, domain) in rules.iter().zip(DOMAINS) {
        let Some((allow, tokens)) = rule else { continue };
        out += &format!("{} {}", stance(*allow), domain.slug());
        if !tokens.is_empty() {
            out += &format!(": {}", tokens.join(", "));
        }
        out.push('\n');
    }
    out
}

/// The text in so much room, and what the lent bytes hold after it.
pub fn into_room(text: &[u8], room: u64) -> String {
    if text.len() as u64 > room {
        return refused(16, text.len() as u64) + "; the rest untouched";
    }
    format!("{}: {}; the rest untouched", text.len(), hex(text))
}

fn written(text: &[u8], cells: &[u64], room: u64) -> String {
    let cells = Cells(cells);
    let s = match cells.tested(text) {
        Ok(s) => s,
        Err(why) => return why + "; the rest untouched",
    };
    let rule = |d: usize| {
        let tokens = cells.tokens(s, d, 0).iter().map(|t| t.1).collect();
        (cells.rule(d).0 != 0).then(|| (cells.rule(d).0 == 1, tokens))
    };
    let (named, start, end) = (cells.0[0] != 0, cells.0[1] as usize, (cells.0[1] + cells.0[2]) as usize);
    let name = if named { &s[start..end] } else { "default-deny" };
    into_room(form(name, cells.0[3] != 0, &(0..7).map(rule).collect::<Vec<_>>()).as_bytes(), room)
}

fn rewritten(text: &[u8], room: u64) -> String {
    let p = match parsed(text) {
        Ok(p) => p,
        Err(why) => return why + "; the rest untouched",
    };
    let rule = |d: &Domain| p.rules.get(d).map(|r| (r.allow, r.allow_list.iter().map(|t| &t[..]).collect()));
    let out = form(&p.name, p.default_allow, &DOMAINS.iter().map(rule).collect::<Vec<_>>());
    // what is written reads back as what was read
    if out.len() <= LONGEST_TEXT && Policy::parse(&out).ok() != Some(p) {
        return format!("the original does not read {out:?} back");
    }
    into_room(out.as_bytes(), room)
}

pub fn port_written(t: &[u64], bytes: &[u8]) -> String {
    let used = if t[0] == 0 { t[2] as usize } else { 0 };
    let rest = if bytes.get(used..).is_some_and(|r| r.iter().all(|b| *b == MARK)) { "untouched" } else { "changed" };
    answered(t, 3, |t| format!("{}: {}", t[2], part(bytes, 0, t[2]))) + "; the rest " + rest
}

// ---- domains

pub fn number_of(d: Domain) -> usize {
    DOMAINS.iter().position(|x| *x == d).unwrap()
}

fn evaluated(n: &[u64]) -> String {
    let (count, rows) = (n[0], &n[2..2 + n[1] as usize]);
    let room = (rows.len() as u64).min(1024);
    if count > room {
        return refused(15, room);
    }
    if let Some(row) = rows[..count as usize].iter().position(|d| *d > 6) {
        return refused(15, row as u64);
    }
    let required = |d: &u64| Requirement { domain: DOMAINS[*d as usize], source: String::new(), detail: String::new() };
    let list: Vec<Requirement> = rows[..count as usize].iter().map(required).collect();
    evaluation_says(&policy::evaluate(&list, &Cells(&n[2 + n[1] as usize..]).policy()))
}

fn evaluation_says(e: &policy::Evaluation) -> String {
    let told: Vec<u64> = e.verdicts.iter().flat_map(|v| [v.required as u64, v.allowed as u64, v.requirements.len() as u64]).collect();
    let set: u64 = e.violations().iter().map(|d| 1u64 << number_of(*d)).sum();
    format!("{told:?} {set} {} {}", e.violations().len(), e.is_compliant() as u64)
}

/// 14 of either and 4 of the policy first, then what refuses the module, then what refuses the policy.
fn checked(file: &[u8], text: &[u8]) -> String {
    if file.len() > LONGEST_MODULE {
        return refused(14, 0);
    }
    let s = match whole(text) {
        Ok(s) => s,
        Err(why) => return why,
    };
    let read = crate::limits::module_alone(file);
    if read.starts_with("refused") {
        return read;
    }
    let m = parse(file).expect("a module that is read");
    Policy::parse(s).map_or_else(|e| line_error(&e), |p| evaluation_says(&policy::evaluate(&policy::requirements_from_module(&m), &p)))
}

fn classified(source: &[u8], field: &[u8]) -> usize {
    let text = |s: &[u8]| String::from_utf8(s.to_vec()).expect("names are UTF-8");
    let import = Import { module: text(source), field: text(field), kind: ExternalKind::Func };
    number_of(policy::requirements_from_module(&Module { imports: vec![import], ..Module::default() })[0].domain)
}

fn classified_path(path: &[u8]) -> usize {
    let path = String::from_utf8(path.to_vec()).expect("paths are UTF-8");
    let import = original::wit::InterfaceRef { path, signature: None };
    let world = original::wit::World { name: "w".into(), imports: vec![import], exports: Vec::new() };
    number_of(policy::requirements_from_manifest(&original::wit::Manifest { package: None, worlds: vec![world] })[0].domain)
}

pub fn parse(file: &[u8]) -> original::error::Result<Module> {
    wasm::parse(file)
}

// ---- manifests

pub fn manifest_says(read: &original::error::Result<Manifest>) -> String {
    let m = match read {
        Ok(m) => m,
        Err(e) => return line_error(e),
    };
    let mut out = format!("package {}", m.package.as_ref().map_or("none".into(), |p| format!("={}", hex(p.as_bytes()))));
    for w in &m.worlds {
        out += &format!("; world {}", hex(w.name.as_bytes()));
        for (word, list) in [("import", &w.imports), ("export", &w.exports)] {
            for r in list {
                let signature = r.signature.as_ref().map_or("none".into(), |s| format!("={}", hex(s.as_bytes())));
                out += &format!(", {word} {} {signature}", hex(r.path.as_bytes()));
            }
        }
    }
    out
}

pub fn port_manifest(s: &[u8], t: &[u64]) -> String {
    let (rows, zeros) = tables(&t[7..], &[2, 7]);
    let marked = |mark: u64, from: u64, len: u64| match (mark, from, len) {
        (0, 0, 0) => "none".into(),
        (1, from, len) => format!("={}", part(s, from, len)),
        other => format!("{other:?}"),
    };
    let said = answered(&t[..7], 7, |t| {
        let mut out = format!("package {}", marked(t[2], t[3], t[4]));
        for (i, w) in rows[0].clone().enumerate() {
            out += &format!("; world {}", part(s, w[0], w[1]));
            for (word, direction) in [("import", 0), ("export", 1)] {
                for r in rows[1].clone().filter(|r| r[0] == i as u64 && r[1] == direction) {
                    out += &format!(", {word} {} {}", part(s, r[2], r[3]), marked(r[4], r[5], r[6]));
                }
            }
        }
        let stray = rows[1].clone().filter(|r| r[0] >= t[5] || r[1] > 1).count();
        let sorted = rows[1].clone().zip(rows[1].clone().skip(1)).all(|(a, b)| a[0] <= b[0] && a[2] <= b[2]);
        match (stray, sorted) {
            (0, true) => out,
            _ => out + " with rows of no world or not in the text's order",
        }
    });
    said + &zeros_to(&zeros)
}

/// Tables 5 and 6 handed in: both counts, how many cells table 5 has, the cells of both.
struct References<'a> {
    rows: Vec<&'a [u64]>,
    text: &'a [u8],
}

/// 14 and 4; 15 for table 5, then for table 6.
fn references<'a>(text: &'a [u8], n: &'a [u64]) -> Result<References<'a>, String> {
    let (n5, n6) = (n[0], n[1]);
    let (worlds, references) = n[3..].split_at(n[2] as usize);
    whole(text)?;
    rows_tested(worlds, 2, 64, n5, |r| !inside(text, r[0], r[1]))?;
    rows_tested(references, 7, 1024, n6, |r| r[0] >= n5 || !inside(text, r[2], r[3]) || !inside(text, r[5], r[6]))?;
    Ok(References { rows: references.chunks_exact(7).take(n6 as usize).collect(), text })
}

/// 15: the capacity if the count exceeds it, else the first row that is bad.
pub fn rows_tested(cells: &[u64], width: usize, limit: u64, count: u64, bad: impl Fn(&[u64]) -> bool) -> Result<(), String> {
    let room = ((cells.len() / width) as u64).min(limit);
    if count > room {
        return Err(refused(15, room));
    }
    cells.chunks_exact(width).take(count as usize).position(bad).map_or(Ok(()), |row| Err(refused(15, row as u64)))
}

impl References<'_> {
    fn path(&self, r: &[u64]) -> String {
        latin(self.text, r[2], r[3])
    }

    fn manifest(&self) -> Manifest {
        let side = |wanted: bool| {
            let rows = self.rows.iter().filter(|r| (r[1] != 0) == wanted);
            rows.map(|r| InterfaceRef { path: self.path(r), signature: None }).collect()
        };
        Manifest { package: None, worlds: vec![World { name: String::new(), imports: side(false), exports: side(true) }] }
    }

    fn lowest(&self, path: &str, exported: bool) -> usize {
        self.rows.iter().position(|r| (r[1] != 0) == exported && self.path(r) == path).unwrap()
    }
}

/// The room, then the tables.
fn paths(text: &[u8], n: &[u64], exports: bool) -> String {
    let room = n[0];
    let said = references(text, &n[1..]).map(|t| {
        let m = t.manifest();
        let names = if exports { m.all_exports() } else { m.all_imports() };
        if names.len() as u64 > room.min(1024) {
            return refused(13, 15);
        }
        format!("{}: {:?}", names.len(), names.iter().map(|name| t.lowest(name, exports)).collect::<Vec<_>>())
    });
    said.unwrap_or_else(|why| why) + &zeros_to(&[room])
}

/// The room of both columns of table 7, then the tables.
fn needs(text: &[u8], n: &[u64]) -> String {
    let columns = &n[..2];
    let said = references(text, &n[2..]).map(|t| {
        let asked = policy::requirements_from_manifest(&t.manifest());
        if asked.len() as u64 > columns[0].min(columns[1]).min(1024) {
            return refused(13, 7);
        }
        let domains: Vec<usize> = asked.iter().map(|r| number_of(r.domain)).collect();
        let rows: Vec<usize> = asked.iter().map(|r| t.lowest(&r.source, false)).collect();
        format!("{} {domains:?} {rows:?}", asked.len())
    });
    said.unwrap_or_else(|why| why) + &zeros_to(columns)
}

// ---- requirements

fn requirements(file: &[u8], numbers: &[u64]) -> String {
    let (columns, n, cells) = (&numbers[..2], numbers[2], &numbers[3..]);
    let room = columns[0].min(columns[1]).min(1024);
    let bad = |r: &[u64]| !inside(file, r[0], r[1]) || !inside(file, r[2], r[3]);
    let said = if file.len() > LONGEST_MODULE {
        refused(14, 0)
    } else if let Some(bad) = imports_tested(cells, n, bad) {
        bad
    } else {
        let rows = cells.chunks_exact(asked::WIDTH).take(n as usize);
        let import = |r: &[u64]| Import { module: latin(file, r[0], r[1]), field: latin(file, r[2], r[3]), kind: kind_of(r[4]) };
        let m = Module { imports: rows.clone().map(import).collect(), ..Module::default() };
        let domains: Vec<usize> = policy::requirements_from_module(&m).iter().map(|r| number_of(r.domain)).collect();
        let listed: Vec<usize> = rows.enumerate().filter(|(_, r)| r[4] == 0).map(|(i, _)| i).collect();
        if domains.len() as u64 > room {
            refused(13, 7)
        } else {
            format!("{} {domains:?} {listed:?}", domains.len())
        }
    };
    said + &zeros_to(columns)
}

fn port_requirements(t: &[u64]) -> String {
    let (rows, zeros) = tables(&t[3..], &[1, 1]);
    let column = |k: usize| rows[k].clone().map(|r| r[0]).collect::<Vec<u64>>();
    answered(&t[..3], 3, |t| format!("{} {:?} {:?}", t[2], column(0), column(1))) + &zeros_to(&zeros)
}
