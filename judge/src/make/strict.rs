//! Strict reading: modules that break each rule in each of its places, that nearly do, and that break several at once.
use super::damaged;
use super::modules::{hear, plain, small, FULL, HEADER, ROOMY};
use crate::asked::WIDTH;
use crate::random::Random;
use crate::strict;
use crate::Court;

/// The sections but for custom ones, in the specification's order.
const ORDER: [u8; 12] = [1, 2, 3, 4, 5, 6, 7, 8, 9, 12, 10, 11];
/// Bytes that a number of seven bytes could stand in, where nothing is read.
const LONG: &[u8] = b"\x80\x80\x80\x80\x80\x80\x00";
const LONG_SECTION: &[u8] = b"\x00\x81\x80\x80\x80\x80\x00\x00";

pub fn fixed(court: &mut Court) {
    worked(court);
    widths(court);
    order(court);
    unused(court);
    names(court);
    looked(court);
    full_tables(court);
    flags(court);
    unread(court);
    together(court);
    rooms(court);
}

/// The design's worked cases, each with its answer.
const WORKED: [(&str, &str, &str); 23] = [
    ("R02-1", "H", "accepted"),
    ("R02-3", "H 01 80 80 80 80 80 00", "refused 20 at 2"),
    ("R02-5", "H 0d 00", "refused 20 at 3"),
    ("R02-7", "H 03 00 01 00", "refused 20 at 4"),
    ("R02-9", "H 0a 00 0c 00", "refused 20 at 4"),
    ("R02-11", "H 02 02 00 00", "refused 20 at 5"),
    ("R02-13", "H 07 05 01 01 65 04 00", "refused 20 at 7"),
    ("R02-15", "H 02 08 01 01 6d 01 66 03 7f 02", "refused 20 at 8"),
    ("R02-17", "H 02 09 01 01 6d 01 66 01 00 00 00", "accepted"),
    ("R02-19", "00 61 73 6d 02 00 00 00 0d 00", "refused 20 at 1"),
    ("R02-21", "H 02 02 00 00 02 01 00", "refused 20 at 4"),
    ("R02-23", "H 00 0f N 01 08 01 80 80 80 80 00 01 66", "accepted"),
    ("R02-25", "H 00 0e N 02 07 80 80 80 80 80 80 00", "accepted"),
    ("R02-27", "H 00 0b N 00 04 01 6d 00 00", "accepted"),
    ("R02-29", "H 00 06 N 00", "refused 1 at 16"),
    ("R02-31", "H 02 0e 01 01 6d 01 66 02 01 00 80 80 80 80 80 00", "refused 20 at 2"),
    ("R02-33", "H 00 02 01 78 01 01 00 00 02 01 78 02 01 00 00 02 01 78", "accepted"),
    ("R02-35", "H 07 07 02 00 00 00 00 00 00", "refused 20 at 6"),
    ("R02-37", "H 0d 00 0d 00", "refused 20 at 3"),
    ("R02-39", "00 61 73 6d 0d 00 01 00", "refused 20 at 1"),
    ("R02-41", "H 02 0c 01 81 80 80 80 80 00 6d 01 66 00 00", "refused 20 at 2"),
    ("R02-43", "H 00 07 81 80 80 80 80 00 78", "refused 20 at 2"),
    ("R02-45", "H 01 00 03 00 04 00 05 00 06 00 08 00 09 00 0c 00 0a 00 0b 00", "accepted"),
];

/// The judge's own rules are held to the stated answers too.
fn worked(court: &mut Court) {
    for (id, bytes, answer) in WORKED {
        let file = super::bytes(bytes);
        let said = strict::answer(&file);
        if said != answer {
            court.differ(&format!("the judge's own rules say {said} of {id}, which is stated as {answer}"));
        }
        hear(court, &file, FULL);
        every_room(court, &file);
    }
}

/// Tables as large as a file's rows, and for each table a cell less, a row less and none.
fn every_room(court: &mut Court, file: &[u8]) {
    let Ok(m) = crate::says::parse(file) else { return hear(court, file, ROOMY) };
    let rows = [m.sections.len(), m.imports.len(), m.exports.len(), m.function_names.len()].map(|n| n as u64);
    let widths = [5, WIDTH as u64, 4, 3];
    let exact: [u64; 4] = std::array::from_fn(|t| rows[t] * widths[t]);
    hear(court, file, exact);
    for t in 0..4 {
        for less in [1, widths[t], exact[t]] {
            let mut cells = exact;
            cells[t] = cells[t].saturating_sub(less);
            hear(court, file, cells);
        }
    }
}

// ---- modules of parts

/// Parts of a module. The number that `wide` names, counted as they are made, takes so many bytes; every other as few as it can.
#[derive(Default)]
struct Writer {
    wide: Option<(usize, usize)>,
    numbers: usize,
}

impl Writer {
    fn number(&mut self, n: u64) -> Vec<u8> {
        let mut out = plain(n as usize);
        if let Some((_, bytes)) = self.wide.filter(|w| w.0 == self.numbers && w.1 > out.len()) {
            *out.last_mut().unwrap() |= 0x80;
            out.resize(bytes - 1, 0x80);
            out.push(0);
        }
        self.numbers += 1;
        out
    }

    fn counted(&mut self, bytes: &[u8]) -> Vec<u8> {
        [&self.number(bytes.len() as u64), bytes].concat()
    }

    fn section(&mut self, id: u8, payload: &[u8]) -> Vec<u8> {
        [vec![id], self.counted(payload)].concat()
    }

    fn list(&mut self, entries: &[Vec<u8>]) -> Vec<u8> {
        [self.number(entries.len() as u64), entries.concat()].concat()
    }

    /// An import with what its kind asks for: a flag or a mutability, and `n` for every number.
    fn import(&mut self, kind: u8, flag: u8, n: u64) -> Vec<u8> {
        let mut out = [self.counted(b"m"), self.counted(b"f"), vec![kind]].concat();
        match kind {
            0 => out.extend(self.number(n)),
            3 => out.extend([0x7f, flag]),
            _ => {
                out.extend(if kind == 1 { vec![0x70, flag] } else { vec![flag] });
                for _ in 0..1 + (flag & 1) {
                    out.extend(self.number(n));
                }
            }
        }
        out
    }

    fn export(&mut self, name: &[u8], kind: u8, n: u64) -> Vec<u8> {
        [self.counted(name), vec![kind], self.number(n)].concat()
    }

    fn symbol(&mut self, n: u64) -> Vec<u8> {
        [self.number(n), self.counted(b"g")].concat()
    }
}

fn file(sections: &[Vec<u8>]) -> Vec<u8> {
    [HEADER, &sections.concat()].concat()
}

fn exporting(entries: &[Vec<u8>]) -> Vec<u8> {
    let w = &mut Writer::default();
    let payload = w.list(entries);
    file(&[w.section(7, &payload)])
}

fn importing(entries: &[Vec<u8>]) -> Vec<u8> {
    let w = &mut Writer::default();
    let payload = w.list(entries);
    file(&[w.section(2, &payload)])
}

fn exported(names: &[(Vec<u8>, u8)]) -> Vec<u8> {
    let w = &mut Writer::default();
    exporting(&names.iter().map(|(name, kind)| w.export(name, *kind, 0)).collect::<Vec<_>>())
}

/// A module with a number in each place where one is read, and bytes that could be long numbers where none is.
fn whole(w: &mut Writer, n: u64) -> Vec<u8> {
    let imports = [(0, 0), (1, 0), (1, 1), (2, 0), (2, 1), (3, 0), (3, 1), (0, 0)].map(|(kind, flag)| w.import(kind, flag, n));
    let exports: [Vec<u8>; 4] = std::array::from_fn(|i| w.export(&[b'a' + i as u8], i as u8, n));
    let mut sections = Vec::new();
    for id in ORDER {
        let payload = match id {
            2 => w.list(&imports),
            7 => w.list(&exports),
            _ => LONG.to_vec(),
        };
        sections.push(w.section(id, &payload));
    }
    let symbols = [w.symbol(n), w.symbol(n)];
    let subsections = [
        (0, w.counted(b"m")),
        (1, w.list(&symbols)),
        (2, LONG.to_vec()),
        (0, [w.counted(b""), LONG.to_vec()].concat()),
        (1, [w.list(&symbols[..1]), LONG.to_vec()].concat()),
    ];
    let inner: Vec<u8> = subsections.into_iter().flat_map(|(id, payload)| w.section(id, &payload)).collect();
    let name = [w.counted(b"name"), inner].concat();
    let other = [w.counted(b"names"), LONG.to_vec()].concat();
    sections.insert(0, w.section(0, &other));
    sections.push(w.section(0, &name));
    file(&sections)
}

/// Rule 2: each number that is read in 2 to 11 bytes, small ones and the largest.
fn widths(court: &mut Court) {
    for n in [0, 1, 0x7f, 0x80, 0xffff_ffff] {
        let mut w = Writer::default();
        hear(court, &whole(&mut w, n), ROOMY_ENOUGH);
        for (k, bytes) in (0..w.numbers).flat_map(|k| (2..=11).map(move |bytes| (k, bytes))) {
            hear(court, &whole(&mut Writer { wide: Some((k, bytes)), numbers: 0 }, n), ROOMY_ENOUGH);
        }
    }
}

/// Rows for `whole`.
const ROOMY_ENOUGH: [u64; 4] = [5 * 16, WIDTH as u64 * 8, 4 * 4, 3 * 8];

// ---- rules 3 and 4

/// The least section of an id.
fn least(id: u8) -> Vec<u8> {
    if [0, 2, 7].contains(&id) {
        vec![id, 1, 0]
    } else {
        vec![id, 0]
    }
}

/// Every two and every three sections; all of them in order, one at another place, one twice; custom ones between.
fn order(court: &mut Court) {
    let each = [0, 1, 2, 3, 4, 5, 6, 7, 8, 9, 10, 11, 12, 13];
    for (a, b) in each.iter().flat_map(|a| each.map(|b| (*a, b))) {
        hear(court, &file(&[least(a), least(b)]), ROOMY);
        for c in each {
            hear(court, &file(&[least(a), least(b), least(c)]), ROOMY);
        }
    }
    let all: Vec<Vec<u8>> = ORDER.iter().map(|id| least(*id)).collect();
    let by_number: Vec<Vec<u8>> = (1..=12).map(least).collect();
    hear(court, &file(&by_number), FULL);
    for (from, to) in (0..12).flat_map(|from| (0..=12).map(move |to| (from, to))) {
        let mut moved = all.clone();
        let one = moved.remove(from);
        moved.insert(to.min(11), one);
        hear(court, &file(&moved), FULL);
        let mut twice = all.clone();
        twice.insert(to, all[from].clone());
        hear(court, &file(&twice), FULL);
        for id in [0, 13, 255] {
            let mut more = all.clone();
            more.insert(to, least(id));
            more.insert(from, least(id));
            hear(court, &file(&more), FULL);
        }
    }
    for id in 0..=255 {
        hear(court, &file(&[least(id), least(id)]), ROOMY);
        hear(court, &file(&[least(1), least(id), least(11)]), ROOMY);
    }
    // as many sections as table 1 takes, the last one out of order or of no known id
    for n in [254, 255, 256] {
        for last in [0, 1, 11, 13] {
            let mut sections = vec![least(0); n];
            sections[0] = least(3);
            sections.push(least(last));
            hear(court, &file(&sections), FULL);
        }
    }
}

// ---- rule 5

/// Entries and so many bytes after them; a count that is too low; and the same inside a name section, where no rule asks.
fn unused(court: &mut Court) {
    let w = &mut Writer::default();
    let imports = [w.import(0, 0, 0), w.import(2, 1, 0)];
    let exports = [w.export(b"a", 0, 0), w.export(b"b", 1, 0)];
    for (id, entries) in [(2, &imports), (7, &exports)] {
        for (n, stated) in [(0, 0), (1, 0), (1, 1), (2, 0), (2, 1), (2, 2)] {
            for after in [&b""[..], b"\x00", b"\x01", b"\xff", b"\x80", b"\x00\x00", LONG] {
                let payload = [&[stated], &entries[..n].concat()[..], after].concat();
                hear(court, &file(&[w.section(id, &payload)]), ROOMY);
            }
        }
    }
    for after in [&b"\x00"[..], b"\xff", LONG] {
        for told in [[&b"\x01m"[..], after].concat(), [&b"\x00"[..], after].concat()] {
            for id in 0..=3 {
                let name = [b"\x04name".to_vec(), w.section(id, &told)].concat();
                hear(court, &file(&[w.section(0, &name)]), ROOMY);
            }
        }
        let other = [&b"\x01x"[..], after].concat();
        hear(court, &file(&[w.section(0, &other)]), ROOMY);
    }
    // in one of two sections of an id, in an import section with a good export section after it, and in both
    for faults in 0..4 {
        let after = |bit: u8| if faults >> bit & 1 == 1 { vec![9] } else { Vec::new() };
        for (first, second) in [(2, 7), (2, 2), (7, 7), (7, 2)] {
            let sections = [(first, after(0)), (second, after(1))].map(|(id, rest)| w.section(id, &[vec![0], rest].concat()));
            hear(court, &file(&sections), ROOMY);
        }
    }
}

// ---- rules 6 and 7

/// Two names of one length: equal, different in one byte, one the start of the other; with equal kinds and others.
fn names(court: &mut Court) {
    for length in [0, 1, 2, 7, 8, 9, 63, 64, 65, 200] {
        let name = vec![b'n'; length];
        let mut others = vec![name.clone(), [&name[..], b"n"].concat(), [&name[..], b"\0"].concat()];
        others.extend((0..length).map(|at| [&name[..at], b"o", &name[at + 1..]].concat()));
        for other in others {
            for kinds in [[0, 0], [0, 3], [3, 0], [4, 4], [0, 255]] {
                hear(court, &exported(&[(name.clone(), kinds[0]), (other.clone(), kinds[1])]), ROOMY);
                hear(court, &exported(&[(other.clone(), kinds[0]), (name.clone(), kinds[1])]), ROOMY);
            }
        }
    }
    // equal ones with others between them; names of more than one byte to a character; an export named as an import is
    for between in 0..8 {
        let mut list: Vec<(Vec<u8>, u8)> = (0..between).map(|i| (vec![b'z' - i], 0)).collect();
        list.insert(0, (b"m".to_vec(), 0));
        list.push((b"m".to_vec(), 1));
        hear(court, &exported(&list), ROOMY);
        list.pop();
        hear(court, &exported(&list), ROOMY);
    }
    for (a, b) in [("é", "é"), ("é", "e\u{301}"), ("\u{3000}", " "), ("A", "a"), ("a", "a "), ("\0", ""), ("\0", "\0\0")] {
        hear(court, &exported(&[(a.into(), 0), (b.into(), 0)]), ROOMY);
    }
    // every kind, in the first row and in the last
    for kind in 0..=255 {
        hear(court, &exported(&[(b"a".to_vec(), kind), (b"b".to_vec(), 0)]), ROOMY);
        hear(court, &exported(&[(b"a".to_vec(), 0), (b"b".to_vec(), kind)]), ROOMY);
    }
}

/// As many exports as table 3 takes, one less and more: all different in rising, falling and mixed order, two of them equal, one of a bad kind.
fn full_tables(court: &mut Court) {
    let more = FULL.map(|n| n + 10);
    for n in [1023, 1024, 1025] {
        for step in [1, 1024, 5] {
            let list: Vec<(Vec<u8>, u8)> = (0..n).map(|i| (format!("{:04}", i * step % 1025).into_bytes(), 0)).collect();
            hear(court, &exported(&list), FULL);
            hear(court, &exported(&list), more);
            for (i, j) in [(0, 1), (0, n - 1), (n / 2, n / 2 + 1), (1, n - 2), (n - 2, n - 1)] {
                let mut equal = list.clone();
                equal[j].0 = equal[i].0.clone();
                hear(court, &exported(&equal), FULL);
            }
            // the empty name is what a row past the last one would say
            for at in [0, n / 2, n - 1] {
                let (mut bad, mut empty) = (list.clone(), list.clone());
                bad[at].1 = 4;
                empty[at].0.clear();
                hear(court, &exported(&bad), more);
                hear(court, &exported(&empty), more);
            }
        }
        hear(court, &exported(&vec![(b"a".to_vec(), 0); n]), FULL);
    }
    // imports and function names, with a fault in the last one
    let w = &mut Writer::default();
    for n in [1023, 1024, 1025] {
        for flag in [0, 2] {
            let entries = [vec![w.import(3, 0, 0); n - 1], vec![w.import(3, flag, 0)]].concat();
            hear(court, &importing(&entries), FULL);
        }
    }
    for n in [4095, 4096, 4097] {
        for last in [&b"\x00\x01g"[..], b"\x80\x80\x80\x80\x80\x00\x01g", b"\x00\x81\x80\x80\x80\x80\x00g"] {
            let symbols = [plain(n), b"\x00\x01g".repeat(n - 1), last.to_vec()].concat();
            let name = [b"\x04name".to_vec(), w.section(1, &symbols)].concat();
            hear(court, &file(&[w.section(0, &name)]), FULL);
        }
    }
}

/// Lists of names around the sizes of the quick look's marks, which a long name enters with both ends and eight bytes between: names that
/// differ at one end, in the middle alone, after more than a block, or in two places of which no look sees both; all different, and two of
/// them equal.
fn looked(court: &mut Court) {
    for n in [2, 3, 15, 16, 17, 127, 128, 129, 1024] {
        let block = &"-".repeat(65)[..];
        for (before, between, after) in [
            ("", "", ""),
            ("before--before--", "", ""),
            ("", "", "--behind--behind"),
            ("before--", "", "--behind"),
            ("before--before--", "", "--behind--behind"),
            (block, "", block),
            ("before--before--", "--between--", "--behind--behind"),
            (block, block, block),
        ] {
            let name = |i: usize| format!("{before}{:02}{between}{:02}{after}", i / 32, i % 32);
            let list: Vec<(Vec<u8>, u8)> = (0..n).map(|i| (name(i).into_bytes(), 0)).collect();
            hear(court, &exported(&list), FULL);
            for (i, j) in [(0, 1), (0, n - 1), (n - 2, n - 1)] {
                let mut equal = list.clone();
                equal[j].0 = equal[i].0.clone();
                hear(court, &exported(&equal), FULL);
            }
        }
    }
}

// ---- rule 8

/// Every flag and mutability, in the first import and in the last; type bytes, which no rule asks about.
fn flags(court: &mut Court) {
    let w = &mut Writer::default();
    let good = w.import(0, 0, 0);
    for (kind, flag) in (1..=3).flat_map(|kind| (0..=255).map(move |flag| (kind, flag))) {
        let bad = w.import(kind, flag, 5);
        hear(court, &importing(&[bad.clone(), good.clone()]), ROOMY);
        hear(court, &importing(&[good.clone(), bad]), ROOMY);
    }
    for (kind, byte) in [1, 3].into_iter().flat_map(|kind| (0..=255).map(move |byte| (kind, byte))) {
        let mut one = w.import(kind, 0, 0);
        one[5] = byte;
        hear(court, &importing(&[one]), ROOMY);
    }
    // one good and one bad of each two kinds
    for (a, b) in (1..=3).flat_map(|a| (1..=3).map(move |b| (a, b))) {
        for (x, y) in [(0, 2), (2, 0), (1, 3), (3, 1), (1, 1), (2, 2)] {
            hear(court, &importing(&[w.import(a, x, 0), w.import(b, y, 0)]), ROOMY);
        }
    }
}

// ---- what is not read

/// Long numbers where no number is read, in a section of each id and in each subsection; custom sections of nearly the name.
fn unread(court: &mut Court) {
    let w = &mut Writer::default();
    for id in 0..=255 {
        if ![0, 2, 7].contains(&id) {
            hear(court, &file(&[w.section(id, LONG)]), ROOMY);
        }
        if id > 1 {
            let name = [b"\x04name".to_vec(), w.section(id, LONG)].concat();
            hear(court, &file(&[w.section(0, &name)]), ROOMY);
        }
    }
    let subsection = b"\x00\x81\x80\x80\x80\x80\x00\x00";
    for name in ["name", "nam", "names", "Name", "NAME", "nam\0", "", "n", "name ", " name", "eman", "xame", "naxe", "na\u{2009}e"] {
        for rest in [&b""[..], subsection, LONG, b"\x00\x01\x00", b"\x01\x06\x80\x80\x80\x80\x80\x00"] {
            let payload = [w.counted(name.as_bytes()), rest.to_vec()].concat();
            hear(court, &file(&[w.section(0, &payload)]), ROOMY);
        }
    }
}

// ---- several at once

/// A module that breaks the rules of a set, bit 0 for rule 1. Each bit of `other` has one of the faults stand elsewhere.
fn broken(set: u8, other: u8) -> Vec<u8> {
    let w = &mut Writer::default();
    let breaks = |rule: u8| set >> (rule - 1) & 1 == 1;
    let early = |bit: u8| other >> bit & 1 == 0;
    let unused = |here: bool| if breaks(5) && here { vec![0] } else { Vec::new() };
    let mut imports = vec![w.import(0, 0, 0), w.import(1, 1, 0)];
    if breaks(8) {
        imports.insert(if early(3) { 0 } else { 2 }, w.import(2, 2, 0));
    }
    let mut exports = vec![w.export(b"a", 0, 0), w.export(if breaks(6) { b"a" } else { b"b" }, 1, 0)];
    if breaks(7) {
        exports.insert(if early(4) { 0 } else { 2 }, w.export(b"c", 4, 0));
    }
    let (imports, exports) = ([w.list(&imports), unused(early(3))].concat(), [w.list(&exports), unused(!early(3))].concat());
    let mut sections = vec![least(1), w.section(2, &imports), w.section(7, &exports), least(10)];
    let mut put = |section: Vec<u8>, first: bool| sections.insert(if first { 0 } else { sections.len() }, section);
    if breaks(4) {
        put(least(if early(2) { 3 } else { 9 }), early(2));
    }
    if breaks(3) {
        put(least(13), early(1));
    }
    if breaks(2) {
        put(LONG_SECTION.to_vec(), early(0));
    }
    let mut out = file(&sections);
    out[4] = if breaks(1) { 2 } else { 1 };
    out
}

fn together(court: &mut Court) {
    for set in 0..=255 {
        for other in 0..32 {
            hear(court, &broken(set, other), ROOMY);
        }
    }
}

/// 13 and other plain refusals come before 20: each rule broken, with tables too small, a fault after it, and a file that is too long.
fn rooms(court: &mut Court) {
    for rule in 0..=8 {
        let one = broken(if rule == 0 { 0 } else { 1 << (rule - 1) }, 0);
        hear(court, &one, FULL);
        hear(court, &one, FULL.map(|n| n + 1));
        every_room(court, &one);
        for end in [&b"\x01"[..], b"\x01\x01", b"\x00\x01\xff", b"\x01\x80\x80\x80\x80\x10", b"\x00\x02\x01\xff"] {
            hear(court, &[&one[..], end].concat(), ROOMY);
        }
        for cut in 0..one.len() {
            hear(court, &one[..cut], ROOMY);
        }
    }
    for length in [16_777_216usize, 16_777_217] {
        let mut out = [HEADER, b"\x0d"].concat();
        out.extend(plain(length - 13));
        out.resize(length, 0x80);
        hear(court, &out, ROOMY);
    }
}

// ---- seeded

fn junk(r: &mut Random) -> Vec<u8> {
    if r.one_in(3) {
        LONG.to_vec()
    } else {
        (0..r.below(4)).map(|_| r.byte()).collect()
    }
}

/// Once in so many this, else the other.
fn seldom(r: &mut Random, n: usize, this: u8, other: u8) -> u8 {
    if r.one_in(n) {
        this
    } else {
        other
    }
}

fn imports(w: &mut Writer, r: &mut Random) -> Vec<u8> {
    let entries: Vec<Vec<u8>> = (0..r.below(5))
        .map(|_| {
            let (odd, one) = (r.byte(), r.below(2) as u8);
            w.import(r.below(4) as u8, seldom(r, 20, odd, one), r.next() >> (32 + r.below(31)))
        })
        .collect();
    w.list(&entries)
}

fn exports(w: &mut Writer, r: &mut Random) -> Vec<u8> {
    let entries: Vec<Vec<u8>> = (0..r.below(6))
        .map(|i| {
            let name = [&vec![b'n'; r.below(2) * r.below(70)][..], &[b'a' + seldom(r, 12, 0, i as u8)]].concat();
            let (odd, kind) = (r.byte(), r.below(4) as u8);
            w.export(&name, seldom(r, 20, odd, kind), r.next() >> (32 + r.below(31)))
        })
        .collect();
    w.list(&entries)
}

fn custom(w: &mut Writer, r: &mut Random) -> Vec<u8> {
    if r.one_in(3) {
        return [w.counted(r.pick(&[&b"x"[..], b"", b"names", b"producers"])), junk(r)].concat();
    }
    let mut out = w.counted(b"name");
    for _ in 0..r.below(4) {
        let id = r.below(4) as u8;
        let inner = match id {
            0 => w.counted(b"m"),
            1 => {
                let symbols: Vec<Vec<u8>> = (0..r.below(3)).map(|_| w.symbol(r.next() >> (32 + r.below(31)))).collect();
                w.list(&symbols)
            }
            _ => Vec::new(),
        };
        let after = if id > 1 || r.one_in(6) { junk(r) } else { Vec::new() };
        out.extend(w.section(id, &[inner, after].concat()));
    }
    out
}

/// A module that breaks no rule, one, or a few.
fn nearly(r: &mut Random) -> Vec<u8> {
    let w = &mut Writer { wide: r.one_in(2).then(|| (r.below(30), 4 + r.below(7))), numbers: 0 };
    let mut sections = Vec::new();
    for id in ORDER.into_iter().filter(|id| r.one_in(if [2, 7].contains(id) { 1 } else { 3 })).collect::<Vec<_>>() {
        let payload = match id {
            2 => imports(w, r),
            7 => exports(w, r),
            _ => junk(r),
        };
        let after = if r.one_in(20) { junk(r) } else { Vec::new() };
        sections.push(w.section(id, &[payload, after].concat()));
    }
    for _ in 0..r.below(3) {
        let payload = custom(w, r);
        sections.insert(r.below(sections.len() + 1), w.section(0, &payload));
    }
    let (a, b) = (r.below(sections.len()), r.below(sections.len()));
    match r.below(16) {
        0 => sections.swap(a, b),
        1 => sections.insert(a, sections[b].clone()),
        2 => sections.insert(a, w.section(13 + r.below(4) as u8, &junk(r))),
        _ => (),
    }
    let mut out = file(&sections);
    out[4] = seldom(r, 20, 2, 1);
    out
}

pub fn seeded(court: &mut Court, r: &mut Random) {
    for _ in 0..500 {
        let file = nearly(r);
        let cells = if r.one_in(4) { small(r) } else { FULL };
        hear(court, &file, cells);
        if r.one_in(4) {
            hear(court, &damaged(&file, r), ROOMY);
        }
    }
}
