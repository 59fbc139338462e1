//! compat.rs: two modules, as files and as tables that are handed in.
use super::asked::{descriptor, rows_of};
use super::damaged;
use super::modules::{plain, HEADER};
use crate::asked::WIDTH;
use crate::case::{Call, Case};
use crate::random::Random;
use crate::says::LONGEST_MODULE;
use crate::Court;

/// Cells of tables 8 and 9 at their limits.
const FULL: [u64; 2] = [2 * 2048, 3 * 2048];
/// Bytes for reasons.
const ROOM: u64 = 300;
const NAMES: [&[u8]; 8] = [b"a", b"b", b"ab", b"", b"wasi:io/x", b"wasi_snapshot_preview1", b"z", "é".as_bytes()];
const FIELDS: [&[u8]; 5] = [b"fd_write", b"clock_time_get", b"f", b"random_get", b""];
const KINDS: [u8; 9] = [0, 1, 2, 3, 4, 5, 127, 128, 255];

// ---- files

fn named(name: &[u8]) -> Vec<u8> {
    [&[name.len() as u8], name].concat()
}

fn import(r: &mut Random) -> Vec<u8> {
    let kind = if r.one_in(5) { vec![3, 0x7f, 0] } else { vec![0, r.below(3) as u8] };
    [named(NAMES[r.below(8)]), named(FIELDS[r.below(5)]), kind].concat()
}

fn export(r: &mut Random) -> Vec<u8> {
    [named(NAMES[r.below(8)]), vec![KINDS[r.below(9)], r.below(3) as u8]].concat()
}

fn module(imports: &[Vec<u8>], exports: &[Vec<u8>]) -> Vec<u8> {
    let mut out = HEADER.to_vec();
    for (id, list) in [(2u8, imports), (7, exports)] {
        let payload = [plain(list.len()), list.concat()].concat();
        out.extend([vec![id], plain(payload.len()), payload].concat());
    }
    out
}

/// Two modules that share some of their imports and exports.
pub fn pair(r: &mut Random) -> (Vec<u8>, Vec<u8>) {
    let rows = |r: &mut Random, one: fn(&mut Random) -> Vec<u8>| -> Vec<Vec<u8>> { (0..r.below(7)).map(|_| one(r)).collect() };
    let (imports, exports) = (rows(r, import), rows(r, export));
    let other = |r: &mut Random, list: &[Vec<u8>], fresh: Vec<Vec<u8>>| -> Vec<Vec<u8>> {
        let mut out: Vec<Vec<u8>> = list.iter().filter(|_| !r.one_in(4)).cloned().collect();
        out.extend(fresh.into_iter().filter(|_| r.one_in(3)));
        out
    };
    let (more, others) = (rows(r, import), rows(r, export));
    let second = module(&other(r, &imports, more), &other(r, &exports, others));
    (module(&imports, &exports), second)
}

fn files(court: &mut Court, cells: [u64; 2], baseline: &[u8], candidate: &[u8]) {
    court.hear(Case::new(Call::Compare, &[cells[0], cells[1], ROOM], &[baseline, candidate]));
}

// ---- tables

/// Tables 2 and 3, cells and counts.
#[derive(Clone, Default)]
pub struct Tables {
    imports: Vec<u64>,
    exports: Vec<u64>,
    counts: [u64; 2],
}

impl Tables {
    /// Of imports the ranges and the kind, five cells each: what they ask for is made up, another thing for each.
    pub fn of(imports: Vec<u64>, exports: Vec<u64>) -> Tables {
        Tables::whole(rows_of(&imports), exports)
    }

    /// Cells of table 2 and a count, whatever they are.
    pub fn counted(imports: Vec<u64>, count: u64) -> Tables {
        Tables { imports, exports: Vec::new(), counts: [count, 0] }
    }

    /// Whole rows of both.
    pub fn whole(imports: Vec<u64>, exports: Vec<u64>) -> Tables {
        let counts = [(imports.len() / WIDTH) as u64, exports.len() as u64 / 4];
        Tables { imports, exports, counts }
    }
}

/// The numbers of a case that hands in both modules' tables.
pub fn numbers(first: &[u64], b: &Tables, c: &Tables) -> Vec<u64> {
    let lengths = [&b.imports, &b.exports, &c.imports].map(|t| t.len() as u64);
    [first, &b.counts, &c.counts, &lengths, &b.imports, &b.exports, &c.imports, &c.exports].concat()
}

fn tables(court: &mut Court, cells: [u64; 2], b: &Tables, c: &Tables, baseline: &[u8], candidate: &[u8]) {
    let room = if b.exports.len() + c.imports.len() > 1000 { 65_536 } else { ROOM };
    court.hear(Case::new(Call::Differences, &numbers(&[cells[0], cells[1], room], b, c), &[baseline, candidate]));
}

/// Names to point to: words of these files, and odd bytes.
const FILES: [&[u8]; 2] = [b"aabab\x00\xffab\xc3\xa9wasi:io/xfd_", b"bbaab\xffwasi:io/xpath_opena\x00b"];

/// A range, most often short, now and then one that leaves the file.
fn range(file: &[u8], r: &mut Random) -> [u64; 2] {
    let word = file.windows(9).position(|w| w == b"wasi:io/x").unwrap();
    let from = r.below(file.len() + 1);
    let len = r.below(file.len() - from + 1).min(r.below(3));
    match r.below(120) {
        0 => [from as u64, (file.len() - from + 1) as u64],
        1 => [u64::MAX, 1],
        2 => [2, u64::MAX],
        3 => [file.len() as u64, 0],
        4..=25 => [word as u64, 7 + r.below(3) as u64],
        _ => [from as u64, len as u64],
    }
}

fn kind(r: &mut Random) -> u64 {
    match r.below(60) {
        0 => 256,
        1 => u64::MAX,
        2..=8 => 4 + r.below(252) as u64,
        _ => r.below(6) as u64,
    }
}

fn some_tables(file: &[u8], r: &mut Random) -> Tables {
    let mut imports = Vec::new();
    for _ in 0..r.below(6) {
        imports.extend([range(file, r), range(file, r)].concat());
        let kind = if r.one_in(3) { kind(r) } else { 0 };
        imports.push(kind);
        imports.extend(descriptor(kind, r));
    }
    let mut exports = Vec::new();
    for _ in 0..r.below(7) {
        exports.extend(range(file, r));
        exports.extend([kind(r), r.below(3) as u64]);
    }
    let mut out = Tables::whole(imports, exports);
    // room that no count speaks of, with anything in it, and counts beyond the room
    out.imports.extend((0..if r.one_in(4) { r.below(30) } else { 0 }).map(|i| i as u64));
    out.exports.extend((0..if r.one_in(4) { r.below(12) } else { 0 }).map(|i| i as u64));
    for n in &mut out.counts {
        match r.below(20) {
            0 => *n += 1 + r.below(4) as u64,
            1 => *n = u64::MAX,
            2 => *n = n.saturating_sub(1),
            _ => (),
        }
    }
    out
}

fn few(r: &mut Random) -> [u64; 2] {
    [2, 3].map(|w| w * r.below(4) as u64 + if r.one_in(4) { r.below(w as usize) as u64 } else { 0 })
}

fn names(court: &mut Court, r: &mut Random) {
    let tables = FILES.map(|f| some_tables(f, r));
    for call in [Call::ExportName, Call::SourceName] {
        let [b, c] = [&tables[0], &tables[1]].map(|t| if call == Call::ExportName { &t.exports } else { &t.imports });
        let counts = tables.each_ref().map(|t| t.counts[if call == Call::ExportName { 1 } else { 0 }]);
        let row = if r.one_in(20) { u64::MAX - r.below(2) as u64 } else { r.below(9) as u64 };
        let first = [r.below(2) as u64, row, counts[0], counts[1], b.len() as u64];
        court.hear(Case::new(call, &[&first[..], b, c].concat(), &FILES));
    }
}

/// Rows of tables 8 and 9, in any order, now and then ones that point to nothing.
fn reasons(court: &mut Court, r: &mut Random) {
    let tables = FILES.map(|f| some_tables(f, r));
    let row = |r: &mut Random| if r.one_in(25) { [8, 1024, u64::MAX][r.below(3)] } else { r.below(4) as u64 };
    let change = |r: &mut Random| if r.one_in(9) { [2, 1 << 32, u64::MAX][r.below(3)] } else { r.below(2) as u64 };
    let mut exports: Vec<u64> = (0..r.below(4)).flat_map(|_| [change(r), row(r)]).collect();
    let mut needs: Vec<u64> = (0..r.below(4)).flat_map(|_| [change(r), if r.one_in(30) { 7 } else { r.below(7) as u64 }, row(r)]).collect();
    let counts = [exports.len() / 2, needs.len() / 3].map(|n| n as u64 + r.one_in(15) as u64);
    exports.extend((0..r.below(2)).map(|_| 9));
    needs.extend((0..r.below(3)).map(|_| 9));
    let first = [&[r.below(160) as u64, counts[0], counts[1], exports.len() as u64, needs.len() as u64], &exports[..], &needs].concat();
    court.hear(Case::new(Call::Reasons, &numbers(&first, &tables[0], &tables[1]), &FILES));
}

pub fn seeded(court: &mut Court, r: &mut Random) {
    for _ in 0..500 {
        let (baseline, mut candidate) = pair(r);
        if r.one_in(12) {
            candidate = damaged(&candidate, r);
        }
        files(court, if r.one_in(2) { FULL } else { few(r) }, &baseline, &candidate);
    }
    for _ in 0..700 {
        let candidate = FILES[r.below(2)];
        let (b, c) = (some_tables(FILES[0], r), some_tables(candidate, r));
        tables(court, if r.one_in(3) { few(r) } else { FULL }, &b, &c, FILES[0], candidate);
        names(court, r);
        reasons(court, r);
    }
}

// ---- fixed

/// Functions that are exported by the names at these offsets of a file, one byte each.
fn letters(at: impl Iterator<Item = u64>) -> Vec<u64> {
    at.flat_map(|i| [i, 1, 0, 0]).collect()
}

/// Functions from the modules at these offsets.
fn sources(at: impl Iterator<Item = u64>) -> Vec<u64> {
    at.flat_map(|i| [i, 1, 0, 0, 0]).collect()
}

pub fn fixed(court: &mut Court) {
    rooms(court);
    kinds(court);
    repeats(court);
    order(court);
    limits(court);
    many_names(court);
    words(court);
}

/// Tables 8 and 9 of 0 to 3 rows and odd cells, for lists of 0 to 4; the modules' tables have room to spare.
fn rooms(court: &mut Court) {
    let file = b"abcd";
    let roomy = |mut t: Tables| {
        t.imports.extend([9; 50]);
        t.exports.extend([9; 24]);
        t
    };
    for (m, n) in (0..=4).flat_map(|m| (0..=4).map(move |n| (m, n))) {
        let gone = roomy(Tables::of(sources(0..n), letters((0..m).rev())));
        let none = roomy(Tables::default());
        for (x, y) in (0..=9).flat_map(|x| (0..=10).map(move |y| (x, y))) {
            tables(court, [x, y], &gone, &none, file, file);
            tables(court, [x, y], &none, &gone, file, b"dcba");
        }
    }
}

/// One name with every kind, in falling order, against none, against every other one, and against the same in rising order.
fn kinds(court: &mut Court) {
    let falling: Vec<u64> = (0..256).rev().flat_map(|kind| [0, 1, kind, 0]).collect();
    let all = Tables::of(Vec::new(), falling.clone());
    let half = Tables::of(Vec::new(), falling.chunks_exact(8).flat_map(|r| r[..4].to_vec()).collect());
    let rising = Tables::of(Vec::new(), falling.chunks_exact(4).rev().flatten().copied().collect());
    for other in [Tables::default(), half, rising] {
        tables(court, FULL, &all, &other, b"a", b"a");
        tables(court, FULL, &other, &all, b"a", b"a");
        tables(court, FULL, &all, &other, b"a", b"b");
    }
    // kinds of imports: only a function asks
    for kind in [0, 1, 2, 3, 4, 255, 256] {
        let one = Tables::of(vec![0, 1, 0, 0, kind], Vec::new());
        tables(court, FULL, &one, &Tables::default(), b"a", b"a");
        tables(court, FULL, &Tables::default(), &one, b"a", b"a");
    }
    for a in KINDS {
        for b in KINDS {
            let one = |k: u8| Tables::of(vec![0, 1, 0, 0, k as u64], vec![0, 1, k as u64, 0]);
            tables(court, [4, 3], &one(a), &one(b), b"a", b"a");
        }
    }
}

/// Every list of up to three rows over two names, against every such list: repeats of exports stay, those of pairs do not.
fn repeats(court: &mut Court) {
    let lists: Vec<Vec<u64>> = (0..=3u32).flat_map(|n| (0..1 << n).map(move |k| (0..n).map(|i| (k >> i & 1) as u64).collect())).collect();
    for a in &lists {
        for b in &lists {
            let of = |l: &[u64]| Tables::of(sources(l.iter().copied()), letters(l.iter().copied()));
            tables(court, FULL, &of(a), &of(b), b"ab", b"ab");
            tables(court, [8, 6], &of(a), &of(b), b"ab", b"bc");
        }
    }
    // names that are alike but for zero bytes, or in all but their last byte
    let zeros = b"\0\0a\0\0b";
    let ranges = (0..6).flat_map(|from| (0..=6 - from).map(move |len| [from, len])).collect::<Vec<[u64; 2]>>();
    for a in &ranges {
        for b in &ranges {
            let of = |r: &[u64; 2]| Tables::of(vec![r[0], r[1], 0, 0, 0], vec![r[0], r[1], 0, 0]);
            tables(court, [4, 6], &of(a), &of(b), zeros, zeros);
        }
    }
    // one source with fields of every domain, and one domain with several sources
    let file = b"wasi_snapshot_preview1fd_clock_path_args_environ_sock_random_getx";
    let fields: [[u64; 2]; 9] = [[22, 3], [25, 6], [31, 5], [36, 5], [41, 8], [49, 5], [54, 10], [64, 1], [0, 0]];
    let rows = |l: &[[u64; 2]], source: u64| Tables::of(l.iter().flat_map(|f| [0, source, f[0], f[1], 0]).collect(), Vec::new());
    for i in 0..=9 {
        tables(court, FULL, &rows(&fields[..i], 22), &rows(&fields[i..], 22), file, file);
        tables(court, FULL, &rows(&fields, 22), &rows(&fields[i..], 21), file, file);
        tables(court, FULL, &rows(&fields[i..], 23), &rows(&fields, 22), file, file);
    }
}

/// 14, then 15 in each of the four tables (a count, a range, a kind, a descriptor), then 13 of table 8, then of table 9: every two of them
/// at once.
fn order(court: &mut Court) {
    let good = || Tables::of(sources(0..2), letters(0..2));
    let none = Tables::default;
    let faults: [fn(&mut Tables); 9] = [
        |t| t.counts[0] = 3,
        |t| t.imports[WIDTH] = 9,
        |t| t.imports[2] = 9,
        |t| t.imports[4] = 256,
        |t| t.imports[WIDTH + 6] = 1,
        |t| t.imports[11] = 3,
        |t| t.counts[1] = 3,
        |t| t.exports[1] = 9,
        |t| t.exports[6] = 256,
    ];
    for cells in [[4, 6], [0, 6], [4, 0], [0, 0]] {
        tables(court, cells, &good(), &none(), b"ab", b"");
        for first in faults {
            let mut b = good();
            first(&mut b);
            tables(court, cells, &b, &good(), b"ab", b"cd");
            tables(court, cells, &good(), &b, b"ab", b"cd");
            for second in faults {
                let mut c = good();
                second(&mut c);
                tables(court, cells, &b, &c, b"ab", b"cd");
                let mut both = b.clone();
                second(&mut both);
                tables(court, cells, &both, &good(), b"ab", b"cd");
            }
        }
    }
    let long = vec![b'a'; LONGEST_MODULE + 1];
    let mut bad = good();
    bad.counts[0] = 3;
    for t in [good(), bad] {
        tables(court, [0, 0], &t, &none(), &long, b"ab");
        tables(court, [4, 6], &none(), &t, &long[1..], b"ab");
        tables(court, [0, 0], &t, &none(), b"ab", &long);
        tables(court, [4, 6], &t, &none(), b"ab", &long[1..]);
    }
    files(court, FULL, b"\0asn\x01\0\0\0", &long);
    files(court, FULL, &long, b"\0asn\x01\0\0\0");
    for a in [&b""[..], b"\0asn\x01\0\0\0", b"\0asm\0\0\0\0", b"\0asm\x01\0\0\0\x02\x01\x80", HEADER] {
        for b in [&b""[..], b"\0asn\x01\0\0\0", b"\0asm\0\0\0\0", b"\0asm\x01\0\0\0\x02\x01\x80", HEADER] {
            files(court, [0, 0], a, b);
        }
    }
}

/// The largest tables, one row more, tables larger than the limits: different rows, equal rows, and as many as tables 8 and 9 take.
fn limits(court: &mut Court) {
    let all: Vec<u8> = (0..2050u32).flat_map(|i| [(i >> 8) as u8, i as u8]).collect();
    let pairs = |rows: std::ops::Range<u64>| -> Tables {
        Tables::of(rows.clone().rev().flat_map(|i| [2 * i, 2, 0, 0, 0]).collect(), rows.flat_map(|i| [2 * i, 2, 0, 0]).collect())
    };
    let equal = |n: usize| Tables::of([0, 1, 0, 0, 0].repeat(n), [0, 1, 0, 0].repeat(n));
    for n in [1023, 1024, 1025] {
        for more in [-1i64, 0, 1, 9] {
            let cells = [(2 * (n as i64 + more)) as u64, (3 * (n as i64 + more)) as u64];
            tables(court, cells, &equal(n), &Tables::default(), b"a", b"");
            tables(court, [cells[0], 3], &Tables::default(), &equal(n), b"", b"a");
            tables(court, cells, &pairs(0..n as u64), &Tables::default(), &all, b"");
        }
        tables(court, FULL, &equal(n), &equal(n), b"a", b"a");
        tables(court, FULL, &equal(n), &equal(n), b"a", b"b");
        tables(court, FULL, &pairs(0..n as u64), &pairs(1..1025), &all, &all);
    }
    for more in [-1i64, 0, 1, 9] {
        let cells = [(2 * (2048 + more)) as u64, (3 * (2048 + more)) as u64];
        tables(court, cells, &pairs(0..1024), &pairs(1024..2048), &all, &all);
        tables(court, [cells[0] + 1, cells[1] + 2], &pairs(1024..2048), &pairs(0..1024), &all, &all);
        tables(court, [4096, cells[1]], &pairs(0..1024), &pairs(1024..2048), &all, &all);
    }
}

/// A row below its count and its capacity, whose range lies in its file: each at its edge.
fn many_names(court: &mut Court) {
    for (call, width) in [(Call::ExportName, 4), (Call::SourceName, WIDTH)] {
        let row = |from: u64, len: u64| [vec![from, len], vec![7; width - 2]].concat();
        let cells = [row(0, 2), row(1, 1), row(2, 0), row(0, 3), row(3, 0), row(u64::MAX, 1), row(1, u64::MAX)].concat();
        for (change, at) in (0..2).flat_map(|c| (0..9).map(move |at| (c, at))) {
            for count in [0, 1, 2, 7, 8, u64::MAX] {
                for short in [0, 1, width] {
                    let (b, c) = (&cells[..cells.len() - short], &cells[width..]);
                    let first = [change, at, count, count, b.len() as u64];
                    court.hear(Case::new(call, &[&first[..], b, c].concat(), &[b"ab", b"xy"]));
                }
            }
        }
        let many: Vec<u64> = (0..1026).flat_map(|i| row(i % 3, 1)).collect();
        for (change, at) in (0..2).flat_map(|c| [1022, 1023, 1024, 1025].map(|at| (c, at))) {
            for count in [1023, 1024, 1025, 1026] {
                let first = [change, at, count, count, many.len() as u64];
                court.hear(Case::new(call, &[&first[..], &many, &many].concat(), &[b"abc", b"xyz"]));
            }
        }
    }
}

/// Reasons: every kind and domain in its words, in as much room as they take, one byte less and more; 15 before 16, and in the tables' order.
fn words(court: &mut Court) {
    let file = b"ab";
    let hear = |court: &mut Court, room: u64, x: &[u64], counts: [u64; 2], y: &[u64], b: &Tables, c: &Tables| {
        let first = [&[room, counts[0], counts[1], x.len() as u64, y.len() as u64], x, y].concat();
        court.hear(Case::new(Call::Reasons, &numbers(&first, b, c), &[file, b"xyz"]));
    };
    let b = Tables::of(sources(0..2), (0..256).flat_map(|kind| [0, 2, kind, 0]).collect());
    let c = Tables::of(vec![0, 3, 0, 0, 0, 1, 1, 0, 0, 2], letters(0..2));
    for kind in 0..256 {
        hear(court, 40, &[0, kind], [1, 0], &[], &b, &c);
    }
    for domain in 0..=7 {
        for change in [0, 1, 2, u64::MAX] {
            hear(court, 60, &[], [0, 1], &[change, domain, 1], &b, &c);
            hear(court, 60, &[change, 0], [1, 0], &[domain; 2], &b, &c);
        }
    }
    for room in 0..=130 {
        hear(court, room, &[0, 0, 1, 0, 0, 1], [3, 2], &[1, 3, 0, 1, 0, 1, 0, 1, 0], &b, &c);
        hear(court, room, &[0, 2], [1, 1], &[1, 6, 0], &b, &c);
    }
    // rows at the last one, and the one after it
    for (x, y) in (0..3).flat_map(|x| (0..3).map(move |y| (x, y))) {
        for change in 0..2 {
            for room in [0, 200] {
                hear(court, room, &[change, x], [1, 1], &[change, 0, y], &b, &c);
                hear(court, room, &[change, 254 + x], [1, 1], &[change, 5 + y, y], &b, &c);
                hear(court, room, &[change, x], [x, y], &[change, 0, y], &b, &c);
            }
        }
    }
    // 15 of every table at once
    for faults in 0..64u64 {
        let bad = |bit: u64| (faults >> bit & 1) * 9;
        let module = |k: u64| Tables::of(vec![bad(k), 1, 0, 0, 0], vec![bad(k + 1), 1, 0, 0]);
        hear(court, bad(0), &[0, bad(4)], [1, 1], &[1, bad(5), 0], &module(0), &module(2));
    }
    // tables of the most rows
    for n in [2047, 2048, 2049u64] {
        for cells in [n, 2048, 2050] {
            hear(court, 65_536, &[0, 0].repeat(cells as usize), [n, 0], &[], &b, &c);
            hear(court, 131_072, &[], [0, n], &[1, 3, 0].repeat(cells as usize), &b, &c);
        }
    }
}
