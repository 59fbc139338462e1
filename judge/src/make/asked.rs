//! What imports ask for: descriptors of every kind in files; and rows of table 2 that are handed in with good, odd and bad ones, to every
//! call that takes them. Where none is bad, the answer is the original's on the names and kinds alone.
use super::contrasts::{numbers, Tables};
use super::modules::{hear, plain, FULL, HEADER, ROOMY};
use crate::asked::{Asked, FIRST, GIVEN, WIDTH};
use crate::case::{Call, Case};
use crate::random::Random;
use crate::says::original_says;
use crate::Court;

type Row = [u64; WIDTH];

/// What an import of this kind may ask for: other numbers for another `k`.
fn asking(kind: u64, k: u64) -> Asked {
    let limits = || Asked { flag: Some(k % 4), least: Some(k), most: (k % 2 == 1).then_some(k / 2), ..Asked::default() };
    match kind {
        0 => Asked { index: Some(k), ..Asked::default() },
        1 => Asked { type_byte: Some(0x70 - k % 2), ..limits() },
        2 => limits(),
        3 => Asked { type_byte: Some(0x7c + k % 4), mutability: Some(k % 3), ..Asked::default() },
        _ => Asked::default(),
    }
}

/// Two ranges and a kind as a whole row.
fn row(names: &[u64], asked: Asked) -> Row {
    [names, &asked.cells()].concat().try_into().expect("five cells")
}

/// Whole rows of ranges and kinds, five cells each. No two of them ask for the same, nor do rows of tables that are not as long.
pub fn rows_of(names: &[u64]) -> Vec<u64> {
    let many = names.len() as u64;
    names.chunks_exact(5).enumerate().flat_map(|(i, names)| row(names, asking(names[4], 3 * many + i as u64))).collect()
}

/// A good descriptor of a kind, as seeded cells: now and then with odd numbers, now and then with one that is bad.
pub fn descriptor(kind: u64, r: &mut Random) -> Vec<u64> {
    let mut cells = asking(kind, r.below(9) as u64).cells().to_vec();
    if r.one_in(6) {
        let at = r.below(GIVEN - FIRST);
        // bit 0 of a flag stays as it is
        cells[at] |= [2, 1 << 8, 1 << 32, u64::MAX - 1][r.below(4)] * (cells[GIVEN - FIRST] >> at & 1);
    }
    if r.one_in(30) {
        let at = r.below(WIDTH - FIRST);
        cells[at] = [0, 1, 2, cells[at] ^ 1, cells[at] ^ 1 << r.below(7), u64::MAX][r.below(6)];
    }
    cells
}

pub fn fixed(court: &mut Court) {
    worked(court);
    descriptors(court);
    sections(court);
    capacities(court);
    handed(court);
    places(court);
    blind(court);
}

fn say(court: &mut Court, call: Call, numbers: &[u64], strings: &[&[u8]]) {
    court.hear(Case::new(call, numbers, strings));
}

// ---- worked cases, each with its answer

const FILES: [(&str, &str, &str); 5] = [
    ("R07-1", "H 02 07 01 01 6d 01 66 00 05", "import 6d 66 0 asks [5, 0, 0, 0, 0, 0, 1]"),
    ("R07-3", "H 02 09 01 01 6d 01 66 02 01 01 02", "import 6d 66 2 asks [0, 0, 1, 1, 2, 0, 28]"),
    ("R07-5", "H 02 0a 01 01 6d 01 66 01 6f 01 03 04", "import 6d 66 1 asks [0, 111, 1, 3, 4, 0, 30]"),
    ("R07-7", "H 02 08 01 01 6d 01 66 02 02 01", "import 6d 66 2 asks [0, 0, 2, 1, 0, 0, 12]"),
    ("R07-9", "H 02 07 01 01 6d 01 66 00 00", "import 6d 66 0 asks [0, 0, 0, 0, 0, 0, 1]"),
];

const GOOD: Row = [0, 0, 0, 0, 0, 5, 0, 0, 0, 0, 0, 1];

const TABLES: [(&str, Call, u64, &[Row], &str); 9] = [
    ("R07-11", Call::Functions, 1, &[GOOD], "1"),
    ("R07-13", Call::Functions, 1, &[[0, 0, 0, 0, 0, 5, 0, 1, 0, 0, 0, 1]], "refused 15 at 0"),
    ("R07-15", Call::Memories, 1, &[[0, 0, 0, 0, 2, 0, 0, 0, 1, 0, 0, 28]], "refused 15 at 0"),
    ("R07-17", Call::Functions, 1, &[[0, 0, 0, 0, 9, 0, 0, 0, 0, 0, 0, 0]], "0"),
    ("R07-19", Call::Functions, 1, &[[0, 0, 0, 0, 256, 0, 0, 0, 0, 0, 0, 0]], "refused 15 at 0"),
    ("R07-21", Call::Functions, 2, &[GOOD, [0; WIDTH]], "refused 15 at 1"),
    ("R07-23", Call::Functions, 1, &[[0, 0, 0, 0, 0, 1 << 32, 0, 0, 0, 0, 0, 1]], "1"),
    ("R07-27", Call::Functions, 1, &[GOOD, [7; WIDTH]], "1"),
    ("R07-29", Call::Functions, 1, &[[0, 0, 0, 0, 3, 0, 127, 0, 0, 0, 0, 34]], "0"),
];

fn worked(court: &mut Court) {
    for (id, bytes, answer) in FILES {
        let file = super::bytes(bytes);
        stated(court, id, Case::new(Call::Module, &FULL, &[&file]), answer);
        stated(court, id, Case::new(Call::CModule, &[200], &[&file]), answer);
    }
    for (id, call, count, rows, answer) in TABLES {
        stated(court, id, Case::new(call, &[&[count], &rows.concat()[..]].concat(), &[]), answer);
    }
    let needs = [0, 13, 13, 7, 0, 9, 0, 0, 0, 0, 0, 3];
    stated(
        court,
        "R07-25",
        Case::new(Call::Requirements, &[&[4, 4, 1], &needs[..]].concat(), &[b"wasi_unstablefd_read"]),
        "refused 15 at 0",
    );
}

/// The judge is held to the stated answer, and then the port to the judge.
fn stated(court: &mut Court, id: &str, case: Case, answer: &str) {
    let said = original_says(&case);
    if !said.split("; ").any(|part| part == answer) {
        court.differ(&format!("the judge says {said} of {id}, which is stated as {answer}"));
    }
    court.hear(case);
}

// ---- files

fn section(imports: &[Vec<u8>]) -> Vec<u8> {
    let payload = [plain(imports.len()), imports.concat()].concat();
    [vec![2], plain(payload.len()), payload].concat()
}

fn read(court: &mut Court, sections: &[Vec<u8>]) {
    let file = [HEADER, &sections.concat()].concat();
    hear(court, &file, ROOMY);
    say(court, Call::CModule, &[4_000], &[&file]);
}

fn import(descriptor: &[u8]) -> Vec<u8> {
    [b"\x01m\x01f", descriptor].concat()
}

/// Numbers around what one byte of them holds, and what a byte, two and four count; and one in as many bytes as it may take.
fn values() -> Vec<Vec<u8>> {
    let mut out: Vec<Vec<u8>> =
        [0, 1, 2, 127, 128, 255, 256, 16_383, 16_384, 65_535, 65_536, 65_537, 0x7fff_ffff, 0xffff_ffff].map(plain).into();
    out.push([vec![0x83], vec![0x80; 8], vec![0]].concat());
    out
}

/// Every type byte, flag and mutability; every two limits.
fn descriptors(court: &mut Court) {
    let mut one = |descriptor: &[u8]| read(court, &[section(&[import(descriptor)])]);
    for value in values() {
        one(&[vec![0], value].concat());
    }
    for byte in 0..=255 {
        for limits in [&[0, 7][..], &[1, 7, 9], &[3, 7, 0], &[2, 0]] {
            one(&[&[1, byte], limits].concat());
        }
        for rest in [0, 1, 2, 255] {
            one(&[3, byte, rest]);
            one(&[3, rest, byte]);
        }
        // of an even flag what looks like a most is left over
        for kind in [&[1, 0x70][..], &[2]] {
            one(&[kind, &[byte, 5, 6]].concat());
            one(&[kind, &[byte, 5, 0]].concat());
        }
    }
    for (least, most) in values().iter().flat_map(|least| values().into_iter().map(move |most| (least.clone(), most))) {
        for kind in [&[1, 0x6f][..], &[2]] {
            one(&[kind, &[0], &least].concat());
            one(&[kind, &[1], &least, &most].concat());
        }
    }
}

/// Imports of every two and three kinds, one after another; and of two import sections the last.
fn sections(court: &mut Court) {
    let each: [&[u8]; 7] =
        [b"\x00\x05", b"\x01\x70\x00\x02", b"\x01\x6f\x01\x03\x04", b"\x02\x00\x06", b"\x02\x03\x07\x08", b"\x03\x7f\x00", b"\x03\x7c\x01"];
    let all = each.map(import);
    for (a, b) in all.iter().flat_map(|a| all.iter().map(move |b| (a, b))) {
        read(court, &[section(&[a.clone(), b.clone()])]);
        read(court, &[section(&[a.clone()]), section(&[b.clone()])]);
        read(court, &[section(&[a.clone(), b.clone()]), section(&[b.clone()])]);
        for c in &all {
            read(court, &[section(&[a.clone(), b.clone(), c.clone()])]);
        }
    }
    read(court, &[section(&all)]);
    read(court, &[section(&all), section(&[])]);
}

/// As many imports as tables of so many cells take, one less and more: a row has twelve of them. And full tables of every kind.
fn capacities(court: &mut Court) {
    let each: [&[u8]; 4] = [b"\x00\x05", b"\x01\x6f\x01\x03\x04", b"\x02\x03\x07\x08", b"\x03\x7c\x01"];
    let file = |n: usize| [HEADER, &section(&(0..n).map(|i| import(each[i % 4])).collect::<Vec<_>>())].concat();
    for (n, cells) in (0..=6).flat_map(|n| (0..=73).map(move |cells| (n, cells))) {
        hear(court, &file(n), [40, cells, 48, 36]);
    }
    for n in [3, 4, 5, 15, 16, 17, 425, 426, 427, 1023, 1024, 1025] {
        for cells in [5 * 1024, 5 * n as u64, 12 * n as u64 - 1, 12 * n as u64, FULL[1], FULL[1] + 12] {
            hear(court, &file(n), [40, cells, 48, 36]);
        }
        let needed = 8 * (5 + 12 * n as u64);
        for room in [8 * (5 + 5 * n as u64), needed - 1, needed, needed + 9] {
            say(court, Call::CModule, &[room], &[&file(n)]);
        }
        say(court, Call::Check, &[], &[&file(n), b"default allow\ndeny unknown"]);
        say(court, Call::CCompare, &[4_000], &[HEADER, &file(n)]);
    }
    // counts around the rows of tables that are handed in, and around what five cells a row would be
    for rows in [0, 1, 2, 3, 425, 426, 427, 1023, 1024, 1025] {
        let cells = rows_of(&[0, 0, 0, 0, 0].repeat(rows));
        for (less, count) in
            [0, 1, 7, 11].into_iter().flat_map(|less| (0..3).map(move |more| (less, (rows + more).saturating_sub(1) as u64)))
        {
            let cells = &cells[..cells.len().saturating_sub(less)];
            every_call(court, count, cells);
        }
    }
}

// ---- tables

/// Every call that takes table 2, with a file of three bytes: as the baseline's and as the candidate's.
fn every_call(court: &mut Court, count: u64, cells: &[u64]) {
    let file = b"abc";
    for call in [Call::Functions, Call::Memories] {
        say(court, call, &[&[count], cells].concat(), &[]);
    }
    say(court, Call::Namespaces, &[&[8, count], cells].concat(), &[file]);
    say(court, Call::Requirements, &[&[1024, 1024, count], cells].concat(), &[file]);
    let (given, none) = (Tables::counted(cells.to_vec(), count), Tables::default());
    for (b, c) in [(&given, &none), (&none, &given)] {
        say(court, Call::Differences, &numbers(&[8, 60, 2_000], b, c), &[file, file]);
    }
    // the first row as a pair that was removed, and as one that was added
    for change in 0..2 {
        say(court, Call::Reasons, &numbers(&[200, 0, 1, 0, 3, change, 6, 0], &given, &given), &[file, file]);
        let first = [change, 0, count, count, cells.len() as u64];
        say(court, Call::SourceName, &[&first[..], cells, cells].concat(), &[file, b"xyz"]);
    }
}

/// A good row of each kind and flag; `given` with each bit turned, or another kind's; each number 0, 1 and large.
fn handed(court: &mut Court) {
    for kind in [0, 1, 2, 3, 4, 9, 255, 256, u64::MAX] {
        for flag in [0, 1, 2, 3, 254, 255, 256, 257, u64::MAX - 1, u64::MAX] {
            let mut asked = asking(kind, 6);
            if asked.flag.is_some() {
                asked = Asked { flag: Some(flag), most: (flag % 2 == 1).then_some(0), ..asked };
            } else if flag > 1 {
                continue;
            }
            let good = row(&[0, 1, 1, 1, kind], asked);
            every_call(court, 1, &good);
            let mut put = |cell: usize, number: u64| {
                let mut odd = good;
                odd[cell] = number;
                every_call(court, 1, &odd);
            };
            for bit in (0..9).chain([31, 32, 63]) {
                put(GIVEN, good[GIVEN] ^ 1 << bit);
            }
            for given in [0, 1, 2, 12, 14, 28, 30, 32, 34, 63, u64::MAX] {
                put(GIVEN, given);
            }
            for (cell, number) in (FIRST..GIVEN).flat_map(|cell| [0, 1, 2, 256, 1 << 32, u64::MAX].map(|number| (cell, number))) {
                put(cell, number);
            }
        }
    }
    // rows of the width that was, and rows of one number throughout
    every_call(court, 2, &[0, 1, 1, 1, 0, 0, 1, 1, 1, 0, 0, 0, 0, 0, 0, 0, 0, 0, 0, 0, 0, 0, 0, 0]);
    for number in [0, 1, 2, 3, 7] {
        every_call(court, 1, &[number; WIDTH]);
    }
}

/// A bad row, in each way, at each of four places, with another bad one after it, and past the count.
fn places(court: &mut Court) {
    let bad: [fn(&mut [u64]); 8] = [
        |r| r[1] = 9,
        |r| r[2] = 9,
        |r| r[4] = 256,
        |r| r[GIVEN] ^= 1,
        |r| r[GIVEN] |= 1 << 20,
        |r| r[GIVEN] = 0,
        |r| r[10] = if r[4] == 3 { r[10] } else { 1 },
        |r| r[FIRST] = if r[4] == 0 { r[FIRST] } else { 1 },
    ];
    let good = rows_of(&[0, 1, 1, 1, 0, 1, 1, 0, 1, 2, 2, 1, 0, 0, 1, 0, 2, 0, 0, 3]);
    every_call(court, 4, &good);
    for (at, first) in (0..4).flat_map(|at| bad.map(|first| (at, first))) {
        let mut cells = good.clone();
        first(&mut cells[WIDTH * at..WIDTH * (at + 1)]);
        for count in 0..=5 {
            every_call(court, count, &cells);
        }
        for (later, second) in (at..4).flat_map(|later| bad.map(|second| (later, second))) {
            let mut cells = cells.clone();
            second(&mut cells[WIDTH * later..WIDTH * (later + 1)]);
            every_call(court, 4, &cells);
        }
    }
    for n in [15, 16, 17, 255, 256, 257, 1000, 1023] {
        for kind in 0..4 {
            let mut cells = rows_of(&[0, 1, 1, 1, kind].repeat(n + 1));
            every_call(court, n as u64 + 1, &cells);
            cells[WIDTH * n + GIVEN] ^= 16;
            every_call(court, n as u64 + 1, &cells);
            every_call(court, n as u64, &cells);
        }
    }
}

/// The same names and kinds with other descriptors, as files and as tables: neither is missed by the other, nor is one listed twice.
fn blind(court: &mut Court) {
    let kinds: [[&[u8]; 2]; 4] = [
        [b"\x00\x05", b"\x00\x06"],
        [b"\x01\x70\x00\x02", b"\x01\x6f\x01\x03\x04"],
        [b"\x02\x00\x06", b"\x02\x03\x07\x08"],
        [b"\x03\x7f\x00", b"\x03\x7c\x01"],
    ];
    let named = |field: &[u8], descriptor: &[u8]| [b"\x16wasi_snapshot_preview1", &plain(field.len())[..], field, descriptor].concat();
    for fields in [[&b"fd_read"[..], b"fd_write"], [b"fd_read", b"sock_recv"], [b"f", b"f"]] {
        for [one, other] in kinds {
            let file = |a: &[u8], b: &[u8]| [HEADER, &section(&[named(fields[0], a), named(fields[1], b)])].concat();
            let files = [file(one, one), file(one, other), file(other, one), file(other, other), file(kinds[0][0], one)];
            for (a, b) in files.iter().flat_map(|a| files.iter().map(move |b| (a, b))) {
                say(court, Call::Compare, &[40, 60, 500], &[a, b]);
                say(court, Call::CCompare, &[500], &[a, b]);
            }
            for file in &files {
                say(court, Call::Check, &[], &[file, b"allow fs"]);
            }
        }
    }
    let names = b"wasi_snapshot_preview1fd_readsock_recv";
    let sources = [[0, 22, 22, 7], [0, 22, 29, 9], [0, 4, 22, 7]];
    for (k, kind) in (0..8).flat_map(|k| (0..4).map(move |kind| (k, kind))) {
        let table = |k: u64| {
            let rows = sources.iter().flat_map(|r| [r, r]).enumerate();
            rows.flat_map(|(i, r)| row(&[&r[..], &[kind]].concat(), asking(kind, k * i as u64 + k))).collect::<Vec<_>>()
        };
        let (one, other) = (table(k), table(k + 1));
        say(court, Call::Requirements, &[&[8, 8, 6], &one[..]].concat(), &[names]);
        say(court, Call::Namespaces, &[&[8, 6], &one[..]].concat(), &[names]);
        let (b, c) = (Tables::counted(one, 6), Tables::counted(other, 6));
        for (b, c) in [(&b, &c), (&c, &b), (&b, &Tables::default()), (&Tables::default(), &c)] {
            say(court, Call::Differences, &numbers(&[8, 60, 2_000], b, c), &[names, names]);
        }
    }
}
