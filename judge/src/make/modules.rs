//! wasm.rs: modules.
use super::{damaged, every};
use crate::asked::WIDTH;
use crate::case::{Call, Case};
use crate::random::Random;
use crate::Court;

pub use crate::limits::FULL;

pub const HEADER: &[u8] = b"\0asm\x01\0\0\0";
/// Cells of roomy small tables.
pub const ROOMY: [u64; 4] = [40, 12 * IMPORT, 48, 36];
/// Cells of a row of table 2.
const IMPORT: u64 = WIDTH as u64;

/// Plainly and strictly.
pub fn hear(court: &mut Court, file: &[u8], cells: [u64; 4]) {
    court.hear(Case::new(Call::Module, &cells, &[file]));
    strictly(court, file, cells);
}

/// Strictly with tables of so many cells, and over the C interface.
pub fn strictly(court: &mut Court, file: &[u8], cells: [u64; 4]) {
    court.hear(Case::new(Call::Strict, &cells, &[file]));
    court.hear(Case::new(Call::CStrict, &[], &[file]));
}

/// A number, now and then in more bytes than it takes.
fn number(n: u64, r: &mut Random) -> Vec<u8> {
    let mut out = plain(n as usize);
    if r.one_in(12) {
        let most = 10 - out.len();
        let more = 1 + r.below(most);
        *out.last_mut().unwrap() |= 0x80;
        out.extend(std::iter::repeat_n(0x80, more - 1));
        out.push(0);
    }
    out
}

fn name(r: &mut Random) -> Vec<u8> {
    let words: [&[u8]; 16] = [
        b"",
        b"m",
        b"f",
        b"name",
        b"wasi_snapshot_preview1",
        b"wasi_unstable",
        b"wasi:io/streams",
        b"fd_write",
        b"random_get",
        "\u{85}\u{3000}".as_bytes(),
        "\u{10ffff}".as_bytes(),
        b"\xed\xa0\x80",
        b"\xc0\x80",
        b"a\xff",
        b"\xe2\x82",
        b"env",
    ];
    // an ill-formed name only now and then, or few modules would be read to the end
    let bytes = if r.one_in(40) { words[r.below(16)] } else { words[r.below(11)] };
    let mut out = number(bytes.len() as u64, r);
    out.extend(bytes);
    out
}

fn limits(r: &mut Random) -> Vec<u8> {
    let flag = if r.one_in(4) { r.byte() } else { r.below(4) as u8 };
    let mut out = vec![flag];
    out.extend(number(r.next() >> 34, r));
    if flag & 1 != 0 {
        out.extend(number(r.next() >> 40, r));
    }
    out
}

fn import(r: &mut Random) -> Vec<u8> {
    let mut out = name(r);
    out.extend(name(r));
    let kind = if r.one_in(60) { [4, 5, 0x7f, 0x80, 255][r.below(5)] } else { r.below(4) as u8 };
    out.push(kind);
    match kind {
        0 => out.extend(number(r.below(300) as u64, r)),
        1 => {
            out.push([0x70, 0x6f, 0x00, 0xff][r.below(4)]);
            out.extend(limits(r));
        }
        2 => out.extend(limits(r)),
        3 => out.extend([r.byte(), r.byte()]),
        _ => (),
    }
    out
}

fn export(r: &mut Random) -> Vec<u8> {
    let mut out = name(r);
    out.push(if r.one_in(4) { r.byte() } else { r.below(5) as u8 });
    out.extend(number(r.next() >> (32 + r.below(31)), r));
    out
}

fn symbol(r: &mut Random) -> Vec<u8> {
    let mut out = number(r.next() >> (32 + r.below(31)), r);
    out.extend(name(r));
    out
}

/// A count, entries, and now and then a wrong count or bytes left over.
fn entries(r: &mut Random, most: usize, entry: impl Fn(&mut Random) -> Vec<u8>) -> Vec<u8> {
    let n = r.below(most + 1);
    let stated = if r.one_in(12) { [0, n + 1, n.saturating_sub(1), 0xffff_ffff, 0x1_0000_0000][r.below(5)] } else { n };
    let mut out = number(stated as u64, r);
    for _ in 0..n {
        out.extend(entry(r));
    }
    if r.one_in(12) {
        out.push(r.byte());
    }
    out
}

fn sized(id: u8, payload: &[u8], r: &mut Random) -> Vec<u8> {
    let mut out = vec![id];
    let size = if r.one_in(60) { payload.len() + 1 } else { payload.len() };
    out.extend(number(size as u64, r));
    out.extend(payload);
    out
}

fn custom(r: &mut Random) -> Vec<u8> {
    if r.one_in(4) {
        let mut out = name(r);
        out.extend((0..r.below(5)).map(|_| r.byte()));
        return out;
    }
    let mut out = b"\x04name".to_vec();
    for _ in 0..r.below(5) {
        let id = r.below(4) as u8;
        let inner = match id {
            0 => name(r),
            1 => entries(r, 5, symbol),
            _ => (0..r.below(4)).map(|_| r.byte()).collect(),
        };
        out.extend(sized(id, &inner, r));
    }
    out
}

fn section(r: &mut Random) -> Vec<u8> {
    let id = if r.one_in(30) { r.byte() } else { [0, 0, 2, 2, 2, 7, 7, 1, 3, 10, 12, 13][r.below(12)] };
    let payload = match id {
        0 => custom(r),
        2 => entries(r, 6, import),
        7 => entries(r, 6, export),
        _ => (0..r.below(6)).map(|_| r.byte()).collect(),
    };
    sized(id, &payload, r)
}

pub fn module(r: &mut Random) -> Vec<u8> {
    let mut out = HEADER.to_vec();
    if r.one_in(20) {
        out[4] = r.byte();
    }
    for _ in 0..r.below(7) {
        out.extend(section(r));
    }
    out
}

/// Tables of a few rows, and now and then with cells that make no row.
pub fn small(r: &mut Random) -> [u64; 4] {
    [5, IMPORT, 4, 3].map(|w| w * r.below(4) as u64 + if r.one_in(4) { r.below(w as usize) as u64 } else { 0 })
}

/// A number in as few bytes as it takes.
pub fn plain(n: usize) -> Vec<u8> {
    let mut out = Vec::new();
    let mut n = n;
    while n >= 0x80 {
        out.push(n as u8 | 0x80);
        n >>= 7;
    }
    out.push(n as u8);
    out
}

/// n equal entries in one section, and a fault or nothing after them.
fn many(id: u8, entry: &[u8], n: usize, stated: usize, fault: &[u8]) -> Vec<u8> {
    let mut payload = plain(stated);
    for _ in 0..n {
        payload.extend(entry);
    }
    payload.extend(fault);
    if id == 0 {
        let mut inner = b"\x04name\x01".to_vec();
        inner.extend(plain(payload.len()));
        inner.extend(payload);
        payload = inner;
    }
    let mut out = HEADER.to_vec();
    out.push(id);
    out.extend(plain(payload.len()));
    out.extend(payload);
    out
}

/// Sections with so many entries, around a table's room: full, one entry more, and that entry with a fault in each of its parts.
fn around(rooms: [usize; 3], mut f: impl FnMut(&[u8])) {
    let faults: [(u8, &[u8], &[&[u8]]); 3] = [
        (
            2,
            b"\x01m\x01f\x00\x00",
            &[
                b"",
                b"\x01",
                b"\x01\xff",
                b"\x01m\x01",
                b"\x01m\x01f",
                b"\x01m\x01f\x04",
                b"\x01m\x01f\xff",
                b"\x01m\x01f\x00",
                b"\x01m\x01f\x01\x70\x01\x00",
                b"\x01m\x01f\x03\x7f",
            ],
        ),
        (7, b"\x01x\x00\x00", &[b"", b"\x01", b"\x01\xff", b"\x01x", b"\x01x\x04", b"\x01x\x00\x80"]),
        (0, b"\x00\x01g", &[b"", b"\x80", b"\x00", b"\x00\x01", b"\x00\x01\xff"]),
    ];
    for ((id, entry, faults), room) in faults.into_iter().zip(rooms) {
        for n in room.saturating_sub(1)..=room + 1 {
            f(&many(id, entry, n, n, b""));
            f(&many(id, entry, n, n + 1, b""));
            for fault in faults {
                f(&many(id, entry, n, n + 1, fault));
                f(&many(id, entry, n, n + 2, fault));
            }
        }
    }
}

/// Around the small tables which the calls over the C interface begin with.
fn few(court: &mut Court) {
    let mut hear = |file: &[u8]| {
        // 4 and 16 imports or exports, and the section
        for room in [0, 167, 168, 423, 424, 551, 552, 1_575, 1_576, 4_000] {
            court.hear(Case::new(Call::CModule, &[room], &[file]));
        }
        strictly(court, file, FULL);
        for policy in [&b""[..], b"default allow", b"bogus"] {
            court.hear(Case::new(Call::Check, &[], &[file, policy]));
        }
    };
    for (rooms, many) in [([4, 4, 0], 8), ([16, 16, 8], 16)] {
        around(rooms, &mut hear);
        for n in many - 1..=many + 1 {
            for after in [&b""[..], b"\x01", b"\x02\x01", b"\x02\x00"] {
                hear(&sections(n, after));
            }
        }
    }
}

fn sections(n: usize, after: &[u8]) -> Vec<u8> {
    let mut out = HEADER.to_vec();
    for _ in 0..n {
        out.extend([1, 0]);
    }
    out.extend(after);
    out
}

pub fn fixed(court: &mut Court) {
    // headers
    for length in 0..=8 {
        hear(court, &HEADER[..length], ROOMY);
        for at in 0..length {
            for byte in [0x00, 0x01, 0x62, 0xff] {
                let mut s = HEADER[..length].to_vec();
                s[at] = byte;
                hear(court, &s, ROOMY);
            }
        }
    }
    // short files over a small alphabet, after the header
    for length in 0..=4 {
        every(&[0x00, 0x01, 0x02, 0x07, 0x80, 0x81, 0xff], length, |s| hear(court, &[HEADER, s].concat(), ROOMY));
    }
    // short payloads of the sections that are read
    for (id, alphabet) in [(2u8, [0x00, 0x01, 0x02, 0x03, 0x04, 0x80]), (7, [0x00, 0x01, 0x02, 0x04, 0x80, 0xff])] {
        for length in 0..=5 {
            every(&alphabet, length, |s| hear(court, &[HEADER, &[id, s.len() as u8], s].concat(), [5, IMPORT, 8, 3]));
        }
        // the parts after a first name
        for length in 0..=4 {
            every(&[0x00, 0x01, 0x02, 0x03, 0x80, 0xff], length, |s| {
                hear(court, &[HEADER, &[id, s.len() as u8 + 3, 0x01, 0x01, b'm'], s].concat(), ROOMY)
            });
        }
    }
    for length in 0..=5 {
        every(&[0x00, 0x01, 0x02, 0x03, 0x80], length, |s| {
            hear(court, &[HEADER, &[0, s.len() as u8 + 5, 4], &b"name"[..], s].concat(), [5, IMPORT, 4, 6])
        });
    }
    // every id, every import kind, every flag, every export kind
    for b in 0..=255 {
        hear(court, &[HEADER, &[b, 1, 0]].concat(), ROOMY);
        hear(court, &[HEADER, &[2, 9, 1, 1, b'm', 1, b'f', b, 0, 0, 0]].concat(), ROOMY);
        hear(court, &[HEADER, &[2, 9, 1, 1, b'm', 1, b'f', 2, b, 0x80, 0]].concat(), ROOMY);
        hear(court, &[HEADER, &[2, 10, 1, 1, b'm', 1, b'f', 1, b, 1, 0, 0x80]].concat(), ROOMY);
        hear(court, &[HEADER, &[7, 5, 1, 1, b'x', b, 3]].concat(), ROOMY);
        hear(court, &[HEADER, &[0, 8, 4, b'n', b'a', b'm', b'e', b, 1, 0]].concat(), ROOMY);
    }
    // tables: small, then at the limits
    for room in 0..=3 {
        let n = room as u64;
        for cells in [[40, IMPORT * n, 4 * n, 3 * n], [0, IMPORT * (n + 1) - 1, 4 * n + 3, 3 * n + 2], [5, IMPORT * n, 4 * n, 3 * n]] {
            around([room; 3], |file| hear(court, file, cells));
        }
    }
    few(court);
    for n in 0..=4 {
        for after in [&b""[..], b"\x01", b"\x01\x01", b"\x02\x00", b"\x02\x01\x00", b"\x00\x01\x05", b"\x07\x02\x01\x00"] {
            for cells in [0, 4, 5, 9, 10, 14, 15] {
                hear(court, &sections(n, after), [cells, IMPORT, 4, 3]);
            }
        }
    }
    limits_themselves(court);
    for file in real() {
        hear(court, &file, FULL);
        hear(court, &file, ROOMY);
        for policy in ["", "default allow", "default allow\ndeny unknown", "allow fs\nallow env", "bogus", "default allow\n#"] {
            court.hear(Case::new(Call::Check, &[], &[&file, policy.as_bytes()]));
        }
    }
    // a module and a policy that are both refused, each for every reason
    let files = [
        &b""[..],
        b"\0asn\x01\0\0\0",
        b"\0asm\0\0\0\0",
        b"\0asm\x01\0\0\0\x02\x01\x80",
        b"\0asm\x01\0\0\0",
        b"\0asm\x01\0\0\0\x02\x07\x01\x01m\x01f\0\0",
    ];
    let long = "#".repeat(65_537);
    for file in files.map(|f| f.to_vec()).into_iter().chain([sections(257, b"")]) {
        for policy in [&b""[..], b"\xff", b"bogus", b"default x", b"allow x", b"default allow", long.as_bytes()] {
            court.hear(Case::new(Call::Check, &[], &[&file, policy]));
        }
    }
}

/// The modules of samples/, which a compiler made.
fn real() -> Vec<Vec<u8>> {
    let samples = concat!(env!("CARGO_MANIFEST_DIR"), "/../samples");
    let mut files: Vec<_> = std::fs::read_dir(samples).into_iter().flatten().flatten().map(|e| e.path()).collect();
    files.retain(|f| f.extension().is_some_and(|e| e == "wasm"));
    files.sort();
    files.iter().filter_map(|f| std::fs::read(f).ok()).collect()
}

/// Declared counts far beyond the entries, with none, one and a bad entry after them.
pub fn reserving() -> Vec<Vec<u8>> {
    let mut out = Vec::new();
    for count in
        [&b"\xff\xff\xff\xff\x0f"[..], b"\xff\xff\xff\xff\x07", b"\x80\x80\x80\x80\x04", b"\xff\xff\xff\x7f", b"\x80\x94\xeb\xdc\x03"]
    {
        for (id, entry) in [(2u8, &b"\x01m\x01f\x00\x00"[..]), (7, b"\x01x\x00\x00")] {
            for rest in [&b""[..], entry, b"\x01\xff"] {
                let payload = [count, rest].concat();
                out.push([HEADER, &[id, payload.len() as u8], &payload].concat());
            }
        }
    }
    out
}

/// The largest tables, and tables larger than the limits; the longest file, and one byte more.
fn limits_themselves(court: &mut Court) {
    for (low, length) in [(0xf3, 16_777_216), (0xf4, 16_777_217)] {
        let mut file = [HEADER, &[1, low, 0xff, 0xff, 0x07]].concat();
        file.resize(length, 0);
        hear(court, &file, ROOMY);
        court.hear(Case::new(Call::Check, &[], &[&file, b"default allow"]));
    }
    let more = FULL.map(|n| n + 10);
    for cells in [FULL, more] {
        for n in 255..=257 {
            for after in [&b""[..], b"\x01", b"\x02\x01", b"\x02\x00"] {
                hear(court, &sections(n, after), cells);
            }
        }
        for n in [1023, 1024, 1025] {
            hear(court, &many(2, b"\x01m\x01f\x00\x00", n, n, b""), cells);
            hear(court, &many(2, b"\x01m\x01f\x00\x00", n, n + 1, b"\x01m\x01f\x04"), cells);
            hear(court, &many(7, b"\x01x\x00\x00", n, n, b""), cells);
            hear(court, &many(7, b"\x01x\x00\x00", n, n + 1, b"\x01x\x00\x80"), cells);
        }
        for n in [4095, 4096, 4097] {
            hear(court, &many(0, b"\x00\x01g", n, n, b""), cells);
            hear(court, &many(0, b"\x00\x01g", n, n + 1, b"\x00\x01\xff"), cells);
        }
    }
}

pub fn seeded(court: &mut Court, r: &mut Random) {
    for _ in 0..1500 {
        let file = module(r);
        let cells = if r.one_in(2) { ROOMY } else { small(r) };
        hear(court, &file, cells);
        hear(court, &damaged(&file, r), cells);
    }
    for file in real() {
        hear(court, &damaged(&file, r), ROOMY);
    }
}
