//! Offsets, counts, lines and rows above what one byte or two count; full tables in which no two rows are alike; long sections of few
//! entries.
use super::asked::rows_of;
use super::contrasts::{numbers, Tables};
use super::lengths::LENGTHS;
use super::modules::{hear, plain, FULL, HEADER, ROOMY};
use crate::case::{Call, Case};
use crate::Court;

/// Around what a byte counts, and above.
const MANY: [usize; 7] = [15, 16, 17, 255, 256, 257, 1000];

pub fn fixed(court: &mut Court) {
    lines(court);
    offsets(court);
    long_sections(court);
    full_tables(court);
    bad_rows(court);
    builds(court);
    ranked(court);
    requirements(court);
    tokens(court);
    worlds(court);
}

fn say(court: &mut Court, call: Call, numbers: &[u64], strings: &[&[u8]]) {
    court.hear(Case::new(call, numbers, strings));
}

fn counted(bytes: &[u8]) -> Vec<u8> {
    [&plain(bytes.len()), bytes].concat()
}

fn section(id: u8, payload: &[u8]) -> Vec<u8> {
    [vec![id], counted(payload)].concat()
}

/// A fault of each kind after so many lines, to the last line that a text can have.
fn lines(court: &mut Court) {
    for n in MANY.into_iter().chain([32_767, 65_521, 65_534, 65_535]) {
        for end in ["\n", "\r\n"] {
            let before = end.repeat(n);
            if before.len() > 65_535 {
                continue;
            }
            for fault in ["x", "default x", "allow x", "policy a"] {
                say(court, Call::Policy, &[], &[format!("{before}{fault}").as_bytes()]);
            }
            for fault in ["x", "}", "{", "import a", "world ", "world a\npackage b", "package b"] {
                say(court, Call::Manifest, &[2, 7], &[format!("{before}{fault}").as_bytes()]);
            }
        }
    }
}

// ---- offsets

/// Imports, exports and a name section.
fn surface() -> Vec<u8> {
    let names = [counted(b"name"), section(0, b"\x05title"), section(1, b"\x02\x07\x01g\x09\x02hh")].concat();
    [
        section(2, b"\x02\x03env\x03get\x00\x01\x16wasi_snapshot_preview1\x08fd_write\x00\x02"),
        section(7, b"\x02\x04main\x00\x00\x06memory\x02\x00"),
        section(0, &names),
    ]
    .concat()
}

/// A module, a policy and a manifest, whose parts stand after so many bytes; tables whose ranges do.
fn offsets(court: &mut Court) {
    for before in [0, 100, 200, 215, 230, 240, 250, 255, 256, 300, 1000, 65_280, 65_440, 65_500, 65_536, 70_000, 131_072, 16_777_000] {
        modules_after(court, before);
        if before < 65_400 {
            texts_after(court, before);
            handed(court, before);
        }
    }
}

fn modules_after(court: &mut Court, before: usize) {
    for id in [0, 1] {
        let file = [HEADER, &section(id, &vec![0; before]), &surface()].concat();
        hear(court, &file, ROOMY);
        say(court, Call::CModule, &[1000], &[&file]);
        if file.len() > 1 << 20 {
            return;
        }
        say(court, Call::Check, &[], &[&file, b"default allow\ndeny unknown"]);
        for other in [HEADER.to_vec(), [HEADER, &surface()].concat()] {
            say(court, Call::Compare, &[40, 60, 300], &[&file, &other]);
        }
        for fault in faults() {
            hear(court, &[&file[..], &fault].concat(), ROOMY);
        }
    }
}

fn texts_after(court: &mut Court, before: usize) {
    let blank = "\n".repeat(before);
    let policy = format!("{blank}policy \"name\"\nallow fs: a, b\ndeny net\n");
    say(court, Call::Policy, &[], &[policy.as_bytes()]);
    say(court, Call::Rewrite, &[100], &[policy.as_bytes()]);
    say(court, Call::CTokens, &[100, 0], &[policy.as_bytes()]);
    let manifest = format!("{blank}package p\nworld w {{\nimport wasi:io/x: y\nexport e\n}}\n");
    say(court, Call::Manifest, &[8, 28], &[manifest.as_bytes()]);
    say(court, Call::CManifest, &[300], &[manifest.as_bytes()]);
}

/// One of each kind: no end; a number above 32 bits, and of eleven bytes; bytes that are no name; a kind that there is not.
fn faults() -> [Vec<u8>; 7] {
    [
        vec![0x80],
        vec![1, 0xff, 0xff, 0xff, 0xff, 0x7f],
        [vec![1], vec![0x80; 11]].concat(),
        section(2, b"\x01\x01m\x02f\xff\x00\x00"),
        section(7, b"\x01\x03\xe2\x82f\x00\x00"),
        section(2, b"\x01\x01m\x01f\x07\x00"),
        section(0, &[counted(b"name"), section(1, b"\x01\x07\x01\xff")].concat()),
    ]
}

/// Names after so many other bytes.
fn handed(court: &mut Court, before: usize) {
    let at = before as u64;
    let file = [&vec![b'.'; before][..], b"bawasi:io"].concat();
    let imports = rows_of(&[at, 1, at + 1, 1, 0, at + 1, 1, at, 1, 0, at + 2, 7, 0, 0, 0]);
    say(court, Call::Namespaces, &[&[4, 3], &imports[..]].concat(), &[&file]);
    say(court, Call::Requirements, &[&[4, 4, 3], &imports[..]].concat(), &[&file]);
    let exports = [at, 1, 0, 0, at + 1, 2, 3, 0];
    let tables = [&[3, 2, 0, 0, imports.len() as u64, 8, 0], &imports[..], &exports].concat();
    say(court, Call::Differences, &[&[8, 12, 300], &tables[..]].concat(), &[&file, b""]);
    let references = [0, 0, at, 1, 1, at + 1, 1, 0, 0, at + 2, 7, 0, 0, 0, 0, 1, at + 1, 1, 0, 0, 0];
    let tables = [&[1, 3, 2, at, 1], &references[..]].concat();
    for call in [Call::AllImports, Call::AllExports] {
        say(court, call, &[&[4], &tables[..]].concat(), &[&file]);
    }
    say(court, Call::Needs, &[&[4, 4], &tables[..]].concat(), &[&file]);
    let mut policy = vec![1, at, 2, 0];
    policy.extend([1, at, 9].repeat(7));
    say(court, Call::Write, &[&[300], &policy[..]].concat(), &[&file]);
    for from in [0, at, at + 1] {
        say(court, Call::Token, &[&[3, from], &policy[..]].concat(), &[&file]);
    }
}

/// Few entries with names of many lengths, so that their section is above 4,096 bytes and more; the last byte of each is cut off, too, and
/// faults stand at its end.
fn long_sections(court: &mut Court) {
    for n in LENGTHS.into_iter().chain([2046, 2047, 2048, 4080, 4096, 5000, 40_000, 65_535, 65_536, 70_000]) {
        let name = counted(&vec![b'n'; n]);
        let imports = [&b"\x02"[..], &name, &name, b"\x00\x05\x01m", &name, b"\x02\x00\x01"].concat();
        let exports = [&b"\x02"[..], &name, b"\x00\x05\x01x\x00\x00"].concat();
        let symbols = [&b"\x02\x80\x02"[..], &name, b"\x07\x01g"].concat();
        let names = [&b"\x04name"[..], &section(0, &name), &section(1, &symbols), &section(2, &name)].concat();
        for (id, payload) in [(2, imports), (7, exports), (0, names), (0, [&name[..], &name].concat())] {
            hear(court, &[HEADER, &section(id, &payload)].concat(), ROOMY);
            hear(court, &[HEADER, &section(id, &payload[..payload.len() - 1])].concat(), ROOMY);
        }
        let symbols = [&b"\x02\x80\x02"[..], &name, b"\x07\x01\xff"].concat();
        let faults = [
            (2, [&b"\x01"[..], &name, b"\x02f\xff\x00\x00"].concat()),
            (2, [&b"\x01"[..], &name, b"\x01f\x07\x00"].concat()),
            (7, [&b"\x02"[..], &name, b"\x00\x05\x03\xe2\x82x\x00\x00"].concat()),
            (7, [&b"\x01"[..], &name, b"\x00\xff\xff\xff\xff\x7f"].concat()),
            (0, [&b"\x04name"[..], &section(1, &symbols)].concat()),
        ];
        for (id, payload) in faults {
            hear(court, &[HEADER, &section(id, &payload)].concat(), ROOMY);
        }
    }
}

// ---- rows

/// Tables with as many rows as they take, one less and more, no two of them alike.
fn full_tables(court: &mut Court) {
    for n in [255, 256, 257] {
        let sections: Vec<u8> =
            (0..n).flat_map(|i| section((i % 3 * 3) as u8, &[&[1, b'a' + (i % 26) as u8][..], &vec![7; i]].concat())).collect();
        hear(court, &[HEADER, &sections].concat(), FULL);
    }
    for n in [255, 256, 257, 1023, 1024, 1025] {
        let name = |i: usize| counted(format!("{:x}", i * 7919 % 104_729).as_bytes());
        let kind = |i: usize| [&[0, 5][..], &[2, 1, 3, 4], &[3, 0x7f, 1], &[1, 0x70, 0, 9]][i % 4].to_vec();
        let imports = [plain(n), (0..n).flat_map(|i| [name(i), name(i + 1), kind(i)].concat()).collect()].concat();
        let exports = [plain(n), (0..n).flat_map(|i| [name(i), vec![(i % 4) as u8], plain(i * 97)].concat()).collect()].concat();
        let file = [HEADER, &section(2, &imports), &section(7, &exports)].concat();
        hear(court, &file, FULL);
        for room in [99, 200_000] {
            say(court, Call::CModule, &[room], &[&file]);
        }
    }
    for n in [255, 256, 257, 4095, 4096, 4097] {
        let symbol = |i: usize| [plain(i * 31), counted(format!("f{i}").as_bytes())].concat();
        let symbols = [plain(n), (0..n).flat_map(symbol).collect()].concat();
        let name = [&b"\x04name"[..], &section(1, &symbols)].concat();
        let file = [HEADER, &section(0, &name)].concat();
        hear(court, &file, FULL);
        for room in [99, 100_000] {
            say(court, Call::CModule, &[room], &[&file]);
        }
    }
}

/// A bad row after so many good ones, in every table that is handed in.
fn bad_rows(court: &mut Court) {
    for n in MANY.into_iter().chain([1023]) {
        let count = n as u64 + 1;
        let imports = rows_of(&[[0, 0, 0, 0, 0].repeat(n), vec![0, 1, 0, 0, 256]].concat());
        for call in [Call::Functions, Call::Memories] {
            say(court, call, &[&[count], &imports[..]].concat(), &[]);
        }
        say(court, Call::Namespaces, &[&[1024, count], &imports[..]].concat(), &[b""]);
        say(court, Call::Requirements, &[&[1024, 1024, count], &imports[..]].concat(), &[b""]);
        let exports = [[0, 0, 0, 0].repeat(n), vec![0, 1, 0, 0]].concat();
        for tables in [Tables::whole(imports, vec![]), Tables::of(vec![], exports)] {
            say(court, Call::Differences, &numbers(&[16, 24, 300], &tables, &Tables::default()), &[b"", b""]);
            say(court, Call::Differences, &numbers(&[16, 24, 300], &Tables::default(), &tables), &[b"", b""]);
        }
        let references = [[0, 0, 0, 0, 0, 0, 0].repeat(n), vec![1, 0, 0, 0, 0, 0, 0]].concat();
        let tables = [&[1, count, 2, 0, 0], &references[..]].concat();
        for call in [Call::AllImports, Call::AllExports] {
            say(court, call, &[&[1024], &tables[..]].concat(), &[b""]);
        }
        say(court, Call::Needs, &[&[1024, 1024], &tables[..]].concat(), &[b""]);
    }
}

/// A build with an import and an export for each row; names of up to so many bytes.
fn build(rows: &[usize], longest: usize) -> Vec<u8> {
    let name = |i: usize| counted(format!("{:x}{}", i * 7919 % 104_729, "n".repeat(i % longest)).as_bytes());
    let count = plain(rows.len());
    let imports: Vec<u8> = rows.iter().flat_map(|i| [name(*i), counted(b"f"), vec![0, 0]].concat()).collect();
    let exports: Vec<u8> = rows.iter().flat_map(|i| [name(*i), vec![(*i % 4) as u8, 0]].concat()).collect();
    [HEADER, &section(2, &[&count[..], &imports].concat()), &section(7, &[&count[..], &exports].concat())].concat()
}

/// A build whose names of the rows all have one print, the length and eight bytes at each end: every fifth import is a memory. Then
/// fields of one source, of different domains, and an export of each of these kinds.
fn alike(imports: &[usize], exports: &[usize], fields: &[&str], kinds: &[u8]) -> Vec<u8> {
    let name = |i: usize| counted(format!("01234567{i:04}89abcdef").as_bytes());
    let import = |i: usize| [name(i), counted(b"f"), if i % 5 == 4 { vec![2, 0, 1] } else { vec![0, 0] }].concat();
    let field = |f: &str| [counted(b"wasi_snapshot_preview1"), counted(f.as_bytes()), vec![0, 0]].concat();
    let mut two = plain(imports.len() + fields.len());
    two.extend(imports.iter().flat_map(|i| import(*i)).chain(fields.iter().flat_map(|f| field(f))));
    let mut seven = plain(exports.len() + kinds.len());
    seven.extend(exports.iter().flat_map(|i| [name(*i), vec![(i % 4) as u8, 0]].concat()));
    seven.extend(kinds.iter().flat_map(|k| [counted(b"same"), vec![*k, 0]].concat()));
    [HEADER, &section(2, &two), &section(7, &seven)].concat()
}

/// Builds that use up the comparison's budget, so that ranks decide: of both lists, of one, and of none of them.
fn ranked(court: &mut Court) {
    let mut hear = |one: Vec<u8>, other: Vec<u8>| {
        say(court, Call::Compare, &[4096, 6144, 1 << 20], &[&one, &other]);
        say(court, Call::CCompare, &[1 << 20], &[&other, &one]);
    };
    let (early, late) = (["clock_time_get", "random_get", "fd_write"], ["random_get", "sock_recv"]);
    for n in [1, 2, 12, 32, 33, 40, 300] {
        let rows: Vec<usize> = (0..2 * n).collect();
        let turned: Vec<usize> = rows[..n].iter().rev().copied().collect();
        let twice: Vec<usize> = rows[..n].iter().map(|i| i / 2).collect();
        let sides: [&[usize]; 5] = [&turned, &rows[n..], &rows[n / 2..n / 2 + n], &twice, &rows[..n - 1]];
        for other in sides {
            hear(alike(&rows[..n], &rows[..n], &early, &[0, 1]), alike(other, other, &late, &[1, 2]));
            hear(alike(&[], &rows[..n], &early, &[]), alike(&[], other, &late, &[3]));
            hear(alike(&rows[..n], &[], &[], &[0, 0]), alike(other, &[], &early, &[0]));
        }
    }
}

/// Two builds of so many rows, no two alike: they share none, or all but the last.
fn builds(court: &mut Court) {
    let mut hear = |one: Vec<u8>, other: Vec<u8>| {
        say(court, Call::Compare, &[4096, 6144, 1 << 20], &[&one, &other]);
        say(court, Call::CCompare, &[1 << 20], &[&other, &one]);
    };
    let rows: Vec<usize> = (0..2048).collect();
    for n in [255, 256, 257] {
        hear(build(&rows[..n], 9), build(&rows[n..2 * n], 9));
        hear(build(&rows[..n], 9), build(&rows[..n - 1], 9));
    }
    // the reasons take more than 65,536 bytes
    hear(build(&rows[..1024], 200), build(&rows[1024..], 200));
}

/// Many requirements of one domain, as rows, as records, as the imports of a module; and many of one kind.
fn requirements(court: &mut Court) {
    let fields = ["fd_write", "environ_get", "clock_time_get", "sock_recv", "random_get", "proc_exit"];
    for n in MANY.into_iter().chain([1024]) {
        for domain in 0..7u64 {
            let mut numbers = vec![n as u64, n as u64];
            numbers.extend(vec![domain; n]);
            numbers.extend([0; 25]);
            for call in [Call::Evaluate, Call::EvaluateRecords] {
                say(court, call, &numbers, &[]);
            }
        }
        for field in fields {
            let entry = [counted(b"wasi_snapshot_preview1"), counted(field.as_bytes()), vec![0, 0]].concat();
            let file = [HEADER, &section(2, &[plain(n), entry.repeat(n)].concat())].concat();
            say(court, Call::Check, &[], &[&file, b"default deny"]);
            let cells = rows_of(&[0, 22, 22, field.len() as u64, 0].repeat(n));
            let names = format!("wasi_snapshot_preview1{field}");
            say(court, Call::Requirements, &[&[1024, 1024, n as u64], &cells[..]].concat(), &[names.as_bytes()]);
        }
        for kind in [0, 2] {
            let cells = rows_of(&[0, 0, 0, 0, kind].repeat(n));
            for call in [Call::Functions, Call::Memories] {
                say(court, call, &[&[n as u64], &cells[..]].concat(), &[]);
            }
        }
    }
}

/// So many tokens, no two alike, in one list.
fn tokens(court: &mut Court) {
    for n in MANY.into_iter().chain([999, 1001, 1002, 4096, 4097, 9000]) {
        let list: Vec<String> = (0..n).map(|i| format!("t{i}")).collect();
        let text = format!("allow fs: {}\ndeny net", list.join(","));
        // one by one each token is looked for in a text that is tested anew
        if n < 1100 {
            say(court, Call::Policy, &[], &[text.as_bytes()]);
        }
        say(court, Call::CTokens, &[16 * n as u64, 0], &[text.as_bytes()]);
        say(court, Call::Rewrite, &[text.len() as u64 + n as u64 + 100], &[text.as_bytes()]);
        let empty = format!("allow fs: {}a,{}b", ",".repeat(n), " ,".repeat(n));
        say(court, Call::Policy, &[], &[empty.as_bytes()]);
        say(court, Call::CTokens, &[64, 0], &[empty.as_bytes()]);
    }
}

/// So many worlds with a reference in each, and so many references, no two alike; the same handed in.
fn worlds(court: &mut Court) {
    for n in [15, 16, 17, 31, 32, 33, 62, 63, 64, 65] {
        let text: String = (0..n).map(|i| format!("world w{i} {{\nimport i{i}: s{i}\nexport e{i}\n}}\n")).collect();
        say(court, Call::Manifest, &[128, 7168], &[text.as_bytes()]);
        say(court, Call::CManifest, &[20_000], &[text.as_bytes()]);
    }
    for n in [255, 256, 257, 1000, 1023, 1024] {
        let reference = |i: usize| format!("{} p{}\n", ["import", "export"][i % 2], i * 7919 % 104_729);
        let text: String = format!("world a\n}}\nworld b\n{}", (0..n).map(reference).collect::<String>());
        say(court, Call::Manifest, &[128, 7168], &[text.as_bytes()]);
        say(court, Call::CManifest, &[100_000], &[text.as_bytes()]);
        let names: Vec<u8> = (0..n).flat_map(|i| format!("{:04x}", i * 7919 % 65_521).into_bytes()).collect();
        let rows: Vec<u64> = (0..n as u64).flat_map(|i| [i % 64, i / 64 % 2, 4 * i, 4, 0, 0, 0]).collect();
        let tables = [&[64, n as u64, 128], &[0; 128][..], &rows].concat();
        for call in [Call::AllImports, Call::AllExports] {
            say(court, call, &[&[1024], &tables[..]].concat(), &[&names]);
        }
        say(court, Call::Needs, &[&[1024, 1024], &tables[..]].concat(), &[&names]);
        let imports = rows_of(&(0..n as u64).flat_map(|i| [4 * i, 4, 0, 2, 0]).collect::<Vec<_>>());
        say(court, Call::Namespaces, &[&[1024, n as u64], &imports[..]].concat(), &[&names]);
    }
}
