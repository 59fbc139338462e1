//! Names, tokens, lines and paths of many lengths: ill-formed, different, cut or blank in each single byte. What compares, searches, trims
//! and copies goes in steps, and a mistake may show at the edge of one alone.
use super::asked::rows_of;
use super::contrasts::{numbers, Tables};
use super::modules::{hear, plain, HEADER, ROOMY};
use crate::case::{Call, Case};
use crate::Court;

/// Around the steps in which bytes are looked at, and above what one byte counts.
pub const LENGTHS: [usize; 16] = [7, 8, 9, 31, 32, 33, 63, 64, 65, 127, 128, 129, 255, 256, 257, 1000];
/// And above what two bytes count: as long as a text may be.
const LONGEST: usize = 65_536;

pub fn fixed(court: &mut Court) {
    ill_formed(court);
    sequences(court);
    different(court);
    prints(court);
    cut(court);
    blanks(court);
    copied(court);
}

fn say(court: &mut Court, call: Call, numbers: &[u64], strings: &[&[u8]]) {
    court.hear(Case::new(call, numbers, strings));
}

/// Every byte of a short text; of a long one those of a step at its front, in its middle and at its end, of the longest one of each.
fn places(length: usize) -> Vec<usize> {
    let span = match length {
        ..=257 => return (0..length).collect(),
        ..=1000 => 72,
        _ => 1,
    };
    [0, length / 2, length - span].into_iter().flat_map(|from| from..from + span).collect()
}

fn with(s: &[u8], at: usize, byte: u8) -> Vec<u8> {
    let mut out = s.to_vec();
    out[at] = byte;
    out
}

fn counted(name: &[u8]) -> Vec<u8> {
    [&plain(name.len()), name].concat()
}

/// As a name, and in a comment of a policy and of a manifest.
fn tested(court: &mut Court, bytes: &[u8]) {
    say(court, Call::Name, &[0], &[&counted(bytes)]);
    let text = |mark: &[u8]| [mark, &bytes[mark.len().min(bytes.len())..]].concat();
    say(court, Call::Policy, &[], &[&text(b"#")]);
    say(court, Call::Manifest, &[2, 7], &[&text(b"//")]);
}

fn ill_formed(court: &mut Court) {
    for length in LENGTHS.into_iter().chain([LONGEST]) {
        let good = vec![b'n'; length];
        tested(court, &good);
        for at in places(length) {
            for byte in [0x80, 0xff] {
                tested(court, &with(&good, at, byte));
            }
        }
    }
}

/// A sequence of two to four bytes at each place around a step: whole, cut, and with a last byte that does not follow.
fn sequences(court: &mut Court) {
    for sequence in ["é", "€", "😀"].map(str::as_bytes) {
        let (last, first) = sequence.split_last().unwrap();
        for at in 0..=72 {
            for (part, after) in [(sequence, 40), (first, 40), (first, 0), (&[first, &[last & 0x3f]].concat()[..], 40)] {
                tested(court, &[&vec![b'n'; at][..], part, &vec![b'n'; after]].concat());
            }
        }
    }
}

// ---- comparing

/// Two names, in every call that compares or sorts: exports and sources of two modules and of one, namespaces, paths, strict exports.
fn compared(court: &mut Court, a: &[u8], b: &[u8]) {
    let (n, m) = (a.len() as u64, b.len() as u64);
    let tables = |rows: &[[u64; 2]]| {
        let imports = rows.iter().flat_map(|[from, len]| [*from, *len, 0, 0, 0]).collect();
        Tables::of(imports, rows.iter().flat_map(|[from, len]| [*from, *len, 0, 0]).collect())
    };
    let both = [a, b].concat();
    let of_two = numbers(&[16, 24, 2 * (n + m) + 200], &tables(&[[0, n]]), &tables(&[[0, m]]));
    let of_one = numbers(&[16, 24, 2 * (n + m) + 200], &tables(&[[0, n], [n, m]]), &tables(&[]));
    say(court, Call::Differences, &of_two, &[a, b]);
    say(court, Call::Differences, &of_one, &[&both, b""]);
    say(court, Call::Namespaces, &[&[4, 2], &rows_of(&[0, n, 0, 0, 0, n, m, 0, 0, 0])[..]].concat(), &[&both]);
    if both.len() <= LONGEST && std::str::from_utf8(&both).is_ok() {
        let rows = |direction: u64| [1, 2, 2, 0, 0, 0, direction, 0, n, 0, 0, 0, 0, direction, n, m, 0, 0, 0];
        say(court, Call::AllImports, &[&[4], &rows(0)[..]].concat(), &[&both]);
        say(court, Call::AllExports, &[&[4], &rows(1)[..]].concat(), &[&both]);
        say(court, Call::Needs, &[&[4, 4], &rows(0)[..]].concat(), &[&both]);
    }
    let payload = [vec![2], counted(a), vec![0, 0], counted(b), vec![3, 0]].concat();
    hear(court, &[HEADER, &[7], &counted(&payload)].concat(), ROOMY);
}

/// Equal; different in one byte; and the first difference decides, whatever comes after it.
fn different(court: &mut Court) {
    for length in LENGTHS.into_iter().chain([LONGEST / 2, LONGEST]) {
        let name = vec![b'n'; length];
        compared(court, &name, &name);
        compared(court, &name, &name[1..]);
        compared(court, &name[1..], &name);
        for at in places(length) {
            compared(court, &name, &with(&name, at, b'o'));
            if length < 130 {
                let mut other = with(&name, at, b'm');
                other[at + 1..].fill(b'z');
                compared(court, &name, &other);
            }
        }
    }
}

/// Names that the comparison's print, of the length and of eight bytes at each end, does not tell apart.
fn prints(court: &mut Court) {
    for length in [17, 18, 24, 80, 300] {
        let name = vec![b'n'; length];
        for at in [8, length / 2, length - 9] {
            compared(court, &name, &with(&name, at, b'm'));
            compared(court, &with(&name, at, b'o'), &with(&name, at, b'm'));
        }
    }
}

// ---- searching

/// A text in which one thing stands at each place: a comma, a colon, a comment, the end of the line.
fn cut(court: &mut Court) {
    for length in LENGTHS {
        for at in places(length) {
            let (front, rest) = ("n".repeat(at), "n".repeat(length - at - 1));
            let policies = [
                format!("policy {front}#{rest}"),
                format!("policy {front}\r\n{rest}"),
                format!("#{front}\nx{rest}"),
                format!("allow fs:{front},{rest}"),
                format!("deny {}net:{rest},", " ".repeat(at)),
                format!("deny net{}:{rest},{front}", " ".repeat(at)),
                format!("policy \"{front}\"{rest}\""),
            ];
            for text in policies {
                say(court, Call::Policy, &[], &[text.as_bytes()]);
            }
            let list = format!("allow fs:{front},{rest}");
            say(court, Call::CTokens, &[64, 0], &[list.as_bytes()]);
            say(court, Call::Rewrite, &[2 * length as u64 + 99], &[list.as_bytes()]);
            let manifests = [
                format!("world w\nimport {front}//{rest}"),
                format!("world w\nimport {front}/{rest}"),
                format!("world w\nexport {front}: {rest}"),
                format!("world w\nexport {front}:{rest}"),
                format!("world w\nimport {front}\nimport {rest}"),
                format!("package {front}//{rest}\n//{front}\nx"),
                format!("world {front}{{{rest}"),
            ];
            for text in manifests {
                say(court, Call::Manifest, &[8, 28], &[text.as_bytes()]);
            }
            for path in [format!("wasi:io/{front}@{rest}"), format!("io@{front}/{rest}"), format!("{front}/{rest}")] {
                say(court, Call::Path, &[], &[path.as_bytes()]);
                say(court, Call::Import, &[], &[path.as_bytes(), b"fd_write"]);
            }
        }
    }
}

// ---- trimming

/// So many blanks of each width, quotes and braces, on either side of what is trimmed.
fn blanks(court: &mut Court) {
    for n in LENGTHS {
        for blank in [" ", "\t", "\u{85}", "\u{3000}"].map(|b| b.repeat(n)) {
            let policies = [
                format!("{blank}policy {blank}a{blank}\n{blank}default {blank}allow{blank}"),
                format!("deny {blank}net{blank}: {blank}a{blank},{blank}b{blank}"),
                format!("{blank}\n{blank}#\n{blank}x"),
                format!("policy \"{blank}\""),
            ];
            for text in policies {
                say(court, Call::Policy, &[], &[text.as_bytes()]);
                say(court, Call::Rewrite, &[14 * n as u64 + 200], &[text.as_bytes()]);
            }
            let manifests = [
                format!(
                    "{blank}package {blank}a{blank}\n{blank}world {blank}a{blank}{{{blank}\n{blank}import {blank}a{blank}: {blank}b{blank}"
                ),
                format!("world w\nexport {blank}a{blank}{{{blank}\n{blank}{{{blank}\n{blank}}}{blank}\n{blank}\n{blank}x"),
                format!("world w\nimport a: {blank}\nimport {blank}\nworld {blank}"),
            ];
            for text in manifests {
                say(court, Call::Manifest, &[8, 28], &[text.as_bytes()]);
            }
        }
        let (quotes, braces) = ("\"".repeat(n), "{".repeat(n));
        for text in [format!("policy {quotes}a{quotes}"), format!("policy {quotes}"), format!("policy a{quotes}b{quotes}")] {
            say(court, Call::Policy, &[], &[text.as_bytes()]);
        }
        for text in [format!("world w{braces}\nimport a{braces}\n"), format!("world {braces}"), format!("world w\n{braces}")] {
            say(court, Call::Manifest, &[8, 28], &[text.as_bytes()]);
        }
    }
}

// ---- copying

/// A name and a token of each length, every byte another one, written with as much room as they take, a byte less and more.
fn copied(court: &mut Court) {
    for length in LENGTHS.into_iter().chain([40_000]) {
        let text: String = (0..length).map(|i| char::from(b'a' + (i % 23) as u8)).collect();
        for policy in [format!("policy {text}"), format!("allow fs: {text}, b, {text}\n")] {
            let said = crate::says::original_says(&Case::new(Call::Rewrite, &[1 << 20], &[policy.as_bytes()]));
            let needed: u64 = said.split(':').next().and_then(|n| n.parse().ok()).unwrap_or(0);
            for room in [needed.saturating_sub(1), needed, needed + 1, needed + 300] {
                say(court, Call::Rewrite, &[room], &[policy.as_bytes()]);
            }
        }
        let (file, n) = (text.as_bytes(), length as u64);
        let one = Tables::of(vec![0, n, 0, 0, 0], vec![0, n, 0, 0]);
        for (files, b, c) in [([file, b""], &one, &Tables::default()), ([b"", file], &Tables::default(), &one)] {
            say(court, Call::Differences, &numbers(&[16, 24, 2 * n + 100], b, c), &files);
        }
    }
}
