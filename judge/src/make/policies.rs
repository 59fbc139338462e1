//! policy.rs: policies as texts and as cells, domains, verdicts; and the writer.
use super::damaged;
use crate::case::{Call, Case};
use crate::random::Random;
use crate::Court;

fn text(court: &mut Court, s: &[u8]) {
    court.hear(Case::new(Call::Policy, &[], &[s]));
}

/// A text read and written again, with exactly the room that it needs, a byte less, and more.
fn again(court: &mut Court, s: &[u8], r: &mut Random) {
    let needed = crate::says::original_says(&Case::new(Call::Rewrite, &[1 << 20], &[s]));
    let needed = needed.split(':').next().and_then(|n| n.parse::<u64>().ok()).unwrap_or(10);
    for room in [needed, needed.saturating_sub(1), needed + 1 + r.below(9) as u64, r.below(8) as u64] {
        court.hear(Case::new(Call::Rewrite, &[room], &[s]));
    }
}

/// The tokens of a domain, with exactly the room that they need, a byte less, and more.
fn tokens(court: &mut Court, s: &[u8], domain: u64, r: &mut Random) {
    let needed = crate::says::tokens_of(s, domain).map_or(10, |t| 16 * t.len() as u64);
    for room in [needed, needed.saturating_sub(1), needed + 1 + r.below(40) as u64] {
        court.hear(Case::new(Call::CTokens, &[room, domain], &[s]));
    }
}

const WORDS: [&str; 13] = ["policy ", "default ", "allow ", "deny ", "fs", "net", "allow", "deny", ":", ",", "\n", " ", "#"];
pub const BLANKS: [&str; 24] = [
    " ", " ", " ", " ", "\t", "\r", "\u{b}", "\u{c}", "\u{1c}", "\u{84}", "\u{85}", "\u{a0}", "\u{1680}", "\u{180e}", "\u{2000}",
    "\u{200a}", "\u{200b}", "\u{2028}", "\u{2029}", "\u{202f}", "\u{205f}", "\u{3000}", "\u{3001}", "\u{feff}",
];
const SLUGS: [&str; 15] =
    ["fs", "env", "clock", "network", "net", "random", "rand", "stdio", "unknown", "Fs", "network:", "nets", "", "fs x", "clock "];
const TOKENS: [&str; 10] = ["/tmp", "a.example", "\"", "x y", "", "#", ":", "\u{3000}", "é", "allow"];

fn blanks(r: &mut Random) -> String {
    (0..r.below(3)).map(|_| r.pick(&BLANKS)).collect()
}

fn line(r: &mut Random) -> String {
    let mut out = blanks(r);
    match r.below(9) {
        0 => {
            out += &format!(
                "policy {}{}{}",
                blanks(r),
                r.pick(&["\"a\"", "\"\"a\"", "\"", "\"\"", "a b", "\"a\" b", "é\"", "", "#x"]),
                blanks(r)
            )
        }
        1 => out += &format!("default {}{}", blanks(r), r.pick(&["allow", "deny", "allow", "deny", "", "Allow", "allow deny", "denyx"])),
        2 => out += r.pick(&["", "# c", "#", "policy", "default", "allow", "deny", "allow\tfs", "default\u{a0}deny", "x"]),
        _ => {
            out += r.pick(&["allow ", "deny "]);
            out += &blanks(r);
            // an unknown domain only now and then
            out += if r.one_in(8) { SLUGS[r.below(15)] } else { SLUGS[r.below(9)] };
            out += &blanks(r);
            if r.one_in(2) {
                out += ":";
                let tokens: Vec<String> = (0..r.below(5)).map(|_| blanks(r) + TOKENS[r.below(10)] + &blanks(r)).collect();
                out += &tokens.join(",");
            }
        }
    }
    out += &blanks(r);
    if r.one_in(10) {
        out += "# policy x";
    }
    out
}

pub fn lines(r: &mut Random) -> String {
    let n = if r.one_in(3) { r.below(12) } else { r.below(4) };
    let mut out = String::new();
    for _ in 0..n {
        out += &line(r);
        out += r.pick(&["\n", "\n", "\n", "\r\n", "\r\n", "\n\n", "\r\r\n", "\r"]);
    }
    if r.one_in(3) {
        out += &line(r);
    }
    out
}

/// Ranges of the text that cut no character, and now and then one that leaves it.
fn cells(s: &str, r: &mut Random) -> Vec<u64> {
    let range = |r: &mut Random| {
        let bounds: Vec<usize> = (0..=s.len()).filter(|i| s.is_char_boundary(*i)).collect();
        let (a, b) = (bounds[r.below(bounds.len())], bounds[r.below(bounds.len())]);
        let (from, len) = (a.min(b) as u64, a.max(b) as u64 - a.min(b) as u64);
        match r.below(60) {
            0 => (from, s.len() as u64 - from + 1),
            1 => (s.len() as u64 + 1, 0),
            2 => (u64::MAX, 1),
            3 => (1, u64::MAX),
            4 => (s.len() as u64, 0),
            _ => (from, len),
        }
    };
    let name = range(r);
    let mut out = vec![r.below(2) as u64, name.0, name.1, r.below(2) as u64];
    for _ in 0..7 {
        let list = range(r);
        out.extend([r.below(3) as u64, list.0, list.1]);
    }
    out
}

fn handed(court: &mut Court, s: &str, r: &mut Random) {
    let cells = cells(s, r);
    let bounds: Vec<usize> = (0..=s.len()).filter(|i| s.is_char_boundary(*i)).collect();
    let from = bounds[r.below(bounds.len())] as u64;
    let from = if r.one_in(10) { u64::MAX } else { from };
    let numbers = |first: &[u64]| [first, &cells[..]].concat();
    court.hear(Case::new(Call::Token, &numbers(&[r.below(7) as u64, from]), &[s.as_bytes()]));
    court.hear(Case::new(Call::Write, &numbers(&[r.below(600) as u64]), &[s.as_bytes()]));
}

fn evaluated(court: &mut Court, r: &mut Random) {
    let rows: Vec<u64> = (0..r.below(8)).map(|_| if r.one_in(30) { 7 + r.below(3) as u64 } else { r.below(7) as u64 }).collect();
    let n = if r.one_in(10) { r.below(12) } else { r.below(rows.len() + 1) };
    let mut numbers = vec![n as u64, rows.len() as u64];
    numbers.extend(rows);
    numbers.extend(cells("abcdef", r));
    both_ways(court, &numbers);
}

/// Over the domains' numbers, and over records.
fn both_ways(court: &mut Court, numbers: &[u64]) {
    for call in [Call::Evaluate, Call::EvaluateRecords] {
        court.hear(Case::new(call, numbers, &[]));
    }
}

const SOURCES: [&str; 24] = [
    "wasi_snapshot_preview1",
    "wasi_snapshot_preview10",
    "wasi_snapshot_preview",
    "wasi_snapshot_preview2",
    "wasi_unstable",
    "wasi_unstable2",
    "wasi_unstabl",
    "wasi:io",
    "wasi:io/streams",
    "wasi:cli@0.2",
    "wasi:filesystem/types@1",
    "wasi:clocks",
    "wasi:sockets/x",
    "wasi:random",
    "wasi:wasi:random",
    "wasi:",
    "wasi",
    "random",
    "cli/env",
    "",
    "wasi:@io",
    "wasi:/io",
    "wasi:io@/x",
    "Wasi:io",
];
const FIELDS: [&str; 18] = [
    "fd_write",
    "fd_",
    "fd",
    "path_open",
    "path_",
    "path",
    "environ_get",
    "environ_",
    "args_",
    "args",
    "clock_time_get",
    "sock_recv",
    "random_get",
    "random_get2",
    "random_ge",
    "",
    "xfd_",
    "sock",
];

pub fn fixed(court: &mut Court) {
    // policies of few words
    let n = WORDS.len();
    for length in 0..=4 {
        for k in 0..n.pow(length) {
            let s: String = (0..length).map(|i| WORDS[k / n.pow(i) % n]).collect();
            text(court, s.as_bytes());
        }
    }
    // a directive with every blank, and every byte, in every place
    for line in ["policy \"a\"", "default allow", "allow fs", "deny net: a, b", "allow fs:"] {
        for at in 0..=line.len() {
            for blank in BLANKS {
                text(court, format!("{}{blank}{}", &line[..at], &line[at..]).as_bytes());
            }
            for byte in 0..=255 {
                text(court, &[&line.as_bytes()[..at], &[byte], &line.as_bytes()[at..]].concat());
            }
        }
    }
    for (first, second) in [("allow", "deny"), ("deny", "allow"), ("allow", "allow"), ("deny", "deny")] {
        text(court, format!("default {first}\ndefault {second}").as_bytes());
    }
    // two rules of one domain: the later one's stance and list
    for first in ["allow env", "deny env: a", "allow env: a, b"] {
        for second in ["allow env", "deny env", "deny env:", "deny env: c", "allow env: a"] {
            for between in ["\n", "\nallow fs: x\n"] {
                text(court, format!("{first}{between}{second}").as_bytes());
            }
        }
    }
    for source in SOURCES {
        for field in FIELDS {
            court.hear(Case::new(Call::Import, &[], &[source.as_bytes(), field.as_bytes()]));
        }
        court.hear(Case::new(Call::Path, &[], &[source.as_bytes()]));
        court.hear(Case::new(Call::Path, &[], &[source.strip_prefix("wasi:").unwrap_or(source).as_bytes()]));
    }
    // the longest text, and one byte more; a name and a list that fill it
    for length in 65_535..=65_537 {
        let r = &mut Random::new(length as u64);
        for start in ["policy ", "allow fs:", "#", "allow fs: a\nx", "policy \"a\"\n"] {
            let s = start.to_string() + &"b".repeat(length - start.len());
            text(court, s.as_bytes());
            again(court, s.as_bytes(), r);
        }
        let s = ("allow fs:".to_string() + &("a".repeat(999) + ",").repeat(66))[..length].to_string();
        text(court, s.as_bytes());
        again(court, s.as_bytes(), r);
        tokens(court, s.as_bytes(), 0, r);
        tokens(court, ("deny net:".to_string() + &"b,".repeat(32_768))[..length].as_bytes(), 3, r);
    }
    // each domain's list, and numbers that are none's
    let r = &mut Random::new(7);
    for list in ["", " a", "a,b", ",,a ,, b c,", "\u{3000}é\u{3000},\u{85}", " ,\t, "] {
        for slug in SLUGS {
            let s = format!("deny env: x\nallow {slug}:{list}\n");
            for domain in (0..9).chain([1 << 32, u64::MAX]) {
                tokens(court, s.as_bytes(), domain, r);
            }
        }
    }
    many_rows(court);
    no_domains(court);
    offsets(court);
}

/// Numbers that are no domain's, at each place of a few rows, below the count and past it; and two of them.
fn no_domains(court: &mut Court) {
    let numbers = |rows: &[u64], count: usize| [&[count as u64, rows.len() as u64], rows, &[0; 25]].concat();
    for number in (0..10).chain([15, 16, 255, 256, 1 << 32, u64::MAX]) {
        for (at, count) in (0..3).flat_map(|at| (0..=4).map(move |count| (at, count))) {
            let mut rows = [6, 0, 3];
            rows[at] = number;
            both_ways(court, &numbers(&rows, count));
            rows[2] = 7;
            both_ways(court, &numbers(&rows, count));
        }
    }
}

/// A list in the middle of a text, and a token looked for from every offset: before the list, in it, at its end and past it.
fn offsets(court: &mut Court) {
    for list in ["", "a", ",", "a,", ",a", "a, b", "a,b,,c ,", " a , b ", "a,,", "ab,cd,ef"] {
        for (before, after) in [("", ""), ("x:", ""), ("x, ", ",y"), ("", "z"), ("x:", " ,z")] {
            let s = format!("{before}{list}{after}");
            let (start, len) = (before.len() as u64, list.len() as u64);
            for stance in 0..3 {
                let policy = [&[0; 4][..], &[stance, start, len].repeat(7)].concat();
                for from in (0..s.len() as u64 + 3).chain([1 << 32, u64::MAX]) {
                    for domain in [0, 3, 6] {
                        court.hear(Case::new(Call::Token, &[&[domain, from], &policy[..]].concat(), &[s.as_bytes()]));
                    }
                }
                court.hear(Case::new(Call::Write, &[&[400], &policy[..]].concat(), &[s.as_bytes()]));
            }
        }
    }
}

/// Table 7 around its limit.
fn many_rows(court: &mut Court) {
    for rows in [1023, 1024, 1025, 1030] {
        for n in [1023, 1024, 1025, rows] {
            let mut numbers = vec![n, rows];
            numbers.extend((0..rows).map(|i| i % 7));
            numbers.extend([0; 25]);
            both_ways(court, &numbers);
        }
    }
}

pub fn seeded(court: &mut Court, r: &mut Random) {
    for _ in 0..700 {
        let s = lines(r);
        text(court, s.as_bytes());
        text(court, &damaged(s.as_bytes(), r));
        if r.one_in(3) {
            again(court, s.as_bytes(), r);
        }
        tokens(court, s.as_bytes(), r.below(8) as u64, r);
        handed(court, &s, r);
        evaluated(court, r);
    }
    for _ in 0..100 {
        let source = SOURCES[r.below(24)].to_string() + r.pick(&["", "/", "@", "x"]) + r.pick(&["", "é", "/a@b"]);
        let field = FIELDS[r.below(18)].to_string() + r.pick(&["", "_", "x"]);
        court.hear(Case::new(Call::Import, &[], &[source.as_bytes(), field.as_bytes()]));
        court.hear(Case::new(Call::Path, &[], &[source.as_bytes()]));
    }
}
