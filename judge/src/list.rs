//! The fixed list: cases on which both agree, as records (records/README.md says how a record is read).
use crate::case::{hex, Answer, Call, Case};
use std::collections::HashMap;

/// A few cases of every kind of answer, so that a short list has them all.
pub struct List {
    /// Manifests and comparisons, for original-comparisons.txt; else the rest, for original.txt.
    comparisons: bool,
    seen: HashMap<String, u32>,
    bytes: HashMap<u32, usize>,
    pub records: Vec<String>,
}

/// Cases of a kind, and bytes of records of a call.
const EACH: u32 = 2;
const MOST_BYTES: usize = 20_000;

impl List {
    pub fn new(comparisons: bool) -> List {
        List { comparisons, seen: HashMap::new(), bytes: HashMap::new(), records: Vec::new() }
    }

    pub fn add(&mut self, case: &Case, a: &Answer) {
        if self.comparisons != matches!(case.call, Call::Manifest | Call::Compare) {
            return;
        }
        let Some((input, answer)) = record(case, a) else { return };
        let kind = format!("{:?} {}", case.call, kind_of(case.call, &answer));
        let seen = self.seen.entry(kind).or_insert(0);
        let line = format!("J{} | {input} | {answer}", self.records.len() + 1);
        let bytes = self.bytes.entry(case.call as u32).or_insert(0);
        if *seen < EACH && line.len() < 600 && *bytes + line.len() < MOST_BYTES {
            *seen += 1;
            *bytes += line.len() + 1;
            self.records.push(line);
        }
    }
}

/// The refusal, of a text without its place; of what is accepted, how many of everything there are.
fn kind_of(call: Call, answer: &str) -> String {
    if answer.starts_with("refused") {
        let words = if call == Call::Module { 3 } else { 2 };
        return answer.split(' ').take(words).collect();
    }
    let words: Vec<&str> = answer.split(' ').collect();
    match call {
        Call::Module => format!("{} {:?}", words[3], &words[6..10.min(words.len())]),
        Call::Manifest => format!("{} {} {}", words[1], words[4], words[5]),
        Call::Compare => words[1..4].join(" "),
        Call::Policy => words.iter().enumerate().filter(|(i, _)| [2, 5].contains(i) || i % 4 == 3).map(|(_, w)| *w).collect(),
        _ => format!("{}", words.get(1).unwrap_or(&"")),
    }
}

fn numbers(n: &[u64]) -> String {
    n.iter().map(|n| n.to_string()).collect::<Vec<_>>().join(" ")
}

/// The cells of tables as told, each after its word.
fn tables(mut t: &[u64], words: &[&str]) -> String {
    let mut out = String::new();
    for word in words {
        let cells = t[0] as usize;
        if cells > 0 {
            out += &format!(" {word} {}", numbers(&t[1..1 + cells]));
        }
        t = &t[2 + cells..];
    }
    out
}

/// Tables 8 and 9 of what `compare::port` reads.
fn differences(t: &[u64]) -> String {
    let mut lists = [String::new(), String::new()];
    let mut rest = &t[10..];
    for i in 0..t[2] + t[3] {
        let (row, later) = rest.split_at(6 + rest[5] as usize);
        let cells = if i < t[2] { vec![row[0], row[1]] } else { vec![row[0], row[4], row[1]] };
        lists[(i >= t[2]) as usize] += &format!(" {}", numbers(&cells));
        rest = later;
    }
    let [x, y] = lists;
    [("T8", x), ("T9", y)].iter().filter(|l| !l.1.is_empty()).map(|(word, cells)| format!(" {word}{cells}")).collect()
}

fn record(case: &Case, a: &Answer) -> Option<(String, String)> {
    let (n, t) = (&case.numbers, &a.numbers);
    let s = |i: usize| hex(&case.strings[i]);
    let refused = |ok: String| if t[0] != 0 { format!("refused {} {}", t[0], t[1]) } else { ok };
    match case.call {
        Call::Module => {
            let input = format!("module | A {} L1 {} L2 {} L3 {} L4 {}", s(0), n[0], n[1], n[2], n[3]);
            let ok = format!("ok {}{}", numbers(&t[2..11]), tables(&t[12..], &["T1", "T2", "T3", "T4"]));
            let beside = if t[0] == 5 { format!(" {}", t[11]) } else { String::new() };
            Some((input, refused(ok) + &beside))
        }
        Call::Policy => {
            let mut ok = format!("ok P {}", numbers(&t[2..6]));
            for d in 0..7 {
                let rule = &t[6 + 3 * d..9 + 3 * d];
                if rule != [0, 0, 0] {
                    ok += &format!(" R{d} {}", numbers(rule));
                }
            }
            Some((format!("policy | A {}", s(0)), refused(ok)))
        }
        Call::Manifest => {
            let ok = format!("ok {}{}", numbers(&t[2..7]), tables(&t[7..], &["T5", "T6"]));
            Some((format!("manifest | A {} L5 {} L6 {}", s(0), n[0], n[1]), refused(ok)))
        }
        Call::Compare if t.len() > 3 => {
            let input = format!("compare | A {} MODULE B {} MODULE L8 {} L9 {}", s(0), s(1), n[0], n[1]);
            let ok = if t[0] == 0 { format!("ok {}{}", numbers(&t[2..5]), differences(t)) } else { String::new() };
            Some((input, refused(ok)))
        }
        Call::Import => Some((format!("import | A {} B {}", s(0), s(1)), format!("ok {}", t[0]))),
        Call::Path => Some((format!("path | A {}", s(0)), format!("ok {}", t[0]))),
        Call::Rewrite if t[0] == 0 || t[0] == 16 => {
            let said = hex(&a.bytes[..t[2] as usize]);
            Some((format!("write | A {} OBEY L0 {}", s(0), n[0]), refused(format!("ok {} SAYS {said}", t[2]))))
        }
        _ => None,
    }
}
