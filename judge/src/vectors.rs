//! Published vectors: the modules of a folder, files .wasm and what .wast files write out in binary, run by both; and what they are told.
use crate::limits::{module_within, FULL};
use crate::strict;
use std::collections::BTreeMap;
use std::fs;
use std::io::Write;
use std::path::{Path, PathBuf};
use std::process::{Command, Stdio};

/// What the suite says of a module; a file .wasm is not of the suite.
#[derive(Clone, Copy, PartialEq, Eq)]
enum Called {
    File,
    Good,
    Malformed,
    Invalid,
}

pub struct Vector {
    pub bytes: Vec<u8>,
    called: Called,
    /// The suite's reason, where it has one.
    reason: String,
}

enum Node {
    Word(String),
    Text(Vec<u8>),
    List(Vec<Node>),
}

struct Parser<'a> {
    s: &'a [u8],
    at: usize,
}

impl Parser<'_> {
    fn blanks(&mut self) {
        loop {
            match &self.s[self.at..] {
                [b' ' | b'\t' | b'\n' | b'\r', ..] => self.at += 1,
                [b';', b';', ..] => self.at += self.s[self.at..].iter().position(|b| *b == b'\n').unwrap_or(self.s.len() - self.at),
                [b'(', b';', ..] => self.comment(),
                _ => return,
            }
        }
    }

    fn comment(&mut self) {
        let mut depth = 0;
        while self.at < self.s.len() {
            match &self.s[self.at..] {
                [b'(', b';', ..] => (depth, self.at) = (depth + 1, self.at + 2),
                [b';', b')', ..] => (depth, self.at) = (depth - 1, self.at + 2),
                _ => self.at += 1,
            }
            if depth == 0 {
                return;
            }
        }
    }

    fn nodes(&mut self) -> Vec<Node> {
        let mut out = Vec::new();
        loop {
            self.blanks();
            match self.s.get(self.at) {
                None => return out,
                Some(b')') => {
                    self.at += 1;
                    return out;
                }
                Some(b'(') => {
                    self.at += 1;
                    out.push(Node::List(self.nodes()));
                }
                Some(b'"') => out.push(Node::Text(self.text())),
                Some(_) => out.push(Node::Word(self.word())),
            }
        }
    }

    fn word(&mut self) -> String {
        let start = self.at;
        while self.s.get(self.at).is_some_and(|b| !b" \t\r\n()\";".contains(b)) {
            self.at += 1;
        }
        self.at = self.at.max(start + 1);
        String::from_utf8_lossy(&self.s[start..self.at]).into_owned()
    }

    fn text(&mut self) -> Vec<u8> {
        let mut out = Vec::new();
        self.at += 1;
        while let Some(b) = self.s.get(self.at).copied() {
            self.at += 1;
            match b {
                b'"' => break,
                b'\\' => self.escape(&mut out),
                b => out.push(b),
            }
        }
        out
    }

    fn escape(&mut self, out: &mut Vec<u8>) {
        let rest = &self.s[self.at..];
        let digits = rest.get(..2).and_then(|d| std::str::from_utf8(d).ok()).and_then(|d| u8::from_str_radix(d, 16).ok());
        match (digits, rest.first()) {
            (Some(b), _) => (self.at, ()) = (self.at + 2, out.push(b)),
            (None, Some(c)) => {
                out.push(match c {
                    b't' => b'\t',
                    b'n' => b'\n',
                    b'r' => b'\r',
                    c => *c,
                });
                self.at += 1;
            }
            (None, None) => (),
        }
    }
}

/// The module that a list writes out in binary.
fn binary(list: &[Node]) -> Option<Vec<u8>> {
    let is = |n: &Node, w: &str| matches!(n, Node::Word(x) if x == w);
    if !list.first().is_some_and(|n| is(n, "module")) || !list.iter().any(|n| is(n, "binary")) {
        return None;
    }
    Some(list.iter().flat_map(|n| if let Node::Text(t) = n { t.clone() } else { Vec::new() }).collect())
}

fn walk(list: &[Node], out: &mut Vec<Vector>) {
    let called = match list.first() {
        Some(Node::Word(w)) if w == "assert_malformed" => Called::Malformed,
        Some(Node::Word(w)) if w == "assert_invalid" => Called::Invalid,
        _ => Called::Good,
    };
    for node in list {
        let Node::List(inner) = node else { continue };
        if let Some(bytes) = binary(inner) {
            let text = |n: &Node| if let Node::Text(t) = n { Some(String::from_utf8_lossy(t).into_owned()) } else { None };
            out.push(Vector { bytes, called, reason: list.iter().rev().find_map(text).unwrap_or_default() });
        } else {
            walk(inner, out);
        }
    }
}

/// Every module below a folder, in the order of the files' names.
pub fn below(folder: &Path) -> Vec<Vector> {
    let mut files = Vec::new();
    gather(folder, &mut files);
    files.sort();
    let mut out = Vec::new();
    for file in files {
        let Ok(bytes) = fs::read(&file) else { continue };
        if file.extension().is_some_and(|e| e == "wasm") {
            out.push(Vector { bytes, called: Called::File, reason: String::new() });
        } else {
            walk(&Parser { s: &bytes, at: 0 }.nodes(), &mut out);
        }
    }
    out
}

/// Those that tools/vectors has fetched, if it has.
pub fn fetched() -> Vec<Vector> {
    below(Path::new(concat!(env!("CARGO_MANIFEST_DIR"), "/../target/vectors")))
}

fn gather(folder: &Path, out: &mut Vec<PathBuf>) {
    let Ok(entries) = fs::read_dir(folder) else { return };
    for path in entries.flatten().map(|e| e.path()) {
        if path.is_dir() {
            gather(&path, out);
        } else if path.extension().is_some_and(|e| e == "wasm" || e == "wast") {
            out.push(path);
        }
    }
}

/// What a module is told: plainly, strictly, and by VISCROMBAL_VALIDATE, the command of a validator, where that is set.
pub struct Told<'a> {
    of: &'a Vector,
    plain: String,
    strict: String,
    valid: Option<bool>,
}

pub fn told(of: &Vector) -> Told<'_> {
    Told { of, plain: module_within(&of.bytes, FULL), strict: strict::answer(&of.bytes), valid: valid(&of.bytes) }
}

/// Whether a validator takes a module from standard input.
fn valid(file: &[u8]) -> Option<bool> {
    let command = std::env::var("VISCROMBAL_VALIDATE").ok()?;
    let mut child = Command::new(command).arg("-").stdin(Stdio::piped()).stdout(Stdio::null()).stderr(Stdio::null()).spawn().ok()?;
    // it need not read the whole of what it refuses
    let _ = child.stdin.take()?.write_all(file);
    Some(child.wait().ok()?.success())
}

/// An answer by its first words: a refusal by its number, 20 by its rule too.
fn short(answer: &str) -> &str {
    match answer.split_once(" at ") {
        Some((number, _)) if number != "refused 20" => number,
        Some(_) => answer,
        None => "accepted",
    }
}

fn tally<'a>(answers: impl Iterator<Item = &'a str>) -> String {
    let mut counts = BTreeMap::new();
    for a in answers {
        *counts.entry(a).or_insert(0) += 1;
    }
    counts.iter().map(|(answer, n): (&&str, &u64)| format!("{answer}: {n}")).collect::<Vec<_>>().join(", ")
}

/// How many modules of each sort there are, and what they are told; those that are read though the suite calls them bad, by its reasons.
pub fn report(all: &[Told]) {
    let sorts = [
        (Called::File, "files .wasm"),
        (Called::Good, "modules of the suite"),
        (Called::Malformed, "modules that the suite calls malformed"),
        (Called::Invalid, "modules that the suite calls invalid"),
    ];
    for (called, words) in sorts {
        let these: Vec<&Told> = all.iter().filter(|t| t.of.called == called).collect();
        if these.is_empty() {
            continue;
        }
        println!("{} {words}", these.len());
        println!("  plainly: {}", tally(these.iter().map(|t| short(&t.plain))));
        println!("  strictly: {}", tally(these.iter().map(|t| short(&t.strict))));
        third(&these);
    }
    let bad = |t: &&Told| [Called::Malformed, Called::Invalid].contains(&t.of.called) && !t.plain.starts_with("refused");
    let mut reasons: BTreeMap<&str, Vec<&Told>> = BTreeMap::new();
    for t in all.iter().filter(bad) {
        reasons.entry(&t.of.reason).or_default().push(t);
    }
    for (reason, these) in reasons {
        println!("    read, called {reason}: {}, strictly {}", these.len(), tally(these.iter().map(|t| short(&t.strict))));
    }
}

/// What the validator says of those that are read plainly, by what strict reading says of them.
fn third(these: &[&Told]) {
    let opinions = these.iter().filter(|t| !t.plain.starts_with("refused")).filter_map(|t| {
        let word = if t.valid? { "taken" } else { "not taken" };
        Some(format!("{} and {word}", short(&t.strict)))
    });
    let opinions: Vec<String> = opinions.collect();
    if !opinions.is_empty() {
        println!("  strictly, and by the validator: {}", tally(opinions.iter().map(|o| &o[..])));
    }
}
