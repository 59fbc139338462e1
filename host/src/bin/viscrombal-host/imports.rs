//! `imports`: what each import of a module asks for; and in all, what a sandbox must hold for it.

use std::io::Write;
use std::ops::Add;
use std::path::{Path, PathBuf};

use viscrombal::wasm::{self, Desc, Import, Limits, Module};

use crate::args::Options;
use crate::files::{self, Stop, Trouble};
use crate::json::{self, Object};
use crate::{show, Status};

/// Numbers from a least to a most; without one where it is not stated.
#[derive(Clone, Copy)]
struct Span {
    least: u128,
    most: Option<u128>,
}

impl Span {
    const ZERO: Span = Span { least: 0, most: Some(0) };

    fn of(limits: Limits) -> Span {
        Span { least: limits.least.into(), most: limits.most.map(Into::into) }
    }

    fn bytes_of(limits: Limits) -> Span {
        Span { least: limits.least_bytes().into(), most: limits.most_bytes().map(Into::into) }
    }

    /// `16`, `10 to 16`, `10 or more`.
    fn words(self) -> String {
        match self.most {
            Some(most) if most == self.least => show::sum(most),
            Some(most) => format!("{} to {}", show::sum(self.least), show::sum(most)),
            None => format!("{} or more", show::sum(self.least)),
        }
    }

    /// The same with what there is one of, or many.
    fn of_what(self, one: &str, many: &str) -> String {
        let words = self.words();
        format!("{words} {}", if words == "1" { one } else { many })
    }

    fn tell(self, object: Object, what: &str) -> Object {
        let object = object.raw(&format!("least{what}"), self.least);
        match self.most {
            Some(most) => object.raw(&format!("most{what}"), most),
            None => object,
        }
    }
}

impl Add for Span {
    type Output = Span;

    /// There is a most where both have one.
    fn add(self, other: Span) -> Span {
        Span { least: self.least + other.least, most: self.most.zip(other.most).map(|(one, two)| one + two) }
    }
}

/// What a sandbox must hold: how many memories and of how many bytes, how many tables and of how many entries.
#[derive(Clone, Copy)]
struct Held {
    memories: usize,
    bytes: Span,
    tables: usize,
    entries: Span,
}

impl Held {
    const NOTHING: Held = Held { memories: 0, bytes: Span::ZERO, tables: 0, entries: Span::ZERO };

    fn of(module: &Module) -> Held {
        let bytes = module.imported_memory_limits().into_iter().map(Span::bytes_of).fold(Span::ZERO, Span::add);
        let tables: Vec<_> = module.imports().iter().filter_map(table_limits).map(Span::of).collect();
        let entries = tables.iter().copied().fold(Span::ZERO, Span::add);
        Held { memories: module.imported_memories(), bytes, tables: tables.len(), entries }
    }

    fn row(self, of: String) -> Vec<String> {
        let words = |many: usize, span: Span| if many == 0 { ["-".into(), "-".into()] } else { [show::count(many), span.words()] };
        [vec![of], words(self.memories, self.bytes).into(), words(self.tables, self.entries).into()].concat()
    }

    fn tell(self, object: Object) -> Object {
        let object = self.bytes.tell(object.raw("memories", self.memories), "_bytes");
        self.entries.tell(object.raw("tables", self.tables), "_entries")
    }
}

impl Add for Held {
    type Output = Held;

    fn add(self, other: Held) -> Held {
        Held {
            memories: self.memories + other.memories,
            bytes: self.bytes + other.bytes,
            tables: self.tables + other.tables,
            entries: self.entries + other.entries,
        }
    }
}

fn table_limits(import: &Import) -> Option<Limits> {
    match import.desc() {
        Desc::Table { limits, .. } => Some(limits),
        _ => None,
    }
}

/// What one file asks for, in words and as objects.
struct Asked {
    lines: Vec<[String; 4]>,
    objects: Vec<String>,
    held: Held,
}

fn asked(path: &Path, strict: bool) -> Result<Asked, Trouble> {
    let file = files::read_module(path, strict)?;
    let module = wasm::parse(&file)?;
    let line = |import: &Import| [show::name(import.module), show::name(import.field), import.kind.slug(), words(import.desc())];
    let imports = module.imports();
    Ok(Asked { lines: imports.iter().map(line).collect(), objects: imports.iter().map(object).collect(), held: Held::of(&module) })
}

/// Reads every module: a line for each of its imports, and then what they come to.
pub fn run(out: &mut dyn Write, modules: &[PathBuf], options: Options) -> Result<Status, Stop> {
    let modules = if options.recursive { modules.iter().flat_map(|path| files::walked(path)).collect() } else { modules.to_vec() };
    let (mut report, mut status) = (Report::default(), Status::Pass);
    for path in &modules {
        let answer = asked(path, options.strict);
        status = status.max(if answer.is_ok() { Status::Pass } else { Status::Refused });
        if options.json {
            writeln!(out, "{}", told(path, &answer, options))?;
        }
        report.add(path, answer, options);
    }
    if options.json {
        let object = Object::default().str("answer", "in all").raw("files", modules.len());
        writeln!(out, "{}", report.all.tell(object).done())?;
    } else {
        write!(out, "{}", report.text(options.strict))?;
    }
    Ok(status)
}

fn told(path: &Path, answer: &Result<Asked, Trouble>, options: Options) -> String {
    let object = Object::default().path("file", path);
    let object = match answer {
        Ok(asked) => {
            let object = object.str("answer", "read").raw("imports", json::array(asked.objects.iter().cloned()));
            asked.held.tell(object).raw("strict", options.strict)
        }
        Err(trouble) => {
            let object = trouble.tell(object);
            match files::explained(path, trouble, options) {
                Some(located) => located.tell(object),
                None => object,
            }
        }
    };
    object.done()
}

/// The lines of all files, what each and all of them come to, and how many were read, refused and not readable.
struct Report {
    lines: Vec<Vec<String>>,
    holds: Vec<Vec<String>>,
    all: Held,
    counts: [usize; 3],
    why: String,
}

impl Default for Report {
    fn default() -> Report {
        let lines = vec![["file", "module", "field", "kind", "asks for"].map(Into::into).into()];
        let holds = vec![["a sandbox must hold", "memories", "bytes", "tables", "entries"].map(Into::into).into()];
        Report { lines, holds, all: Held::NOTHING, counts: [0; 3], why: String::new() }
    }
}

impl Report {
    fn add(&mut self, path: &Path, answer: Result<Asked, Trouble>, options: Options) {
        let file = show::path(path);
        let no_import = |words: String| [file.clone(), String::new(), String::new(), String::new(), words].into();
        match answer {
            Ok(asked) => {
                self.counts[0] += 1;
                self.all = self.all + asked.held;
                self.holds.push(asked.held.row(file.clone()));
                if asked.lines.is_empty() {
                    self.lines.push(no_import("nothing".into()));
                }
                self.lines.extend(asked.lines.into_iter().map(|line| [vec![file.clone()], line.into()].concat()));
            }
            Err(trouble) => {
                self.counts[if matches!(trouble, Trouble::Refused(_)) { 1 } else { 2 }] += 1;
                let located = files::explained(path, &trouble, options);
                self.why += &located.map_or(String::new(), |located| format!("{file}: {located}\n"));
                self.lines.push(no_import(trouble.to_string()));
            }
        }
    }

    fn text(mut self, strict: bool) -> String {
        if self.counts[0] != 1 {
            self.holds.push(self.all.row("in all".into()));
        }
        let files = show::many(self.counts.iter().sum(), "file") + if strict { ", read strictly" } else { "" };
        let [read, refused, unreadable] = self.counts.map(show::count);
        let break_before = if self.why.is_empty() { "" } else { "\n" };
        let (lines, holds) = (show::table(&self.lines), show::table(&self.holds));
        format!("{lines}{break_before}{}\n{holds}\n{files}: {read} read, {refused} refused, {unreadable} not readable\n", self.why)
    }
}

/// What an import asks for, in words. A flag is named where it says more than whether there is a most.
fn words(desc: Desc) -> String {
    let flag = |limits: Limits| if limits.flag > 1 { format!(", flag {:#04x}", limits.flag) } else { String::new() };
    match desc {
        Desc::Func { type_index } => format!("type {}", show::sum(type_index.into())),
        Desc::Table { element, limits } => {
            format!("{} of {}{}", Span::of(limits).of_what("entry", "entries"), type_of(element), flag(limits))
        }
        Desc::Memory { limits } => {
            format!("{}, {} bytes{}", Span::of(limits).of_what("page", "pages"), Span::bytes_of(limits).words(), flag(limits))
        }
        Desc::Global { value, mutability: 0 } => format!("{}, constant", type_of(value)),
        Desc::Global { value, mutability: 1 } => format!("{}, mutable", type_of(value)),
        Desc::Global { value, mutability } => format!("{}, mutability {mutability:#04x}", type_of(value)),
    }
}

/// A type byte by the specification's word for it, where it has one.
fn type_of(byte: u8) -> String {
    let known = [(0x7f, "i32"), (0x7e, "i64"), (0x7d, "f32"), (0x7c, "f64"), (0x7b, "v128"), (0x70, "funcref"), (0x6f, "externref")];
    known.iter().find(|(known, _)| *known == byte).map_or(format!("type {byte:#04x}"), |(_, word)| word.to_string())
}

fn object(import: &Import) -> String {
    let object = Object::default().str("module", import.module).str("field", import.field).str("kind", &import.kind.slug());
    let limited = |object: Object, limits: Limits| Span::of(limits).tell(object.raw("flag", limits.flag), "");
    let object = match import.desc() {
        Desc::Func { type_index } => object.raw("type_index", type_index),
        Desc::Table { element, limits } => limited(object.raw("element", element), limits),
        Desc::Memory { limits } => Span::bytes_of(limits).tell(limited(object, limits), "_bytes"),
        Desc::Global { value, mutability } => object.raw("value", value).raw("mutability", mutability),
    };
    object.done()
}

#[cfg(test)]
mod tests {
    use super::*;

    fn span(least: u128, most: Option<u128>) -> Span {
        Span { least, most }
    }

    #[test]
    fn spans_in_words() {
        assert_eq!(span(0, Some(0)).words(), "0");
        assert_eq!(span(10, Some(1600)).words(), "10 to 1,600");
        assert_eq!(span(10, Some(3)).words(), "10 to 3", "as the file states it");
        assert_eq!(span(2, None).words(), "2 or more");
        assert_eq!([span(1, Some(1)), span(1, None)].map(|s| s.of_what("page", "pages")), ["1 page", "1 or more pages"]);
    }

    #[test]
    fn a_sum_has_a_most_where_all_have_one() {
        let most = |all: &[Span]| all.iter().copied().fold(Span::ZERO, Span::add).words();
        assert_eq!(most(&[]), "0");
        assert_eq!(most(&[span(1, Some(2)), span(3, Some(4))]), "4 to 6");
        assert_eq!(most(&[span(1, Some(2)), span(3, None), span(5, Some(6))]), "9 or more");
        assert_eq!(most(&[span(u64::MAX.into(), Some(u64::MAX.into())); 2]), "36,893,488,147,419,103,230");
    }

    #[test]
    fn type_bytes_by_their_words() {
        assert_eq!([0x7f, 0x70, 0x6f, 0x00, 0xff].map(type_of), ["i32", "funcref", "externref", "type 0x00", "type 0xff"]);
    }
}
