//! `locate`, and `--explain`: which field of a module's file a byte belongs to.
//!
//! Where the file is accepted, the archive's rows say which section, import, export or name a byte is of. The bytes of which no row tells,
//! and those of a file that is refused, are found by walking the frames as docs/RULES.md has them read, up to the byte or up to the first
//! fault, whichever comes first. It says words for a person and decides nothing: what is accepted and what is refused is the archive's to say.

use std::fmt;
use std::io::Write;
use std::ops::Range;
use std::path::Path;

use viscrombal::wasm::{self, section_name, Module, WASM_MAGIC};

use crate::args::Options;
use crate::files::{self, or_stop, Stop};
use crate::json::{self, Object};
use crate::{show, Status};

/// The bytes before the first section: the magic and the version.
const HEADER: usize = 8;

/// Where a byte is: from the section down to the field.
#[derive(Debug, PartialEq, Eq)]
pub struct Located {
    offset: usize,
    byte: Option<u8>,
    path: Vec<String>,
}

impl fmt::Display for Located {
    fn fmt(&self, f: &mut fmt::Formatter<'_>) -> fmt::Result {
        let offset = self.offset;
        write!(f, "offset {offset}, {offset:#x}, ")?;
        match self.byte {
            Some(byte) => write!(f, "byte {byte:#04x}: ")?,
            None => f.write_str("the end of the file: ")?,
        }
        f.write_str(&self.path.join(", "))
    }
}

impl Located {
    /// The same as fields of an object.
    pub fn tell(&self, object: Object) -> Object {
        let object = match self.byte {
            Some(byte) => object.raw("byte", byte),
            None => object,
        };
        object.raw("where", json::array(self.path.iter().map(|words| json::string(words))))
    }
}

/// The words for contents of which the reader says nothing.
const NOT_READ: &str = "its contents, which are not read";

/// Which field of the file the byte at an offset belongs to; at the file's length, what is missing there.
pub fn locate(file: &[u8], offset: usize) -> Located {
    let rows = wasm::parse(file).ok().and_then(|module| by_rows(&module, offset));
    let path = rows.unwrap_or_else(|| by_frames(file, offset));
    Located { offset, byte: file.get(offset).copied(), path }
}

/// What the rows of an accepted file say of a byte: the section, and the name or the unread contents that it is of.
fn by_rows(module: &Module<'_>, offset: usize) -> Option<Vec<String>> {
    let holds = |from: usize, size: usize| (from..from + size).contains(&offset);
    // a name that is not empty is a part of the file
    let within = |name: &str| !name.is_empty() && holds(name.as_ptr() as usize - module.file().as_ptr() as usize, name.len());
    let (i, section) = module.sections().iter().enumerate().find(|(_, section)| holds(section.offset, section.size))?;
    let (imports, exports) = (module.imports(), module.exports());
    let field = match section.id {
        0 if within(section.custom_name) => vec!["its name".into()],
        0 => return None,
        2 => imports.iter().enumerate().find_map(|(i, import)| {
            let field = match (within(import.module), within(import.field)) {
                (true, _) => "its module name",
                (_, true) => "its field name",
                _ => return None,
            };
            Some(vec![format!("import {} of {}", i + 1, imports.len()), field.into()])
        })?,
        7 => exports.iter().enumerate().find_map(|(i, export)| {
            within(export.field).then(|| vec![format!("export {} of {}", i + 1, exports.len()), "its name".into()])
        })?,
        _ => vec![NOT_READ.into()],
    };
    Some([vec![format!("section {} ({})", i + 1, section.name)], field].concat())
}

/// What the frames say of a byte, up to the first fault.
fn by_frames(file: &[u8], offset: usize) -> Vec<String> {
    let mut walk = Walk { file, offset, path: Vec::new() };
    match walk.module() {
        Err(Ended::Here(what)) => [walk.path, vec![what]].concat(),
        Err(Ended::Fault { at, what }) if offset <= at => [walk.path, vec![what]].concat(),
        Err(Ended::Fault { at, what }) => {
            let path = [walk.path, vec![what]].concat().join(", ");
            vec![format!("past the first fault, which is at offset {at}, {at:#x}: {path}")]
        }
        Ok(()) if offset == file.len() => vec!["after the last section".into()],
        Ok(()) => vec!["past the end of the file".into()],
    }
}

/// Reads the file, and says where the byte is.
pub fn run(out: &mut dyn Write, module: &Path, offset: usize, options: Options) -> Result<Status, Stop> {
    let file = or_stop("module", module, files::read_module(module, false))?;
    let located = locate(&file, offset);
    if options.json {
        let object = Object::default().path("file", module).str("answer", "located").raw("offset", offset);
        writeln!(out, "{}", located.tell(object).done())?;
    } else {
        writeln!(out, "{}: {located}", show::path(module))?;
    }
    Ok(Status::passing(offset <= file.len()))
}

/// Why the walk goes no further: it is at the byte, or nothing after this place is read.
enum Ended {
    Here(String),
    Fault { at: usize, what: String },
}

type Step<T> = Result<T, Ended>;

struct Walk<'a> {
    file: &'a [u8],
    offset: usize,
    /// What the walk is in.
    path: Vec<String>,
}

/// Bytes of the file that are still to be read.
type Rest = Range<usize>;

impl Walk<'_> {
    fn fault<T>(&self, at: usize, what: &str) -> Step<T> {
        Err(Ended::Fault { at, what: what.into() })
    }

    /// A field was read: the walk ends here where the byte is one of its bytes.
    fn field(&self, bytes: Rest, what: &str) -> Step<()> {
        match bytes.contains(&self.offset) {
            true => Err(Ended::Here(what.into())),
            false => Ok(()),
        }
    }

    fn byte(&self, rest: &mut Rest, what: &str) -> Step<u8> {
        let at = rest.start;
        match rest.next() {
            None => self.fault(at, what),
            Some(at) => self.field(at..at + 1, what).map(|()| self.file[at]),
        }
    }

    /// A u32 in LEB128 of at most ten bytes.
    fn number(&self, rest: &mut Rest, what: &str) -> Step<usize> {
        let (start, mut value) = (rest.start, 0_u128);
        for shift in (0..70).step_by(7) {
            let at = rest.start;
            let Some(at) = rest.next() else { return self.fault(at, what) };
            let byte = self.file[at];
            value |= u128::from(byte % 0x80) << shift;
            if byte < 0x80 {
                return match u32::try_from(value) {
                    Ok(value) => self.field(start..at + 1, what).map(|()| value as usize),
                    Err(_) => self.fault(at + 1, what),
                };
            }
        }
        self.fault(start, what)
    }

    /// A number, and so many bytes, which are not looked into.
    fn counted(&self, rest: &mut Rest, size: &str, what: &str) -> Step<Rest> {
        let len = self.number(rest, size)?;
        if len > rest.len() {
            return self.fault(rest.start, what);
        }
        let bytes = rest.start..rest.start + len;
        rest.start = bytes.end;
        Ok(bytes)
    }

    fn name(&self, rest: &mut Rest, what: &str) -> Step<&[u8]> {
        let bytes = self.counted(rest, &format!("the length of {what}"), what)?;
        let name = &self.file[bytes.clone()];
        match std::str::from_utf8(name) {
            Ok(_) => self.field(bytes, what).map(|()| name),
            Err(_) if bytes.contains(&self.offset) => self.field(bytes, what).map(|()| name),
            Err(_) => self.fault(bytes.start, what),
        }
    }

    /// Looks into a part of the file, whose words stand before those of its fields.
    fn inside(&mut self, words: String, look: impl FnOnce(&mut Self) -> Step<()>) -> Step<()> {
        self.path.push(words);
        look(self)?;
        self.path.pop();
        Ok(())
    }

    /// A count, and so many entries.
    fn entries(&mut self, rest: &mut Rest, what: &str, entry: impl Fn(&Self, &mut Rest) -> Step<()>) -> Step<()> {
        let count = self.number(rest, &format!("the number of {what}s"))?;
        for i in 1..=count {
            self.inside(format!("{what} {i} of {count}"), |walk| entry(walk, rest))?;
        }
        Ok(())
    }

    fn module(&mut self) -> Step<()> {
        let rest = 0..self.file.len();
        if !self.file.starts_with(&WASM_MAGIC) {
            self.field(0..WASM_MAGIC.len(), "the magic")?;
            return self.fault(0, "the magic");
        }
        self.field(0..WASM_MAGIC.len(), "the magic")?;
        self.field(WASM_MAGIC.len()..HEADER.min(rest.end), "the version")?;
        if self.file.get(WASM_MAGIC.len()..HEADER).is_none_or(|version| version == [0; 4]) {
            return self.fault(WASM_MAGIC.len(), "the version");
        }
        let mut rest = HEADER..rest.end;
        let mut i = 0;
        while rest.start < rest.end {
            i += 1;
            self.section(&mut rest, i)?;
        }
        Ok(())
    }

    fn section(&mut self, rest: &mut Rest, i: usize) -> Step<()> {
        let id = self.file[rest.start];
        self.inside(format!("section {i} ({})", section_name(id)), |walk| {
            walk.byte(rest, "its id")?;
            let mut payload = walk.counted(rest, "its size", "its contents")?;
            match id {
                0 => walk.custom(&mut payload)?,
                2 => walk.entries(&mut payload, "import", Walk::import)?,
                7 => walk.entries(&mut payload, "export", Walk::export)?,
                _ => (),
            }
            walk.field(payload, NOT_READ)
        })
    }

    fn import(&self, rest: &mut Rest) -> Step<()> {
        self.name(rest, "its module name")?;
        self.name(rest, "its field name")?;
        let at = rest.start;
        match self.byte(rest, "its kind")? {
            0 => self.number(rest, "its type index").map(|_| ()),
            1 => self.byte(rest, "its element type").and_then(|_| self.limits(rest)),
            2 => self.limits(rest),
            3 => self.byte(rest, "its value type").and_then(|_| self.byte(rest, "its mutability")).map(|_| ()),
            _ => self.fault(at, "its kind"),
        }
    }

    fn limits(&self, rest: &mut Rest) -> Step<()> {
        let flag = self.byte(rest, "its limits' flag")?;
        self.number(rest, "its least size")?;
        if flag % 2 == 1 {
            self.number(rest, "its largest size")?;
        }
        Ok(())
    }

    fn export(&self, rest: &mut Rest) -> Step<()> {
        self.name(rest, "its name")?;
        self.byte(rest, "its kind")?;
        self.number(rest, "its index").map(|_| ())
    }

    fn custom(&mut self, rest: &mut Rest) -> Step<()> {
        if self.name(rest, "its name")? != b"name" {
            return Ok(());
        }
        let mut i = 0;
        while rest.start < rest.end {
            i += 1;
            self.subsection(rest, i)?;
        }
        Ok(())
    }

    fn subsection(&mut self, rest: &mut Rest, i: usize) -> Step<()> {
        let id = self.file[rest.start];
        self.inside(format!("subsection {i}, of id {id}"), |walk| {
            walk.byte(rest, "its id")?;
            let mut inner = walk.counted(rest, "its size", "its contents")?;
            match id {
                0 => walk.name(&mut inner, "the module's name").map(|_| ())?,
                1 => walk.entries(&mut inner, "function name", Walk::symbol)?,
                _ => (),
            }
            walk.field(inner, NOT_READ)
        })
    }

    fn symbol(&self, rest: &mut Rest) -> Step<()> {
        self.number(rest, "its function's index")?;
        self.name(rest, "the name").map(|_| ())
    }
}

#[cfg(test)]
mod tests {
    use super::*;

    const HEAD: &[u8] = b"\0asm\x01\0\0\0";

    fn at(bytes: &[u8], offset: usize) -> String {
        locate(&[HEAD, bytes].concat(), offset).path.join(", ")
    }

    /// An import section with a function and a memory, and a name section.
    const WHOLE: &[u8] =
        b"\x02\x10\x02\x01m\x01f\x00\x00\x03env\x01g\x02\x00\x01\0\x12\x04name\x00\x03\x02ab\x01\x06\x01\x07\x03abc\x01\x01\xff";

    #[test]
    fn every_byte_of_a_module_has_a_field() {
        let file = [HEAD, WHOLE].concat();
        assert!(viscrombal::wasm::parse(&file).is_ok());
        let said: Vec<String> = (0..file.len()).map(|offset| locate(&file, offset).path.join(", ")).collect();
        assert_eq!(said[..4], ["the magic"; 4]);
        assert_eq!(said[4..8], ["the version"; 4]);
        assert_eq!((&said[8][..], &said[9][..]), ("section 1 (import), its id", "section 1 (import), its size"));
        assert_eq!(said[10], "section 1 (import), the number of imports");
        assert_eq!(said[11], "section 1 (import), import 1 of 2, the length of its module name");
        assert_eq!(said[15], "section 1 (import), import 1 of 2, its kind");
        assert_eq!(said[16], "section 1 (import), import 1 of 2, its type index");
        assert_eq!(said[18], "section 1 (import), import 2 of 2, its module name");
        assert_eq!(said[24], "section 1 (import), import 2 of 2, its limits' flag");
        assert_eq!(said[26], "section 2 (custom), its id");
        assert_eq!(said[33], "section 2 (custom), subsection 1, of id 0, its id");
        assert_eq!(said[36], "section 2 (custom), subsection 1, of id 0, the module's name");
        assert_eq!(said[43], "section 2 (custom), subsection 2, of id 1, function name 1 of 1, the name");
        assert_eq!(said[46], "section 3 (type), its id");
        assert_eq!(said[48], "section 3 (type), its contents, which are not read");
        assert_eq!(at(WHOLE, file.len()), "after the last section");
        assert_eq!(at(WHOLE, file.len() + 1), "past the end of the file");
    }

    /// Wherever the rows tell of a byte, the frames say the same; and the rows tell of every name.
    #[test]
    fn rows_and_frames_agree() {
        let (mut told, mut names) = (0, 0);
        let samples = concat!(env!("CARGO_MANIFEST_DIR"), "/../samples");
        let mut files: Vec<Vec<u8>> = std::fs::read_dir(samples)
            .unwrap()
            .map(|entry| entry.unwrap().path())
            .filter(|path| path.extension().is_some_and(|end| end == "wasm"))
            .map(|path| std::fs::read(path).unwrap())
            .collect();
        files.push([HEAD, WHOLE].concat());
        for file in files {
            let module = wasm::parse(&file).unwrap();
            names += module.imports().iter().map(|import| import.module.len() + import.field.len()).sum::<usize>();
            names += module.exports().iter().map(|export| export.field.len()).sum::<usize>();
            for offset in 0..=file.len() {
                let Some(path) = by_rows(&module, offset) else { continue };
                assert_eq!(path, by_frames(&file, offset), "offset {offset}");
                told += usize::from(path.len() == 3);
            }
        }
        assert_eq!(told, names);
        assert!(names > 500);
    }

    #[test]
    fn refusals_point_at_what_is_wrong() {
        for (bytes, words) in [
            (&b"\x02\x00"[..], "section 1 (import), the number of imports"),
            (b"\x02\x06\x01\x01m\x01f\x04", "section 1 (import), import 1 of 1, its kind"),
            (b"\x01\x02\x00", "section 1 (type), its contents"),
            (b"\0\x06\x04name\x00", "section 1 (custom), subsection 1, of id 0, its size"),
            (b"\0\x09\x04name\x00\x02\x01\xff", "section 1 (custom), subsection 1, of id 0, the module's name"),
            (b"\x07\x05\x01\x01e\x00\x80", "section 1 (export), export 1 of 1, its index"),
            (b"\x02\x05\x01\x00\x00\x03\x7f", "section 1 (import), import 1 of 1, its mutability"),
            (b"\0\x80\x80\x80\x80\x80", "section 1 (custom), its size"),
            (b"\x02\x80\x80\x80\x80\x10", "section 1 (import), its size"),
        ] {
            let file = [HEAD, bytes].concat();
            let refusal = viscrombal::wasm::parse(&file).unwrap_err();
            assert_eq!(at(bytes, refusal.offset().unwrap()), words, "{refusal}");
        }
    }

    #[test]
    fn past_a_fault_nothing_is_known() {
        let words = "past the first fault, which is at offset 13, 0xd: section 1 (import), import 1 of 1, its kind";
        assert_eq!(at(b"\x02\x05\x01\x00\x00\x09\x00\x01\x00", 15), words);
    }
}
