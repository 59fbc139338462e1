//! Reading files, and what can be wrong with one.

use std::fmt;
use std::fs::{self, File};
use std::io::{self, Read, Write};
use std::path::{Path, PathBuf};

use viscrombal::policy::Policy;
use viscrombal::{wasm, Refusal, LONGEST_MODULE, LONGEST_TEXT};

use crate::args::{Options, INPUT};
use crate::json::Object;
use crate::locate::{self, Located};
use crate::{sha256, show};

/// Why there is no answer on a file.
pub enum Trouble {
    Unreadable(io::Error),
    Refused(Refusal),
}

impl From<io::Error> for Trouble {
    fn from(fault: io::Error) -> Trouble {
        Trouble::Unreadable(fault)
    }
}

impl From<Refusal> for Trouble {
    fn from(refusal: Refusal) -> Trouble {
        Trouble::Refused(refusal)
    }
}

impl fmt::Display for Trouble {
    fn fmt(&self, f: &mut fmt::Formatter<'_>) -> fmt::Result {
        match self {
            Trouble::Unreadable(fault) => write!(f, "cannot be read: {fault}"),
            Trouble::Refused(refusal) => refusal.fmt(f),
        }
    }
}

impl Trouble {
    /// The same as fields of an object.
    pub fn tell(&self, object: Object) -> Object {
        match self {
            Trouble::Unreadable(fault) => {
                let object = object.str("answer", "cannot be read");
                let object = match fault.raw_os_error() {
                    Some(number) => object.raw("os_error", number),
                    None => object,
                };
                object.str("words", &fault.to_string())
            }
            Trouble::Refused(refusal) => {
                let object = object.str("answer", "refused").raw("number", refusal.number()).raw("place", refusal.place());
                let object = match refusal.offset() {
                    Some(offset) => object.raw("offset", offset),
                    None => object,
                };
                let object = match refusal.rule() {
                    Some(rule) => object.raw("rule", rule.number()),
                    None => object,
                };
                object.str("refusal", refusal.kind().slug()).str("words", &refusal.to_string())
            }
        }
    }
}

/// What ends a command before its answer.
pub enum Stop {
    /// Nothing more can be written.
    Output(io::Error),
    /// What a file was to be, and what is wrong with it.
    File { what: &'static str, path: PathBuf, trouble: Trouble },
}

impl From<io::Error> for Stop {
    fn from(fault: io::Error) -> Stop {
        Stop::Output(fault)
    }
}

/// Trouble with this file ends the command.
pub fn or_stop<T>(what: &'static str, path: &Path, result: Result<T, impl Into<Trouble>>) -> Result<T, Stop> {
    result.map_err(|trouble| Stop::File { what, path: path.into(), trouble: trouble.into() })
}

/// Which field of the file a refusal points at, where that is asked for. What came by standard input cannot be read again.
pub fn explained(path: &Path, trouble: &Trouble, options: Options) -> Option<Located> {
    match trouble {
        Trouble::Refused(refusal) if options.explain && path != Path::new(INPUT) => {
            let file = read(path, LONGEST_MODULE).ok()?;
            refusal.offset().map(|offset| locate::locate(&file, offset))
        }
        _ => None,
    }
}

/// Says what is wrong with a file.
pub fn report(out: &mut dyn Write, what: &str, path: &Path, trouble: &Trouble, options: Options) -> io::Result<()> {
    let explained = explained(path, trouble, options);
    if options.json {
        let object = trouble.tell(Object::default().path(what, path));
        let object = match explained {
            Some(located) => located.tell(object),
            None => object,
        };
        return writeln!(out, "{}", object.done());
    }
    writeln!(out, "{what} {}: {trouble}", show::path(path))?;
    explained.map_or(Ok(()), |located| writeln!(out, "{what} {}: {located}", show::path(path)))
}

/// A file's bytes, or those of standard input; of a longer one the first `longest` and one more: enough for the archive to refuse it.
fn read(path: &Path, longest: usize) -> io::Result<Vec<u8>> {
    let mut bytes = Vec::new();
    let most = longest as u64 + 1;
    if path == Path::new(INPUT) {
        io::stdin().lock().take(most).read_to_end(&mut bytes)?;
    } else {
        File::open(path)?.take(most).read_to_end(&mut bytes)?;
    }
    Ok(bytes)
}

/// A policy's text.
pub fn read_policy(path: &Path) -> Result<Vec<u8>, Stop> {
    or_stop("policy", path, read(path, LONGEST_TEXT))
}

/// Which policy was asked: where it was read from, its name, and the SHA-256 of its text.
pub struct Asked<'a> {
    path: &'a Path,
    name: &'a str,
    sum: String,
}

impl<'a> Asked<'a> {
    pub fn new(path: &'a Path, policy: &Policy<'a>) -> Asked<'a> {
        Asked { path, name: policy.name(), sum: sha256::sum(policy.text()) }
    }

    /// The same as fields of an object.
    pub fn tell(&self, object: Object) -> Object {
        self.tell_as("policy", object)
    }

    /// The same under names that begin with this one.
    pub fn tell_as(&self, key: &str, object: Object) -> Object {
        object.path(key, self.path).str(&format!("{key}_name"), self.name).str(&format!("{key}_sum"), &self.sum)
    }
}

/// A module's bytes, which must be read strictly where that is asked for.
pub fn read_module(path: &Path, strict: bool) -> Result<Vec<u8>, Trouble> {
    let file = read(path, LONGEST_MODULE)?;
    if strict {
        wasm::test_strict(&file)?;
    }
    Ok(file)
}

/// The modules below a folder: plain files whose names end in `.wasm`, and links to such, by name, folder after folder. Links to folders
/// are not followed. A folder that has none, or that cannot be listed, is left as it is, and then cannot be read. Any other path stands
/// for itself.
pub fn walked(path: &Path) -> Vec<PathBuf> {
    let found = if path.is_dir() && path != Path::new(INPUT) { below(path) } else { Ok(Vec::new()) };
    match found {
        Ok(files) if !files.is_empty() => files,
        _ => vec![path.into()],
    }
}

fn below(folder: &Path) -> io::Result<Vec<PathBuf>> {
    let mut entries = fs::read_dir(folder)?.collect::<io::Result<Vec<_>>>()?;
    entries.sort_by_key(|entry| entry.file_name());
    let mut files = Vec::new();
    for entry in entries {
        let path = entry.path();
        if entry.file_type()?.is_dir() {
            match below(&path) {
                Ok(more) => files.extend(more),
                Err(_) => files.push(path),
            }
        } else if entry.file_name().as_encoded_bytes().ends_with(b".wasm") && fs::metadata(&path).map_or(true, |target| target.is_file()) {
            // a link that leads nowhere is kept, and told as a file that cannot be read
            files.push(path);
        }
    }
    Ok(files)
}
