//! Strict reading (docs/RULES.md): the original's plain answer, limits and all; where that accepts, eight rules that the original does not
//! have, from the rules' own words. They are told by a second decoder, over the original's `Reader`, which looks at every number as it
//! is read; nothing in it comes from the port.
use crate::limits::{module_within, FULL};
use crate::says::{refused, zeros_to};
use original::error::Result;
use original::leb::Reader;
use std::collections::HashSet;

pub const ACCEPTED: &str = "accepted";

/// With tables of so many cells: the plain answer and its rows, or 20 and zero in every cell.
pub fn module(file: &[u8], cells: [u64; 4]) -> String {
    ruled(file, module_within(file, cells)) + &zeros_to(&cells)
}

/// The answer alone, with tables at the limits.
pub fn answer(file: &[u8]) -> String {
    let said = ruled(file, module_within(file, FULL));
    if said.starts_with("refused") {
        said
    } else {
        ACCEPTED.into()
    }
}

/// 20 after every plain refusal.
fn ruled(file: &[u8], plain: String) -> String {
    if plain.starts_with("refused") {
        return plain;
    }
    match lowest(file) {
        Some(rule) => refused(20, rule),
        None => plain,
    }
}

/// The lowest rule that a file breaks which was read plainly.
fn lowest(file: &[u8]) -> Option<u64> {
    let mut seen = Seen::default();
    seen.file(file).expect("a module that is read");
    let names: HashSet<&[u8]> = seen.names.iter().copied().collect();
    let rules = [
        seen.version == 1,
        seen.longest <= 5,
        seen.ids.iter().all(|id| *id <= 12),
        in_order(&seen.ids),
        seen.unused == 0,
        names.len() == seen.names.len(),
        seen.kinds.iter().all(|kind| *kind <= 3),
        seen.flags.iter().all(|flag| *flag <= 1),
    ];
    rules.iter().position(|kept| !kept).map(|at| at as u64 + 1)
}

/// The sections of the specification in its order; a custom section may stand anywhere.
const ORDER: [u8; 12] = [1, 2, 3, 4, 5, 6, 7, 8, 9, 12, 10, 11];

fn in_order(ids: &[u8]) -> bool {
    let places: Vec<usize> = ids.iter().filter_map(|id| ORDER.iter().position(|known| known == id)).collect();
    places.windows(2).all(|two| two[0] < two[1])
}

/// What the rules speak of: the bytes of the longest number, the bytes that import and export sections leave, export names and kinds,
/// limits flags and mutabilities.
#[derive(Default)]
struct Seen<'a> {
    version: u32,
    longest: usize,
    ids: Vec<u8>,
    unused: usize,
    names: Vec<&'a [u8]>,
    kinds: Vec<u8>,
    flags: Vec<u8>,
}

impl<'a> Seen<'a> {
    fn number(&mut self, r: &mut Reader) -> Result<u32> {
        let start = r.position();
        let n = r.uleb128_u32()?;
        self.longest = self.longest.max(r.position() - start);
        Ok(n)
    }

    /// A length and so many bytes: a name, or what a size is of.
    fn bytes(&mut self, r: &mut Reader<'a>) -> Result<&'a [u8]> {
        let n = self.number(r)?;
        r.take(n as usize)
    }

    fn file(&mut self, file: &'a [u8]) -> Result<()> {
        let mut r = Reader::new(file);
        r.skip(4)?;
        self.version = r.u32_le()?;
        while !r.is_empty() {
            let id = r.u8()?;
            self.ids.push(id);
            let payload = Reader::new(self.bytes(&mut r)?);
            match id {
                0 => self.custom(payload)?,
                2 => self.list(payload, Seen::import)?,
                7 => self.list(payload, Seen::export)?,
                _ => (),
            }
        }
        Ok(())
    }

    /// The entries of a section, and the bytes after them.
    fn list(&mut self, mut r: Reader<'a>, entry: fn(&mut Self, &mut Reader<'a>) -> Result<()>) -> Result<()> {
        for _ in 0..self.number(&mut r)? {
            entry(self, &mut r)?;
        }
        self.unused += r.remaining();
        Ok(())
    }

    fn import(&mut self, r: &mut Reader<'a>) -> Result<()> {
        self.bytes(r)?;
        self.bytes(r)?;
        match r.u8()? {
            0 => self.number(r).map(|_| ()),
            1 => {
                r.u8()?;
                self.limits(r)
            }
            2 => self.limits(r),
            _ => {
                r.u8()?;
                self.flags.push(r.u8()?);
                Ok(())
            }
        }
    }

    /// A second number stands there where the lowest bit of the flag says so.
    fn limits(&mut self, r: &mut Reader) -> Result<()> {
        let flag = r.u8()?;
        self.flags.push(flag);
        for _ in 0..1 + (flag & 1) {
            self.number(r)?;
        }
        Ok(())
    }

    fn export(&mut self, r: &mut Reader<'a>) -> Result<()> {
        let name = self.bytes(r)?;
        self.names.push(name);
        self.kinds.push(r.u8()?);
        self.number(r).map(|_| ())
    }

    /// Of the custom sections only `name` is read, and of its subsections the first two.
    fn custom(&mut self, mut r: Reader<'a>) -> Result<()> {
        if self.bytes(&mut r)? != b"name" {
            return Ok(());
        }
        while !r.is_empty() {
            let id = r.u8()?;
            let mut inner = Reader::new(self.bytes(&mut r)?);
            match id {
                0 => drop(self.bytes(&mut inner)?),
                1 => {
                    for _ in 0..self.number(&mut inner)? {
                        self.number(&mut inner)?;
                        self.bytes(&mut inner)?;
                    }
                }
                _ => (),
            }
        }
        Ok(())
    }
}
