//! Which way a number is bad. The original has one kind for what docs/RULES.md tells apart as 17, 18 and 19: of the number that it refuses
//! so, the bytes decide, here and apart from the port.
use original::error::{Error, ErrorKind};
use original::leb::Reader;

/// 18: nine bytes go on, and the low seven bits of the tenth exceed 1; a signed number has no such tenth byte. 17: ten go on, and an
/// eleventh is there. Else the number is good, and above u32: 19.
pub fn which_bad(number: &[u8], signed: bool) -> u64 {
    let going = number.iter().take_while(|b| **b >= 0x80).count();
    let too_large = number.get(9).is_some_and(|b| b % 0x80 > 1);
    if going >= 9 && too_large && !signed {
        18
    } else if going >= 10 && number.len() > 10 {
        17
    } else {
        19
    }
}

/// The number that a module is refused for, where it is bad: the first that the original's reader refuses so, in the order in which
/// docs/RULES.md has the file read.
pub fn in_module(file: &[u8]) -> Option<u64> {
    sections(file).err()?
}

/// A fault: which of the three, where it is a bad number.
type Read<T> = Result<T, Option<u64>>;

struct Bytes<'a> {
    all: &'a [u8],
    reader: Reader<'a>,
}

impl<'a> Bytes<'a> {
    fn new(all: &'a [u8]) -> Bytes<'a> {
        Bytes { all, reader: Reader::new(all) }
    }

    fn more(&self) -> bool {
        !self.reader.is_empty()
    }

    /// A read that begins with a u32, or with none.
    fn read<T>(&mut self, f: impl Fn(&mut Reader<'a>) -> Result<T, Error>) -> Read<T> {
        let number = &self.all[self.reader.position()..];
        f(&mut self.reader).map_err(|e| (e.kind() == ErrorKind::BadLeb128).then(|| which_bad(number, false)))
    }

    fn byte(&mut self) -> Read<u8> {
        self.read(|r| r.u8())
    }

    fn number(&mut self) -> Read<u32> {
        self.read(|r| r.uleb128_u32())
    }

    fn name(&mut self) -> Read<Vec<u8>> {
        self.read(|r| r.name().map(|n| n.as_bytes().to_vec()))
    }

    fn counted(&mut self) -> Read<Bytes<'a>> {
        let size = self.number()? as usize;
        self.read(|r| r.take(size)).map(Bytes::new)
    }

    fn entries(&mut self, entry: impl Fn(&mut Bytes<'a>) -> Read<()>) -> Read<()> {
        (0..self.number()?).try_for_each(|_| entry(self))
    }
}

fn sections(file: &[u8]) -> Read<()> {
    let mut b = Bytes::new(file);
    b.read(|r| r.skip(8))?;
    while b.more() {
        let id = b.byte()?;
        let mut payload = b.counted()?;
        match id {
            0 => custom(&mut payload)?,
            2 => payload.entries(import)?,
            7 => payload.entries(export)?,
            _ => (),
        }
    }
    Ok(())
}

fn import(b: &mut Bytes) -> Read<()> {
    b.name()?;
    b.name()?;
    match b.byte()? {
        0 => b.number().map(|_| ()),
        1 => b.byte().and_then(|_| limits(b)),
        2 => limits(b),
        3 => b.read(|r| r.skip(2)),
        _ => Err(None),
    }
}

fn limits(b: &mut Bytes) -> Read<()> {
    let flag = b.byte()?;
    b.number()?;
    if flag % 2 == 1 {
        b.number()?;
    }
    Ok(())
}

fn export(b: &mut Bytes) -> Read<()> {
    b.name()?;
    b.byte()?;
    b.number().map(|_| ())
}

fn custom(b: &mut Bytes) -> Read<()> {
    if b.name()? != b"name" {
        return Ok(());
    }
    while b.more() {
        let id = b.byte()?;
        let mut inner = b.counted()?;
        match id {
            0 => inner.name().map(|_| ())?,
            1 => inner.entries(|e| e.number().and_then(|_| e.name()).map(|_| ()))?,
            _ => (),
        }
    }
    Ok(())
}
