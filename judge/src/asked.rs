//! What imports ask for: cells 5 to 11 of a row of table 2. The original steps over descriptors and keeps nothing of them, so that the
//! cells of a file that it reads come from a second decoder here, over its `Reader`; and which rows are bad that are handed in is
//! docs/RULES.md's to say. Nothing in it comes from the port.
use original::error::Result;
use original::leb::Reader;

/// Cells of a row: two ranges and the kind, as the original has them, then the descriptor.
pub const WIDTH: usize = 12;
/// The first cell of the descriptor, and the cell that says which numbers are there.
pub const FIRST: usize = 5;
pub const GIVEN: usize = 11;

/// Type index, type byte, flag, least, most, mutability: each is there, or not.
#[derive(Clone, Copy, Default, PartialEq, Eq, Debug)]
pub struct Asked {
    pub index: Option<u64>,
    pub type_byte: Option<u64>,
    pub flag: Option<u64>,
    pub least: Option<u64>,
    pub most: Option<u64>,
    pub mutability: Option<u64>,
}

impl Asked {
    fn numbers(&self) -> [Option<u64>; 6] {
        [self.index, self.type_byte, self.flag, self.least, self.most, self.mutability]
    }

    /// The numbers, 0 for one that is not there, and a bit for each that is.
    pub fn cells(&self) -> [u64; WIDTH - FIRST] {
        let mut out = [0; WIDTH - FIRST];
        for (i, number) in self.numbers().into_iter().enumerate() {
            out[i] = number.unwrap_or(0);
            out[GIVEN - FIRST] += (number.is_some() as u64) << i;
        }
        out
    }

    /// Of each import of a file that is read, in row order: those of the last import section.
    pub fn of(file: &[u8]) -> Vec<Asked> {
        sections(file).expect("a module that is read")
    }
}

fn sections(file: &[u8]) -> Result<Vec<Asked>> {
    let mut r = Reader::new(file);
    let mut out = Vec::new();
    r.skip(8)?;
    while !r.is_empty() {
        let id = r.u8()?;
        let size = r.uleb128_u32()? as usize;
        let payload = r.take(size)?;
        if id == 2 {
            out = imports(&mut Reader::new(payload))?;
        }
    }
    Ok(out)
}

fn imports(r: &mut Reader) -> Result<Vec<Asked>> {
    (0..r.uleb128_u32()?)
        .map(|_| {
            r.name()?;
            r.name()?;
            descriptor(r)
        })
        .collect()
}

fn descriptor(r: &mut Reader) -> Result<Asked> {
    let kind = r.u8()?;
    let mut asked = Asked::default();
    match kind {
        0 => asked.index = Some(r.uleb128_u32()?.into()),
        3 => {
            asked.type_byte = Some(r.u8()?.into());
            asked.mutability = Some(r.u8()?.into());
        }
        _ => {
            if kind == 1 {
                asked.type_byte = Some(r.u8()?.into());
            }
            let flag = r.u8()?;
            asked.flag = Some(flag.into());
            asked.least = Some(r.uleb128_u32()?.into());
            if flag % 2 == 1 {
                asked.most = Some(r.uleb128_u32()?.into());
            }
        }
    }
    Ok(asked)
}

/// The numbers that must be there, by the kind and the lowest bit of the flag, as sets of bits.
fn there(kind: u64, flag: u64) -> u64 {
    match (kind, flag % 2) {
        (0, _) => 1,
        (1, 0) => 14,
        (1, _) => 30,
        (2, 0) => 12,
        (2, _) => 28,
        (3, _) => 34,
        _ => 0,
    }
}

/// A row whose kind is no byte, whose last cell is not the one number for its kind and flag, or in which a number that is not there
/// is not 0.
pub fn bad(row: &[u64]) -> bool {
    let (kind, flag, given) = (row[4], row[7], row[GIVEN]);
    kind > 255 || given != there(kind, flag) || (FIRST..GIVEN).any(|c| given >> (c - FIRST) & 1 == 0 && row[c] != 0)
}
