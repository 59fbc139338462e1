//! What the archive writes to `out`: cells of 8 bytes, lowest first, so many to a row; and names as ranges of the caller's bytes.

use crate::error::{ErrorKind, Refusal, Result};

/// The cells that are left.
pub struct Cells<'o>(&'o [u8]);

impl<'o> Cells<'o> {
    /// The cells of the first `bytes` bytes of `out`.
    pub fn of(out: &'o [u8], bytes: usize) -> Result<Cells<'o>> {
        out.get(..bytes).map(Cells).ok_or(Refusal::STRANGE)
    }

    /// The next `count` rows of N cells, each made into something.
    pub fn rows<const N: usize, T>(&mut self, count: usize, make: impl Fn([usize; N]) -> Result<T>) -> Result<Vec<T>> {
        (0..count).map(|_| self.row().and_then(&make)).collect()
    }

    /// The next `len` bytes, as text.
    pub fn text(&mut self, len: usize) -> Result<&'o str> {
        name(self.0, 0, len)
    }

    fn row<const N: usize>(&mut self) -> Result<[usize; N]> {
        let mut row = [0; N];
        for cell in &mut row {
            let (first, rest) = self.0.split_first_chunk().ok_or(Refusal::STRANGE)?;
            *cell = number(u64::from_le_bytes(*first))?;
            self.0 = rest;
        }
        Ok(row)
    }
}

/// A cell as a narrower number.
pub fn number<T, U: TryFrom<T>>(cell: T) -> Result<U> {
    U::try_from(cell).map_err(|_| Refusal::STRANGE)
}

/// A text: a range of bytes.
pub fn name(bytes: &[u8], from: usize, len: usize) -> Result<&str> {
    let part = bytes.get(from..).and_then(|rest| rest.get(..len)).ok_or(Refusal::STRANGE)?;
    std::str::from_utf8(part).map_err(|_| Refusal::STRANGE)
}

/// A call with as much room as it asks for: `room` bytes at first, and where these do not do, as many as it says that it needs.
pub fn with_room<T>(room: usize, mut call: impl FnMut(&mut [u8]) -> Result<T>) -> Result<(T, Vec<u8>)> {
    let mut out = vec![0; room];
    let answer = match call(&mut out) {
        Err(refusal) if refusal.kind() == ErrorKind::NoRoom => {
            out = vec![0; refusal.place()];
            call(&mut out)?
        }
        answer => answer?,
    };
    Ok((answer, out))
}
