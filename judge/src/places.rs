//! Where in a file the original's reader was, when it refused: it counts from the start of the payload, or of the subsection, that it was
//! given. The start is found by asking it about cut files: the first section whose contents it refuses, and in a name section the first
//! such subsection. Where it refuses neither, the fault is in the frames, and its offset is one of the file, or of the payload.
use crate::says::parse;
use original::leb::Reader;

/// An id, a size and so many bytes at an offset, whole.
struct Frame {
    id: u8,
    size_at: usize,
    from: usize,
    end: usize,
}

fn frame(bytes: &[u8], at: usize) -> Option<Frame> {
    let mut r = Reader::new(bytes);
    r.skip(at).ok()?;
    let id = r.u8().ok()?;
    let size_at = r.position();
    let size = r.uleb128_u32().ok()? as usize;
    let from = r.position();
    r.skip(size).ok()?;
    Some(Frame { id, size_at, from, end: r.position() })
}

/// The first section whose contents are refused.
fn section(file: &[u8]) -> Option<Frame> {
    let mut at = 8;
    parse(file.get(..at)?).ok()?;
    loop {
        let section = frame(file, at)?;
        if parse(&file[..section.end]).is_err() {
            return Some(section);
        }
        at = section.end;
    }
}

/// The start of what the refused file's reader was given.
pub fn start(file: &[u8]) -> usize {
    let Some(section) = section(file) else { return 0 };
    section.from + subsection(file, &section).unwrap_or(0)
}

/// The start, in its payload, of the first subsection of a name section whose contents are refused.
fn subsection(file: &[u8], section: &Frame) -> Option<usize> {
    let payload = &file[section.from..section.end];
    let mut r = Reader::new(payload);
    if section.id != 0 || r.name().ok()? != "name" {
        return None;
    }
    let mut at = r.position();
    loop {
        let sub = frame(payload, at)?;
        // the file up to it, with the section's size in as many bytes as it had
        let mut cut = file[..section.from + sub.end].to_vec();
        crate::limits::padded(sub.end as u64, &mut cut[section.size_at..section.from]);
        if parse(&cut).is_err() {
            return Some(sub.from);
        }
        at = sub.end;
    }
}

/// The offset of the kind byte for which an import is refused: the original tells the byte alone. Its reader steps over the entries before.
pub fn kind(file: &[u8]) -> Option<usize> {
    let section = section(file)?;
    let mut r = Reader::new(&file[section.from..section.end]);
    for _ in 0..r.uleb128_u32().ok()? {
        r.name().ok()?;
        r.name().ok()?;
        let at = r.position();
        match r.u8().ok()? {
            0 => r.uleb128_u32().map(|_| ()).ok()?,
            1 => r.u8().ok().and_then(|_| limits(&mut r))?,
            2 => limits(&mut r)?,
            3 => r.skip(2).ok()?,
            _ => return Some(section.from + at),
        }
    }
    None
}

fn limits(r: &mut Reader) -> Option<()> {
    let flag = r.u8().ok()?;
    r.uleb128_u32().ok()?;
    if flag % 2 == 1 {
        r.uleb128_u32().ok()?;
    }
    Some(())
}
