//! A module or a manifest read into tables of a given room, by the original alone: 13 is told by asking it about shortened inputs.
//!
//! Of a manifest each line's outcome is that of the text up to it; a world is open there if the original takes a `}` after it.
//!
//! An entry that meets a full table is 13 if it is complete and good, so a section of more entries than its table has room for is asked with
//! one entry more than there is room for: refused, that refusal comes first; accepted, the answer is 13. A shortened count is padded
//! to as many bytes as it had, so that no offset moves. A count beyond the bytes that follow it is shortened too: an entry takes at
//! least one byte, so both run out at the same place, and the original, which reserves memory for the count, would end its process.
use crate::asked::WIDTH;
use crate::says::{manifest_says, module_says, whole, zeros_to, LONGEST_MODULE};
use original::leb::Reader;
use original::wit;

/// Cells to a row and most rows of tables 1 to 4.
const TABLES: [(u64, u64); 4] = [(5, 256), (WIDTH as u64, 1024), (4, 1024), (3, 4096)];
/// Cells of tables 1 to 4 at their limits.
pub const FULL: [u64; 4] = [5 * 256, WIDTH as u64 * 1024, 4 * 1024, 3 * 4096];

pub fn module(file: &[u8], cells: [u64; 4]) -> String {
    module_within(file, cells) + &zeros_to(&cells)
}

/// Without what is left in the tables.
pub fn module_within(file: &[u8], cells: [u64; 4]) -> String {
    let room: Vec<u64> = TABLES.iter().zip(cells).map(|((width, limit), n)| (n / width).min(*limit)).collect();
    if file.len() > LONGEST_MODULE {
        "refused 14 at 0".into()
    } else {
        Walk::new(file, &room).says()
    }
}

pub fn manifest(text: &[u8], cells: [u64; 2]) -> String {
    let room = [(cells[0] / 2).min(64), (cells[1] / 7).min(1024)];
    whole(text).map_or_else(|why| why, |s| manifest_in(s, room)) + &zeros_to(&cells)
}

fn manifest_in(s: &str, room: [u64; 2]) -> String {
    let all = wit::parse(s);
    // rows are only added, so that what they come to in the end decides; and a line makes at most one row of each table
    let fits = all.as_ref().is_ok_and(|m| m.worlds.len() as u64 <= room[0] && references_of(m) <= room[1]);
    if !fits && s.lines().count() as u64 >= room[0].min(room[1]) {
        if let Some(full) = manifest_full(s, room) {
            return full;
        }
    }
    manifest_says(&all)
}

fn references_of(m: &wit::Manifest) -> u64 {
    m.worlds.iter().map(|w| (w.imports.len() + w.exports.len()) as u64).sum()
}

/// 13, where a table is full before the first fault of the text.
fn manifest_full(s: &str, room: [u64; 2]) -> Option<String> {
    let full = |t: u64| Some(format!("refused 13 at {t}"));
    let mut end = 0;
    let (mut closed, mut open) = (0, false);
    for line in s.split_inclusive('\n') {
        end += line.len();
        // a line of blanks makes no row and has no fault; many of them would be asked about one by one
        if line.trim().is_empty() {
            continue;
        }
        let up_to = match wit::parse(&s[..end]) {
            Ok(m) => m,
            // a world that another one closes takes its row before the other's name is looked at
            Err(e) if e.to_string().ends_with("world requires a name") && open && closed + 1 > room[0] => return full(5),
            Err(_) => return None,
        };
        if references_of(&up_to) > room[1] {
            return full(6);
        }
        open = wit::parse(&format!("{}\n}}", &s[..end])).is_ok();
        closed = up_to.worlds.len() as u64 - open as u64;
        if closed > room[0] {
            return full(5);
        }
    }
    if closed + open as u64 > room[0] {
        full(5)
    } else {
        None
    }
}

/// A module read into tables at their limits, without what is left in them.
pub fn module_alone(file: &[u8]) -> String {
    Walk::new(file, &TABLES.map(|t| t.1)).says()
}

/// `n` in as many bytes as stand there.
pub fn padded(n: u64, bytes: &mut [u8]) {
    let last = bytes.len() - 1;
    for (i, b) in bytes.iter_mut().enumerate() {
        let group = n.checked_shr(7 * i as u32).unwrap_or(0) as u8 & 0x7f;
        *b = if i < last { group | 0x80 } else { group };
    }
}

/// A u32 at the reader: its value, where it starts, where it ends.
fn number(r: &mut Reader) -> Option<(u64, usize, usize)> {
    let start = r.position();
    let v = r.uleb128_u32().ok()?;
    Some((v as u64, start, r.position()))
}

struct Walk<'a> {
    room: &'a [u64],
    /// The file with counts that the original can take.
    file: Vec<u8>,
    symbols: u64,
}

impl<'a> Walk<'a> {
    fn new(file: &[u8], room: &'a [u64]) -> Walk<'a> {
        Walk { room, file: file.to_vec(), symbols: 0 }
    }

    fn ask(&self, file: &[u8]) -> String {
        module_says(file)
    }

    fn says(mut self) -> String {
        let mut at = 8.min(self.file.len());
        let mut sections = 0;
        while at < self.file.len() {
            let file = self.file.clone();
            let mut r = Reader::new(&file);
            r.skip(at + 1).unwrap();
            let Some((size, size_at, from)) = number(&mut r) else { break };
            let end = from + size as usize;
            if end > file.len() {
                break;
            }
            let full = match file[at] {
                2 => self.entries(from, end, 1),
                7 => self.entries(from, end, 2),
                0 => self.names(size_at, from, end),
                _ => None,
            };
            if let Some(said) = full {
                return said;
            }
            if sections >= self.room[0] {
                let said = module_says(&self.file[..end]);
                return if said.starts_with("refused") { said } else { "refused 13 at 1".into() };
            }
            sections += 1;
            at = end;
        }
        self.ask(&self.file)
    }

    /// Section 2 or 7 with more entries than table t + 1 takes.
    fn entries(&mut self, from: usize, end: usize, t: usize) -> Option<String> {
        let payload = self.file[from..end].to_vec();
        let (count, _, after) = number(&mut Reader::new(&payload))?;
        // as many entries as there are bytes are more than there can be
        let most = payload.len() as u64 + 1;
        if count > most.min(self.room[t]) {
            let fewer = most.min(self.room[t] + 1);
            padded(fewer, &mut self.file[from..from + after]);
        }
        if count <= self.room[t] {
            return None;
        }
        let said = module_says(&self.file[..end]);
        Some(if said.starts_with("refused") { said } else { format!("refused 13 at {}", t + 1) })
    }

    /// A name section with more function names than table 4 has room left for.
    fn names(&mut self, size_at: usize, from: usize, end: usize) -> Option<String> {
        let payload = self.file[from..end].to_vec();
        let mut r = Reader::new(&payload);
        if r.name().ok()? != "name" {
            return None;
        }
        while !r.is_empty() {
            let id = r.u8().ok()?;
            let (size, _, start) = number(&mut r)?;
            r.skip(size as usize).ok()?;
            if id != 1 {
                continue;
            }
            let inner = &payload[start..r.position()];
            let (count, _, after) = number(&mut Reader::new(inner))?;
            if self.symbols + count <= self.room[3] {
                self.symbols += count;
                continue;
            }
            // one name more than there is room for, and nothing of the file after them
            let mut file = self.file[..from + r.position()].to_vec();
            padded((self.room[3] - self.symbols + 1).min(inner.len() as u64 + 1), &mut file[from + start..from + start + after]);
            padded(r.position() as u64, &mut file[size_at..from]);
            let said = module_says(&file);
            return Some(if said.starts_with("refused") { said } else { "refused 13 at 4".into() });
        }
        None
    }
}
