//! wasm.rs: what import rows answer that are handed in.
use super::asked::{descriptor, rows_of};
use crate::case::{Call, Case};
use crate::random::Random;
use crate::Court;

pub fn fixed(court: &mut Court) {
    for rows in [1023usize, 1024, 1025] {
        let cells = rows_of(&(0..rows as u64).flat_map(|i| [0, i % 2, 0, 0, i % 3]).collect::<Vec<_>>());
        for n in [0, 1023, 1024, 1025, rows as u64] {
            for call in [Call::Functions, Call::Memories] {
                court.hear(Case::new(call, &[&[n], &cells[..]].concat(), &[]));
            }
            court.hear(Case::new(Call::Namespaces, &[&[1024, n], &cells[..]].concat(), &[b"a"]));
            court.hear(Case::new(Call::Requirements, &[&[1030, 1030, n], &cells[..]].concat(), &[b"a"]));
        }
    }
    // as many names as table 15 takes, with room for one less, all, and more
    let file: Vec<u8> = (0..1024u32).flat_map(|i| [(i >> 8) as u8, i as u8]).collect();
    let cells = rows_of(&(0..1024).rev().flat_map(|i| [2 * i, 2, 0, 0, 0]).collect::<Vec<_>>());
    for room in [1023, 1024, 1025, 2000] {
        court.hear(Case::new(Call::Namespaces, &[&[room, 1024], &cells[..]].concat(), &[&file]));
    }
}

pub fn seeded(court: &mut Court, r: &mut Random) {
    let file = b"aabab\x00\xffab\xc3\xa9wasi:io/xfd_";
    for _ in 0..250 {
        let rows = r.below(7);
        let mut cells = Vec::new();
        for _ in 0..rows {
            let range = |r: &mut Random| {
                let from = r.below(file.len() + 1);
                let len = r.below(file.len() - from + 1).min(r.below(4));
                match r.below(80) {
                    0 => [from as u64, (file.len() - from + 1) as u64],
                    1 => [u64::MAX, 1],
                    2 => [2, u64::MAX],
                    _ => [from as u64, len as u64],
                }
            };
            cells.extend(range(r));
            cells.extend(range(r));
            let kind = if r.one_in(40) { 255 + r.below(3) as u64 } else { r.below(5) as u64 };
            cells.push(kind);
            cells.extend(descriptor(kind, r));
        }
        cells.extend((0..if r.one_in(4) { r.below(14) } else { 0 }).map(|_| 0));
        let n = if r.one_in(8) { r.below(9) } else { rows } as u64;
        court.hear(Case::new(Call::Functions, &[&[n], &cells[..]].concat(), &[]));
        court.hear(Case::new(Call::Memories, &[&[n], &cells[..]].concat(), &[]));
        court.hear(Case::new(Call::Namespaces, &[&[r.below(8) as u64, n], &cells[..]].concat(), &[file]));
        court.hear(Case::new(Call::Requirements, &[&[r.below(8) as u64, r.below(8) as u64, n], &cells[..]].concat(), &[file]));
    }
}
