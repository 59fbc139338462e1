//! leb.rs: numbers and names; and the words for kinds, sections and changes.
use super::every;
use crate::case::{Call, Case};
use crate::random::Random;
use crate::Court;

const READS: [Call; 4] = [Call::Uleb128, Call::Uleb128U32, Call::Sleb128, Call::Name];
const EDGES: [u8; 11] = [0x00, 0x01, 0x02, 0x3f, 0x40, 0x7e, 0x7f, 0x80, 0x81, 0xc0, 0xff];
const UTF8: [u8; 25] = [
    0x00, 0x41, 0x7f, 0x80, 0x8f, 0x90, 0x9f, 0xa0, 0xbf, 0xc0, 0xc1, 0xc2, 0xdf, 0xe0, 0xe1, 0xec, 0xed, 0xee, 0xef, 0xf0, 0xf1, 0xf3,
    0xf4, 0xf5, 0xff,
];

fn each(court: &mut Court, s: &[u8], at: u64) {
    for call in READS {
        court.hear(Case::new(call, &[at], &[s]));
    }
}

fn name(court: &mut Court, bytes: &[u8]) {
    let mut s = vec![bytes.len() as u8];
    s.extend(bytes);
    court.hear(Case::new(Call::Name, &[0], &[&s]));
}

/// A byte, four bytes, what is left; and so many bytes.
fn others(court: &mut Court, s: &[u8], at: u64, n: u64) {
    for call in [Call::U8, Call::U32Le, Call::Left] {
        court.hear(Case::new(call, &[at], &[s]));
    }
    for call in [Call::Take, Call::Skip] {
        court.hear(Case::new(call, &[at, n], &[s]));
    }
}

pub fn fixed(court: &mut Court) {
    for length in 0..=3 {
        every(&EDGES, length, |s| others(court, s, 0, length as u64));
    }
    for byte in 0..=255 {
        for at in 0..4 {
            let mut s = [0x12, 0x34, 0x56, 0x78];
            s[at] = byte;
            others(court, &s, 0, 4);
            court.hear(Case::new(Call::U8, &[at as u64], &[&s]));
        }
        court.hear(Case::new(Call::Kind, &[byte as u64], &[]));
        court.hear(Case::new(Call::Section, &[byte as u64], &[]));
    }
    let ends = [0, 1, 2, 3, 4, 5, 6, 7, 8, u64::MAX - 6, u64::MAX - 1, u64::MAX];
    for length in 0..=6 {
        for (at, n) in ends.iter().flat_map(|at| ends.map(|n| (*at, n))) {
            others(court, &b"abcdef"[..length], at, n);
        }
    }
    for change in [0, 1, 2, u64::MAX] {
        court.hear(Case::new(Call::ChangeWord, &[change], &[]));
    }
    let all: Vec<u8> = (0..=255).collect();
    for length in 0..=2 {
        every(&all, length, |s| each(court, s, 0));
    }
    for length in 3..=4 {
        every(&EDGES, length, |s| each(court, s, 0));
    }
    // eight, nine and ten bytes that go on, then any byte, then nothing or one byte more
    for length in 8..=10 {
        for go in [0x80, 0xff, 0xc0, 0x81] {
            for last in 0..=255 {
                let mut s = vec![go; length];
                s.push(last);
                each(court, &s, 0);
                for more in [0x00, 0x80] {
                    s.push(more);
                    each(court, &s, 0);
                    s.pop();
                }
            }
        }
    }
    for length in 1..=3 {
        every(&UTF8, length, |s| name(court, s));
    }
    // four bytes: each edge of the second, and of the last two what may follow and what may not
    for first in [0xf0, 0xf1, 0xf3, 0xf4, 0xf5] {
        for second in UTF8 {
            every(&[0x41, 0x80, 0xbf, 0xc0], 2, |s| name(court, &[first, second, s[0], s[1]]));
        }
    }
    for at in [0, 1, 2, 3, 4, u64::MAX - 1, u64::MAX] {
        for s in [&b""[..], b"\x00", b"\x80\x01", b"\x01a\x01"] {
            each(court, s, at);
        }
    }
}

pub fn seeded(court: &mut Court, r: &mut Random) {
    for _ in 0..400 {
        let s: Vec<u8> = (0..r.below(14)).map(|_| if r.one_in(4) { r.byte() } else { EDGES[r.below(EDGES.len())] | 0x80 }).collect();
        let at = if r.one_in(8) { r.below(20) } else { r.below(3) };
        each(court, &s, at as u64);
        others(court, &s, at as u64, r.below(16) as u64);
        let long = r.below(4);
        let mut bytes: Vec<u8> = (0..r.below(3)).map(|_| b'a').collect();
        bytes.extend((0..1 + long).map(|_| UTF8[r.below(UTF8.len())]));
        bytes.extend((0..r.below(9)).map(|_| b'b'));
        name(court, &bytes);
    }
}
