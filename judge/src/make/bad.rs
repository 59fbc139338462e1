//! Numbers that are bad in each way, nearly bad ones and good ones, in every place of a module where a number is read.
use super::modules::{plain, FULL, HEADER};
use crate::case::{Call, Case};
use crate::Court;

/// An import's two names, before its kind.
const NAMES: &[u8] = b"\x01m\x01f";

/// 17, 18, 19, 1, and numbers that are read: the last byte after so many that go on, and what follows it.
fn numbers() -> Vec<Vec<u8>> {
    let tails: [(usize, &[u8]); 22] = [
        (9, b"\x80\x00"),
        (9, b"\x81\x00"),
        (9, b"\x80\x80\x80\x80\x80\x10"),
        (9, b"\x02"),
        (9, b"\x7f"),
        (9, b"\x82"),
        (9, b"\x82\x00"),
        (9, b"\xff\x80\x00"),
        (4, b"\x10"),
        (4, b"\x1f"),
        (4, b"\x90\x00"),
        (4, b"\x10\x80\x80\x80\x80\x80\x80\x80\x80\x80\x80\x00"),
        (9, b"\x01"),
        (8, b"\x7f"),
        (9, b"\x80"),
        (9, b"\x81"),
        (8, b"\x80"),
        (4, b"\x8f"),
        (4, b"\x0f"),
        (4, b"\x80\x00"),
        (9, b"\x00"),
        (0, b"\x00"),
    ];
    let going = |n: usize, byte: u8| vec![byte; n];
    tails.iter().flat_map(|(n, tail)| [0x80, 0xff].map(|byte| [&going(*n, byte)[..], tail].concat())).collect()
}

fn section(id: u8, payload: &[u8]) -> Vec<u8> {
    [HEADER, &[id], &plain(payload.len()), payload].concat()
}

fn names(subsection: u8, inner: &[u8]) -> Vec<u8> {
    section(0, &[b"\x04name", &[subsection][..], &plain(inner.len()), inner].concat())
}

/// A module for each place: what stands before the number there, and what after.
fn modules(number: &[u8], f: &mut impl FnMut(&[u8])) {
    for id in [0, 1, 2, 7] {
        f(&[HEADER, &[id], number, b"\x00\x00"].concat());
    }
    let imports: [&[u8]; 7] = [b"\x00", b"\x01\x70\x00", b"\x01\x70\x01", b"\x01\x70\x03\x07", b"\x02\x00", b"\x02\x01", b"\x02\x01\x07"];
    for after in [&b""[..], b"\x00", b"\x01m\x01f\x00\x00"] {
        for before in [&b""[..], b"\x01", b"\x01\x01m"] {
            f(&section(2, &[before, number, after].concat()));
        }
        for kind in imports {
            f(&section(2, &[b"\x01", NAMES, kind, number, after].concat()));
        }
        for before in [&b""[..], b"\x01", b"\x01\x01x\x00"] {
            f(&section(7, &[before, number, after].concat()));
        }
        for before in [&b""[..], b"\x04name\x00", b"\x04name\x02"] {
            f(&section(0, &[before, number, after].concat()));
        }
        f(&names(0, &[number, after].concat()));
        for before in [&b""[..], b"\x01", b"\x01\x00"] {
            f(&names(1, &[before, number, after].concat()));
        }
        f(&names(2, &[number, after].concat()));
    }
}

pub fn fixed(court: &mut Court) {
    let good = section(2, &[b"\x01", NAMES, b"\x00\x00"].concat());
    for number in numbers() {
        for at in 0..3 {
            let s = [&b"\x00\xff"[..at.min(2)], &number].concat();
            for call in [Call::Uleb128, Call::Uleb128U32, Call::Sleb128, Call::Name] {
                court.hear(Case::new(call, &[at as u64], &[&s]));
            }
        }
        modules(&number, &mut |file| {
            court.hear(Case::new(Call::Module, &FULL, &[file]));
            court.hear(Case::new(Call::CModule, &[2_000], &[file]));
            court.hear(Case::new(Call::Check, &[], &[file, b"default allow"]));
            for (baseline, candidate) in [(file, &good[..]), (&good, file)] {
                court.hear(Case::new(Call::CCompare, &[2_000], &[baseline, candidate]));
                court.hear(Case::new(Call::Compare, &[4096, 6144, 2_000], &[baseline, candidate]));
            }
        });
    }
}
