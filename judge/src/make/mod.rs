//! The inputs: exhaustive short ones, good ones made by a grammar, damaged copies. A round of seeded ones is the same for the same seed.
mod asked;
mod bad;
mod contrasts;
mod lengths;
mod manifests;
mod modules;
mod numbers;
mod places;
mod policies;
mod scale;
mod strict;
mod tables;
mod words;

use crate::case::{Call, Case};
use crate::random::Random;
use crate::Court;

pub use modules::{hear, reserving};

pub fn fixed(court: &mut Court) {
    asked::fixed(court);
    numbers::fixed(court);
    bad::fixed(court);
    policies::fixed(court);
    manifests::fixed(court);
    modules::fixed(court);
    places::fixed(court);
    strict::fixed(court);
    tables::fixed(court);
    contrasts::fixed(court);
    lengths::fixed(court);
    scale::fixed(court);
    words::fixed(court);
}

pub fn seeded(court: &mut Court, seed: u64) {
    let r = &mut Random::new(seed);
    numbers::seeded(court, r);
    policies::seeded(court, r);
    manifests::seeded(court, r);
    modules::seeded(court, r);
    tables::seeded(court, r);
    contrasts::seeded(court, r);
    for _ in 0..300 {
        let (mut file, mut text) = (modules::module(r), manifests::lines(r).into_bytes());
        if r.one_in(4) {
            file = damaged(&file, r);
            text = damaged(&text, r);
        }
        let room = |r: &mut Random| if r.one_in(2) { 4000 } else { 8 * r.below(120) as u64 + r.below(2) as u64 };
        court.hear(Case::new(Call::CModule, &[room(r)], &[&file]));
        modules::strictly(court, &file, modules::FULL);
        court.hear(Case::new(Call::CManifest, &[room(r)], &[&text]));
        let (baseline, candidate) = contrasts::pair(r);
        modules::strictly(court, &baseline, modules::ROOMY);
        let candidate = if r.one_in(9) { &file } else { &candidate };
        court.hear(Case::new(Call::CCompare, &[room(r)], &[&baseline, candidate]));
    }
    for _ in 0..600 {
        let (mut file, mut text) = (modules::module(r), policies::lines(r).into_bytes());
        if r.one_in(6) {
            file = damaged(&file, r);
        }
        if r.one_in(6) {
            text = damaged(&text, r);
        }
        court.hear(Case::new(Call::Check, &[], &[&file, &text]));
    }
    strict::seeded(court, r);
}

/// Bytes in hex; H is the header, N is a custom section's name `name` with its length.
pub fn bytes(words: &str) -> Vec<u8> {
    let words = words.replace('H', "00 61 73 6d 01 00 00 00").replace('N', "04 6e 61 6d 65");
    words.split(' ').map(|b| u8::from_str_radix(b, 16).expect("bytes in hex")).collect()
}

/// Every string over the alphabet of exactly this length.
pub fn every(alphabet: &[u8], length: usize, mut f: impl FnMut(&[u8])) {
    let mut digits = vec![0; length];
    let mut s = vec![alphabet[0]; length];
    loop {
        f(&s);
        let Some(i) = digits.iter().rposition(|d| *d + 1 < alphabet.len()) else { return };
        digits[i] += 1;
        s[i] = alphabet[digits[i]];
        for j in i + 1..length {
            digits[j] = 0;
            s[j] = alphabet[0];
        }
    }
}

/// A copy with a byte changed, taken out or put in, a run taken out or doubled, or the end cut off.
pub fn damaged(s: &[u8], r: &mut Random) -> Vec<u8> {
    let mut out = s.to_vec();
    for _ in 0..1 + r.below(3) {
        if out.is_empty() {
            return out;
        }
        let at = r.below(out.len());
        let edges = [0x00, 0x01, 0x02, 0x04, 0x0f, 0x7f, 0x80, 0x81, 0xbf, 0xc2, 0xff, b'\r', b'\n', b' ', b':', b'#', b'"', b','];
        match r.below(8) {
            0 | 1 => out[at] = edges[r.below(edges.len())],
            2 => out[at] = r.byte(),
            3 => drop(out.remove(at)),
            4 => out.insert(at, edges[r.below(edges.len())]),
            5 => out.truncate(at),
            6 => drop(out.drain(at..(at + 1 + r.below(8)).min(out.len()))),
            _ => {
                let run = out[at..(at + 1 + r.below(8)).min(out.len())].to_vec();
                out.splice(at..at, run);
            }
        }
    }
    out
}
