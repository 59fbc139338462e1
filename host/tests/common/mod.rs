//! Files for the tests: the samples, damaged copies of them, and modules made here.

#![allow(dead_code)]

use std::env;
use std::fs;
use std::path::PathBuf;

pub const HEADER: &[u8] = b"\0asm\x01\0\0\0";

/// The folder of samples.
pub fn folder() -> PathBuf {
    PathBuf::from(env!("CARGO_MANIFEST_DIR")).join("../samples")
}

pub fn sample(name: &str) -> Vec<u8> {
    fs::read(folder().join(name)).expect(name)
}

/// Every sample whose name ends so, by name.
pub fn samples(ending: &str) -> Vec<(String, Vec<u8>)> {
    let names = fs::read_dir(folder()).unwrap().map(|entry| entry.unwrap().file_name().into_string().unwrap());
    let mut names: Vec<_> = names.filter(|name| name.ends_with(ending)).collect();
    names.sort();
    assert!(names.len() >= 4, "{names:?}");
    names.into_iter().map(|name| (name.clone(), sample(&name))).collect()
}

/// Of damaged copies every so many are taken: all, or as few as VISCROMBAL_EVERY says, which it does where an emulator runs the tests.
pub fn every() -> usize {
    env::var("VISCROMBAL_EVERY").ok().and_then(|n| n.parse().ok()).unwrap_or(1)
}

/// Copies cut at every byte, and with every byte changed in four ways.
pub fn damaged(file: &[u8]) -> impl Iterator<Item = Vec<u8>> + '_ {
    let cut = (0..file.len()).map(|at| file[..at].to_vec());
    let changes: [fn(u8) -> u8; 4] = [|b| b ^ 0x80, |b| b.wrapping_add(1), |_| 0xff, |_| 0];
    let changed = (0..file.len()).flat_map(move |at| {
        changes.into_iter().map(move |change| {
            let mut copy = file.to_vec();
            copy[at] = change(copy[at]);
            copy
        })
    });
    cut.chain(changed)
}

pub fn leb(mut n: usize) -> Vec<u8> {
    let mut out = Vec::new();
    while n > 0x7f {
        out.push(n as u8 | 0x80);
        n >>= 7;
    }
    out.push(n as u8);
    out
}

/// Bytes in pairs of hexadecimal digits; `H` is the header, `N` the name `name` with its length.
pub fn bytes(words: &str) -> Vec<u8> {
    let bytes = words.split_whitespace().flat_map(|word| match word {
        "H" => HEADER.to_vec(),
        "N" => name("name"),
        pair => vec![u8::from_str_radix(pair, 16).unwrap_or_else(|_| panic!("{words}: {pair}"))],
    });
    bytes.collect()
}

fn name(name: &str) -> Vec<u8> {
    [leb(name.len()), name.into()].concat()
}

pub fn section(id: u8, payload: Vec<u8>) -> Vec<u8> {
    [vec![id], leb(payload.len()), payload].concat()
}

/// A module of functions that are imported, exports by name and kind, and functions' names.
pub fn module<M: AsRef<str>, E: AsRef<str>, N: AsRef<str>>(imports: &[(M, &str)], exports: &[(E, u8)], names: &[N]) -> Vec<u8> {
    let import = |(module, field): &(M, &str)| [name(module.as_ref()), name(field), vec![0, 0]].concat();
    let export = |(field, kind): &(E, u8)| [name(field.as_ref()), vec![*kind, 0]].concat();
    let function = |function: &N| [leb(0), name(function.as_ref())].concat();
    let list = |count: usize, entries: Vec<u8>| [leb(count), entries].concat();
    let imported = list(imports.len(), imports.iter().flat_map(import).collect());
    let exported = list(exports.len(), exports.iter().flat_map(export).collect());
    let functions = section(1, list(names.len(), names.iter().flat_map(function).collect()));
    let named = [name("name"), functions].concat();
    [HEADER.to_vec(), section(2, imported), section(7, exported), section(0, named)].concat()
}

/// A module that is read strictly, with every table full, names that begin alike, and every name told apart by `mark`.
pub fn full(mark: &str) -> Vec<u8> {
    let names: Vec<String> = (0..4096).map(|n| format!("a-name-that-begins-like-all-others-{n}-{mark}")).collect();
    let imports: Vec<_> = names[..1024].iter().map(|name| (name, "f")).collect();
    let exports: Vec<_> = names[..1024].iter().map(|name| (name, 0)).collect();
    let sections = section(0, name("")).repeat(253);
    [module(&imports, &exports, &names), sections].concat()
}

/// A file of the given length with one section of zeros.
pub fn long(length: usize) -> Vec<u8> {
    let size = length - HEADER.len() - 5;
    let mut file = [HEADER, &[1], &leb(size)].concat();
    assert_eq!(file.len() + size, length);
    file.resize(length, 0);
    file
}

/// Declares 4,294,967,295 imports and has none.
pub fn bomb() -> Vec<u8> {
    [HEADER, b"\x02\x05\xff\xff\xff\xff\x0f"].concat()
}
