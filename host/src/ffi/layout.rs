//! Written by include/layout from include/viscrombal.h, and not by hand: the structs of ffi.rs are as a C compiler for x86-64 has them.

use std::mem::{offset_of, size_of};

use super::*;

/// The width of a field.
const fn width<T, F>(_: fn(&T) -> &F) -> usize {
    size_of::<F>()
}

/// A struct, its size in C, and the offset and width of each of its fields.
macro_rules! as_in_c {
    ($type:ty, $size:literal; $($($field:ident).+: $offset:literal, $width:literal;)*) => {
        const _: () = assert!(size_of::<$type>() == $size);
        $(const _: () = assert!(offset_of!($type, $($field).+) == $offset && width(|s: &$type| &s.$($field).+) == $width);)*
    };
}

pub const INTERFACE: u32 = 4;

pub mod stack {
    #![allow(missing_docs)]
    pub const NUMBER: usize = 4096;
    pub const POLICY: usize = 4096;
    pub const TOKEN: usize = 4096;
    pub const TOKENS: usize = 4096;
    pub const REWRITE: usize = 4096;
    pub const CHECK: usize = 253952;
    pub const STRICT: usize = 311296;
    pub const MODULE: usize = 241664;
    pub const MANIFEST: usize = 77824;
    pub const COMPARE: usize = 512000;
}

as_in_c! {
    Answer, 24;
    number: 0, 4;
    place: 8, 8;
    offset: 16, 8;
}

as_in_c! {
    Rule, 24;
    stance: 0, 8;
    from: 8, 8;
    len: 16, 8;
}

as_in_c! {
    Told<Policy>, 216;
    number: 0, 4;
    place: 8, 8;
    answer.named: 16, 1;
    answer.start: 24, 8;
    answer.size: 32, 8;
    answer.permit: 40, 1;
    answer.rules: 48, 168;
}

as_in_c! {
    Told<Tokens>, 32;
    number: 0, 4;
    place: 8, 8;
    answer.count: 16, 8;
    answer.bytes: 24, 8;
}

as_in_c! {
    Told<Written>, 24;
    number: 0, 4;
    place: 8, 8;
    answer.bytes: 16, 8;
}

as_in_c! {
    Verdict, 16;
    required: 0, 1;
    allowed: 1, 1;
    many: 8, 8;
}

as_in_c! {
    ToldOf<Evaluation>, 160;
    number: 0, 4;
    place: 8, 8;
    offset: 16, 8;
    answer.verdicts: 24, 112;
    answer.set: 136, 4;
    answer.count: 144, 8;
    answer.compliant: 152, 1;
}

as_in_c! {
    ToldOf<Module>, 104;
    number: 0, 4;
    place: 8, 8;
    offset: 16, 8;
    answer.version: 24, 4;
    answer.length: 32, 8;
    answer.named: 40, 1;
    answer.start: 48, 8;
    answer.size: 56, 8;
    answer.sections: 64, 8;
    answer.imports: 72, 8;
    answer.exports: 80, 8;
    answer.symbols: 88, 8;
    answer.bytes: 96, 8;
}

as_in_c! {
    Told<Manifest>, 80;
    number: 0, 4;
    place: 8, 8;
    answer.packaged: 16, 1;
    answer.start: 24, 8;
    answer.size: 32, 8;
    answer.worlds: 40, 8;
    answer.references: 48, 8;
    answer.imported: 56, 8;
    answer.exported: 64, 8;
    answer.bytes: 72, 8;
}

as_in_c! {
    ToldOf<Comparison>, 64;
    number: 0, 4;
    place: 8, 8;
    offset: 16, 8;
    answer.exports: 24, 8;
    answer.capabilities: 32, 8;
    answer.compatible: 40, 1;
    answer.reasons: 48, 8;
    answer.bytes: 56, 8;
}
