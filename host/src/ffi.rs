//! The C interface, include/viscrombal.h: the one file with `unsafe`. No answer leaves it that was refused.
//!
//! What the interface asks of its caller holds by the types: a Rust slice is never at NULL, and `out`, lent for writing alone,
//! overlaps no input. Marks (C's bool) are taken as bytes, so that no value of them is undefined.

use std::sync::OnceLock;

use crate::error::{Refusal, Result};

mod layout;
pub use layout::{stack, INTERFACE};

/// Every answer begins with a number and a place: 0 and 0 where the call accepts.
#[repr(C)]
struct Told<T> {
    number: u32,
    place: usize,
    answer: T,
}

/// And one that answers for a module, with the offset that comes beside 5.
#[repr(C)]
struct ToldOf<T> {
    number: u32,
    place: usize,
    offset: usize,
    answer: T,
}

/// An answer for a module that says nothing else.
#[repr(C)]
struct Answer {
    number: u32,
    place: usize,
    offset: usize,
}

/// What a call says: an answer, or a refusal.
trait Says {
    type Answer;
    fn accepted(self) -> Result<Self::Answer>;
}

impl<T> Says for Told<T> {
    type Answer = T;
    fn accepted(self) -> Result<T> {
        match self.number {
            0 => Ok(self.answer),
            number => Err(Refusal::told(number, self.place)),
        }
    }
}

impl Says for Answer {
    type Answer = ();
    fn accepted(self) -> Result<()> {
        match self.number {
            0 => Ok(()),
            number => Err(Refusal::of_module(number, self.place, self.offset)),
        }
    }
}

impl<T> Says for ToldOf<T> {
    type Answer = T;
    fn accepted(self) -> Result<T> {
        Answer { number: self.number, place: self.place, offset: self.offset }.accepted().map(|()| self.answer)
    }
}

#[repr(C)]
pub struct Rule {
    pub stance: usize,
    pub from: usize,
    pub len: usize,
}

#[repr(C)]
pub struct Policy {
    pub named: u8,
    pub start: usize,
    pub size: usize,
    pub permit: u8,
    pub rules: [Rule; 7],
}

#[repr(C)]
pub struct Tokens {
    pub count: usize,
    pub bytes: usize,
}

#[repr(C)]
pub struct Written {
    pub bytes: usize,
}

#[repr(C)]
pub struct Verdict {
    pub required: u8,
    pub allowed: u8,
    pub many: usize,
}

#[repr(C)]
pub struct Evaluation {
    pub verdicts: [Verdict; 7],
    pub set: u32,
    pub count: usize,
    pub compliant: u8,
}

#[repr(C)]
pub struct Module {
    pub version: u32,
    pub length: usize,
    pub named: u8,
    pub start: usize,
    pub size: usize,
    pub sections: usize,
    pub imports: usize,
    pub exports: usize,
    pub symbols: usize,
    pub bytes: usize,
}

#[repr(C)]
pub struct Manifest {
    pub packaged: u8,
    pub start: usize,
    pub size: usize,
    pub worlds: usize,
    pub references: usize,
    pub imported: usize,
    pub exported: usize,
    pub bytes: usize,
}

#[repr(C)]
pub struct Comparison {
    pub exports: usize,
    pub capabilities: usize,
    pub compatible: u8,
    pub reasons: usize,
    pub bytes: usize,
}

extern "C" {
    fn viscrombal_interface() -> u32;
    fn viscrombal_policy(text: *const u8, len: usize) -> Told<Policy>;
    fn viscrombal_tokens(text: *const u8, len: usize, domain: usize, out: *mut u8, room: usize) -> Told<Tokens>;
    fn viscrombal_rewrite(text: *const u8, len: usize, out: *mut u8, room: usize) -> Told<Written>;
    fn viscrombal_check(file: *const u8, len: usize, text: *const u8, text_len: usize) -> ToldOf<Evaluation>;
    fn viscrombal_strict(file: *const u8, len: usize) -> Answer;
    fn viscrombal_module(file: *const u8, len: usize, out: *mut u8, room: usize) -> ToldOf<Module>;
    fn viscrombal_manifest(text: *const u8, len: usize, out: *mut u8, room: usize) -> Told<Manifest>;
    fn viscrombal_compare(
        baseline: *const u8,
        len: usize,
        candidate: *const u8,
        candidate_len: usize,
        out: *mut u8,
        room: usize,
    ) -> ToldOf<Comparison>;
}

/// Whether the archive has the interface of the header that this file was written from. It is asked once.
pub fn interface() -> Result<()> {
    static ITS: OnceLock<u32> = OnceLock::new();
    // SAFETY: the call takes nothing and gives a number, in every version.
    match *ITS.get_or_init(|| unsafe { viscrombal_interface() }) {
        INTERFACE => Ok(()),
        other => Err(Refusal::other_archive(other)),
    }
}

/// What a call says, which is made only where the archive has this interface.
fn told<S: Says>(call: impl FnOnce() -> S) -> Result<S::Answer> {
    interface()?;
    call().accepted()
}

// SAFETY, of every call below: each pointer and length are those of a slice that is borrowed for the call.

pub fn policy(text: &[u8]) -> Result<Policy> {
    told(|| unsafe { viscrombal_policy(text.as_ptr(), text.len()) })
}

pub fn tokens(text: &[u8], domain: usize, out: &mut [u8]) -> Result<Tokens> {
    told(|| unsafe { viscrombal_tokens(text.as_ptr(), text.len(), domain, out.as_mut_ptr(), out.len()) })
}

pub fn rewrite(text: &[u8], out: &mut [u8]) -> Result<Written> {
    told(|| unsafe { viscrombal_rewrite(text.as_ptr(), text.len(), out.as_mut_ptr(), out.len()) })
}

pub fn check(file: &[u8], text: &[u8]) -> Result<Evaluation> {
    told(|| unsafe { viscrombal_check(file.as_ptr(), file.len(), text.as_ptr(), text.len()) })
}

pub fn strict(file: &[u8]) -> Result<()> {
    told(|| unsafe { viscrombal_strict(file.as_ptr(), file.len()) })
}

pub fn module(file: &[u8], out: &mut [u8]) -> Result<Module> {
    told(|| unsafe { viscrombal_module(file.as_ptr(), file.len(), out.as_mut_ptr(), out.len()) })
}

pub fn manifest(text: &[u8], out: &mut [u8]) -> Result<Manifest> {
    told(|| unsafe { viscrombal_manifest(text.as_ptr(), text.len(), out.as_mut_ptr(), out.len()) })
}

pub fn compare(baseline: &[u8], candidate: &[u8], out: &mut [u8]) -> Result<Comparison> {
    let (b, c) = (baseline, candidate);
    told(|| unsafe { viscrombal_compare(b.as_ptr(), b.len(), c.as_ptr(), c.len(), out.as_mut_ptr(), out.len()) })
}
