//! The safe side of Viscrombal's C interface: every answer here was computed by proved code, in the archive of crate capi.
//!
//! A [`Verdict`] comes from [`check`] and from nothing else, a [`wasm::Module`] from [`wasm::parse`] or [`wasm::parse_strict`], a
//! [`policy::Policy`] from [`policy::Policy::parse`], a [`compat::Compatibility`] from [`compat::compare_modules`]: what was refused has
//! none, but an [`Err`] with a [`Refusal`]. Names are parts of the bytes that the caller handed in, nothing is copied.
//!
//! ```
//! use viscrombal::{check, compat, policy::{Domain, Policy}, wasm};
//!
//! // a module that imports `sock_recv`, and one that imports nothing
//! let old = b"\0asm\x01\0\0\0";
//! let new = b"\0asm\x01\0\0\0\x02\x24\x01\x16wasi_snapshot_preview1\x09sock_recv\0\0";
//!
//! let policy = Policy::parse("policy \"portal\"\ndefault deny\nallow clock\n")?;
//! let verdict = check(new, &policy)?;
//! assert!(!verdict.is_compliant());
//! assert_eq!(verdict.violations(), [Domain::Network]);
//!
//! let (baseline, candidate) = (wasm::parse(old)?, wasm::parse(new)?);
//! assert!(!compat::compare_modules(&baseline, &candidate)?.is_compatible());
//! # Ok::<(), viscrombal::Refusal>(())
//! ```
//!
//! A verdict cannot be made up, and neither can what leads to one:
//!
//! ```compile_fail,E0451
//! let verdict = viscrombal::Verdict { compliant: true, ..todo!() };
//! ```
//! ```compile_fail,E0451
//! let policy = viscrombal::policy::Policy { text: b"", ..todo!() };
//! ```
//! ```compile_fail,E0451
//! let module = viscrombal::wasm::Module { file: b"", ..todo!() };
//! ```
//!
//! and a name does not outlive the bytes that it is a part of:
//!
//! ```compile_fail,E0597
//! let exports = {
//!     let file = std::fs::read("layer.wasm").unwrap();
//!     viscrombal::wasm::parse(&file).unwrap().exports().to_vec()
//! };
//! println!("{:?}", exports);
//! ```
//!
//! The archive keeps its tables on the stack, as deep as [`stack`] says: the 2 MiB that std gives a thread are enough for every call.

#![deny(unsafe_code)]
#![warn(missing_docs)]

pub mod compat;
pub mod error;
#[allow(unsafe_code)]
mod ffi;
pub mod policy;
mod rows;
pub mod wasm;
pub mod wit;

pub use error::{Error, ErrorKind, Refusal, Result, StrictRule};
pub use policy::{check, Verdict};

/// The stack that a call needs of its thread, in bytes, whatever the file: `VISCROMBAL_STACK_..` of the header, by the names of the calls
/// of the C interface. What the thread itself and this crate need comes on top; README.md says how much.
pub mod stack {
    pub use crate::ffi::stack::*;
}

/// The interface of the archive that this crate was written for: `VISCROMBAL_INTERFACE` of the header.
pub const INTERFACE: u32 = ffi::INTERFACE;

/// Whether the archive that was linked has that interface, which it is asked once. Every call asks this first, and is refused by
/// [`ErrorKind::OtherArchive`] where it has not.
pub fn interface() -> Result<()> {
    ffi::interface()
}

/// The longest file of a module that is read, in bytes: a longer one is refused, 14.
pub const LONGEST_MODULE: usize = 16_777_216;

/// The longest text of a policy or a manifest that is read, in bytes: a longer one is refused, 14.
pub const LONGEST_TEXT: usize = 65_536;
