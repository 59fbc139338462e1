//! An archive of another interface: this program brings the calls along, so that libcapi.a is not linked. None of them but
//! `viscrombal_interface` may be made, and that one once.

use std::sync::atomic::{AtomicUsize, Ordering};

use viscrombal::policy::Policy;
use viscrombal::{wasm, wit, ErrorKind, Refusal, INTERFACE};

static ASKED: AtomicUsize = AtomicUsize::new(0);

#[no_mangle]
extern "C" fn viscrombal_interface() -> u32 {
    ASKED.fetch_add(1, Ordering::Relaxed);
    7
}

macro_rules! never_called {
    ($($call:ident)*) => {
        $(#[no_mangle]
        extern "C" fn $call() {
            std::process::abort();
        })*
    };
}

never_called! {
    viscrombal_policy viscrombal_tokens viscrombal_rewrite viscrombal_check viscrombal_strict viscrombal_module viscrombal_manifest
    viscrombal_compare
}

#[test]
fn it_is_told_in_words_and_nothing_is_called() {
    let told: [Refusal; 6] = [
        viscrombal::interface().unwrap_err(),
        Policy::parse("default allow").unwrap_err(),
        wasm::parse(b"\0asm\x01\0\0\0").unwrap_err(),
        wasm::test_strict(b"\0asm\x01\0\0\0").unwrap_err(),
        wasm::parse_strict(b"\0asm\x01\0\0\0").unwrap_err(),
        wit::parse("world w").unwrap_err(),
    ];
    let words = format!("the archive is of another version: it has interface 7, and {INTERFACE} is asked for");
    for refusal in told {
        assert_eq!((refusal.kind(), refusal.number(), refusal.place(), refusal.rule()), (ErrorKind::OtherArchive, 0, 7, None));
        assert_eq!(refusal.to_string(), words);
    }
    assert_eq!(ASKED.load(Ordering::Relaxed), 1, "asked once");
}
