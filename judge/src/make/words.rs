//! Near words: every word of the rules with a letter off, dropped, doubled or in capitals, longer and shorter, where the word itself may
//! stand.
use super::modules::{hear, plain, HEADER, ROOMY};
use crate::case::{Call, Case};
use crate::Court;

pub fn fixed(court: &mut Court) {
    custom_sections(court);
    policies(court);
    manifests(court);
    domains(court);
}

/// The word, and those next to it.
fn near(word: &str) -> Vec<String> {
    let mut out = vec![word.to_string(), word.to_uppercase(), format!("{word}s"), format!("{word}{word}"), String::new()];
    let bytes = word.as_bytes();
    let mut put = |front: &[u8], middle: &[u8], back: &[u8]| out.push(String::from_utf8([front, middle, back].concat()).expect("ASCII"));
    for at in 0..=bytes.len() {
        let (front, back) = bytes.split_at(at);
        for more in [b" ", b"_", b"x", b"\0", b":"] {
            put(front, more, back);
        }
        let Some((letter, rest)) = back.split_first() else { continue };
        put(front, b"", rest);
        put(front, &[*letter; 2], rest);
        for other in [letter ^ 0x20, letter + 1, letter - 1, letter ^ 0x40] {
            put(front, &[other], rest);
        }
        if let [second, rest @ ..] = rest {
            put(front, &[*second, *letter], rest);
        }
    }
    out
}

/// What follows is a module's name in a name section, and nothing in another; or it would be refused there.
fn custom_sections(court: &mut Court) {
    let words = ["producers", "linking", "dylink", "target_features", "nameX", "name.", "function"].map(String::from);
    for name in near("name").into_iter().chain(words) {
        for rest in [&b""[..], b"\x00\x02\x01m", b"\x01\x04\x01\x00\x01g", b"\x00", b"\x00\x01\x05"] {
            let payload = [&plain(name.len()), name.as_bytes(), rest].concat();
            hear(court, &[HEADER, &[0], &plain(payload.len()), &payload].concat(), ROOMY);
        }
    }
}

fn policies(court: &mut Court) {
    let mut hear = |text: String| court.hear(Case::new(Call::Policy, &[], &[text.as_bytes()]));
    for (word, rest) in [("policy", " a"), ("default", " allow"), ("allow", " fs"), ("deny", " fs: a"), ("policy ", "a"), ("allow ", "fs")]
    {
        for word in near(word) {
            hear(format!("{word}{rest}"));
        }
    }
    for word in ["allow", "deny"].into_iter().flat_map(near) {
        hear(format!("default {word}"));
    }
    for slug in ["fs", "env", "clock", "network", "net", "random", "rand", "stdio", "unknown"].into_iter().flat_map(near) {
        hear(format!("allow {slug}"));
        hear(format!("deny {slug}: a"));
    }
    for slug in ["filesystem", "environment", "clocks", "sockets", "socket", "http", "io", "cli", "all", "*", "any", "none", "std"] {
        hear(format!("allow {slug}"));
    }
}

fn manifests(court: &mut Court) {
    let mut hear = |text: String| {
        for text in [format!("world w\n{text}"), text] {
            court.hear(Case::new(Call::Manifest, &[8, 28], &[text.as_bytes()]));
        }
    };
    for (word, rest) in [("package", " a"), ("world", " a {"), ("import", " a: b"), ("export", " a"), ("import ", "a"), ("world ", "a")] {
        for word in near(word) {
            hear(format!("{word}{rest}"));
        }
    }
    for brace in ["{", "}", "{{", "}}", "{}", "} }", "};", "};", "(", ")", "[", "|", "~", "z"] {
        hear(brace.into());
        hear(format!("{brace} a"));
    }
}

fn import(court: &mut Court, source: &str, field: &str) {
    court.hear(Case::new(Call::Import, &[], &[source.as_bytes(), field.as_bytes()]));
}

fn path(court: &mut Court, path: &str) {
    court.hear(Case::new(Call::Path, &[], &[path.as_bytes()]));
    import(court, path, "fd_write");
}

/// Sources, fields and heads of paths, alone and with what may follow them.
fn domains(court: &mut Court) {
    let fields = ["fd_", "path_", "environ_", "args_", "clock_", "sock_", "random_get"];
    let others = ["poll_oneoff", "proc_exit", "sched_yield", "random", "random_", "file_open", "args", "environ", "http_get"];
    for source in ["wasi_snapshot_preview1", "wasi_unstable"] {
        for near_source in near(source) {
            import(court, &near_source, "fd_write");
        }
        for field in fields.into_iter().flat_map(near).chain(others.map(String::from)) {
            import(court, source, &field);
            import(court, source, &format!("{field}x"));
        }
    }
    let heads = ["filesystem", "cli", "clocks", "sockets", "random", "io"];
    let others = ["http", "keyvalue", "logging", "nn", "config", "crypto", "blobstore", "messaging", "fs", "clock", "network", "stdio"];
    for head in heads.into_iter().flat_map(near).chain(others.map(String::from)) {
        for rest in ["", "/x", "@0.2.0", "/x@0.2.0", "@1/x", "/"] {
            path(court, &format!("{head}{rest}"));
            path(court, &format!("wasi:{head}{rest}"));
        }
        path(court, &format!("x/{head}"));
        path(court, &format!("wasi:x@{head}"));
    }
    for prefix in near("wasi:") {
        for head in heads {
            path(court, &format!("{prefix}{head}/x"));
        }
    }
}
