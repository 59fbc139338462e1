//! The inputs: the same bytes for the original and the port.

pub const LONGEST_FILE: usize = 16_777_216;
pub const LONGEST_TEXT: usize = 65_536;

fn number(mut n: usize) -> Vec<u8> {
    let mut out = Vec::new();
    while n > 0x7f {
        out.push(n as u8 | 0x80);
        n >>= 7;
    }
    out.push(n as u8);
    out
}

/// Bytes after their length.
pub fn counted(bytes: &[u8]) -> Vec<u8> {
    [number(bytes.len()), bytes.to_vec()].concat()
}

fn section(id: u8, payload: &[u8]) -> Vec<u8> {
    [vec![id], counted(payload)].concat()
}

/// A count, then the entries.
fn list(entries: &[Vec<u8>]) -> Vec<u8> {
    [number(entries.len()), entries.concat()].concat()
}

fn function_import(source: &str, field: &str) -> Vec<u8> {
    [counted(source.as_bytes()), counted(field.as_bytes()), vec![0, 0]].concat()
}

fn function_export(name: &str, index: usize) -> Vec<u8> {
    [counted(name.as_bytes()), vec![0], number(index)].concat()
}

fn module(sections: &[Vec<u8>]) -> Vec<u8> {
    [b"\0asm\x01\0\0\0".to_vec(), sections.concat()].concat()
}

/// A module of these imports, by source and field, and these exports.
fn surface(imports: &[(String, String)], exports: &[String]) -> Vec<u8> {
    let imports: Vec<_> = imports.iter().map(|(s, f)| function_import(s, f)).collect();
    let exports: Vec<_> = exports.iter().enumerate().map(|(i, n)| function_export(n, i)).collect();
    module(&[section(2, &list(&imports)), section(7, &list(&exports))])
}

pub fn tiny() -> Vec<u8> {
    surface(&[("wasi_snapshot_preview1".into(), "fd_write".into())], &["_start".into()])
}

/// Two builds of one layer, as clang makes them: samples/ has their source.
pub fn sample(build: usize) -> Vec<u8> {
    let builds: [&[u8]; 2] = [include_bytes!("../../../samples/contours-1.wasm"), include_bytes!("../../../samples/contours-2.wasm")];
    builds[build].to_vec()
}

pub fn sample_policy() -> Vec<u8> {
    include_bytes!("../../../samples/portal.policy").to_vec()
}

/// One code section that makes the file as long as a file may be.
pub fn code() -> Vec<u8> {
    let file = module(&[section(10, &vec![0x0b; LONGEST_FILE - 8 - 5])]);
    assert_eq!(file.len(), LONGEST_FILE);
    file
}

/// 128 custom sections and 128 data sections, 64 bytes in each.
pub fn sections() -> Vec<u8> {
    let one = |i: usize| match i % 2 {
        0 => section(0, &[counted(format!("producers-{i:03}").as_bytes()), vec![b'x'; 50]].concat()),
        _ => section(11, &[0; 64]),
    };
    module(&(0..256).map(one).collect::<Vec<_>>())
}

/// 256 custom sections, 64 bytes in each.
pub fn customs() -> Vec<u8> {
    let one = |i: usize| section(0, &[counted(format!("producers-{i:03}").as_bytes()), vec![b'x'; 50]].concat());
    module(&(0..256).map(one).collect::<Vec<_>>())
}

const PREVIEW1: [&str; 8] = ["fd_write", "fd_read", "path_open", "environ_get", "args_get", "clock_time_get", "sock_recv", "random_get"];

/// 1,000 imports, as compilers name them, and 1,000 exports.
pub fn surface_1000() -> Vec<u8> {
    let imports: Vec<_> = (0..1000).map(|i| ("wasi_snapshot_preview1".into(), PREVIEW1[i % 8].into())).collect();
    surface(&imports, &exports("exported_function", 0, 1000, 1))
}

/// The same, from the last to the first, or upwards in every second and back down in the others.
pub fn turned(side: usize, pipe: bool) -> Vec<u8> {
    let mut names = exports(&"p".repeat(16_384 - 6), side, 1000, 2);
    names.reverse();
    if pipe {
        let (up, down) = (names.iter().rev().step_by(2), names.iter().step_by(2));
        names = up.chain(down).cloned().collect();
    }
    surface(&[], &names)
}

/// 1,000 exports of about 16 KiB, each the start of all that are longer.
pub fn prefixes(side: usize) -> Vec<u8> {
    let names: Vec<_> = (0..1000).map(|i| "p".repeat(15_284 + 2 * i + side)).collect();
    surface(&[], &names)
}

/// 1,000 exports of 16 KiB each that differ just before their last sixteen bytes: lengths and ends are the same, so all have one print.
pub fn one_print(side: usize) -> Vec<u8> {
    let end = "p".repeat(16);
    let names: Vec<_> = exports(&"p".repeat(16_384 - 6 - 16), side, 1000, 2).iter().map(|n| format!("{n}{end}")).collect();
    surface(&[], &names)
}

/// 1,000 imports from sources of 16 KiB each, in sequences of one to four bytes.
pub fn long_names() -> Vec<u8> {
    let source = MIXED.repeat(16_384 / MIXED.len());
    let file = surface(&vec![(source, "f".into()); 1000], &[]);
    assert!(file.len() <= LONGEST_FILE);
    file
}

/// A name section of 4,000 function names.
pub fn symbols() -> Vec<u8> {
    let one = |i: usize| [number(i), counted(format!("_ZN4acme5image6resize17h{:016x}E", i * 2_654_435_761).as_bytes())].concat();
    let names = list(&(0..4000).map(one).collect::<Vec<_>>());
    let label = section(0, &counted(b"acme"));
    module(&[section(0, &[counted(b"name"), label, section(1, &names)].concat())])
}

pub fn policy() -> Vec<u8> {
    b"policy \"sandbox-strict\"\ndefault deny\nallow clock\nallow fs: /tmp, /var/cache\ndeny network\n".to_vec()
}

/// To the longest that a text may be, by a comment.
fn filled(mut text: String, mark: &str) -> Vec<u8> {
    assert!(text.len() + mark.len() <= LONGEST_TEXT);
    text += mark;
    text += &"-".repeat(LONGEST_TEXT - text.len());
    text.into_bytes()
}

const SLUGS: [&str; 7] = ["fs", "env", "clock", "network", "random", "stdio", "unknown"];

/// Rules for each domain over and over, each with a list of eight.
pub fn long_policy() -> Vec<u8> {
    let mut text = String::from("policy \"long\"\ndefault deny\n");
    for i in 0.. {
        let tokens: Vec<String> = (0..8).map(|t| format!("/srv/data/{i:04}/{t}")).collect();
        let line = format!("{} {}: {}\n", if i % 3 == 0 { "deny" } else { "allow" }, SLUGS[i % 7], tokens.join(", "));
        if text.len() + line.len() > LONGEST_TEXT - 8 {
            break;
        }
        text += &line;
    }
    filled(text, "# ")
}

/// One rule, whose list takes the whole text: 32,760 tokens of one byte.
pub fn token_policy() -> Vec<u8> {
    filled(format!("allow fs:{}\n", ",a".repeat(32_760)), "# ")
}

pub fn manifest() -> Vec<u8> {
    b"package acme:image-tool@1.2.0\n\nworld processor {\n  import wasi:filesystem/types\n  import wasi:clocks/wall-clock\n  \
      export process: func(input: list<u8>) -> list<u8>\n}\n"
        .to_vec()
}

/// 64 worlds of 16 references each: both tables full.
pub fn long_manifest() -> Vec<u8> {
    let mut text = String::from("package acme:long@1.2.0\n");
    for w in 0..64 {
        text += &format!("world part-{w} {{\n");
        for i in 0..8 {
            text += &format!("  import wasi:filesystem/types-{w:02}-{i}@0.2.0\n");
            text += &format!("  export process-{w:02}-{i}: func(input: list<u8>) -> list<u8>\n");
        }
        text += "}\n";
    }
    filled(text, "// ")
}

/// `many` names, each its own; two lists of different `side` have none in common.
fn exports(stem: &str, side: usize, many: usize, sides: usize) -> Vec<String> {
    (0..many).map(|i| format!("{stem}_{:05}", i * sides + side)).collect()
}

const PATHS: [&str; 7] = ["wasi:filesystem", "wasi:cli", "wasi:clocks", "wasi:sockets", "wasi:random", "wasi:io", "acme:other"];

/// A module of 1,000 imports and 1,000 exports of which every `step`th has a name of side 1, the others of side 0.
pub fn build(step: usize) -> Vec<u8> {
    let side = |i: usize| (step != 0 && i % step == 0) as usize;
    let imports: Vec<_> =
        (0..1000).map(|i| (format!("{}/interface-{:05}@0.2.0", PATHS[i % 7], 2 * i + side(i)), format!("call-{i}"))).collect();
    let names: Vec<_> = (0..1000).map(|i| format!("acme_image_exported_function_{:05}", 2 * i + side(i))).collect();
    surface(&imports, &names)
}

/// 1,000 exports of 16 KiB each that differ in their last bytes alone.
pub fn long_exports(side: usize) -> Vec<u8> {
    let names = exports(&"p".repeat(16_384 - 6), side, 1000, 2);
    let file = surface(&[], &names);
    assert!(file.len() <= LONGEST_FILE);
    file
}

/// 1,000 imports from sources of 16 KiB each that differ in their last bytes alone.
pub fn long_imports(side: usize) -> Vec<u8> {
    let imports: Vec<_> = exports(&"p".repeat(16_384 - 6), side, 1000, 2).into_iter().map(|s| (s, "f".into())).collect();
    let file = surface(&imports, &[]);
    assert!(file.len() <= LONGEST_FILE);
    file
}

/// Two texts that a polynomial of the bytes, which the comparison once had for a print, does not tell apart, whatever stands around them.
const TWINS: [&str; 2] = ["43460j88a8", "h58vhzjl2u"];

fn fingerprint(s: &str) -> u64 {
    s.bytes().fold(0, |print, b| (print * 257 + b as u64) % 1_099_511_627_689)
}

/// 1,000 exports of 16 KiB each, made so that all of both sides have one fingerprint and differ in their last bytes alone.
pub fn hostile_exports(side: usize) -> Vec<u8> {
    let start = "p".repeat(16_384 - 11 * TWINS[0].len());
    let tail = |n: usize| (0..11).map(|bit| TWINS[n >> bit & 1]).collect::<String>();
    let names: Vec<String> = (0..1000).map(|i| format!("{start}{}", tail(2 * i + side))).collect();
    assert!(names.iter().all(|n| fingerprint(n) == fingerprint(&names[0])) && fingerprint(TWINS[0]) == fingerprint(TWINS[1]));
    let file = surface(&[], &names);
    assert!(file.len() <= LONGEST_FILE);
    file
}

const MIXED: &str = "a\u{e9}\u{20ac}z\u{1f600}word \u{4e16}\u{754c} ";

/// 16 MiB of text after its length: ASCII alone, or sequences of one to four bytes.
pub fn text(mixed: bool) -> Vec<u8> {
    let part = if mixed { MIXED } else { "The quick brown fox jumps over it\n" };
    let mut text = part.repeat(LONGEST_FILE / part.len());
    text += &" ".repeat(LONGEST_FILE - text.len());
    counted(text.as_bytes())
}
