//! The lists of the C interface, 8-byte cells in a lent buffer: decoded, they say what the calls with lent tables say.
use crate::asked::WIDTH;
use crate::compare::{listed, text_of};
use crate::limits::module_alone;
use crate::says::{self, answered, answered_of, parse, part, refused, whole, zeros_to, DOMAINS, LONGEST_MODULE, MARK};
use original::compat::compare_modules;
use original::wasm::Module;
use original::wit::{self, Manifest};

fn utf8(name: &str) -> Vec<u8> {
    name.as_bytes().to_vec()
}

/// What was read, into so many bytes: 16 with the bytes needed; else how many were written, what it says, and that the rest is untouched.
fn into(needed: usize, room: u64, said: String) -> String {
    if needed as u64 > room {
        return refused(16, needed as u64) + "; the rest untouched";
    }
    format!("{said}; bytes {needed}; the rest untouched")
}

fn untouched(said: String, used: u64, bytes: &[u8]) -> String {
    let fine = bytes.get(used as usize..).is_some_and(|r| r.iter().all(|b| *b == MARK));
    said + if fine { "; the rest untouched" } else { "; the rest changed" }
}

/// The first n cells, and the bytes after them.
fn cells(bytes: &[u8], n: usize) -> (Vec<u64>, &[u8]) {
    let (first, rest) = bytes.split_at((8 * n).min(bytes.len()));
    (first.chunks_exact(8).map(|c| u64::from_le_bytes(c.try_into().unwrap())).collect(), rest)
}

/// Tables in a buffer as `says::port_module` takes them: cells told, the cells, how far the rest is zero.
fn tables<'a>(mut bytes: &'a [u8], sizes: &[u64], out: &mut Vec<u64>) -> &'a [u8] {
    for n in sizes {
        let (told, rest) = cells(bytes, *n as usize);
        out.push(told.len() as u64);
        out.extend(&told);
        out.push(told.len() as u64);
        bytes = rest;
    }
    bytes
}

// ---- modules

fn read(file: &[u8]) -> Result<Module, String> {
    if file.len() > LONGEST_MODULE {
        return Err(refused(14, 0));
    }
    let said = module_alone(file);
    if said.starts_with("refused") {
        return Err(said);
    }
    Ok(parse(file).expect("a module that is read"))
}

pub fn module(file: &[u8], room: u64) -> String {
    let m = match read(file) {
        Ok(m) => m,
        Err(why) => return why + "; the rest untouched",
    };
    let sizes = [5 * m.sections.len(), WIDTH * m.imports.len(), 4 * m.exports.len(), 3 * m.function_names.len()].map(|n| n as u64);
    into(8 * sizes.iter().sum::<u64>() as usize, room, module_alone(file) + &zeros_to(&sizes))
}

pub fn port_module(file: &[u8], t: &[u64], bytes: &[u8]) -> String {
    if t[0] != 0 {
        return untouched(answered_of(t, 13, |_| String::new()), 0, bytes);
    }
    let mut told = [&t[..11], &t[12..]].concat();
    tables(bytes, &[5 * t[7], WIDTH as u64 * t[8], 4 * t[9], 3 * t[10]], &mut told);
    untouched(format!("{}; bytes {}", says::port_module(file, &told), t[11]), t[11], bytes)
}

// ---- manifests

fn rows(m: &Manifest) -> usize {
    m.worlds.iter().map(|w| w.imports.len() + w.exports.len()).sum()
}

pub fn manifest(text: &[u8], room: u64) -> String {
    let said = crate::limits::manifest(text, [128, 7168]);
    let said = said.split("; zeros to").next().unwrap().to_string();
    if said.starts_with("refused") {
        return said + "; the rest untouched";
    }
    let m = wit::parse(whole(text).unwrap()).expect("a manifest that is read");
    let (worlds, references, imports, exports) = (m.worlds.len(), rows(&m), m.all_imports(), m.all_exports());
    let needed = 8 * (2 * worlds + 7 * references + imports.len() + exports.len());
    let zeros = zeros_to(&[2 * worlds as u64, 7 * references as u64]);
    into(needed, room, format!("{said}{zeros}; imports {imports:?}; exports {exports:?}"))
}

pub fn port_manifest(text: &[u8], t: &[u64], bytes: &[u8]) -> String {
    if t[0] != 0 {
        return untouched(answered(t, 10, |_| String::new()), 0, bytes);
    }
    let mut told = t[..7].to_vec();
    let rest = tables(bytes, &[2 * t[5], 7 * t[6]], &mut told);
    let (imported, rest) = cells(rest, t[7] as usize);
    let (exported, _) = cells(rest, t[8] as usize);
    let references = cells(&bytes[(16 * t[5] as usize).min(bytes.len())..], 7 * t[6] as usize).0;
    let path = |r: &[u64]| String::from_utf8_lossy(&text[r[2] as usize..(r[2] + r[3]) as usize]).into_owned();
    let listed = |list: &[u64], direction: u64| -> Vec<String> {
        list.iter()
            .map(|row| {
                let Some(r) = references.chunks_exact(7).nth(*row as usize) else { return format!("no row {row}") };
                let lowest = references.chunks_exact(7).position(|x| x[1] == direction && path(x) == path(r));
                if lowest == Some(*row as usize) {
                    path(r)
                } else {
                    format!("row {row}, not the lowest")
                }
            })
            .collect()
    };
    let said = says::port_manifest(text, &told);
    let lists = format!("; imports {:?}; exports {:?}", listed(&imported, 0), listed(&exported, 1));
    untouched(format!("{said}{lists}; bytes {}", t[9]), t[9], bytes)
}

// ---- tokens

pub fn tokens(text: &[u8], domain: u64, room: u64) -> String {
    match says::tokens_of(text, domain) {
        Ok(tokens) => into(16 * tokens.len(), room, format!("{}: {tokens:?}", tokens.len())),
        Err(why) => why + "; the rest untouched",
    }
}

/// The original has no offsets: each range is after the one before it, with a comma between them.
pub fn port_tokens(text: &[u8], t: &[u64], bytes: &[u8]) -> String {
    if t[0] != 0 {
        return untouched(answered(t, 4, |_| String::new()), 0, bytes);
    }
    let ranges = cells(bytes, 2 * t[2] as usize).0;
    let tokens: Vec<String> = ranges.chunks_exact(2).map(|r| part(text, r[0], r[1])).collect();
    let apart = |a: u64, b: u64| text.get(a as usize..b as usize).is_some_and(|between| between.contains(&b','));
    let ordered = ranges.windows(4).step_by(2).all(|r| apart(r[0].wrapping_add(r[1]), r[2]));
    let said = format!("{}: {tokens:?}{}; bytes {}", t[2], if ordered { "" } else { " out of order" }, t[3]);
    untouched(said, t[3], bytes)
}

// ---- comparisons

pub fn compare(baseline: &[u8], candidate: &[u8], room: u64) -> String {
    if baseline.len() > LONGEST_MODULE || candidate.len() > LONGEST_MODULE {
        return refused(14, 0) + "; the rest untouched";
    }
    let (b, c) = match read(baseline).and_then(|b| Ok((b, read(candidate)?))) {
        Ok(both) => both,
        Err(why) => return why + "; the rest untouched",
    };
    let d = compare_modules(&b, "a", &c, "b");
    let text = text_of(&d, utf8);
    let needed = 16 * d.export_diffs.len() + 24 * d.capability_diffs.len() + text.len();
    into(needed, room, format!("{}; reasons {}", listed(&b, &c, &d, utf8), crate::case::hex(&text)))
}

pub fn port_compare(baseline: &[u8], candidate: &[u8], t: &[u64], bytes: &[u8]) -> String {
    if t[0] != 0 {
        return untouched(answered_of(t, 8, |_| String::new()), 0, bytes);
    }
    let of = [baseline, candidate].map(|f| parse(f).unwrap_or_default());
    let (exports, rest) = cells(bytes, 2 * t[2] as usize);
    let (needs, rest) = cells(rest, 3 * t[3] as usize);
    let word = |change: u64| ["removed", "added"].get(change as usize).copied().unwrap_or("another change");
    let mut out = format!("{} {} {}", t[2], t[3], t[4] == 1);
    for r in exports.chunks_exact(2) {
        let told = of[(r[0] != 0) as usize]
            .exports
            .get(r[1] as usize)
            .map(|e| format!("{} {}", crate::case::hex(e.field.as_bytes()), e.kind.slug()));
        out += &format!("; {} row {} {}", word(r[0]), r[1], told.unwrap_or("no row".into()));
    }
    for r in needs.chunks_exact(3) {
        let told = of[(r[0] != 0) as usize].imports.get(r[2] as usize).map(|i| crate::case::hex(i.module.as_bytes()));
        out += &format!("; {} row {} {} {}", word(r[0]), r[2], DOMAINS[r[1] as usize % 7].slug(), told.unwrap_or("no row".into()));
    }
    let text = crate::case::hex(&rest[..(t[5] as usize).min(rest.len())]);
    untouched(format!("{out}; reasons {text}; bytes {}", t[6]), t[6], bytes)
}
