//! Rattle's sources without their contracts are Rust: for runs of an unproved copy only (tools/teeth).
//! Ghost lines, clauses and what tells the prover how to search go.

/// How a line begins that is no Rust.
const FOR_THE_PROVER: [&str; 5] = ["ghost ", "#![tactic(", "#[tactic(", "#[cycle(", "#[derive(Drop)]"];

/// The source of a file of Rattle as Rust; of Rust, itself.
pub fn stripped(source: &str) -> String {
    let mut out = String::new();
    for line in without_clauses(source).lines() {
        if !FOR_THE_PROVER.iter().any(|word| line.trim_start().starts_with(word)) {
            out += line;
            out.push('\n');
        }
    }
    out
}

/// With every slice that an exported function takes as a pointer and a length, as C hands it over and as the proved archive takes it. Rust
/// itself passes the two together, which is the same only where registers are left for both.
pub fn exported(source: &str) -> String {
    let mut out = String::new();
    let mut rest = source;
    while let Some(at) = rest.find("pub extern \"C\" fn ") {
        let open = at + rest[at..].find('(').expect("parameters");
        let close = open + rest[open..].find(')').expect("an end of parameters");
        let body = close + rest[close..].find('{').expect("a body") + 1;
        let (mut parameters, mut slices) = (Vec::new(), String::new());
        for parameter in rest[open + 1..close].split(',').map(str::trim).filter(|p| !p.is_empty()) {
            let (name, kind) = parameter.split_once(": ").expect("a type");
            let Some(element) = kind.split_once('[').filter(|_| kind.starts_with('&')).map(|k| k.1.trim_end_matches(']')) else {
                parameters.push(parameter.to_string());
                continue;
            };
            let (pointer, made) = if kind.contains("mut ") { ("*mut", "from_raw_parts_mut") } else { ("*const", "from_raw_parts") };
            parameters.push(format!("{name}_at: {pointer} {element}, {name}_len: usize"));
            slices += &format!("\n    let {name} = unsafe {{ core::slice::{made}({name}_at, {name}_len) }};");
        }
        out += &format!("{}({}){}{slices}", &rest[..open], parameters.join(", "), &rest[close + 1..body]);
        rest = &rest[body..];
    }
    out + rest
}

/// Without `requires { .. }` and `ensures { .. }`, which stand between a signature and its body.
fn without_clauses(source: &str) -> String {
    let mut out = String::new();
    let mut rest = source;
    while let Some(line) = rest.split_inclusive('\n').next() {
        let word = line.trim_start();
        if word.starts_with("requires ") || word.starts_with("ensures ") {
            rest = after_braces(rest);
        } else {
            out += line;
            rest = &rest[line.len()..];
        }
    }
    out
}

/// What follows the first pair of braces.
fn after_braces(text: &str) -> &str {
    let mut depth = 0;
    for (i, c) in text.char_indices() {
        match c {
            '{' => depth += 1,
            '}' => depth -= 1,
            _ => continue,
        }
        if depth == 0 {
            return &text[i + 1..];
        }
    }
    panic!("a clause that does not end");
}
