//! What is measured: for each case the original's call, the port's, and that both say the same; of strict reading the port's plain read,
//! and its strict one.
use crate::inputs;
use crate::port::{self, ModuleTold, Tables};
use original::compat::{self, Change};
use original::policy::{self, Domain, Policy};
use original::wasm::{self, ExternalKind, Module};
use original::wit;
use std::hint::black_box;

pub struct Case {
    /// What either says, in the same words.
    pub said: Box<dyn Fn() -> [String; 2]>,
    /// The side that the port is measured against.
    pub original: Box<dyn FnMut()>,
    pub port: Box<dyn FnMut()>,
}

/// Name, rounds for a count of instructions (0: too long to be counted), and how it is made.
pub const CASES: [(&str, u32, fn() -> Case); 45] = [
    ("module: tiny, tables of its size", 1000, || module(inputs::tiny(), Tables::of([2, 1, 1, 0]))),
    ("module: tiny, tables at the limits", 100, || module(inputs::tiny(), Tables::at_limits())),
    ("module: tiny, viscrombal_module", 1000, || listed(inputs::tiny())),
    ("module: a code section of 16 MiB, a table of its size", 1000, || module(inputs::code(), Tables::of([1, 0, 0, 0]))),
    ("module: a code section of 16 MiB, tables at the limits", 100, || module(inputs::code(), Tables::at_limits())),
    ("module: a code section of 16 MiB, viscrombal_module", 1000, || listed(inputs::code())),
    ("module: 256 sections, a table of its size", 100, || module(inputs::sections(), Tables::of([256, 0, 0, 0]))),
    ("module: 256 sections", 100, || module(inputs::sections(), Tables::at_limits())),
    ("module: 256 sections, viscrombal_module", 100, || listed(inputs::sections())),
    ("module: 1,000 imports, 1,000 exports, tables of its size", 20, || module(inputs::surface_1000(), Tables::of([2, 1000, 1000, 0]))),
    ("module: 1,000 imports, 1,000 exports", 20, || module(inputs::surface_1000(), Tables::at_limits())),
    ("module: 1,000 imports, 1,000 exports, viscrombal_module", 20, || listed(inputs::surface_1000())),
    ("module: 4,000 function names, tables of its size", 20, || module(inputs::symbols(), Tables::of([1, 0, 0, 4000]))),
    ("module: 4,000 function names", 20, || module(inputs::symbols(), Tables::at_limits())),
    ("module: 4,000 function names, viscrombal_module", 20, || listed(inputs::symbols())),
    ("module: 1,000 imports of 16 KiB, mixed UTF-8", 1, || module(inputs::long_names(), Tables::at_limits())),
    ("module: a sample, viscrombal_module", 1000, || listed(inputs::sample(0))),
    ("policy: small", 1000, || policy(inputs::policy())),
    ("policy: 64 KiB", 20, || policy(inputs::long_policy())),
    ("policy: 64 KiB, 32,760 tokens asked for one by one", 0, || tokens(inputs::token_policy())),
    ("policy: 64 KiB, 32,760 tokens listed", 20, || listed_tokens(inputs::token_policy())),
    ("manifest: small", 1000, || manifest(inputs::manifest(), 1, 3)),
    ("manifest: 64 KiB", 20, || manifest(inputs::long_manifest(), 64, 1024)),
    ("check: tiny module, small policy", 100, || check(inputs::tiny(), inputs::policy())),
    ("check: a sample, its policy", 100, || check(inputs::sample(0), inputs::sample_policy())),
    ("check: a code section of 16 MiB, small policy", 100, || check(inputs::code(), inputs::policy())),
    ("check: 1,000 imports, policy of 64 KiB", 10, || check(inputs::surface_1000(), inputs::long_policy())),
    ("UTF-8: 16 MiB of ASCII", 1, || utf8(inputs::text(false))),
    ("UTF-8: 16 MiB, mixed", 1, || utf8(inputs::text(true))),
    ("compare: two samples, viscrombal_compare", 100, || compare_files(inputs::sample(0), inputs::sample(1))),
    ("compare: 1,000 + 1,000, equal", 2, || compare(inputs::build(0), inputs::build(0))),
    ("compare: 1,000 + 1,000, a tenth differs", 2, || compare(inputs::build(0), inputs::build(10))),
    ("compare: 1,000 + 1,000, all differ", 2, || compare(inputs::build(0), inputs::build(1))),
    ("compare: 1,000 exports of 16 KiB, equal", 0, || compare(inputs::long_exports(0), inputs::long_exports(0))),
    ("compare: 1,000 exports of 16 KiB, all differ at the end", 0, || compare(inputs::long_exports(0), inputs::long_exports(1))),
    ("compare: 1,000 exports of 16 KiB, reversed, equal", 0, || compare(inputs::turned(0, false), inputs::turned(0, false))),
    ("compare: 1,000 exports of 16 KiB, reversed, all differ", 0, || compare(inputs::turned(0, false), inputs::turned(1, false))),
    ("compare: 1,000 exports of 16 KiB, organ-pipe, equal", 0, || compare(inputs::turned(0, true), inputs::turned(0, true))),
    ("compare: 1,000 exports of 16 KiB, organ-pipe, all differ", 0, || compare(inputs::turned(0, true), inputs::turned(1, true))),
    ("compare: 1,000 exports, prefixes of each other", 0, || compare(inputs::prefixes(0), inputs::prefixes(1))),
    ("compare: 1,000 exports of 16 KiB, one print, equal", 0, || compare(inputs::one_print(0), inputs::one_print(0))),
    ("compare: 1,000 exports of 16 KiB, one print, all differ", 0, || compare(inputs::one_print(0), inputs::one_print(1))),
    ("compare: 1,000 imports of 16 KiB, equal", 0, || compare(inputs::long_imports(0), inputs::long_imports(0))),
    ("compare: 1,000 imports of 16 KiB, all differ at the end", 0, || compare(inputs::long_imports(0), inputs::long_imports(1))),
    ("compare: 1,000 exports of 16 KiB, made to be slow", 0, || compare(inputs::hostile_exports(0), inputs::hostile_exports(1))),
];

/// The same of strict reading, with tables of the file's size. One file is refused by a rule.
pub const STRICT: [(&str, u32, fn() -> Case); 9] = [
    ("strict: tiny", 1000, || strict(inputs::tiny(), 0)),
    ("strict: a code section of 16 MiB", 1000, || strict(inputs::code(), 0)),
    ("strict: 256 sections, refused by rule 4", 100, || strict(inputs::sections(), 4)),
    ("strict: 256 custom sections", 100, || strict(inputs::customs(), 0)),
    ("strict: 1,000 imports, 1,000 exports", 20, || strict(inputs::surface_1000(), 0)),
    ("strict: 4,000 function names", 20, || strict(inputs::symbols(), 0)),
    ("strict: 1,000 imports of 16 KiB, mixed UTF-8", 1, || strict(inputs::long_names(), 0)),
    ("strict: a sample", 1000, || strict(inputs::sample(0), 0)),
    ("strict: 1,000 exports of 16 KiB that begin alike", 0, || strict(inputs::long_exports(0), 0)),
];

fn part(s: &[u8], from: usize, len: usize) -> String {
    String::from_utf8(s[from..from + len].to_vec()).expect("UTF-8")
}

// ---- modules

fn kind_byte(kind: ExternalKind) -> u8 {
    match kind {
        ExternalKind::Func => 0,
        ExternalKind::Table => 1,
        ExternalKind::Memory => 2,
        ExternalKind::Global => 3,
        ExternalKind::Other(b) => b,
    }
}

fn module_says(m: &Module) -> String {
    let sections = m.sections.iter().map(|s| format!("section {} {} {} {}", s.id, s.offset, s.size, s.custom_name));
    let imports = m.imports.iter().map(|i| format!("import {} {} {}", i.module, i.field, kind_byte(i.kind)));
    let exports = m.exports.iter().map(|e| format!("export {} {} {}", e.field, kind_byte(e.kind), e.index));
    let names = m.function_names.iter().map(|(i, name)| format!("name {i} {name}"));
    let head = format!("version {} length {} {}", m.version, m.byte_len, m.module_name.clone().unwrap_or_default());
    [head].into_iter().chain(sections).chain(imports).chain(exports).chain(names).collect::<Vec<_>>().join("\n")
}

fn port_module_says(file: &[u8], m: ModuleTold, tables: &[Vec<usize>; 4]) -> String {
    assert_eq!((m.number, m.place), (0, 0));
    let counts = [m.sections, m.imports, m.exports, m.symbols];
    let rows = |i: usize| tables[i].chunks_exact(port::WIDTHS[i]).take(counts[i]);
    let sections = rows(0).map(|r| format!("section {} {} {} {}", r[0], r[1], r[2], part(file, r[3], r[4])));
    let imports = rows(1).map(|r| format!("import {} {} {}", part(file, r[0], r[1]), part(file, r[2], r[3]), r[4]));
    let exports = rows(2).map(|r| format!("export {} {} {}", part(file, r[0], r[1]), r[2], r[3]));
    let names = rows(3).map(|r| format!("name {} {}", r[0], part(file, r[1], r[2])));
    let head = format!("version {} length {} {}", m.version, m.length, part(file, m.start, m.size));
    [head].into_iter().chain(sections).chain(imports).chain(exports).chain(names).collect::<Vec<_>>().join("\n")
}

fn module(file: Vec<u8>, mut tables: Tables) -> Case {
    let (a, b) = (file.clone(), file.clone());
    let cells = tables.0.clone();
    Case {
        said: Box::new(move || {
            let mut t = Tables(cells.clone());
            let m = port::module(&file, &mut t);
            [module_says(&wasm::parse(&file).unwrap()), port_module_says(&file, m, &t.0)]
        }),
        original: Box::new(move || drop(black_box(wasm::parse(black_box(&a)).unwrap()))),
        port: Box::new(move || {
            black_box(port::module(black_box(&b), &mut tables));
        }),
    }
}

/// The plain read, and the strict one: the same rows, or 20 and the rule.
fn strict(file: Vec<u8>, rule: usize) -> Case {
    let (a, b) = (file.clone(), file.clone());
    let m = port::module(&file, &mut Tables::at_limits());
    let rows = [m.sections, m.imports, m.exports, m.symbols];
    let (mut plain, mut strict) = (Tables::of(rows), Tables::of(rows));
    Case {
        said: Box::new(move || {
            let (mut t, mut u) = (Tables::of(rows), Tables::of(rows));
            let (m, s) = (port::module(&file, &mut t), port::strict(&file, &mut u));
            match rule {
                0 => [port_module_says(&file, m, &t.0), port_module_says(&file, s, &u.0)],
                rule => [format!("refused 20 at {rule}"), format!("refused {} at {}", s.number, s.place)],
            }
        }),
        original: Box::new(move || {
            black_box(port::module(black_box(&a), &mut plain));
        }),
        port: Box::new(move || {
            black_box(port::strict(black_box(&b), &mut strict));
        }),
    }
}

/// The same over the C interface: the rows one table after another in a buffer that takes those of any module.
fn listed(file: Vec<u8>) -> Case {
    let (a, b) = (file.clone(), file.clone());
    let mut rows = vec![0; 8 * 29_952];
    Case {
        said: Box::new(move || {
            let mut rows = vec![0; 8 * 29_952];
            let m = port::listed(&file, &mut rows);
            let mut cells = rows[..m.bytes].chunks_exact(8).map(|c| u64::from_le_bytes(c.try_into().unwrap()) as usize);
            let counts = [m.module.sections, m.module.imports, m.module.exports, m.module.symbols];
            let tables = std::array::from_fn(|i| cells.by_ref().take(counts[i] * port::WIDTHS[i]).collect());
            [module_says(&wasm::parse(&file).unwrap()), port_module_says(&file, m.module, &tables)]
        }),
        original: Box::new(move || drop(black_box(wasm::parse(black_box(&a)).unwrap()))),
        port: Box::new(move || {
            black_box(port::listed(black_box(&b), &mut rows));
        }),
    }
}

// ---- policies and manifests

const DOMAINS: [Domain; 7] =
    [Domain::Filesystem, Domain::Environment, Domain::Clock, Domain::Network, Domain::Random, Domain::Stdio, Domain::Unknown];

fn parsed(text: &[u8]) -> Policy {
    Policy::parse(std::str::from_utf8(text).unwrap()).unwrap()
}

fn policy_says(p: &Policy) -> String {
    let rule = |d: &Domain| p.rules.get(d).map(|r| (r.allow, r.allow_list.clone()));
    format!("{} {} {:?}", p.name, p.default_allow, DOMAINS.iter().map(rule).collect::<Vec<_>>())
}

/// Every token of a domain's list.
fn each_token(text: &[u8], cells: &[usize], domain: usize, mut f: impl FnMut(usize, usize)) {
    let mut from = 0;
    loop {
        let t = port::token(text, cells, domain, from);
        assert_eq!((t.number, t.place), (0, 0));
        if !t.found {
            return;
        }
        f(t.from, t.len);
        from = t.next;
    }
}

fn asked_tokens(text: &[u8], cells: &[usize], domain: usize) -> Vec<String> {
    let mut list = Vec::new();
    each_token(text, cells, domain, |from, len| list.push(part(text, from, len)));
    list
}

/// With the tokens of each domain as they are got.
fn port_policy_says(text: &[u8], tokens: impl Fn(&[usize], usize) -> Vec<String>) -> String {
    let p = port::policy(text);
    assert_eq!((p.number, p.place), (0, 0));
    let cells = port::cells(&p);
    let rule = |d: usize| {
        let list = tokens(&cells, d);
        (p.rules[d].stance != 0).then_some((p.rules[d].stance == 1, list))
    };
    let name = if p.named { part(text, p.start, p.size) } else { "default-deny".into() };
    format!("{name} {} {:?}", p.permit, (0..7).map(rule).collect::<Vec<_>>())
}

fn policy(text: Vec<u8>) -> Case {
    let (a, b) = (text.clone(), text.clone());
    Case {
        said: Box::new(move || [policy_says(&parsed(&text)), port_policy_says(&text, |cells, d| asked_tokens(&text, cells, d))]),
        original: Box::new(move || drop(black_box(parsed(black_box(&a))))),
        port: Box::new(move || {
            black_box(port::policy(black_box(&b)));
        }),
    }
}

/// The policy, then each token of its first domain by a call of its own.
fn tokens(text: Vec<u8>) -> Case {
    let b = text.clone();
    Case {
        port: Box::new(move || {
            let cells = port::cells(&port::policy(black_box(&b)));
            each_token(&b, &cells, 0, |from, len| _ = black_box((from, len)));
        }),
        ..policy(text)
    }
}

/// Room for the tokens of the longest text.
const TOKENS_ROOM: usize = 16 * 32_768;

/// The policy, then the tokens of its first domain by one call.
fn listed_tokens(text: Vec<u8>) -> Case {
    let (a, b) = (text.clone(), text.clone());
    let mut out = vec![0; TOKENS_ROOM];
    let each = move |domain: usize| {
        let mut out = vec![0; TOKENS_ROOM];
        let t = port::tokens(&a, domain, &mut out);
        assert_eq!((t.number, t.place, t.bytes), (0, 0, 16 * t.count));
        let cell = |c: &[u8]| u64::from_le_bytes(c.try_into().unwrap()) as usize;
        out[..t.bytes].chunks_exact(16).map(|r| part(&a, cell(&r[..8]), cell(&r[8..]))).collect()
    };
    let original = policy(text.clone());
    Case {
        said: Box::new(move || [policy_says(&parsed(&text)), port_policy_says(&text, |_, d| each(d))]),
        port: Box::new(move || {
            black_box(port::policy(black_box(&b)));
            black_box(port::tokens(black_box(&b), 0, &mut out));
        }),
        ..original
    }
}

fn manifest_says(m: &wit::Manifest) -> String {
    let one = |r: &wit::InterfaceRef| format!("{} {}", r.path, r.signature.clone().unwrap_or_default());
    let world = |w: &wit::World| {
        let all = |list: &[wit::InterfaceRef]| list.iter().map(one).collect::<Vec<_>>();
        format!("{} {:?} {:?}", w.name, all(&w.imports), all(&w.exports))
    };
    format!("{} {:?}", m.package.clone().unwrap_or_default(), m.worlds.iter().map(world).collect::<Vec<_>>())
}

/// Table 5 is a name's range; table 6 is world, export or not, path, signature or not, signature.
fn port_manifest_says(text: &[u8], worlds: &mut [usize], references: &mut [usize]) -> String {
    let m = port::manifest(text, worlds, references);
    assert_eq!((m.number, m.place), (0, 0));
    let rows: Vec<&[usize]> = references.chunks_exact(7).take(m.references).collect();
    let world = |(i, r): (usize, &[usize])| {
        let all = |export: usize| {
            let of = rows.iter().filter(|x| x[0] == i && x[1] == export);
            of.map(|x| format!("{} {}", part(text, x[2], x[3]), part(text, x[5], x[6]))).collect::<Vec<_>>()
        };
        format!("{} {:?} {:?}", part(text, r[0], r[1]), all(0), all(1))
    };
    let worlds = worlds.chunks_exact(2).take(m.worlds).enumerate().map(world).collect::<Vec<_>>();
    format!("{} {:?}", part(text, m.start, m.size), worlds)
}

fn manifest(text: Vec<u8>, worlds: usize, references: usize) -> Case {
    let (a, b) = (text.clone(), text.clone());
    let (mut five, mut six) = (vec![usize::MAX; worlds * 2], vec![usize::MAX; references * 7]);
    let (fives, sixes) = (five.clone(), six.clone());
    let read = |text: &[u8]| wit::parse(std::str::from_utf8(text).unwrap()).unwrap();
    Case {
        said: Box::new(move || [manifest_says(&read(&text)), port_manifest_says(&text, &mut fives.clone(), &mut sixes.clone())]),
        original: Box::new(move || drop(black_box(read(black_box(&a))))),
        port: Box::new(move || {
            black_box(port::manifest(black_box(&b), &mut five, &mut six));
        }),
    }
}

// ---- the whole check

fn checked(file: &[u8], text: &[u8]) -> policy::Evaluation {
    policy::evaluate(&policy::requirements_from_module(&wasm::parse(file).unwrap()), &parsed(text))
}

fn check(file: Vec<u8>, text: Vec<u8>) -> Case {
    let (a, b) = ((file.clone(), text.clone()), (file.clone(), text.clone()));
    Case {
        said: Box::new(move || {
            let e = checked(&file, &text);
            let p = port::check(&file, &text);
            assert_eq!((p.number, p.place), (0, 0));
            let verdicts: Vec<_> = e.verdicts.iter().map(|v| (v.required, v.allowed, v.requirements.len())).collect();
            let told: Vec<_> = p.verdicts.iter().map(|v| (v.required, v.allowed, v.many)).collect();
            [format!("{verdicts:?} {} {}", e.violations().len(), e.is_compliant()), format!("{told:?} {} {}", p.count, p.compliant)]
        }),
        original: Box::new(move || drop(black_box(checked(black_box(&a.0), black_box(&a.1))))),
        port: Box::new(move || {
            black_box(port::check(black_box(&b.0), black_box(&b.1)));
        }),
    }
}

// ---- UTF-8: the port's name, against the standard library's test of the same bytes

fn utf8(s: Vec<u8>) -> Case {
    let (a, b) = (s.clone(), s.clone());
    let start = s.len() - inputs::LONGEST_FILE;
    Case {
        said: Box::new(move || {
            let p = port::name(&s);
            // and with the last sequence cut
            let mut cut = s.clone();
            *cut.last_mut().unwrap() = 0xf0;
            let q = port::name(&cut);
            let good = |s: &[u8]| std::str::from_utf8(&s[start..]).is_ok();
            [
                format!("{} {}", good(&s), good(&cut)),
                format!("{} {}", (p.number, p.from, p.len) == (0, start, s.len() - start), q.number != 4),
            ]
        }),
        original: Box::new(move || {
            let _ = black_box(std::str::from_utf8(black_box(&a[start..])));
        }),
        port: Box::new(move || {
            black_box(port::name(black_box(&b)));
        }),
    }
}

// ---- the comparison

/// A module's file with its tables 2 and 3 and how many rows they have.
struct Read {
    file: Vec<u8>,
    tables: Tables,
    imports: usize,
    exports: usize,
}

fn read(file: Vec<u8>) -> Read {
    let mut tables = Tables::at_limits();
    let m = port::module(&file, &mut tables);
    assert_eq!((m.number, m.place), (0, 0));
    Read { file, tables, imports: m.imports, exports: m.exports }
}

impl Read {
    fn given(&self) -> port::Given<'_> {
        port::Given { file: &self.file, imports: &self.tables.0[1], n: self.imports, exports: &self.tables.0[2], m: self.exports }
    }

    fn row(&self, table: usize, row: usize) -> &[usize] {
        let width = port::WIDTHS[table];
        &self.tables.0[table][row * width..(row + 1) * width]
    }
}

fn compared_says(c: &compat::Compatibility) -> String {
    let exports = c.export_diffs.iter().map(|d| format!("{} {} {}", (d.change == Change::Added) as usize, d.kind, d.name));
    let number = |d: Domain| DOMAINS.iter().position(|x| *x == d).unwrap();
    let needs = c.capability_diffs.iter().map(|d| format!("{} {} {}", (d.change == Change::Added) as usize, number(d.domain), d.source));
    [c.is_compatible().to_string()].into_iter().chain(exports).chain(needs).collect::<Vec<_>>().join("\n")
}

/// The rows of tables 8 and 9.
fn rows_say(sides: &[Read; 2], compatible: bool, xd: &[usize], cd: &[usize]) -> String {
    let exports = xd.chunks_exact(2).map(|d| {
        let (side, row) = (&sides[d[0]], sides[d[0]].row(2, d[1]));
        assert_eq!(row[2], 0);
        format!("{} func {}", d[0], part(&side.file, row[0], row[1]))
    });
    let needs = cd.chunks_exact(3).map(|d| {
        let (side, row) = (&sides[d[0]], sides[d[0]].row(1, d[2]));
        format!("{} {} {}", d[0], d[1], part(&side.file, row[0], row[1]))
    });
    [compatible.to_string()].into_iter().chain(exports).chain(needs).collect::<Vec<_>>().join("\n")
}

fn port_compared_says(sides: &[Read; 2]) -> String {
    let (mut xd, mut cd) = (vec![usize::MAX; 4096], vec![usize::MAX; 6144]);
    let r = port::compare(&sides[0].given(), &sides[1].given(), &mut xd, &mut cd);
    assert_eq!((r.number, r.place), (0, 0));
    rows_say(sides, r.compatible, &xd[..2 * r.exports], &cd[..3 * r.capabilities])
}

fn compare(baseline: Vec<u8>, candidate: Vec<u8>) -> Case {
    let modules = [wasm::parse(&baseline).unwrap(), wasm::parse(&candidate).unwrap()];
    let again = modules.clone();
    let of = |m: &[Module; 2]| compat::compare_modules(&m[0], "baseline", &m[1], "candidate");
    let sides = [read(baseline.clone()), read(candidate.clone())];
    let (mut xd, mut cd) = (vec![usize::MAX; 4096], vec![usize::MAX; 6144]);
    Case {
        said: Box::new(move || [compared_says(&of(&again)), port_compared_says(&[read(baseline.clone()), read(candidate.clone())])]),
        original: Box::new(move || drop(black_box(of(black_box(&modules))))),
        port: Box::new(move || {
            black_box(port::compare(black_box(&sides[0].given()), black_box(&sides[1].given()), &mut xd, &mut cd));
        }),
    }
}

/// Over the C interface: both files are read, and the reasons are written.
fn compare_files(baseline: Vec<u8>, candidate: Vec<u8>) -> Case {
    let (a, b) = ([baseline.clone(), candidate.clone()], [baseline.clone(), candidate.clone()]);
    let of = |f: &[Vec<u8>; 2]| {
        let read = |i: usize| wasm::parse(&f[i]).unwrap();
        let c = compat::compare_modules(&read(0), "baseline", &read(1), "candidate");
        let reasons = c.breaking_reasons();
        (c, reasons)
    };
    let mut out = vec![0; ROOM];
    Case {
        said: Box::new(move || {
            let mut out = vec![0; ROOM];
            let r = port::compare_files(&baseline, &candidate, &mut out);
            assert_eq!((r.number, r.place), (0, 0));
            let (rows, reasons) = out[..r.bytes].split_at(r.bytes - r.reasons);
            let cells: Vec<usize> = rows.chunks_exact(8).map(|c| u64::from_le_bytes(c.try_into().unwrap()) as usize).collect();
            let (xd, cd) = cells.split_at(2 * r.exports);
            assert_eq!(cd.len(), 3 * r.capabilities);
            let (c, all) = of(&[baseline.clone(), candidate.clone()]);
            let lines: String = all.iter().map(|line| format!("{line}\n")).collect();
            let told = rows_say(&[read(baseline.clone()), read(candidate.clone())], r.compatible, xd, cd);
            [format!("{}\n{lines}", compared_says(&c)), format!("{told}\n{}", String::from_utf8(reasons.to_vec()).unwrap())]
        }),
        original: Box::new(move || drop(black_box(of(black_box(&a))))),
        port: Box::new(move || {
            black_box(port::compare_files(black_box(&b[0]), black_box(&b[1]), &mut out));
        }),
    }
}

/// Room for the differences of two samples.
const ROOM: usize = 4096;
