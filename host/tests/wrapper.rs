//! The wrapper: what it hands out is what the archive answers, of any bytes.

mod common;

use std::collections::HashSet;
#[cfg(target_arch = "x86_64")]
use std::sync::Mutex;
use std::thread;

use common::{bomb, bytes, damaged, every, full, long, module, sample, samples, section, HEADER};
use viscrombal::compat::{compare_modules, Change};
use viscrombal::policy::{capabilities, Domain, Policy};
use viscrombal::wasm::{self, Desc, ExternalKind, Module};
use viscrombal::{check, wit, ErrorKind, Refusal, StrictRule, LONGEST_MODULE, LONGEST_TEXT};

const NONE: [(&str, &str); 0] = [];

fn told(refusal: Refusal) -> (u32, usize) {
    (refusal.number(), refusal.place())
}

fn refused<T: std::fmt::Debug>(result: viscrombal::Result<T>) -> (u32, usize) {
    told(result.unwrap_err())
}

/// Whether a name is a part of these bytes, by its address.
fn is_part(name: &str, bytes: &[u8]) -> bool {
    let (inner, outer) = (name.as_bytes().as_ptr_range(), bytes.as_ptr_range());
    outer.start <= inner.start && inner.end <= outer.end
}

#[test]
fn a_module_is_read() {
    let file = sample("contours-1.wasm");
    let module = wasm::parse(&file).unwrap();
    assert_eq!((module.version(), module.byte_len()), (1, file.len()));
    let imports: Vec<_> = module.imports().iter().map(|i| (i.module, i.field, i.kind)).collect();
    assert_eq!(imports, [("wasi_snapshot_preview1", "fd_read", ExternalKind::Func)]);
    let exports: Vec<_> = module.exports().iter().map(|e| (e.field, e.kind.slug())).collect();
    let want = [("memory", "memory"), ("_initialize", "func"), ("render", "func"), ("scale", "func")];
    assert_eq!(exports, want.map(|(name, kind)| (name, kind.into())));
    assert_eq!((module.imported_functions(), module.imported_memories()), (1, 0));
    assert_eq!(module.import_namespaces(), ["wasi_snapshot_preview1"]);
    for section in module.sections() {
        assert_eq!(section.name, wasm::section_name(section.id));
        assert!(section.offset + section.size <= file.len());
    }
}

#[test]
fn names_are_parts_of_the_file() {
    let file = [module(&[("m", "f")], &[("e", 4)], &["n", ""]), section(0, b"\x04name\x00\x04\x03who".to_vec())].concat();
    let module = wasm::parse(&file).unwrap();
    assert_eq!(module.module_name(), Some("who"));
    assert_eq!(module.exports()[0].kind, ExternalKind::Other(4));
    assert_eq!(module.function_names(), [(0, "n"), (0, "")]);
    assert_eq!(module.sections().iter().map(|s| s.custom_name).collect::<Vec<_>>(), ["", "", "name", "name"]);
    let names = module.imports().iter().flat_map(|i| [i.module, i.field]).chain(module.exports().iter().map(|e| e.field));
    let names = names.chain(module.function_names().iter().map(|(_, n)| *n)).chain(module.module_name());
    for name in names {
        assert!(is_part(name, &file), "{name:?}");
    }
}

/// Limits as numbers: the flag, the least and the most.
fn limits_of(desc: Desc) -> (u8, u32, Option<u32>) {
    match desc {
        Desc::Table { limits, .. } | Desc::Memory { limits } => (limits.flag, limits.least, limits.most),
        _ => panic!("{desc:?} has no limits"),
    }
}

/// The worked cases of what an import asks for, and a few more.
#[test]
fn what_an_import_asks_for() {
    let one = |words: &str| wasm::parse(&bytes(&format!("H {words}"))).unwrap().imports()[0].desc();
    assert_eq!(one("02 07 01 01 6d 01 66 00 05"), Desc::Func { type_index: 5 });
    assert_eq!(one("02 07 01 01 6d 01 66 00 00"), Desc::Func { type_index: 0 });
    assert_eq!(one("02 0b 01 01 6d 01 66 00 ff ff ff ff 0f"), Desc::Func { type_index: u32::MAX });
    assert_eq!(limits_of(one("02 09 01 01 6d 01 66 02 01 01 02")), (1, 1, Some(2)));
    assert_eq!(limits_of(one("02 09 01 01 6d 01 66 02 01 01 00")), (1, 1, Some(0)), "a most of 0 is not none");
    assert_eq!(limits_of(one("02 08 01 01 6d 01 66 02 02 01")), (2, 1, None), "the flag is as it is");
    assert_eq!(limits_of(one("02 08 01 01 6d 01 66 02 00 01")), (0, 1, None));
    assert!(matches!(one("02 0a 01 01 6d 01 66 01 6f 01 03 04"), Desc::Table { element: 0x6f, .. }));
    assert_eq!(limits_of(one("02 0a 01 01 6d 01 66 01 6f 01 03 04")), (1, 3, Some(4)));
    assert_eq!(limits_of(one("02 09 01 01 6d 01 66 01 70 00 03")), (0, 3, None));
    assert_eq!(one("02 08 01 01 6d 01 66 03 7f 00"), Desc::Global { value: 0x7f, mutability: 0 });
    assert_eq!(one("02 08 01 01 6d 01 66 03 00 ff"), Desc::Global { value: 0, mutability: 0xff });
}

#[test]
fn memories_that_are_imported() {
    // a memory without a most, a function, one of 4 GiB, a table, and the largest that can be stated
    let file = bytes(
        "H 02 34 05 00 01 61 02 00 03 00 00 00 01 00 01 62 02 01 80 80 04 80 80 04 00 00 01 70 01 01 07 \
         00 01 63 02 03 ff ff ff ff 0f ff ff ff ff 0f",
    );
    let file = [&file[..9], &[file.len() as u8 - 10], &file[10..]].concat();
    let module = wasm::parse(&file).unwrap();
    let limits = module.imported_memory_limits();
    assert_eq!((limits.len(), module.imported_memories(), module.imported_functions()), (3, 3, 1));
    let pages = limits.iter().map(|l| (l.flag, l.least, l.most)).collect::<Vec<_>>();
    assert_eq!(pages, [(0, 3, None), (1, 65_536, Some(65_536)), (3, u32::MAX, Some(u32::MAX))]);
    let bytes = limits.iter().map(|l| (l.least_bytes(), l.most_bytes())).collect::<Vec<_>>();
    let most = 281_474_976_645_120;
    assert_eq!(bytes, [(196_608, None), (4_294_967_296, Some(4_294_967_296)), (most, Some(most))]);
    assert!(wasm::parse(HEADER).unwrap().imported_memory_limits().is_empty());
    let relief = sample("relief.wasm");
    let relief = wasm::parse(&relief).unwrap();
    let bytes = relief.imported_memory_limits().iter().map(|l| (l.least_bytes(), l.most_bytes())).collect::<Vec<_>>();
    assert_eq!(bytes, [(655_360, Some(1_048_576))]);
    assert_eq!(limits_of(relief.imports()[1].desc()), (0, 1, None));
}

#[test]
fn refusals_of_modules() {
    let with = |id, payload: &[u8]| [HEADER.to_vec(), section(id, payload.to_vec())].concat();
    let sections = |n| [HEADER.to_vec(), [1, 0].repeat(n)].concat();
    let many = |n: usize| vec![("", ""); n];
    let cases: [(&str, Vec<u8>, (u32, usize)); 18] = [
        ("empty", vec![], (1, 0)),
        ("no version", b"\0asm".to_vec(), (1, 4)),
        ("text", b"text".to_vec(), (2, 0)),
        ("version 0", b"\0asm\0\0\0\0".to_vec(), (2, 4)),
        ("an empty import section", with(2, b""), (1, 10)),
        ("a section that is cut", [HEADER, &[1, 5]].concat(), (1, 10)),
        ("a size that is too big", [HEADER, &[1], &[0x80; 4], &[0x10]].concat(), (19, 14)),
        ("a number that is too long", [HEADER, &[1], &[0x80; 10], &[0]].concat(), (17, 9)),
        ("a tenth byte that is too large", [HEADER, &[1], &[0x80; 9], &[2]].concat(), (18, 9)),
        ("a name that is no text", with(7, b"\x01\x01\xff\0\0"), (4, 12)),
        ("an import of kind 9", with(2, b"\x01\0\0\x09"), (5, 9)),
        ("a bomb", bomb(), (1, 15)),
        ("257 sections", sections(257), (13, 1)),
        ("1,025 imports", module(&many(1025), &[("", 0); 0], &[""; 0]), (13, 2)),
        ("1,025 exports", module(&NONE, &[("", 0); 1025], &[""; 0]), (13, 3)),
        ("4,097 names", module(&NONE, &[("", 0); 0], &[""; 4097]), (13, 4)),
        ("a byte too many", long(LONGEST_MODULE + 1), (14, 0)),
        ("a byte too many, of nothing", vec![0; LONGEST_MODULE + 1], (14, 0)),
    ];
    let policy = Policy::parse("default allow").unwrap();
    for (what, file, want) in &cases {
        assert_eq!(refused(wasm::parse(file)), *want, "{what}");
        assert_eq!(refused(check(file, &policy)), *want, "{what}");
    }
}

#[test]
fn the_longest_module_is_read() {
    let file = long(LONGEST_MODULE);
    assert_eq!(wasm::parse(&file).unwrap().sections().len(), 1);
    assert!(check(&file, &Policy::parse("").unwrap()).unwrap().is_compliant());
    let one = wasm::parse(&file).unwrap();
    assert!(compare_modules(&one, &one).unwrap().is_compatible());
}

#[test]
fn verdicts_on_the_samples() {
    let text = sample("portal.policy");
    let policy = Policy::parse(&text).unwrap();
    let violations: Vec<_> =
        samples(".wasm").iter().map(|(name, file)| (name.clone(), check(file, &policy).unwrap().violations())).collect();
    let want: [(&str, &[Domain]); 10] = [
        ("contours-1.wasm", &[]),
        ("contours-2.wasm", &[Domain::Network]),
        ("contours-3.wasm", &[]),
        ("feed.wasm", &[Domain::Network]),
        ("gauge-1.wasm", &[]),
        ("gauge-2.wasm", &[Domain::Network]),
        ("legend.wasm", &[Domain::Unknown]),
        ("relief.wasm", &[Domain::Unknown]),
        ("soundings.wasm", &[]),
        ("tide.wasm", &[]),
    ];
    assert_eq!(violations, want.map(|(name, domains)| (name.into(), domains.to_vec())));
}

#[test]
fn verdicts_agree_with_themselves() {
    for (_, text) in &samples(".policy") {
        let policy = Policy::parse(text).unwrap();
        for (name, file) in &samples(".wasm") {
            let verdict = check(file, &policy).unwrap();
            let each = verdict.verdicts();
            assert_eq!(each.map(|v| v.domain), Domain::EVERY, "{name}");
            let violations: Vec<_> = each.iter().filter(|v| v.is_violation()).map(|v| v.domain).collect();
            assert_eq!(verdict.violations(), violations, "{name}");
            assert_eq!(verdict.is_compliant(), violations.is_empty(), "{name}");
            assert!(each.iter().all(|v| v.required == (v.many > 0) && v.allowed == policy.effective(v.domain).allow), "{name}");
            let module = wasm::parse(file).unwrap();
            assert_eq!(each.iter().map(|v| v.many).sum::<usize>(), module.imported_functions(), "{name}");
            let needs = capabilities(&module).unwrap();
            let domains: HashSet<_> = needs.iter().map(|need| need.domain).collect();
            assert_eq!(domains, each.iter().filter(|v| v.required).map(|v| v.domain).collect(), "{name}");
        }
    }
}

#[test]
fn damaged_copies_are_read_or_refused() {
    let text = sample("guarded.policy");
    let policy = Policy::parse(&text).unwrap();
    let (mut read, mut numbers, mut rules) = (0, HashSet::new(), HashSet::new());
    for (name, file) in &samples(".wasm") {
        let whole = wasm::parse(file).unwrap();
        for copy in damaged(file).step_by(every()) {
            match (wasm::parse(&copy), check(&copy, &policy)) {
                (Err(one), Err(other)) => {
                    assert_eq!((one, Err(one)), (other, wasm::test_strict(&copy)), "{name}");
                    assert!((1..=19).contains(&one.number()) && one.number() != 3 && !one.to_string().is_empty());
                    numbers.insert(one.number());
                    // an offset is one of the file or its end; the byte beside 5 is the place
                    let offset = one.offset();
                    assert!(offset.is_some() == (one.number() != 13) && offset <= Some(copy.len()), "{name}: {one}");
                    assert!(one.number() != 5 || offset.map(|at| usize::from(copy[at])) == Some(one.place()), "{name}: {one}");
                }
                (Ok(module), Ok(_)) => {
                    read += 1;
                    assert!(module.imports().iter().all(|import| kind_of(import.desc()) == import.kind), "{name}");
                    both_ways(&whole, &module);
                    rules.extend(read_strictly(&module).map(StrictRule::number));
                }
                (one, other) => panic!("{name}: {one:?}, {other:?}"),
            }
        }
    }
    let kinds = if every() == 1 { 5 } else { 4 };
    assert!(read > 1000 / every() && numbers.len() >= kinds, "{read} read, refused by {numbers:?}");
    assert!(rules.len() >= kinds, "refused by the rules {rules:?}");
}

fn kind_of(desc: Desc) -> ExternalKind {
    match desc {
        Desc::Func { .. } => ExternalKind::Func,
        Desc::Table { .. } => ExternalKind::Table,
        Desc::Memory { .. } => ExternalKind::Memory,
        Desc::Global { .. } => ExternalKind::Global,
    }
}

/// A strict read of a module that was read plainly: the rule that it breaks, or the very same module.
fn read_strictly(module: &Module) -> Option<StrictRule> {
    match wasm::parse_strict(module.file()) {
        Ok(strict) => {
            assert_eq!((strict.version(), strict.module_name()), (module.version(), module.module_name()));
            assert!(strict.sections() == module.sections() && strict.function_names() == module.function_names());
            assert!(strict.imports() == module.imports() && strict.exports() == module.exports());
            None
        }
        Err(refusal) => {
            assert_eq!((refusal.kind(), refusal.number()), (ErrorKind::NotStrict, 20));
            let rule = refusal.rule().expect("a rule");
            assert_eq!((rule.number(), refusal), (refusal.place(), wasm::test_strict(module.file()).unwrap_err()));
            Some(rule)
        }
    }
}

#[test]
fn samples_are_read_strictly_but_one() {
    for (name, file) in &samples(".wasm") {
        let want = (name == "gauge-1.wasm").then_some(StrictRule::Order);
        assert_eq!(read_strictly(&wasm::parse(file).unwrap()), want, "{name}");
    }
}

/// The worked cases of strict reading.
#[test]
fn strict_reading() {
    let cases = [
        ("H", Ok(())),
        ("H 01 80 80 80 80 80 00", Err((20, 2))),
        ("H 0d 00", Err((20, 3))),
        ("H 03 00 01 00", Err((20, 4))),
        ("H 0a 00 0c 00", Err((20, 4))),
        ("H 02 02 00 00", Err((20, 5))),
        ("H 07 05 01 01 65 04 00", Err((20, 7))),
        ("H 02 08 01 01 6d 01 66 03 7f 02", Err((20, 8))),
        ("H 02 09 01 01 6d 01 66 01 00 00 00", Ok(())),
        ("00 61 73 6d 02 00 00 00 0d 00", Err((20, 1))),
        ("H 02 02 00 00 02 01 00", Err((20, 4))),
        ("H 00 0f N 01 08 01 80 80 80 80 00 01 66", Ok(())),
        ("H 00 0e N 02 07 80 80 80 80 80 80 00", Ok(())),
        ("H 00 0b N 00 04 01 6d 00 00", Ok(())),
        ("H 00 06 N 00", Err((1, 16))),
        ("H 02 0e 01 01 6d 01 66 02 01 00 80 80 80 80 80 00", Err((20, 2))),
        ("H 00 02 01 78 01 01 00 00 02 01 78 02 01 00 00 02 01 78", Ok(())),
        ("H 07 07 02 00 00 00 00 00 00", Err((20, 6))),
        ("H 0d 00 0d 00", Err((20, 3))),
        ("00 61 73 6d 0d 00 01 00", Err((20, 1))),
        ("H 02 0c 01 81 80 80 80 80 00 6d 01 66 00 00", Err((20, 2))),
        ("H 00 07 81 80 80 80 80 00 78", Err((20, 2))),
        ("H 01 00 03 00 04 00 05 00 06 00 08 00 09 00 0c 00 0a 00 0b 00", Ok(())),
    ];
    for (words, want) in cases {
        let file = bytes(words);
        assert_eq!(wasm::test_strict(&file).map_err(told), want, "{words}");
        assert_eq!(wasm::parse_strict(&file).map(drop).map_err(told), want, "{words}");
    }
    // plain refusals come first, 13 and 14 too
    let old = [b"\0asm\x02\0\0\0".to_vec(), [13, 0].repeat(257)].concat();
    assert_eq!([refused(wasm::parse_strict(&old)), refused(wasm::test_strict(&long(LONGEST_MODULE + 1)))], [(13, 1), (14, 0)]);
    assert_eq!(wasm::test_strict(&long(LONGEST_MODULE)), Ok(()));
}

/// Every input of the page, as the page says.
#[test]
fn strict_reading_as_the_differences_say() {
    let page = include_str!("../../docs/DIFFERENCES.md");
    let (_, part) = page.split_once("\n## Strict reading against the specification\n").expect("the section");
    let part = part.split("\n## ").next().unwrap();
    let mut rows = 0;
    for line in part.lines().filter(|line| line.contains("| H ")) {
        let cells: Vec<_> = line.split('|').map(str::trim).collect();
        let [_, _, input, _, says, ..] = cells[..] else { panic!("{line}") };
        let told = match wasm::test_strict(&bytes(input)) {
            Ok(()) => "accepted".into(),
            Err(refusal) => format!("{} at {}", refusal.number(), refusal.place()),
        };
        assert_eq!(told, says, "{line}");
        rows += 1;
    }
    assert!(rows >= 10, "{rows} rows");
}

/// Exchanging the two turns removed into added and changes nothing else; a comparison is compatible where it has no breaking reason.
fn both_ways(one: &Module, other: &Module) {
    let there = compare_modules(one, other).unwrap();
    let back = compare_modules(other, one).unwrap();
    let exports = |c: &viscrombal::compat::Compatibility, change| {
        let list = c.export_diffs().iter().filter(|d| d.change == change);
        list.map(|d| (d.name.to_string(), d.kind)).collect::<Vec<_>>()
    };
    let needs = |c: &viscrombal::compat::Compatibility, change| {
        let list = c.capability_diffs().iter().filter(|d| d.change == change);
        list.map(|d| (d.domain, d.source.to_string(), d.detail.to_string())).collect::<Vec<_>>()
    };
    for (here, elsewhere) in [(Change::Removed, Change::Added), (Change::Added, Change::Removed)] {
        assert_eq!(exports(&there, here), exports(&back, elsewhere));
        assert_eq!(needs(&there, here), needs(&back, elsewhere));
    }
    for answer in [there, back] {
        let reasons = answer.breaking_reasons();
        assert_eq!(answer.is_compatible(), reasons.is_empty());
        let removed = answer.export_diffs().iter().filter(|d| d.change == Change::Removed);
        let removed = removed.map(|d| format!("export removed: {} ({})", d.name, d.kind));
        let added = answer.capability_diffs().iter().filter(|d| d.change == Change::Added);
        let added = added.map(|d| format!("new capability required: {} via {}", d.domain, d.source));
        assert_eq!(reasons, removed.chain(added).collect::<Vec<_>>());
    }
}

#[test]
fn a_policy_is_read() {
    let text = "policy \"portal\"\ndefault allow\nallow net: a,\ndeny rand\nallow fs: /tmp, , /var\u{a0}\ndeny net # later\n";
    let policy = Policy::parse(text).unwrap();
    assert_eq!((policy.name(), policy.default_allow()), ("portal", true));
    assert!(is_part(policy.name(), text.as_bytes()));
    let rules: Vec<_> = policy.rules().map(|(domain, rule)| (domain, rule.allow, rule.allow_list.collect::<Vec<_>>())).collect();
    let want = [(Domain::Filesystem, true, vec!["/tmp", "/var"]), (Domain::Network, false, vec![]), (Domain::Random, false, vec![])];
    assert_eq!(rules, want);
    assert!(policy.effective(Domain::Clock).allow && !policy.effective(Domain::Network).allow);
    let written = policy.rewrite().unwrap();
    assert_eq!(String::from_utf8_lossy(&written), "policy \"portal\"\ndefault allow\nallow fs: /tmp, /var\ndeny network\ndeny random\n");
    assert_eq!(Policy::parse(&written).unwrap().rewrite().unwrap(), written);
}

#[test]
fn tokens_are_listed() {
    // more than fit the first buffer, and as many as a text can hold
    for (count, text) in [(17, "deny net: x".to_string() + &", y".repeat(16)), (32_764, "allow fs:b".to_string() + &",b".repeat(32_763))] {
        let policy = Policy::parse(&text).unwrap();
        let (_, rule) = policy.rules().next().unwrap();
        let mut tokens = rule.allow_list;
        let first = tokens.next().unwrap();
        assert!(first.len() == 1 && is_part(first, text.as_bytes()));
        let rest = tokens.clone();
        assert_eq!((tokens.count(), rest.count()), (count - 1, count - 1));
    }
    let policy = Policy::parse("allow fs:,\u{a0}, \nallow env: \u{3000}é é\t,\n").unwrap();
    let tokens = |domain| policy.effective(domain).allow_list.collect::<Vec<_>>();
    assert_eq!(Domain::EVERY.map(tokens), [vec![], vec!["é é"], vec![], vec![], vec![], vec![], vec![]]);
}

#[test]
fn a_policy_of_no_text() {
    let policy = Policy::parse("").unwrap();
    assert_eq!((policy.name(), policy.default_allow(), policy.rules().count()), ("default-deny", false, 0));
    assert_eq!(policy.rewrite().unwrap(), b"policy \"default-deny\"\ndefault deny\n");
}

#[test]
fn refusals_of_policies() {
    let cases: [(&[u8], (u32, usize)); 6] = [
        (b"bogus", (6, 1)),
        (b"\ndefault maybe", (7, 2)),
        (b"allow gpu", (8, 1)),
        (b"bogus\n\xff", (4, 6)),
        (&[b'#'; LONGEST_TEXT + 1], (14, 0)),
        (b"# fine\r\nallow\tfs", (6, 2)),
    ];
    for (text, want) in cases {
        assert_eq!(refused(Policy::parse(text)), want);
    }
    assert!(Policy::parse(&[b'#'; LONGEST_TEXT]).is_ok());
}

#[test]
fn domains_by_slug() {
    for domain in Domain::EVERY {
        assert_eq!(Domain::from_slug(domain.slug()), Some(domain));
    }
    assert_eq!(Domain::EVERY[..6], Domain::ALL);
    assert_eq!(["net", "rand", "nets"].map(Domain::from_slug), [Some(Domain::Network), Some(Domain::Random), None]);
}

#[test]
fn a_manifest_is_read() {
    let text = "package acme:image-tool@1.2.0 // the tool\nworld one {\n  import wasi:sockets/tcp\n  import wasi:clocks/wall-clock\n  \
                export process: func(input: list<u8>) -> list<u8>\n}\nworld two\n  import wasi:clocks/wall-clock\n  export a:\n";
    let manifest = wit::parse(text).unwrap();
    assert_eq!(manifest.package(), Some("acme:image-tool@1.2.0"));
    let [one, two] = manifest.worlds() else { panic!("two worlds") };
    assert_eq!((one.name, two.name), ("one", "two"));
    let paths = |list: &[wit::InterfaceRef]| list.iter().map(|i| i.path.to_string()).collect::<Vec<_>>();
    assert_eq!(paths(&one.imports), ["wasi:sockets/tcp", "wasi:clocks/wall-clock"]);
    assert_eq!((one.exports[0].path, one.exports[0].signature), ("process", Some("func(input: list<u8>) -> list<u8>")));
    assert_eq!((two.exports[0].path, two.exports[0].signature), ("a", Some("")));
    assert_eq!(one.imports[0].signature, None);
    assert_eq!(manifest.all_imports(), ["wasi:clocks/wall-clock", "wasi:sockets/tcp"]);
    assert_eq!(manifest.all_exports(), ["a", "process"]);
    assert!(manifest.all_imports().iter().chain(&[one.name, two.name]).all(|name| is_part(name, text.as_bytes())));
    assert_eq!(wit::parse("world x {}").unwrap().worlds()[0].name, "x {}");
}

#[test]
fn refusals_of_manifests() {
    let worlds = |n| "world w\n}\n".repeat(n);
    let references = |n| String::from("world w\n") + &"import a\n".repeat(n);
    let cases = [
        (String::from("bogus"), (6, 1)),
        ("world w\npackage p".into(), (9, 2)),
        ("world {".into(), (10, 1)),
        ("}".into(), (11, 1)),
        ("\nimport a".into(), (12, 2)),
        (worlds(65), (13, 5)),
        (references(1025), (13, 6)),
        ("/".repeat(LONGEST_TEXT + 1), (14, 0)),
    ];
    for (text, want) in cases {
        assert_eq!(refused(wit::parse(&text)), want);
    }
    assert_eq!(refused(wit::parse(b"bogus\n\xc3")), (4, 6));
    assert_eq!(wit::parse(&worlds(64)).unwrap().worlds().len(), 64);
    assert_eq!(wit::parse(&references(1024)).unwrap().worlds()[0].imports.len(), 1024);
}

#[test]
fn a_comparison_of_builds() {
    let (one, two, three) = (sample("contours-1.wasm"), sample("contours-2.wasm"), sample("contours-3.wasm"));
    let [one_read, two_read, three_read] = [&one, &two, &three].map(|file| wasm::parse(file).unwrap());
    let answer = compare_modules(&one_read, &two_read).unwrap();
    let reasons = ["export removed: scale (func)", "new capability required: network via wasi_snapshot_preview1"];
    assert_eq!(answer.breaking_reasons(), reasons);
    assert!(!answer.is_compatible());
    assert!(is_part(answer.export_diffs()[0].name, &one));
    let needs: Vec<_> = answer.capability_diffs().iter().map(|d| (d.change, d.domain, d.detail)).collect();
    assert_eq!(needs, [(Change::Removed, Domain::Filesystem, "fd_read"), (Change::Added, Domain::Network, "sock_recv")]);
    assert!(is_part(answer.capability_diffs()[0].source, &one) && is_part(answer.capability_diffs()[1].source, &two));
    assert!(compare_modules(&one_read, &three_read).unwrap().is_compatible());
}

#[test]
fn what_a_comparison_lists() {
    let old = module(&[("n", "f")], &[("b", 1), ("b", 0), ("a", 9), ("b", 0), ("b", 3)], &[""; 0]);
    let new = module(&[("m", "f"), ("m", "g")], &[("a", 2)], &[""; 0]);
    let (old, new) = (wasm::parse(&old).unwrap(), wasm::parse(&new).unwrap());
    let answer = compare_modules(&old, &new).unwrap();
    let exports: Vec<_> = answer.export_diffs().iter().map(|d| format!("{} {} {}", d.change, d.name, d.kind)).collect();
    let want = ["added a memory", "removed a other:0x09", "removed b func", "removed b func", "removed b global", "removed b table"];
    assert_eq!(exports, want);
    let needs: Vec<_> = answer.capability_diffs().iter().map(|d| (d.change, d.domain, d.source, d.detail)).collect();
    assert_eq!(needs, [(Change::Added, Domain::Unknown, "m", "f"), (Change::Removed, Domain::Unknown, "n", "f")]);
}

/// What the theorem `checks` says of every pair, run on the samples.
#[test]
fn a_build_that_stands_in_passes_too() {
    let (policies, files) = (samples(".policy"), samples(".wasm"));
    let mut pairs = 0;
    for (_, first) in &files {
        for (_, last) in &files {
            if !compare_modules(&wasm::parse(first).unwrap(), &wasm::parse(last).unwrap()).unwrap().is_compatible() {
                continue;
            }
            pairs += 1;
            for (_, text) in &policies {
                let policy = Policy::parse(text).unwrap();
                assert!(!check(first, &policy).unwrap().is_compliant() || check(last, &policy).unwrap().is_compliant());
            }
        }
    }
    assert!(pairs > files.len(), "each for itself, and more");
}

/// Full tables, and names of which each differs at its end, on threads with the stack that std gives: 2 MiB.
#[test]
fn threads_with_a_plain_stack() {
    let (one, other) = (full("a"), full("b"));
    let list: String = (0..1024).map(|n| format!("import p{n}\n")).collect();
    let manifest = format!("world w\n{list}");
    let call = || {
        let policy = Policy::parse("default allow\ndeny unknown: a, b").unwrap();
        let (old, new) = (wasm::parse(&one).unwrap(), wasm::parse(&other).unwrap());
        let counts = [old.sections().len(), old.imports().len(), old.exports().len(), old.function_names().len()];
        assert_eq!(counts, [256, 1024, 1024, 4096]);
        assert_eq!(read_strictly(&old), None);
        let answer = compare_modules(&old, &new).unwrap();
        assert_eq!((answer.export_diffs().len(), answer.capability_diffs().len()), (2048, 2048));
        assert_eq!(check(&one, &policy).unwrap().verdicts()[6].many, 1024);
        assert_eq!(wit::parse(&manifest).unwrap().all_imports().len(), 1024);
        assert_eq!(policy.rewrite().unwrap(), b"policy \"default-deny\"\ndefault allow\ndeny unknown: a, b\n");
    };
    thread::scope(|scope| {
        for _ in 0..8 {
            thread::Builder::new().stack_size(2 << 20).spawn_scoped(scope, call).unwrap();
        }
    });
}

/// What a thread needs besides a call of the archive: the C library's and std's own, the closure, and this crate.
#[cfg(target_arch = "x86_64")]
const THREAD: usize = 16 << 10;

/// Every call, with full tables, on a thread with the stack that the header states and no more; the constants are the x86-64 archive's.
#[cfg(target_arch = "x86_64")]
#[test]
fn threads_with_the_stack_that_is_stated() {
    use viscrombal::stack;

    fn on_a_thread(stack: usize, call: impl FnOnce() + Send) {
        thread::scope(|scope| thread::Builder::new().stack_size(stack + THREAD).spawn_scoped(scope, call).unwrap().join().unwrap());
    }
    let (one, other) = (full("a"), full("b"));
    let list: String = (0..1024).map(|n| format!("import p{n}\n")).collect();
    let manifest = format!("world w\n{list}");
    let text = "allow fs: \u{e9}".to_string() + &", \u{1f600}\u{3000}".repeat(7000);
    let policy = Policy::parse(&text).unwrap();
    let (old, new) = (wasm::parse(&one).unwrap(), wasm::parse(&other).unwrap());
    let told = Mutex::new(Vec::new());
    let tell = |number: usize| told.lock().unwrap().push(number);
    on_a_thread(stack::POLICY, || tell(Policy::parse(&text).unwrap().rules().count()));
    on_a_thread(stack::TOKENS, || tell(policy.effective(Domain::Filesystem).allow_list.count()));
    on_a_thread(stack::REWRITE, || tell(policy.rewrite().unwrap().len()));
    on_a_thread(stack::CHECK, || tell(check(&one, &policy).unwrap().verdicts()[6].many));
    on_a_thread(stack::STRICT, || tell(usize::from(wasm::test_strict(&one).is_ok())));
    on_a_thread(stack::MODULE, || tell(wasm::parse(&one).unwrap().function_names().len()));
    on_a_thread(stack::MANIFEST, || tell(wit::parse(&manifest).unwrap().all_imports().len()));
    on_a_thread(stack::COMPARE, || tell(compare_modules(&old, &new).unwrap().export_diffs().len()));
    let written = policy.rewrite().unwrap().len();
    assert_eq!(told.into_inner().unwrap(), [1, 7001, written, 1024, 1, 4096, 1024, 2048]);
}

#[test]
fn refusals_have_words() {
    let numbers: Vec<_> = ErrorKind::ALL.iter().map(|kind| kind.number()).collect();
    assert_eq!(numbers, (1..=20).filter(|n| *n != 3).collect::<Vec<_>>());
    assert_eq!((ErrorKind::NotStrict.number(), ErrorKind::NotStrict.slug()), (20, "not-strict"));
    for tell in [ErrorKind::words, ErrorKind::slug] {
        assert_eq!(ErrorKind::ALL.iter().map(|kind| tell(*kind)).collect::<HashSet<_>>().len(), 19);
    }
    assert_eq!((viscrombal::interface(), viscrombal::INTERFACE), (Ok(()), 4));
    assert_eq!(StrictRule::ALL.map(StrictRule::number), [1, 2, 3, 4, 5, 6, 7, 8]);
    assert_eq!(StrictRule::ALL.map(StrictRule::words).into_iter().collect::<HashSet<_>>().len(), 8);
    let said = |file: &[u8]| wasm::parse(file).unwrap_err().to_string();
    assert_eq!(said(&bomb()), "refused 1 at 15: the bytes end too soon (offset 15, 0xf)");
    let kind = [HEADER, b"\x02\x04\x01\0\0\x04"].concat();
    assert_eq!(said(&kind), "refused 5 at 4: an import of unknown kind (its byte is 0x04, offset 13, 0xd)");
    assert_eq!(wasm::parse(&kind).unwrap_err().offset(), Some(13));
    assert_eq!(said(&[HEADER, &[1, 0].repeat(257)].concat()), "refused 13 at 1: more entries than are taken (table of sections)");
    let unordered = wasm::parse_strict(&bytes("H 03 00 01 00")).unwrap_err();
    assert_eq!(unordered.to_string(), "refused 20 at 4: not strict (rule 4: a section twice, or out of order)");
    assert_eq!(wasm::parse_strict(b"").unwrap_err().rule(), None);
    let size = |number: &[u8]| said(&[HEADER, b"\x02", number].concat());
    assert_eq!(size(&[&[0x80; 10][..], b"\0"].concat()), "refused 17 at 9: a number of more than ten bytes (offset 9, 0x9)");
    assert_eq!(size(&[&[0xff; 9][..], b"\x02"].concat()), "refused 18 at 9: a number whose tenth byte is too large (offset 9, 0x9)");
    assert_eq!(size(b"\x80\x80\x80\x80\x10"), "refused 19 at 14: a number above 4,294,967,295 (offset 14, 0xe)");
    let bad: Vec<_> = ErrorKind::ALL.iter().filter(|kind| kind.is_bad_leb128()).map(|kind| kind.number()).collect();
    assert_eq!(bad, [17, 18, 19]);
    assert_eq!(Policy::parse("x").unwrap_err().to_string(), "refused 6 at 1: a line that is no directive (line 1)");
    let refusal: Box<dyn std::error::Error> = Box::new(Policy::parse("x").unwrap_err());
    assert!(refusal.downcast_ref::<Refusal>().is_some_and(|refusal| refusal.kind() == ErrorKind::Directive));
}
