//! The command, run as a person or a program runs it.

mod common;

use std::env;
use std::ffi::{OsStr, OsString};
use std::fs::{self, File};
use std::io::Write;
use std::os::unix::ffi::OsStrExt;
use std::os::unix::fs::symlink;
use std::path::{Path, PathBuf};
use std::process::{Command, Output, Stdio};

use common::{bomb, bytes, damaged, every, folder, long, module, samples};
use viscrombal::policy::{Domain, Policy};
use viscrombal::LONGEST_MODULE;

/// What a run left.
struct Ran {
    status: i32,
    out: String,
    err: String,
}

/// The command; on another processor by the runner that cargo was given for x86-64.
fn command() -> Command {
    let program = env!("CARGO_BIN_EXE_viscrombal-host");
    match env::var_os("CARGO_TARGET_X86_64_UNKNOWN_LINUX_GNU_RUNNER") {
        None => Command::new(program),
        Some(runner) => {
            let mut command = Command::new(runner);
            command.arg(program);
            command
        }
    }
}

fn run(command: &mut Command) -> Ran {
    ran(command.output().unwrap())
}

fn ran(output: Output) -> Ran {
    let text = |bytes| String::from_utf8(bytes).expect("the command writes text");
    let status = output.status.code().expect("a signal ended it");
    Ran { status, out: text(output.stdout), err: text(output.stderr) }
}

/// The same with these bytes on standard input.
fn run_with(command: &mut Command, input: &[u8]) -> Ran {
    let mut child = command.stdin(Stdio::piped()).stdout(Stdio::piped()).stderr(Stdio::piped()).spawn().unwrap();
    // a command that stops before it has read them closes the pipe
    let _ = child.stdin.take().unwrap().write_all(input);
    ran(child.wait_with_output().unwrap())
}

fn check(files: &[OsString], policy: &OsStr, options: &[&str]) -> Ran {
    run(command().arg("check").args(files).arg("--policy").arg(policy).args(options))
}

fn compare(baseline: &OsStr, candidate: &OsStr, options: &[&str]) -> Ran {
    run(command().arg("compare").arg(baseline).arg(candidate).args(options))
}

fn chain(builds: &[OsString], policy: &OsStr, options: &[&str]) -> Ran {
    run(command().arg("chain").args(builds).arg("--policy").arg(policy).args(options))
}

/// A new folder for the files of one test.
fn place(test: &str) -> PathBuf {
    let place = Path::new(env!("CARGO_TARGET_TMPDIR")).join(test);
    let _ = fs::remove_dir_all(&place);
    fs::create_dir_all(&place).unwrap();
    place
}

fn write(place: &Path, name: impl AsRef<OsStr>, bytes: &[u8]) -> OsString {
    let path = place.join(name.as_ref());
    fs::write(&path, bytes).unwrap();
    path.into()
}

fn of_sample(name: &str) -> OsString {
    folder().join(name).into()
}

/// Whether a line is one JSON value in ASCII; RFC 8259, no more.
fn is_json(line: &str) -> bool {
    fn value(s: &[u8]) -> Option<&[u8]> {
        match s.first()? {
            b'{' => list(&s[1..], b'}', |s| value(string(s)?.strip_prefix(b":")?)),
            b'[' => list(&s[1..], b']', value),
            b'"' => string(s),
            b't' => s.strip_prefix(b"true"),
            b'f' => s.strip_prefix(b"false"),
            _ => match s.iter().take_while(|b| b.is_ascii_digit()).count() {
                0 => None,
                digits => Some(&s[digits..]),
            },
        }
    }
    fn list(mut s: &[u8], end: u8, item: fn(&[u8]) -> Option<&[u8]>) -> Option<&[u8]> {
        if *s.first()? == end {
            return Some(&s[1..]);
        }
        loop {
            s = item(s)?;
            match s.first()? {
                b',' => s = &s[1..],
                b if *b == end => return Some(&s[1..]),
                _ => return None,
            }
        }
    }
    fn string(s: &[u8]) -> Option<&[u8]> {
        let mut s = s.strip_prefix(b"\"")?;
        loop {
            match s.first()? {
                b'"' => return Some(&s[1..]),
                b'\\' if s.get(1) == Some(&b'u') => {
                    s.get(2..6)?.iter().all(u8::is_ascii_hexdigit).then_some(())?;
                    s = &s[6..];
                }
                b'\\' => {
                    br#""\/bfnrt"#.contains(s.get(1)?).then_some(())?;
                    s = &s[2..];
                }
                b' '..=b'~' => s = &s[1..],
                _ => return None,
            }
        }
    }
    value(line.as_bytes()) == Some(b"")
}

/// The lines, each of them an object.
fn objects(out: &str) -> Vec<&str> {
    let lines: Vec<_> = out.lines().collect();
    for line in &lines {
        assert!(line.starts_with('{') && is_json(line), "{line}");
    }
    lines
}

/// No byte that a terminal would obey but LF.
fn is_plain(out: &str) -> bool {
    out.chars().all(|c| c == '\n' || !c.is_control())
}

#[test]
fn statuses_of_a_check() {
    let of = |name: &str, policy: &str| check(&[of_sample(name)], &of_sample(policy), &[]).status;
    assert_eq!(of("tide.wasm", "portal.policy"), 0);
    assert_eq!(of("feed.wasm", "portal.policy"), 1);
    assert_eq!(of("legend.wasm", "open.policy"), 0);
    assert_eq!(of("legend.wasm", "guarded.policy"), 1);
    assert_eq!(of("no.wasm", "portal.policy"), 2);
    assert_eq!(of("README.md", "portal.policy"), 2);
    assert_eq!(of("tide.wasm", "no.policy"), 2);
    assert_eq!(of("tide.wasm", "tide.wasm"), 2);
    let mixed = [of_sample("feed.wasm"), of_sample("README.md"), of_sample("tide.wasm")];
    assert_eq!(check(&mixed, &of_sample("portal.policy"), &[]).status, 2, "the worst of all");
}

#[test]
fn a_table_of_all_samples() {
    let files: Vec<_> = samples(".wasm").iter().map(|(name, _)| of_sample(name)).collect();
    let ran = check(&files, &of_sample("portal.policy"), &[]);
    assert_eq!((ran.status, ran.err.as_str()), (1, ""), "no progress where there is no terminal");
    assert!(ran.out.starts_with("policy portal (") && is_plain(&ran.out));
    assert!(ran.out.ends_with("\n10 files: 5 compliant, 5 not compliant, 0 refused, 0 not readable\n"), "{}", ran.out);
    assert!(ran.out.contains("feed.wasm: network is not allowed: imports sock_open from wasi_snapshot_preview1\n"));
}

#[test]
fn an_object_for_each_sample() {
    let files: Vec<_> = samples(".wasm").iter().map(|(name, _)| of_sample(name)).collect();
    let ran = check(&files, &of_sample("portal.policy"), &["--json"]);
    let lines = objects(&ran.out);
    assert_eq!((ran.status, lines.len()), (1, 10));
    for (line, file) in lines.iter().zip(&files) {
        assert!(line.starts_with(&format!("{{\"file\":\"{}\",", file.to_str().unwrap())), "in the order of the words");
    }
    assert!(lines[3].contains(r#""answer":"not compliant","bytes":568,"compliant":false,"violations":["network"],"#));
    assert!(lines[3].contains(r#"{"domain":"network","required":true,"allowed":false,"many":3}"#));
    let needs = r#""needs":[{"domain":"network","source":"wasi_snapshot_preview1","detail":"sock_open"}],"strict":false}"#;
    assert!(lines[3].ends_with(needs), "{}", lines[3]);
}

#[test]
fn a_strict_check() {
    let files: Vec<_> = samples(".wasm").iter().map(|(name, _)| of_sample(name)).collect();
    let ran = check(&files, &of_sample("portal.policy"), &["--strict"]);
    assert_eq!((ran.status, ran.err.as_str()), (2, ""));
    assert!(ran.out.ends_with("\n10 files, read strictly: 4 compliant, 5 not compliant, 1 refused, 0 not readable\n"), "{}", ran.out);
    let told = ran.out.lines().find(|line| line.contains("/gauge-1.wasm ")).unwrap();
    assert!(told.ends_with("  refused 20 at 4: not strict (rule 4: a section twice, or out of order)"), "{told}");
    let ran = check(&files, &of_sample("portal.policy"), &["--strict", "--json"]);
    for (line, file) in objects(&ran.out).iter().zip(&files) {
        let clean = !file.to_str().unwrap().ends_with("/gauge-1.wasm");
        let refusal = r#""answer":"refused","number":20,"place":4,"rule":4,"refusal":"not-strict","words":"refused 20 at 4: "#;
        assert_eq!((line.ends_with(r#","strict":true}"#), line.contains(refusal)), (clean, !clean), "{line}");
    }
    let status = |name: &str, options: &[&str]| check(&[of_sample(name)], &of_sample("portal.policy"), options).status;
    assert_eq!(["gauge-1.wasm", "gauge-2.wasm", "tide.wasm"].map(|name| status(name, &["--strict"])), [2, 1, 0]);
    assert_eq!(["gauge-1.wasm", "gauge-2.wasm", "tide.wasm"].map(|name| status(name, &[])), [0, 1, 0]);
}

/// Each of the eight rules, and a plain refusal, in words and as an object.
#[test]
fn every_rule_is_told() {
    let place = place("rules");
    let cases = [
        ("00 61 73 6d 02 00 00 00", "rule 1: a version other than 1"),
        ("H 01 80 80 80 80 80 00", "rule 2: a number in more than five bytes"),
        ("H 0d 00", "rule 3: a section id above 12"),
        ("H 03 00 01 00", "rule 4: a section twice, or out of order"),
        ("H 02 02 00 00", "rule 5: unused bytes in an import or export section"),
        ("H 07 07 02 00 00 00 00 00 00", "rule 6: two exports of one name"),
        ("H 07 05 01 01 65 04 00", "rule 7: an export of unknown kind"),
        ("H 02 08 01 01 6d 01 66 03 7f 02", "rule 8: a limits flag or a mutability other than 0 and 1"),
    ];
    for (rule, (input, words)) in (1..).zip(cases) {
        let file = write(&place, format!("{rule}.wasm"), &bytes(input));
        let ran = check(&[file.clone()], &of_sample("open.policy"), &["--strict"]);
        assert!(ran.status == 2 && ran.out.contains(&format!(" refused 20 at {rule}: not strict ({words})\n")), "{}", ran.out);
        let ran = check(&[file.clone()], &of_sample("open.policy"), &["--strict", "--json"]);
        assert!(ran.status == 2 && ran.out.contains(&format!(r#""number":20,"place":{rule},"rule":{rule},"#)), "{}", ran.out);
        assert_eq!(check(&[file], &of_sample("open.policy"), &[]).status, 0, "the plain reader takes it");
    }
    let cut = write(&place, "cut.wasm", &bytes("H 0d"));
    let ran = check(&[cut], &of_sample("open.policy"), &["--strict", "--json"]);
    assert!(ran.out.contains(r#""number":1,"place":9,"offset":9,"refusal":"#) && !ran.out.contains("\"rule\":"), "{}", ran.out);
}

#[test]
fn strict_comparisons_and_chains() {
    let (one, three, apart) = (of_sample("contours-1.wasm"), of_sample("contours-3.wasm"), of_sample("gauge-1.wasm"));
    let portal = of_sample("portal.policy");
    let words = "refused 20 at 4: not strict (rule 4: a section twice, or out of order)";
    let ran = compare(&one, &three, &["--strict"]);
    assert_eq!((ran.status, ran.out.matches("  read strictly\n").count()), (0, 2), "{}", ran.out);
    assert!(compare(&one, &three, &["--strict", "--json"]).out.ends_with(",\"strict\":true}\n"));
    assert!(compare(&one, &three, &["--json"]).out.ends_with(",\"strict\":false}\n"));
    let ran = compare(&apart, &one, &["--strict"]);
    assert_eq!((ran.status, ran.out), (2, format!("baseline {}: {words}\n", apart.to_str().unwrap())));
    let ran = compare(&one, &apart, &["--strict"]);
    assert_eq!((ran.status, ran.out), (2, format!("candidate {}: {words}\n", apart.to_str().unwrap())));
    let ran = chain(&[one.clone(), three.clone()], &portal, &["--strict"]);
    assert!(ran.status == 0 && ran.out.contains("\n  asked    strict    every build is read strictly\n"), "{}", ran.out);
    assert!(chain(&[one.clone(), three.clone()], &portal, &["--strict", "--json"]).out.ends_with(",\"strict\":true}\n"));
    for builds in [[apart.clone(), one.clone(), three.clone()], [one.clone(), apart.clone(), three.clone()], [one, three, apart.clone()]] {
        let ran = chain(&builds, &portal, &["--strict"]);
        assert!(ran.status == 2 && ran.out.ends_with(&format!("build {}: {words}\n", apart.to_str().unwrap())), "{}", ran.out);
    }
}

#[test]
fn bytes_are_located() {
    let place = place("located");
    let file = write(&place, "kind.wasm", &bytes("H 02 06 01 01 6d 01 66 04"));
    let locate = |offset: &str, options: &[&str]| run(command().arg("locate").arg(&file).arg(offset).args(options));
    let words = "offset 15, 0xf, byte 0x04: section 1 (import), import 1 of 1, its kind";
    for offset in ["15", "0xf"] {
        let ran = locate(offset, &[]);
        assert_eq!((ran.status, ran.out), (0, format!("{}: {words}\n", file.to_str().unwrap())));
    }
    let ran = locate("0", &["--json"]);
    let told = r#","answer":"located","offset":0,"byte":0,"where":["the magic"]}"#;
    assert!(ran.status == 0 && ran.out.trim_end().ends_with(told), "{}", ran.out);
    assert!(locate("16", &[]).out.contains("offset 16, 0x10, the end of the file: past the first fault, which is at offset 15, 0xf"));
    assert_eq!((locate("17", &[]).status, locate("x", &[]).status), (1, 64));
    // under a refusal, where it is asked for
    let policy = of_sample("open.policy");
    let ran = check(&[file.clone()], &policy, &["--explain"]);
    assert!(ran.status == 2 && ran.out.contains(&format!("kind.wasm: {words}\n")), "{}", ran.out);
    let ran = check(&[file.clone()], &policy, &["--explain", "--json"]);
    let told = r#""number":5,"place":4,"offset":15,"refusal":"malformed-section""#;
    assert!(ran.out.contains(told), "{}", ran.out);
    assert!(ran.out.contains(r#","byte":4,"where":["section 1 (import)","import 1 of 1","its kind"]}"#), "{}", ran.out);
    assert!(!check(&[file.clone()], &policy, &[]).out.contains("import 1 of 1"));
    let ran = compare(&file, &file, &["--explain"]);
    assert!(ran.status == 2 && ran.out.ends_with(&format!("kind.wasm: {words}\n")), "{}", ran.out);
}

fn imports(files: &[OsString], options: &[&str]) -> Ran {
    run(command().current_dir(folder()).arg("imports").args(files).args(options))
}

#[test]
fn what_imports_ask_for() {
    let ran = imports(&["legend.wasm".into(), "relief.wasm".into()], &[]);
    let want = "\
file         module  field                      kind    asks for
legend.wasm  env     memory                     memory  2 or more pages, 131,072 or more bytes
legend.wasm  portal  draw_label                 func    type 0
relief.wasm  env     memory                     memory  10 to 16 pages, 655,360 to 1,048,576 bytes
relief.wasm  env     __indirect_function_table  table   1 or more entries of funcref
relief.wasm  portal  pen                        func    type 1

a sandbox must hold  memories  bytes                 tables  entries
legend.wasm          1         131,072 or more       -       -
relief.wasm          1         655,360 to 1,048,576  1       1 or more
in all               2         786,432 or more       1       1 or more

2 files: 2 read, 0 refused, 0 not readable
";
    assert_eq!((ran.status, ran.out.as_str(), ran.err.as_str()), (0, want, ""));
    let ran = imports(&["relief.wasm".into(), "legend.wasm".into()], &["--json"]);
    let lines = objects(&ran.out);
    let memory =
        r#"{"module":"env","field":"memory","kind":"memory","flag":1,"least":10,"most":16,"least_bytes":655360,"most_bytes":1048576}"#;
    let table = r#"{"module":"env","field":"__indirect_function_table","kind":"table","element":112,"flag":0,"least":1}"#;
    let func = r#"{"module":"portal","field":"pen","kind":"func","type_index":1}"#;
    let sums = r#""memories":1,"least_bytes":655360,"most_bytes":1048576,"tables":1,"least_entries":1,"strict":false"#;
    let want = format!(r#"{{"file":"relief.wasm","answer":"read","imports":[{memory},{table},{func}],{sums}}}"#);
    assert_eq!((ran.status, lines.len(), lines[0]), (0, 3, want.as_str()));
    let all = r#"{"answer":"in all","files":2,"memories":2,"least_bytes":786432,"tables":1,"least_entries":1}"#;
    assert_eq!(lines[2], all, "no most in all, since one has none");
}

/// One import of each kind and odd numbers; what it comes to; and files that have none, or are not read.
#[test]
fn what_odd_imports_ask_for() {
    let place = place("imports");
    let words = "H 02 36 08 00 00 00 07 00 00 01 70 01 02 02 00 00 01 05 03 00 00 00 00 02 01 01 01 00 00 02 07 00 80 02 \
                 00 00 03 7e 00 00 00 03 7b 01 00 00 03 40 02";
    let file = bytes(words);
    let file = [&file[..9], &[file.len() as u8 - 10], &file[10..]].concat();
    let odd = write(&place, "odd.wasm", &file);
    let ran = imports(&[odd], &[]);
    let asks: Vec<_> = ran.out.lines().skip(1).take(8).map(|line| line.rsplit_once("\"\"").unwrap().1.trim_start()).collect();
    let want = [
        "func    type 7",
        "table   2 entries of funcref",
        "table   0 entries of type 0x05, flag 0x03",
        "memory  1 page, 65,536 bytes",
        "memory  0 to 256 pages, 0 to 16,777,216 bytes, flag 0x07",
        "global  i64, constant",
        "global  v128, mutable",
        "global  type 0x40, mutability 0x02",
    ];
    assert_eq!(asks, want, "{}", ran.out);
    assert!(ran.status == 0 && ran.out.contains(" 2         65,536 to 16,842,752  2       2\n"), "{}", ran.out);
    let files = [of_sample("README.md"), write(&place, "none.wasm", &bytes("H")), place.join("no.wasm").into()];
    let ran = imports(&files, &["--explain"]);
    assert!(ran.status == 2 && ran.out.ends_with("\n3 files: 1 read, 1 refused, 1 not readable\n"), "{}", ran.out);
    assert!(ran.out.contains("none.wasm") && ran.out.contains(" nothing\n") && ran.out.contains("byte 0x23: the magic"), "{}", ran.out);
    let ran = imports(&files, &["--json"]);
    let lines = objects(&ran.out);
    assert_eq!((ran.status, lines.len()), (2, 4));
    assert!(lines[0].contains(r#""answer":"refused","number":2,"#) && lines[2].contains(r#""answer":"cannot be read","os_error":2"#));
    assert!(lines[1].contains(r#""imports":[],"memories":0,"least_bytes":0,"most_bytes":0,"tables":0,"least_entries":0,"most_entries":0"#));
    assert!(lines[3].starts_with(r#"{"answer":"in all","files":3,"memories":0,"least_bytes":0,"most_bytes":0,"#), "{}", lines[3]);
    // strictly, and every module below a folder
    let ran = imports(&["gauge-1.wasm".into()], &["--strict"]);
    assert!(ran.status == 2 && ran.out.contains("refused 20 at 4: "), "{}", ran.out);
    let ran = imports(&[place.clone().into()], &["--recursive"]);
    assert!(ran.status == 0 && ran.out.ends_with("\n2 files: 2 read, 0 refused, 0 not readable\n"), "{}", ran.out);
    let evil = write(&place, "evil.wasm", &module(&[("x\nin all\r\u{1b}[2K\u{202e}", "\u{5d0}")], &[("", 0); 0], &[""; 0]));
    for options in [&[][..], &["--json"]] {
        let ran = imports(&[evil.clone()], options);
        assert!(ran.status == 0 && is_plain(&ran.out) && !ran.out.contains(['\u{202e}', '\u{5d0}']), "{}", ran.out);
    }
}

/// Every sample, and copies of each that are cut or changed: an answer with a number, or a verdict.
#[test]
fn damaged_copies() {
    let place = place("damaged");
    let mut files = Vec::new();
    for (name, whole) in samples(".wasm") {
        files.push(of_sample(&name));
        let copies = damaged(&whole).enumerate().step_by(37);
        files.extend(copies.map(|(i, copy)| write(&place, format!("{i}-{name}"), &copy)));
    }
    assert!(files.len() > 200, "{}", files.len());
    let ran = check(&files, &of_sample("portal.policy"), &["--json"]);
    let lines = objects(&ran.out);
    assert_eq!((ran.status, ran.err.as_str(), lines.len()), (2, "", files.len()));
    let refused = lines.iter().filter(|line| line.contains("\"answer\":\"refused\",\"number\":")).count();
    let checked = lines.iter().filter(|line| line.contains("\"compliant\":")).count();
    assert_eq!(refused + checked, files.len());
    assert!(refused > 100 && checked > 50, "{refused} refused, {checked} checked");
    let ran = check(&files, &of_sample("portal.policy"), &[]);
    assert!(is_plain(&ran.out) && ran.out.contains(&format!(", {refused} refused, 0 not readable\n")), "{}", ran.out);
}

#[test]
fn hostile_files() {
    let place = place("hostile");
    let sparse = place.join("sparse.wasm");
    File::create(&sparse).unwrap().set_len(1 << 40).unwrap();
    let cases = [
        (write(&place, "empty.wasm", b""), r#""answer":"refused","number":1,"place":0"#),
        (write(&place, "long.wasm", &long(LONGEST_MODULE + 1)), r#""answer":"refused","number":14,"place":0"#),
        (write(&place, "longest.wasm", &long(LONGEST_MODULE)), r#""answer":"compliant","bytes":16777216"#),
        (sparse.into(), r#""answer":"refused","number":14,"place":0"#),
        (write(&place, "bomb.wasm", &bomb()), r#""answer":"refused","number":1,"place":15,"offset":15"#),
        ("/dev/zero".into(), r#""answer":"refused","number":14,"place":0"#),
        ("/dev/null".into(), r#""answer":"refused","number":1,"place":0"#),
        (place.clone().into(), r#""answer":"cannot be read","os_error":21"#),
        (place.join("none.wasm").into(), r#""answer":"cannot be read","os_error":2"#),
        ("/proc/self/mem".into(), r#""answer":"cannot be read","os_error":5"#),
        ("".into(), r#""answer":"cannot be read","os_error":2"#),
    ];
    let files = cases.clone().map(|(file, _)| file);
    let ran = check(&files, &of_sample("portal.policy"), &["--json"]);
    let lines = objects(&ran.out);
    assert_eq!((ran.status, ran.err.as_str(), lines.len()), (2, "", cases.len()));
    for (line, (_, want)) in lines.iter().zip(&cases) {
        assert!(line.contains(want), "{line}");
    }
    let one = of_sample("tide.wasm");
    for (file, want) in cases {
        let refused = want.contains("number") || want.contains("os_error");
        for ran in [
            compare(&one, &file, &["--json"]),
            compare(&file, &one, &["--json"]),
            chain(&[one.clone(), file.clone()], &of_sample("portal.policy"), &["--json"]),
        ] {
            assert_eq!(ran.status == 2, refused, "{}", ran.out);
            assert!(!refused || objects(&ran.out).last().unwrap().contains(want), "{}", ran.out);
        }
    }
}

#[test]
fn hostile_policies() {
    let place = place("policies");
    let cases = [
        (write(&place, "directive", b"allow fs\nbogus"), "refused 6 at 2: a line that is no directive (line 2)"),
        (write(&place, "default", b"default maybe"), "refused 7 at 1: a default that is neither allow nor deny (line 1)"),
        (write(&place, "domain", b"allow gpu"), "refused 8 at 1: no such domain (line 1)"),
        (write(&place, "bytes", b"allow fs\n\xff"), "refused 4 at 9: not well-formed UTF-8 (offset 9)"),
        (write(&place, "long", &[b'#'; 65_537]), "refused 14 at 0: longer than is read"),
        (place.join("none").into(), "cannot be read: No such file or directory (os error 2)"),
        (place.clone().into(), "cannot be read: Is a directory (os error 21)"),
    ];
    for (policy, want) in &cases {
        let want = format!("policy {}: {want}\n", policy.to_str().unwrap());
        let files = [of_sample("tide.wasm"), of_sample("feed.wasm")];
        for ran in [check(&files, policy, &[]), chain(&files, policy, &[])] {
            assert_eq!((ran.status, &ran.out), (2, &want), "no module is held against it");
        }
        objects(&check(&files, policy, &["--json"]).out);
    }
}

/// Names of files and names in files that would forge a line or move the cursor.
#[test]
fn names_cannot_forge_a_line() {
    let place = place("names");
    let evil = "x\nall.wasm can stand in\r\u{1b}[2K\u{202e}\u{2028}\u{7f}\u{85}\"\\\u{5d0}\u{661}";
    let old = write(&place, OsStr::from_bytes(b"old\xff\n.wasm"), &module(&[("a", "b")], &[(evil, 0)], &[""; 0]));
    let new = write(&place, format!("{}.wasm", &evil[..20].replace('/', "")), &module(&[(evil, evil)], &[("e", 0)], &[""; 0]));
    let policy = write(&place, "p\n.policy", format!("policy {}", evil.replace('\n', " ")).as_bytes());
    let both = [old.clone(), new.clone()];
    for ran in [compare(&old, &new, &[]), check(&both, &policy, &[]), chain(&both, &policy, &[])] {
        assert_eq!(ran.status, 1);
        assert!(is_plain(&ran.out) && !ran.out.contains(['\u{202e}', '\u{2028}', '\u{5d0}', '\u{661}']), "{}", ran.out);
        assert!(ran.out.lines().all(|line| !line.starts_with("all.wasm")), "{}", ran.out);
        assert!(ran.out.contains(r"\xff\n.wasm"), "{}", ran.out);
    }
    let lines = [compare(&old, &new, &["--json"]), check(&both, &policy, &["--json"]), chain(&both, &policy, &["--json"])];
    assert_eq!(lines.map(|ran| objects(&ran.out).len()), [1, 2, 2]);
    let told = compare(&old, &new, &["--json"]).out;
    assert!(told.contains(r#""name":"x\u000aall.wasm can stand in\u000d\u001b[2K\u202e\u2028\u007f\u0085\"\\\u05d0\u0661""#), "{told}");
    assert!(told.contains(r"old\ufffd\u000a.wasm") && told.contains("ff0a2e7761736d\""), "{told}");
}

#[test]
fn a_long_list_of_sources_is_cut() {
    let place = place("sources");
    let sources: Vec<String> = (0..1024).map(|n| format!("m{n:04}")).collect();
    let imports: Vec<_> = sources.iter().map(|source| (source, "f")).collect();
    let files = [write(&place, "many.wasm", &module(&imports, &[("", 0); 0], &[""; 0]))];
    let ran = check(&files, &of_sample("portal.policy"), &[]);
    assert_eq!((ran.status, ran.out.matches("unknown is not allowed: imports f from m").count()), (1, 8), "{}", ran.out);
    assert!(ran.out.contains("many.wasm: and 1,016 more\n") && ran.out.contains("  1,024 !  not compliant\n"), "{}", ran.out);
    assert_eq!(check(&files, &of_sample("portal.policy"), &["--json"]).out.matches("\"source\":\"m").count(), 1024);
}

#[test]
fn what_a_comparison_prints() {
    let (one, two, three) = (of_sample("contours-1.wasm"), of_sample("contours-2.wasm"), of_sample("contours-3.wasm"));
    let ran = compare(&one, &two, &[]);
    assert_eq!((ran.status, ran.err.as_str()), (1, ""));
    let lines: Vec<_> = ran.out.lines().collect();
    assert_eq!(lines[3], "removed  export scale (func)                                     breaks");
    assert_eq!(lines[5], "added    need of network via wasi_snapshot_preview1 (sock_recv)  breaks");
    assert!(lines[7].contains(" cannot stand in for ") && lines[7].ends_with(": 2 reasons"));
    let ran = compare(&one, &three, &["--json"]);
    assert_eq!((ran.status, objects(&ran.out).len()), (0, 1));
    assert!(ran.out.contains(r#""answer":"stands in","compatible":true,"exports":[{"change":"added","name":"version","kind":"func"}]"#));
}

#[test]
fn what_a_chain_gives() {
    let builds = |numbers: &[usize]| numbers.iter().map(|n| of_sample(&format!("contours-{n}.wasm"))).collect::<Vec<_>>();
    let portal = of_sample("portal.policy");
    let given = |ran: &Ran| {
        let lines = ran.out.lines().filter_map(|line| line.trim_start().strip_prefix("theorem  "));
        lines.map(|line| line.split(' ').next().unwrap().to_string()).collect::<Vec<_>>()
    };
    let unbroken = chain(&builds(&[1, 3, 3]), &portal, &[]);
    assert_eq!((unbroken.status, given(&unbroken)), (0, ["series", "policies", "checks"].map(Into::into).to_vec()), "{}", unbroken.out);
    let broken = chain(&builds(&[1, 2, 3]), &portal, &[]);
    assert_eq!((broken.status, given(&broken)), (1, vec![]), "{}", broken.out);
    assert!(broken.out.contains("the chain is broken: the theorem gives nothing"), "{}", broken.out);
    let denied = chain(&builds(&[2, 2]), &portal, &[]);
    assert_eq!((denied.status, given(&denied)), (1, ["series", "policies"].map(Into::into).to_vec()), "{}", denied.out);
    let told = chain(&builds(&[1, 3]), &portal, &["--json"]);
    let lines = objects(&told.out);
    assert!(lines[0].starts_with(r#"{"step":1,"#) && lines[0].contains(r#""compatible":true"#));
    let end = r#""answer":"unbroken","unbroken":true,"theorem":["series","policies","checks"],"last_stands_in":true,"#;
    let last = r#""first_compliant":true,"last_compliant":true,"strict":false}"#;
    assert!(lines[1].contains(end) && lines[1].ends_with(last), "{}", lines[1]);
    let refused = chain(&[builds(&[1]), vec![of_sample("README.md")]].concat(), &portal, &[]);
    assert!(refused.status == 2 && refused.out.ends_with("README.md: refused 2 at 0: not a WebAssembly module (offset 0, 0x0)\n"));
}

#[test]
fn wrong_words() {
    for words in [&[][..], &["check"], &["check", "a"], &["compare", "a"], &["chain", "a", "--policy", "p"], &["check", "--json=1"]] {
        let ran = run(command().args(words));
        assert_eq!((ran.status, ran.out.as_str()), (64, ""), "{words:?}");
        assert!(ran.err.starts_with("viscrombal-host: ") && ran.err.contains("usage:"), "{}", ran.err);
    }
    assert_eq!(run(command().arg("--help")).status, 0);
    assert_eq!(check(&[of_sample("no.wasm")], &of_sample("portal.policy"), &[]).status, 2, "a file is no word");
}

#[test]
fn what_was_built() {
    let ran = run(command().arg("--version"));
    let lines: Vec<_> = ran.out.lines().collect();
    let [name, interface, kit, archive] = lines[..] else { panic!("{}", ran.out) };
    assert_eq!((ran.status, ran.err.as_str()), (0, ""));
    assert_eq!(name, concat!("viscrombal-host ", env!("CARGO_PKG_VERSION")));
    assert_eq!(interface, format!("interface {}", viscrombal::INTERFACE));
    assert!(kit.len() > "kit ".len() && kit.starts_with("kit "), "{kit}");
    // build.rs sums the archive that it links; that is held to sha256sum
    let folder = env::var("VISCROMBAL_ARCHIVE").unwrap_or_else(|_| "../target/staticlib".into());
    let file = Path::new(env!("CARGO_MANIFEST_DIR")).join(folder).join("libcapi.a");
    let sum = Command::new("sha256sum").arg(file).output().unwrap().stdout;
    assert_eq!(archive, format!("archive {}", String::from_utf8_lossy(&sum[..64])));
}

#[test]
fn the_policy_is_named() {
    let portal = of_sample("portal.policy");
    let sum = "39a571d0eb909650abed8e2b15078782c4910cf0609b8543d86fc72d9e5f940a";
    let named = format!(r#""policy":"{}","policy_name":"portal","policy_sum":"{sum}","#, portal.to_str().unwrap());
    let files = [of_sample("tide.wasm"), of_sample("README.md"), of_sample("no.wasm")];
    for line in objects(&check(&files, &portal, &["--json"]).out) {
        assert!(line.contains(&named), "{line}");
    }
    let ran = chain(&[of_sample("contours-1.wasm"), of_sample("contours-3.wasm")], &portal, &["--json"]);
    assert!(objects(&ran.out)[1].contains(&named), "{}", ran.out);
    let text = fs::read(&portal).unwrap();
    let ran = run_with(command().args(["check", "--json", "--policy", "-"]).arg(of_sample("tide.wasm")), &text);
    assert!(ran.status == 0 && ran.out.contains(&format!(r#""policy":"-","policy_name":"portal","policy_sum":"{sum}","#)), "{}", ran.out);
}

#[test]
fn standard_input() {
    let portal = of_sample("portal.policy");
    let (tide, feed) = (fs::read(of_sample("tide.wasm")).unwrap(), fs::read(of_sample("feed.wasm")).unwrap());
    let check = |input: &[u8]| run_with(command().args(["check", "-", "--json", "--policy"]).arg(&portal), input);
    for (input, status, told) in [
        (&tide[..], 0, r#"{"file":"-","#),
        (&feed, 1, r#""answer":"not compliant","bytes":568,"#),
        (&[], 2, r#""answer":"refused","number":1,"place":0,"#),
        (&tide[..9], 2, r#""answer":"refused","number":1,"place":9,"#),
        (&long(LONGEST_MODULE + 1), 2, r#""answer":"refused","number":14,"#),
    ] {
        let ran = check(input);
        assert!(ran.status == status && ran.out.contains(told), "{} {}", ran.status, ran.out);
    }
    let ran = run_with(command().arg("compare").arg("-").arg(of_sample("tide.wasm")), &tide);
    assert!(ran.status == 0 && ran.out.contains("baseline   -  "), "{}", ran.out);
    let ran = run_with(command().args(["chain", "-"]).args([of_sample("contours-3.wasm"), "--policy".into(), portal]), &tide);
    assert!(ran.status == 1 && ran.out.contains(" cannot stand in for -: "), "{}", ran.out);
    let place = place("dash");
    write(&place, "-", &tide);
    let words = [OsStr::new("check"), OsStr::new("--policy"), &of_sample("portal.policy"), OsStr::new("--"), OsStr::new("-")];
    assert_eq!(run_with(command().current_dir(&place).args(words), &feed).status, 0, "after -- it is the file of that name");
}

/// A folder that goes when the test ends, however it ends: rt refuses a repository with a link in it.
struct Gone(PathBuf);

impl Drop for Gone {
    fn drop(&mut self) {
        let _ = fs::remove_dir_all(&self.0);
    }
}

#[test]
fn a_folder_is_walked() {
    let place = place("folder");
    let _gone = Gone(place.clone());
    let (tide, feed) = (fs::read(of_sample("tide.wasm")).unwrap(), fs::read(of_sample("feed.wasm")).unwrap());
    let below = place.join("b").join("c");
    fs::create_dir_all(&below).unwrap();
    fs::create_dir(place.join("empty")).unwrap();
    for name in ["z.wasm", "a.wasm", "a.wasm.bak", "wasm", "b/c/a.wasm", "b/c/.wasm", "b/c/b.wat"] {
        write(&place, name, &tide);
    }
    write(&place.join("b"), "x.wasm", &feed);
    symlink(&place, place.join("round")).unwrap();
    symlink("nowhere", place.join("lost.wasm")).unwrap();
    symlink(place.join("b"), place.join("b.wasm")).unwrap();
    let files = |ran: &Ran| {
        let files = objects(&ran.out).into_iter().map(|line| line.split('"').nth(3).unwrap().to_string());
        files.map(|file| file.strip_prefix(place.to_str().unwrap()).unwrap().to_string()).collect::<Vec<_>>()
    };
    let all = [place.clone().into(), place.join("empty").into()];
    let ran = check(&all, &of_sample("portal.policy"), &["--recursive", "--json"]);
    assert_eq!(files(&ran), ["/a.wasm", "/b/c/.wasm", "/b/c/a.wasm", "/b/x.wasm", "/lost.wasm", "/z.wasm", "/empty"]);
    let lines = objects(&ran.out);
    assert!(ran.status == 2 && lines[4].contains(r#""os_error":2,"#) && lines[6].contains(r#""os_error":21,"#), "{}", ran.out);
    assert!(lines[3].contains(r#""answer":"not compliant""#) && lines[5].contains(r#""answer":"compliant""#), "{}", ran.out);
    let ran = check(&all[..1], &of_sample("portal.policy"), &["--json"]);
    assert!(ran.status == 2 && ran.out.contains(r#""os_error":21,"#), "a folder is no file: {}", ran.out);
    let file = [of_sample("tide.wasm")];
    assert_eq!(check(&file, &of_sample("portal.policy"), &["--recursive"]).status, 0, "a file stands for itself");
}

#[test]
fn a_closed_pipe_is_told() {
    let files = vec![of_sample("tide.wasm"); 2000];
    let mut command = command();
    command.arg("check").args(&files).arg("--policy").arg(of_sample("portal.policy")).arg("--json");
    let mut child = command.stdout(Stdio::piped()).stderr(Stdio::piped()).spawn().unwrap();
    drop(child.stdout.take());
    let output = child.wait_with_output().unwrap();
    assert_eq!(output.status.code(), Some(2));
    assert_eq!(String::from_utf8_lossy(&output.stderr), "viscrombal-host: cannot write: Broken pipe (os error 32)\n");
}

/// What a chain says of its ends, a line each, with single blanks.
fn between(ran: &Ran) -> Vec<String> {
    let lines = ran.out.lines().filter(|line| line.starts_with("  lost ") || line.starts_with("  gained "));
    lines.map(|line| line.split_whitespace().collect::<Vec<_>>().join(" ")).collect()
}

/// The series of four builds in samples/series, in this order.
fn series(numbers: &[usize]) -> Vec<OsString> {
    numbers.iter().map(|n| of_sample(&format!("series/harbour-{n}.wasm"))).collect()
}

#[test]
fn which_step_it_was() {
    let portal = of_sample("portal.policy");
    let ran = chain(&series(&[1, 2, 3, 4]), &portal, &[]);
    let want = [
        "lost export depth (func) step 2",
        "lost export scale (func) steps 1, 3",
        "gained export units (func) step 1",
        "lost need of fs via wasi_snapshot_preview1 step 2",
        "gained need of clock via wasi_snapshot_preview1 step 2",
    ];
    assert_eq!((ran.status, between(&ran)), (1, want.map(Into::into).to_vec()), "{}", ran.out);
    assert!(ran.out.contains("added    need of network via"), "it came and went, and is no difference: {}", ran.out);
    let told = chain(&series(&[1, 2, 3, 4]), &portal, &["--json"]);
    let want = [
        r#","lost":[{"what":"export","name":"depth","kind":"func","steps":[2]},"#,
        r#"{"what":"export","name":"scale","kind":"func","steps":[1,3]},"#,
        r#"{"what":"need","domain":"fs","source":"wasi_snapshot_preview1","steps":[2]}],"#,
        r#""gained":[{"what":"export","name":"units","kind":"func","steps":[1]},"#,
        r#"{"what":"need","domain":"clock","source":"wasi_snapshot_preview1","steps":[2]}],"#,
    ];
    assert!(objects(&told.out)[3].contains(&want.concat()), "{}", told.out);
    let back = chain(&series(&[4, 3, 2, 1]), &portal, &[]);
    let want = [
        "gained export depth (func) step 2",
        "gained export scale (func) steps 1, 3",
        "lost export units (func) step 3",
        "gained need of fs via wasi_snapshot_preview1 step 2",
        "lost need of clock via wasi_snapshot_preview1 step 2",
    ];
    assert_eq!(between(&back), want, "{}", back.out);
    for same in [[1, 1].as_slice(), &[1, 2, 1], &[2, 4, 3, 2]] {
        let ran = chain(&series(same), &portal, &[]);
        let words = "harbour-N.wasm: nothing lost and nothing gained, each can stand in for the other\n";
        assert!(between(&ran).is_empty() && ran.out.contains(&words.replace('N', &same[0].to_string())), "{}", ran.out);
        assert!(chain(&series(same), &portal, &["--json"]).out.contains(r#","lost":[],"gained":[],"#));
    }
}

/// Series of the four builds in any order, with repeats: each difference of the ends is told, with the steps that made it, and none else.
#[test]
fn every_difference_has_a_step() {
    let export = |name| format!(r#"{{"what":"export","name":"{name}","kind":"func""#);
    let need = |domain| format!(r#"{{"what":"need","domain":"{domain}","source":"wasi_snapshot_preview1""#);
    // each with the builds that have it, as samples/README.md lists them
    let things = [
        (export("depth"), [1, 2].as_slice()),
        (export("scale"), &[1, 3]),
        (export("units"), &[2, 3, 4]),
        (need("fs"), &[1, 2]),
        (need("clock"), &[3, 4]),
        (need("network"), &[2]),
    ];
    let orders = (0..256).map(|n| [n / 64 % 4 + 1, n / 16 % 4 + 1, n / 4 % 4 + 1, n % 4 + 1]);
    for order in orders.step_by(every()) {
        let list = |lost: bool| {
            let mut told = Vec::new();
            for (thing, builds) in &things {
                let changes = |from: usize, to: usize| builds.contains(&order[from]) == lost && builds.contains(&order[to]) != lost;
                if changes(0, 3) {
                    let steps: Vec<_> = (1..4).filter(|&step| changes(step - 1, step)).map(|step| step.to_string()).collect();
                    told.push(format!(r#"{thing},"steps":[{}]}}"#, steps.join(",")));
                }
            }
            told.join(",")
        };
        let ran = chain(&series(&order), &of_sample("portal.policy"), &["--json"]);
        let want = format!(r#","lost":[{}],"gained":[{}],"first_compliant":"#, list(true), list(false));
        assert!(objects(&ran.out)[3].contains(&want), "{order:?}: not {want} in {}", ran.out);
    }
}

/// Series and pairs of builds made here: what an export's kind, a repeat and another function of an old pair come to.
#[test]
fn what_counts_in_a_series() {
    let place = place("series");
    let read = ("wasi_unstable", "fd_read");
    let builds = [
        module(&[read], &[("run", 0), ("scale", 0)], &[""; 0]),
        module(&[read], &[("run", 0)], &[""; 0]),
        module(&[read], &[("run", 0), ("scale", 0)], &[""; 0]),
        module(&[("wasi_unstable", "sock_recv")], &[("run", 0)], &[""; 0]),
        module(&[("", ""); 0], &[("run", 2)], &[""; 0]),
        module(&[read, ("wasi_unstable", "path_open")], &[("scale", 0), ("run", 0), ("run", 0)], &[""; 0]),
        module(&[read], &[("run", 0), ("twice", 0), ("twice", 0)], &[""; 0]),
    ];
    let files: Vec<_> = builds.iter().enumerate().map(|(n, file)| write(&place, format!("b{n}.wasm"), file)).collect();
    let told = |numbers: &[usize]| {
        let files: Vec<_> = numbers.iter().map(|&n| files[n].clone()).collect();
        between(&chain(&files, &of_sample("portal.policy"), &[]))
    };
    let fs = "need of fs via wasi_unstable";
    assert_eq!(told(&[0, 1, 3])[0], "lost export scale (func) step 1");
    let ends = ["lost export run (func) step 2", "gained export run (memory) step 2", "lost export scale (func) step 1"];
    let ends = [ends.map(String::from).as_slice(), &[format!("lost {fs} step 1")]].concat();
    assert_eq!(told(&[0, 3, 4]), ends, "what the second needs was never in the first");
    assert_eq!(told(&[1, 2]), ["gained export scale (func) step 1"], "of two builds the step is the whole");
    let kinds = ["lost export run (func) step 1", "gained export run (memory) step 1", "lost export scale (func) step 1"];
    assert_eq!(told(&[0, 4])[..3], kinds);
    assert_eq!(told(&[0, 1, 2, 1]), ["lost export scale (func) steps 1, 3"]);
    assert_eq!(told(&[1, 6, 6]), ["gained export twice (func) step 1"], "of two rows one line");
    assert!(told(&[0, 5]).is_empty() && told(&[5, 0]).is_empty(), "order, repeats and another function of an old pair");
}

fn order(policy: &OsStr, stricter: &OsStr, options: &[&str]) -> Ran {
    run(command().arg("chain").arg("--policy").arg(policy).arg("--stricter").arg(stricter).args(options))
}

#[test]
fn one_policy_after_another() {
    let (portal, open, guarded) = (of_sample("portal.policy"), of_sample("open.policy"), of_sample("guarded.policy"));
    let name = |path: &OsString| path.to_str().unwrap().to_string();
    let ran = order(&portal, &guarded, &[]);
    assert_eq!((ran.status, ran.err.as_str()), (0, ""));
    let want = format!("\n\n{} allows every domain that {} allows\n", name(&guarded), name(&portal));
    assert!(ran.out.starts_with("policy portal (") && ran.out.contains("\npolicy guarded (") && ran.out.contains(&want), "{}", ran.out);
    let theorem = format!("\n  theorem  texts  whoever passes under {} passes under {}\n", name(&portal), name(&guarded));
    assert!(ran.out.ends_with(&theorem), "{}", ran.out);
    let ran = order(&open, &portal, &[]);
    let want = format!("\n\n{} does not allow env, network, stdio, unknown, which {} allows\n", name(&portal), name(&open));
    assert!(ran.status == 1 && ran.out.contains(&want), "{}", ran.out);
    let theorem = format!("  theorem  apart  a build that needs env alone passes under {}, and not under {}\n", name(&open), name(&portal));
    assert!(ran.out.ends_with(&theorem), "{}", ran.out);
    let told = order(&open, &guarded, &["--json"]);
    assert_eq!((told.status, objects(&told.out).len()), (1, 1));
    let want = r#","answer":"does not follow","follows":false,"denied":["unknown"]}"#;
    assert!(told.out.starts_with(r#"{"policy":"#) && told.out.trim_end().ends_with(want), "{}", told.out);
    assert!(told.out.contains(r#","policy_name":"open","policy_sum":""#), "{}", told.out);
    assert!(told.out.contains(r#","stricter_name":"guarded","stricter_sum":""#), "{}", told.out);
    let told = order(&guarded, &open, &["--json"]).out;
    assert!(told.trim_end().ends_with(r#","answer":"follows","follows":true,"denied":[]}"#), "{told}");
    let ran = run_with(command().args(["chain", "--stricter", "-", "--policy"]).arg(&open), &fs::read(&guarded).unwrap());
    assert!(ran.status == 1 && ran.out.contains("\n- does not allow unknown, which "), "{}", ran.out);
    let missing = of_sample("no.policy");
    for (policy, stricter) in [(&missing, &open), (&open, &missing), (&of_sample("tide.wasm"), &open), (&open, &of_sample("tide.wasm"))] {
        let ran = order(policy, stricter, &[]);
        assert!(ran.status == 2 && ran.out.starts_with("policy ") && ran.out.lines().count() == 1, "{}", ran.out);
        assert_eq!(objects(&order(policy, stricter, &["--json"]).out).len(), 1);
    }
}

/// What is said of two policies, held to checks: of every sample where it follows; where it does not, of a module that needs one domain.
#[test]
fn policies_and_checks_agree() {
    let place = place("order");
    let policies = [
        ("", ""),
        ("default allow", "fs env clock network random stdio unknown"),
        ("allow fs", "fs"),
        ("allow fs\nallow net", "fs network"),
        ("allow fs: a", "fs"),
        ("default allow\ndeny fs", "env clock network random stdio unknown"),
        ("allow env\nallow unknown", "env unknown"),
    ];
    let sources = ["wasi:filesystem", "wasi:cli", "wasi:clocks", "wasi:sockets", "wasi:random", "wasi:io", "wasi:"];
    let files = policies.iter().enumerate().map(|(n, (text, _))| write(&place, n.to_string(), text.as_bytes()));
    let policies: Vec<_> = policies.iter().zip(files).collect();
    let passes = |file: &[u8], text: &str| viscrombal::check(file, &Policy::parse(text).unwrap()).unwrap().is_compliant();
    for ((first, allowed), policy) in &policies {
        for ((second, wider), stricter) in &policies {
            let denied: Vec<_> = allowed.split_whitespace().filter(|domain| !wider.contains(domain)).collect();
            let ran = order(policy, stricter, &["--json"]);
            let list: Vec<_> = denied.iter().map(|domain| format!("\"{domain}\"")).collect();
            assert!(ran.out.contains(&format!(r#""denied":[{}]"#, list.join(","))), "{first} {second}: {}", ran.out);
            assert_eq!(ran.status, i32::from(!denied.is_empty()));
            let apart = |file: &[u8]| passes(file, first) && !passes(file, second);
            assert!(!denied.is_empty() || !samples(".wasm").iter().any(|(_, file)| apart(file)), "{first} {second}");
            for (domain, source) in Domain::EVERY.into_iter().zip(sources) {
                let file = module(&[(source, "f")], &[("", 0); 0], &[""; 0]);
                assert_eq!(apart(&file), denied.contains(&domain.slug()), "{first} {second} {domain}");
            }
        }
    }
}

#[test]
fn json_is_told_from_what_is_none() {
    for good in ["{}", "[]", r#"{"a":[1,true,"\u000a"],"b":{}}"#] {
        assert!(is_json(good), "{good}");
    }
    for bad in ["", "{", "{}x", r#"{"a"}"#, r#""\x""#, r#""\u00g0""#, "\"\n\"", "\"\u{e9}\"", "[1,]"] {
        assert!(!is_json(bad), "{bad}");
    }
}
