//! wit.rs: manifests.
use super::damaged;
use super::policies::BLANKS;
use crate::case::{Call, Case};
use crate::random::Random;
use crate::Court;

const ROOMY: [u64; 2] = [2 * 20, 7 * 30];

fn hear(court: &mut Court, s: &[u8], cells: [u64; 2]) {
    court.hear(Case::new(Call::Manifest, &cells, &[s]));
}

const WORDS: [&str; 13] = ["package ", "world ", "import ", "export ", "}", "{", "a", ":", "\n", " ", "//", "world a\n", "/"];
const NAMES: [&str; 16] =
    ["a", "a b", "{", "a {", "a{{", "{}", "a {}", "", "é", "a//b", "a/b", "wasi:io/streams", "{ a", "a { {", "a\u{3000}{", "a{\u{85}"];
const REFERENCES: [&str; 22] = [
    "wasi:io/streams",
    "a: func()",
    "a:b",
    "a:",
    "a: ",
    "a:\tb",
    "a:\u{c}b",
    "a:\u{b}b",
    "a:\rb",
    "a:\u{85}b",
    "a:\u{a0}b",
    "a::",
    "a:: b",
    "a:b: c",
    ": b",
    ":",
    "a {",
    "a: b {",
    "a:{",
    "",
    "a{:",
    "é: \u{3000}x",
];

fn blanks(r: &mut Random) -> String {
    (0..r.below(3)).map(|_| r.pick(&BLANKS)).collect()
}

fn line(r: &mut Random) -> String {
    let mut out = blanks(r);
    match r.below(12) {
        0 => out += &format!("package {}{}", blanks(r), r.pick(&NAMES)),
        1..=2 => out += &format!("world {}{}", blanks(r), r.pick(&NAMES)),
        3..=4 => out += "}",
        5 => out += r.pick(&["{", "", "// c", "world", "import", "export", "package", "x", "}}", "} {", "world\ta", "/ /"]),
        _ => out += &format!("{}{}{}", r.pick(&["import ", "export "]), blanks(r), r.pick(&REFERENCES)),
    }
    out += &blanks(r);
    if r.one_in(10) {
        out += r.pick(&["// c", "//", "/", "/ /"]);
    }
    out
}

pub fn lines(r: &mut Random) -> String {
    let mut out = if r.one_in(4) { String::new() } else { "world w {\n".into() };
    for _ in 0..r.below(9) {
        out += &line(r);
        out += r.pick(&["\n", "\n", "\n", "\r\n", "\n\n", "\r\r\n", "\r"]);
    }
    if r.one_in(3) {
        out += &line(r);
    }
    out
}

/// Tables of a few rows, and now and then with cells that make no row.
fn small(r: &mut Random) -> [u64; 2] {
    [2, 7].map(|w| w * r.below(4) as u64 + if r.one_in(4) { r.below(w as usize) as u64 } else { 0 })
}

pub fn fixed(court: &mut Court) {
    let n = WORDS.len();
    for length in 0..=4 {
        for k in 0..n.pow(length) {
            let s: String = (0..length).map(|i| WORDS[k / n.pow(i) % n]).collect();
            hear(court, s.as_bytes(), ROOMY);
            if length <= 3 {
                hear(court, format!("world a\n{s}").as_bytes(), ROOMY);
                hear(court, format!("world a\n{s}").as_bytes(), [0, 0]);
                hear(court, format!("world a\n{s}\n}}").as_bytes(), [2, 7]);
            }
        }
    }
    for line in ["package a", "world a {", "import a: b", "}", "{"] {
        for at in 0..=line.len() {
            for byte in 0..=255 {
                hear(court, &[b"world w\n", &line.as_bytes()[..at], &[byte], &line.as_bytes()[at..]].concat(), ROOMY);
            }
            for blank in BLANKS {
                hear(court, format!("{}{blank}{}", &line[..at], &line[at..]).as_bytes(), ROOMY);
                hear(court, format!("world w\n{}{blank}{}", &line[..at], &line[at..]).as_bytes(), ROOMY);
            }
        }
    }
    // braces with blanks between them: only those at the very end are taken off
    for line in ["import a", "import a: b", "export a", "world a"] {
        for braces in ["{{", "{ {", " { {", " { { {", "{ {{ ", "{ } {"] {
            hear(court, format!("world w\n{line}{braces}\n").as_bytes(), ROOMY);
        }
    }
    // every reference that is listed above, and a world of every name
    for r in REFERENCES {
        for word in ["import ", "export "] {
            hear(court, format!("world w\n{word}{r}").as_bytes(), ROOMY);
        }
    }
    for name in NAMES {
        hear(court, format!("world {name}\n").as_bytes(), ROOMY);
    }
    around(court);
    many_paths(court);
    for length in 65_535..=65_537 {
        hear(court, "/".repeat(length).as_bytes(), ROOMY);
        hear(court, ("world ".to_string() + &"b".repeat(length - 6)).as_bytes(), ROOMY);
    }
}

/// Full tables, one row more, and a fault after it: small ones, and the limits themselves.
fn around(court: &mut Court) {
    let after = ["", "}", "x", "world ", "world b", "import a", "package a", "{"];
    for room in 0..=3u64 {
        for n in 0..=room + 2 {
            for end in after {
                let worlds = "world a\n}\n".repeat(n as usize);
                let open = "world a\n".repeat(n as usize);
                let references = format!("world a\n{}", "import a\n".repeat(n as usize));
                for s in [worlds, open, references] {
                    hear(court, (s + end).as_bytes(), [2 * room, 7 * room + 6]);
                }
            }
        }
    }
    for n in 63..=65 {
        for end in ["", "x", "world "] {
            hear(court, ("world a\n".repeat(n) + end).as_bytes(), [2 * 70, 7]);
        }
    }
    for n in 1023..=1025 {
        hear(court, ("world a\n".to_string() + &"import a\n".repeat(n)).as_bytes(), [2, 7 * 1030]);
    }
}

const TEXTS: [&[u8]; 2] = [b"abaab\xc3\xa9ab", b"wasi:io/a wasi:random wasi:clocks@1 cli/env io"];

/// Tables 5 and 6 with ranges of a text, now and then ones that leave it, and counts.
fn handed(court: &mut Court, r: &mut Random) {
    let words = r.one_in(2);
    let text = TEXTS[words as usize];
    let range = |r: &mut Random| {
        let from = r.below(text.len() + 1);
        let len = r.below(text.len() - from + 1).min(r.below(4));
        match r.below(60) {
            0 => [from as u64, (text.len() - from + 1) as u64],
            1 => [u64::MAX, 1],
            2 => [2, u64::MAX],
            3..=50 if words => [[0, 9], [0, 7], [10, 11], [22, 13], [22, 11], [36, 7], [36, 3], [44, 2], [15, 6]][r.below(9)],
            _ => [from as u64, len as u64],
        }
    };
    let (rows5, rows6) = (1 + r.below(3), r.below(8));
    let mut cells: Vec<u64> = (0..rows5).flat_map(|_| range(r)).collect();
    cells.extend((0..r.below(2)).map(|_| 0));
    let len5 = cells.len() as u64;
    for _ in 0..rows6 {
        let world = if r.one_in(30) { rows5 } else { r.below(rows5) };
        cells.extend([world as u64, [0, 1, 0, 1, 7][r.below(5)]]);
        cells.extend(range(r));
        cells.push(r.below(2) as u64);
        cells.extend(range(r));
    }
    cells.extend((0..if r.one_in(4) { r.below(7) } else { 0 }).map(|_| 0));
    let n5 = if r.one_in(10) { r.below(5) } else { rows5 } as u64;
    let n6 = if r.one_in(8) { r.below(10) } else { rows6 } as u64;
    let tables = [&[n5, n6, len5], &cells[..]].concat();
    for call in [Call::AllImports, Call::AllExports] {
        court.hear(Case::new(call, &[&[r.below(6) as u64], &tables[..]].concat(), &[text]));
    }
    court.hear(Case::new(Call::Needs, &[&[r.below(6) as u64, r.below(6) as u64], &tables[..]].concat(), &[text]));
}

/// Paths of a text, one byte each: as many as table 7 takes, one more, room for one less; and 14, 4, 15 and 13, every two at once.
fn many_paths(court: &mut Court) {
    let rows = |n: u64, step: u64| -> Vec<u64> { (0..n).flat_map(|i| [0, 0, i * step, 2, 0, 0, 0]).collect() };
    let text: Vec<u8> = (0..1025u32).flat_map(|i| [0x21 + (i / 40) as u8, 0x21 + (i % 40) as u8]).collect();
    for n in [1023, 1024, 1025] {
        for (a, b) in [(1023, 2000), (1024, 1024), (2000, 1023), (1025, 1025)] {
            for step in [0, 2] {
                let tables = [&[1, n, 2, 0, 1], &rows(n, step)[..]].concat();
                court.hear(Case::new(Call::Needs, &[&[a, b], &tables[..]].concat(), &[&text]));
                court.hear(Case::new(Call::AllImports, &[&[a], &tables[..]].concat(), &[&text]));
            }
        }
    }
    // as many worlds as table 5 takes, one less and more
    for n in 62..=66 {
        for cells in [n, 64, 66] {
            let tables = [&[n, 1, 2 * cells], &[0, 1].repeat(cells as usize)[..], &[n.min(64) - 1, 0, 0, 1, 0, 0, 0]].concat();
            court.hear(Case::new(Call::Needs, &[&[1, 1], &tables[..]].concat(), &[&text]));
            court.hear(Case::new(Call::AllImports, &[&[1], &tables[..]].concat(), &[&text]));
        }
    }
    let long = vec![b'a'; 65_537];
    let texts: [&[u8]; 5] = [b"ab", b"a\xff", &long, &long[1..], b"\xff"];
    for text in texts {
        for worlds in [[0, 1], [9, 9], [70_000, 0]] {
            for reference in [[0, 0, 0, 1, 0, 0, 0], [1, 0, 0, 1, 0, 0, 0], [0, 0, 70_000, 1, 0, 0, 0], [0, 0, 0, 1, 1, 0, 70_000]] {
                for (n5, n6) in [(1, 1), (2, 1), (1, 2), (0, 0), (0, 1)] {
                    for room in 0..2 {
                        let tables = [&[n5, n6, 2], &worlds[..], &reference[..]].concat();
                        court.hear(Case::new(Call::Needs, &[&[room, 1], &tables[..]].concat(), &[text]));
                        court.hear(Case::new(Call::AllImports, &[&[room], &tables[..]].concat(), &[text]));
                        court.hear(Case::new(Call::AllExports, &[&[room], &tables[..]].concat(), &[text]));
                    }
                }
            }
        }
    }
}

pub fn seeded(court: &mut Court, r: &mut Random) {
    for _ in 0..250 {
        handed(court, r);
    }
    for _ in 0..500 {
        let s = lines(r);
        let cells = if r.one_in(2) { ROOMY } else { small(r) };
        hear(court, s.as_bytes(), cells);
        hear(court, &damaged(s.as_bytes(), r), cells);
    }
}
