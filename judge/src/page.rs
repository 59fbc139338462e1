//! A page of docs/ whose tables have inputs: each is run by the original alone, in a process of its own, and by the port. What the page has
//! in backquotes in the column of either must stand in what that side says.
use crate::case::{Call, Case, CALLS};
use crate::limits::FULL;
use crate::{both_sides, the_port};

const HEADER: &[u8] = b"\0asm\x01\0\0\0";

/// Runs every input of the pages; tells what a page has that was not said.
pub fn held(files: &[&str]) -> bool {
    let mut port = the_port();
    let mut fine = true;
    for file in files {
        let (mut inputs, mut answers, mut wrong) = (0, 0, Vec::new());
        for row in rows(&std::fs::read_to_string(file).expect("a page")) {
            let Some(case) = spans(&row.input).first().and_then(|s| case_of(s)) else {
                wrong.push(format!("no input in: {}", row.input));
                continue;
            };
            let said = both_sides(&mut port, &case);
            inputs += 1;
            for (cell, said) in row.answers.iter().zip([&said.0, &said.1]) {
                let told = spans(cell);
                answers += told.len();
                if told.is_empty() {
                    wrong.push(format!("{}: nothing in backquotes of what is said: {}", row.input, start(said)));
                }
                let missing = told.iter().filter(|t| !said.contains(**t));
                wrong.extend(missing.map(|t| format!("{}: `{t}` is not said, but: {}", row.input, start(said))));
            }
        }
        wrong.iter().for_each(|w| println!("{file}: {w}"));
        println!("{file}: {inputs} inputs run by both, {answers} answers held to what they say, {} wrong", wrong.len());
        fine = fine && wrong.is_empty() && inputs > 0;
    }
    fine
}

fn start(said: &str) -> String {
    said.chars().take(300).collect()
}

/// An input, and what the page has of the original's answer and of the port's.
struct Row {
    input: String,
    answers: [String; 2],
}

/// The rows of the tables that have a column of inputs.
fn rows(page: &str) -> Vec<Row> {
    let mut out = Vec::new();
    let mut columns = None;
    let mut before: Vec<String> = Vec::new();
    for line in page.lines() {
        let cells = cells(line);
        if line.starts_with("|---") {
            columns = columns_of(&before);
        } else if cells.is_empty() {
            columns = None;
        } else if let Some([input, original, port]) = columns {
            out.push(Row { input: cells[input].clone(), answers: [cells[original].clone(), cells[port].clone()] });
        }
        before = cells;
    }
    out
}

fn cells(line: &str) -> Vec<String> {
    let inner = line.trim().strip_prefix('|').and_then(|l| l.strip_suffix('|'));
    inner.map_or(Vec::new(), |l| l.split('|').map(|c| c.trim().to_string()).collect())
}

/// Where the input stands, the original's answer and the port's; one column may have both answers.
fn columns_of(header: &[String]) -> Option<[usize; 3]> {
    let at = |name: &str| header.iter().position(|c| c == name);
    Some([at("Smallest input")?, at("The original").or(at("Both say"))?, at("The port").or(at("Both say"))?])
}

/// What stands in backquotes.
fn spans(cell: &str) -> Vec<&str> {
    cell.split('`').skip(1).step_by(2).collect()
}

/// The numbers of a call that a page leaves out: a cursor at 0, tables at their limits, room for reasons.
fn usual(call: Call) -> &'static [u64] {
    match call {
        Call::Uleb128 | Call::Uleb128U32 | Call::Sleb128 | Call::Name => &[0],
        Call::Module => &FULL,
        Call::Manifest => &[128, 7168],
        Call::Compare => &[4096, 6144, 4096],
        _ => &[],
    }
}

/// A call, its numbers in parentheses where they are not the usual ones, and its strings, with `/` between them.
fn case_of(words: &str) -> Option<Case> {
    let name = words.split(|c: char| !c.is_ascii_alphanumeric() && c != '_').next()?;
    let call = CALLS.iter().find(|c| c.1 == name)?.0;
    let mut rest = &words[name.len()..];
    let mut numbers = usual(call).to_vec();
    if let Some((inside, after)) = rest.strip_prefix('(').and_then(|r| r.split_once(')')) {
        numbers = inside.split(',').map(|n| n.trim().parse().ok()).collect::<Option<_>>()?;
        rest = after;
    }
    let mut strings = vec![bytes(&mut rest)?];
    while let Some(after) = rest.strip_prefix('/') {
        rest = after;
        strings.push(bytes(&mut rest)?);
    }
    rest.is_empty().then_some(Case { call, numbers, strings })
}

/// Bytes up to the end, a `/` or a `)`.
fn bytes(rest: &mut &str) -> Option<Vec<u8>> {
    let mut out = Vec::new();
    loop {
        *rest = rest.trim_start();
        if rest.is_empty() || rest.starts_with(['/', ')']) {
            return Some(out);
        }
        out.extend(unit(rest)?);
    }
}

/// `H`, the header of a module; two digits; a text in quotes; a group in parentheses; and so many times any of these, as `9*80`.
fn unit(rest: &mut &str) -> Option<Vec<u8>> {
    let digits = rest.bytes().take_while(|b| b.is_ascii_digit()).count();
    if let Some(after) = rest[digits..].strip_prefix('*') {
        let times = rest[..digits].parse().ok()?;
        *rest = after;
        return Some(unit(rest)?.repeat(times));
    }
    if let Some(after) = rest.strip_prefix('H') {
        *rest = after;
        return Some(HEADER.to_vec());
    }
    if let Some((text, after)) = rest.strip_prefix('"').and_then(|r| r.split_once('"')) {
        *rest = after;
        return Some(text.into());
    }
    if let Some(mut after) = rest.strip_prefix('(') {
        let group = bytes(&mut after)?;
        *rest = after.strip_prefix(')')?;
        return Some(group);
    }
    let byte = u8::from_str_radix(rest.get(..2)?, 16).ok()?;
    *rest = &rest[2..];
    Some(vec![byte])
}
