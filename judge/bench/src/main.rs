//! The original and the port on the same inputs in one process: what they say is compared, then the least processor time of many runs
//! is taken of each. docs/SPEED.md has the table. A second table is of the port's strict read against its plain one.
//!
//! bench [WORD]                     the tables, of the cases with WORD in their name
//! bench run CASE SIDE ROUNDS       one side of a case so many times, for a counter of instructions
//!
//! VISCROMBAL_COUNT is the command that runs the words after it and prints how many instructions that took; without it only times are taken.
mod cases;
mod inputs;
mod port;

use cases::{Case, CASES, STRICT};
use std::process::{exit, Command};

#[repr(C)]
struct Time {
    seconds: i64,
    nanoseconds: i64,
}

extern "C" {
    fn clock_gettime(clock: i32, time: *mut Time) -> i32;
}

/// The processor time of this thread, in nanoseconds: what other processes do does not count.
fn now() -> f64 {
    const THREAD: i32 = 3;
    let mut t = Time { seconds: 0, nanoseconds: 0 };
    // SAFETY: t is a timespec of a 64-bit Linux
    assert_eq!(unsafe { clock_gettime(THREAD, &mut t) }, 0);
    t.seconds as f64 * 1e9 + t.nanoseconds as f64
}

fn timed(rounds: u32, call: &mut dyn FnMut()) -> f64 {
    let start = now();
    for _ in 0..rounds {
        call();
    }
    (now() - start) / rounds as f64
}

/// The least time of a call on each side: runs of about half a millisecond, the sides in turn, at least 3 runs, for about a second.
fn least(case: &mut Case) -> [f64; 2] {
    let Case { original, port, .. } = case;
    let mut best = [timed(1, original), timed(1, port)];
    let rounds = best.map(|t| (5e5 / t).clamp(1.0, 1e6) as u32);
    let mut spent = 0.0;
    let mut runs = 0;
    while runs < 3 || (spent < 1e9 && runs < 1000) {
        for (i, rounds) in rounds.iter().enumerate() {
            let t = timed(*rounds, if i == 0 { original } else { port });
            best[i] = best[i].min(t);
            spent += t * *rounds as f64;
        }
        runs += 1;
    }
    best
}

/// Instructions of one call: those of twice as many rounds, less those of as many.
fn counted(case: &str, side: &str, rounds: u32) -> Option<f64> {
    let command = std::env::var("VISCROMBAL_COUNT").ok()?;
    let words: Vec<&str> = command.split_whitespace().collect();
    let of = |n: u32| -> Option<f64> {
        let out = Command::new(words[0]).args(&words[1..]).args(["run", case, side, &n.to_string()]).output().ok()?;
        String::from_utf8(out.stdout).ok()?.trim().parse().ok()
    };
    (rounds > 0).then_some(())?;
    Some((of(2 * rounds)? - of(rounds)?) / rounds as f64)
}

/// A number to three digits, with the unit's letters after it.
fn short(x: f64, units: [&str; 4]) -> String {
    let power = if x < 1e3 { 0 } else { ((x.log10() / 3.0) as usize).min(3) };
    let x = x / 1e3f64.powi(power as i32);
    // three digits that count
    let digits = (2 - x.max(1e-6).log10().floor() as i32).max(0) as usize;
    format!("{x:.digits$}{}", units[power])
}

fn time(x: Option<f64>) -> String {
    x.map_or("".into(), |x| short(x, [" ns", " µs", " ms", " s"]))
}

fn count(x: Option<f64>) -> String {
    x.map_or("".into(), |x| short(x, ["", " k", " M", " G"]))
}

fn ratio(a: Option<f64>, b: Option<f64>) -> String {
    a.zip(b).map_or("".into(), |(a, b)| short(a / b, ["", " k", " M", " G"]))
}

/// A row for each case: both sides, and the first ÷ the second, or of strict reading the second ÷ the first.
fn table(head: &str, cases: &[(&str, u32, fn() -> Case)], word: &str, over: bool) {
    let cases: Vec<_> = cases.iter().filter(|c| c.0.contains(word)).collect();
    if cases.is_empty() {
        return;
    }
    println!("{head}\n|---|---:|---:|---:|---:|---:|---:|");
    for (name, rounds, make) in cases {
        let mut case = make();
        let [original, port] = (case.said)();
        if original != port {
            eprintln!("{name}: the two sides say different things");
            exit(1);
        }
        drop((original, port));
        let [o, p] = least(&mut case).map(Some);
        drop(case);
        let [i, j] = ["original", "port"].map(|side| counted(name, side, *rounds));
        let ratio = |a, b| if over { ratio(a, b) } else { ratio(b, a) };
        println!("| {name} | {} | {} | {} | {} | {} | {} |", time(o), time(p), ratio(o, p), count(i), count(j), ratio(i, j));
    }
}

fn tables(word: &str) {
    let head = "| case | original | port | original ÷ port | original, instructions | port, instructions | original ÷ port |";
    table(head, &CASES, word, true);
    let head = "| case | plain | strict | strict ÷ plain | plain, instructions | strict, instructions | strict ÷ plain |";
    table(head, &STRICT, word, false);
}

fn run(name: &str, side: &str, rounds: u32) {
    let mut case = CASES.iter().chain(&STRICT).find(|c| c.0 == name).expect("a case").2();
    for _ in 0..rounds {
        match side {
            "original" => (case.original)(),
            _ => (case.port)(),
        }
    }
}

fn main() {
    let words: Vec<String> = std::env::args().skip(1).collect();
    match &words.iter().map(|w| &w[..]).collect::<Vec<_>>()[..] {
        [] => tables(""),
        ["run", name, side, rounds] => run(name, side, rounds.parse().expect("a number of rounds")),
        [word] => tables(word),
        _ => exit(2),
    }
}
