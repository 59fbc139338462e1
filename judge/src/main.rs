//! The comparison of the port with the original: see docs/JUDGE.md.
mod asked;
mod bad;
mod case;
mod cells;
mod compare;
mod limits;
mod list;
mod make;
mod page;
mod places;
mod plant;
mod port;
mod random;
mod says;
mod shrink;
mod strict;
mod strip;
mod vectors;

use case::{Call, Case, CALLS};
use port::Port;
use std::io::{Read, Write};
use std::process::{Command, Stdio};
use std::time::{Duration, Instant};

const USAGE: &str = "usage: judge run [--seed N] [--long SECONDS]     the fixed cases, then seeded ones for so long
       judge one CALL NUMBERS STRINGS             one case, as a disagreement prints it
       judge page FILE..                          the inputs of pages of docs/, and what the pages say of the answers
       judge strip < FILE.rt                      a file of Rattle as Rust, unproved
       judge apart [policy] < FILE                the original alone on a module or a policy, in this process
       judge alone < CASE                         the original alone on a case, in this process
       judge list [comparisons]                   the fixed list of answers, as records of records/
       judge vectors FOLDER                       the modules below a folder
       judge mistakes LIST; judge plant LIST N CRATES    for tools/teeth
VISCROMBAL_PORT is the command of the port's process.";

fn main() {
    let args: Vec<String> = std::env::args().skip(1).collect();
    let words: Vec<&str> = args.iter().map(|a| &a[..]).collect();
    let fine = match words[..] {
        ["run", ref rest @ ..] => run(rest),
        ["one", call, numbers, strings] => one(&format!("{call} {numbers} {strings}")),
        ["mistakes", list] => mistakes(list),
        ["plant", list, number, crates] => plant_one(list, number, crates),
        ["page", ref files @ ..] if !files.is_empty() => page::held(files),
        ["strip"] => strip_input(),
        ["apart"] => apart(says::module_says),
        ["apart", "policy"] => apart(says::policy_alone),
        ["alone"] => apart(|text| says::alone(&Case::parse(&String::from_utf8_lossy(text)).expect("CALL NUMBERS STRINGS"))),
        ["list"] => fixed_list(false),
        ["list", "comparisons"] => fixed_list(true),
        ["vectors", folder] => published(folder),
        _ => {
            eprintln!("{USAGE}");
            false
        }
    };
    std::process::exit(if fine { 0 } else { 1 });
}

fn option(words: &[&str], name: &str, or: u64) -> u64 {
    let value = words.windows(2).find(|w| w[0] == name).map(|w| w[1].parse());
    value.map_or(or, |v| v.expect("a number"))
}

fn the_port() -> Port {
    let command = std::env::var("VISCROMBAL_PORT").expect("VISCROMBAL_PORT is the command of the port's process");
    Port::new(command.split_whitespace().map(String::from).collect())
}

fn strip_input() -> bool {
    let mut source = String::new();
    std::io::stdin().read_to_string(&mut source).expect("text");
    std::io::stdout().write_all(strip::exported(&strip::stripped(&source)).as_bytes()).is_ok()
}

fn apart(says: impl Fn(&[u8]) -> String) -> bool {
    let mut file = Vec::new();
    std::io::stdin().read_to_end(&mut file).expect("a file");
    println!("{}", says(&file));
    true
}

fn mistakes(list: &str) -> bool {
    for (i, m) in plant::mistakes(&std::fs::read_to_string(list).expect("a list")).iter().enumerate() {
        println!("{i}\t{}\t{}", m.file, m.name);
    }
    true
}

fn plant_one(list: &str, number: &str, crates: &str) -> bool {
    let all = plant::mistakes(&std::fs::read_to_string(list).expect("a list"));
    let planted = all[number.parse::<usize>().expect("a number")].plant(std::path::Path::new(crates));
    planted.map_err(|e| eprintln!("{e}")).is_ok()
}

/// What both say of a case; nothing where the original cannot be asked.
fn both(port: &mut Port, case: &Case) -> Option<(String, String)> {
    let original = std::panic::catch_unwind(|| says::original_says(case)).ok()?;
    let answers = port.ask(std::slice::from_ref(case));
    let said = answers.first().map_or("the port's process ended".into(), |a| says::port_says(case, a));
    Some((original, said))
}

/// The original alone, with 4 GiB of memory, so that it ends on every machine where it asks for more.
const ALONE: &str = "ulimit -v 4194304 && exec \"$0\" alone";

/// What the original says alone, in a process of its own, and what the port says.
fn both_sides(port: &mut Port, case: &Case) -> (String, String) {
    let mut alone = Command::new("sh");
    alone.args(["-c", ALONE]).arg(std::env::current_exe().expect("this program"));
    let mut child = alone.stdin(Stdio::piped()).stdout(Stdio::piped()).stderr(Stdio::piped()).spawn().expect("a process");
    child.stdin.take().unwrap().write_all(case.text().as_bytes()).expect("a pipe");
    let out = child.wait_with_output().expect("an end");
    let original = match out.status.success() {
        true => String::from_utf8_lossy(&out.stdout).trim_end().to_string(),
        false => format!("the process is ended: {}", String::from_utf8_lossy(&out.stderr).lines().next().unwrap_or("")),
    };
    let answers = port.ask(std::slice::from_ref(case));
    (original, answers.first().map_or("the port's process ended".into(), |a| says::port_says(case, a)))
}

fn one(text: &str) -> bool {
    let case = Case::parse(text).expect("CALL NUMBERS STRINGS");
    let (original, port) = both(&mut the_port(), &case).expect("a case for the original");
    println!("original: {original}\nport:     {port}");
    original == port
}

/// What the original and the port agreed on, for a program of the repository to replay without Rust.
fn fixed_list(comparisons: bool) -> bool {
    let mut court = Court::new(false);
    court.list = Some(list::List::new(comparisons));
    make::fixed(&mut court);
    for round in 0..20 {
        make::seeded(&mut court, round);
    }
    court.decide();
    println!("# The original's answers, as 'judge list' obtained them by running it beside the port: docs/JUDGE.md.");
    for record in &court.list.as_ref().unwrap().records {
        println!("{record}");
    }
    court.disagreements == 0
}

/// Files whose declared count the original reserves memory for: each in a process of its own. How many there are, and how many ended it.
fn heard_apart(court: &mut Court) -> (u64, u64) {
    let (mut files, mut ended) = (0, 0);
    for file in make::reserving() {
        let expected = says::original_says(&Case::new(Call::Module, &limits::FULL, &[&file]));
        let exe = std::env::current_exe().expect("this program");
        let mut child =
            Command::new(exe).arg("apart").stdin(Stdio::piped()).stdout(Stdio::piped()).stderr(Stdio::null()).spawn().expect("a process");
        child.stdin.take().unwrap().write_all(&file).expect("a pipe");
        let out = child.wait_with_output().expect("an end");
        files += 1;
        if !out.status.success() {
            ended += 1;
        } else if !expected.starts_with(String::from_utf8_lossy(&out.stdout).trim_end()) {
            court.differ(&format!("the original with its own count says {}", String::from_utf8_lossy(&out.stdout)));
        }
        make::hear(court, &file, limits::FULL);
    }
    (files, ended)
}

/// The modules below a folder, by both, plainly and strictly.
fn published(folder: &str) -> bool {
    let all = vectors::below(std::path::Path::new(folder));
    let mut court = Court::new(false);
    for v in &all {
        make::hear(&mut court, &v.bytes, limits::FULL);
    }
    court.decide();
    vectors::report(&all.iter().map(vectors::told).collect::<Vec<_>>());
    println!("{} disagreements", court.disagreements);
    court.disagreements == 0
}

/// Cases are asked in batches; a disagreement is made small and told.
pub struct Court {
    port: Port,
    batch: Vec<Case>,
    bytes: usize,
    counts: [u64; CALLS.len() + 1],
    disagreements: u64,
    /// The first disagreement ends it, as it is.
    quick: bool,
    /// Where both agree, a few cases of every kind.
    list: Option<list::List>,
}

impl Court {
    fn new(quick: bool) -> Court {
        Court { port: the_port(), batch: Vec::new(), bytes: 0, counts: [0; CALLS.len() + 1], disagreements: 0, quick, list: None }
    }

    pub fn hear(&mut self, case: Case) {
        if self.quick && self.over() {
            return;
        }
        self.bytes += case.strings.iter().map(|s| s.len()).sum::<usize>() + 64;
        self.batch.push(case);
        if self.batch.len() >= 4096 || self.bytes > 4_000_000 {
            self.decide();
        }
    }

    pub fn decide(&mut self) {
        let batch = std::mem::take(&mut self.batch);
        self.bytes = 0;
        let mut rest = &batch[..];
        // after an end of the port's process its last answers are lost, so the next cases are asked one by one until it ends again
        let mut step = rest.len();
        while !rest.is_empty() && self.disagreements < 20 && !(self.quick && self.over()) {
            let (now, later) = rest.split_at(step.min(rest.len()));
            let answers = self.port.ask(now);
            for (case, answer) in now.iter().zip(&answers) {
                self.counts[case.call as usize] += 1;
                let (original, said) = (says::original_says(case), says::port_says(case, answer));
                if original != said {
                    self.tell(case);
                } else if let Some(list) = &mut self.list {
                    list.add(case, answer);
                }
            }
            (rest, step) = match now.len() - answers.len() {
                0 => (later, step),
                1 if now.len() == 1 => {
                    self.counts[now[0].call as usize] += 1;
                    self.tell(&now[0]);
                    (later, later.len())
                }
                _ => (&rest[answers.len()..], 1),
            };
        }
    }

    fn tell(&mut self, case: &Case) {
        self.disagreements += 1;
        if self.quick && self.disagreements == 1 {
            println!("first disagreement: {}", case.text().chars().take(80).collect::<String>());
        }
        if self.quick || self.disagreements > 5 {
            return;
        }
        let port = &mut self.port;
        let small = shrink::smallest(case, |c| both(port, c).is_some_and(|(a, b)| a != b));
        let (original, said) = both(port, &small).unwrap();
        let text = small.text();
        println!("disagreement:");
        println!("  original: {original}\n  port:     {said}\n  repeat:   ./viscrombal judge --one {text}");
    }

    /// What the judge itself relies on is not so.
    pub fn differ(&mut self, words: &str) {
        println!("disagreement: {words}");
        self.disagreements += 1;
    }

    pub fn over(&self) -> bool {
        self.disagreements > 0
    }
}

fn run(words: &[&str]) -> bool {
    let seed = option(words, "--seed", 1);
    let time = Duration::from_secs(option(words, "--long", 60));
    let mut court = Court::new(words.contains(&"--quick"));
    let began = Instant::now();
    let (files, ended) = heard_apart(&mut court);
    println!("run apart: {files} files, of which {ended} end the original's process");
    make::fixed(&mut court);
    court.decide();
    let fixed: u64 = court.counts.iter().sum();
    println!("fixed cases: {fixed} in {} s", began.elapsed().as_secs());
    let published = vectors::fetched();
    for v in &published {
        make::hear(&mut court, &v.bytes, limits::FULL);
    }
    court.decide();
    println!("published modules: {}", published.len());
    let mut round = 0;
    while !court.over() && (round == 0 || began.elapsed() < time) {
        make::seeded(&mut court, seed.wrapping_mul(1_000_003).wrapping_add(round));
        court.decide();
        round += 1;
    }
    for (call, name) in CALLS {
        println!("  {name}: {}", court.counts[call as usize]);
    }
    let cases: u64 = court.counts.iter().sum();
    println!("judge: {cases} cases (seed {seed}, {round} rounds, {} s), {} disagreements", began.elapsed().as_secs(), court.disagreements);
    court.disagreements == 0
}
