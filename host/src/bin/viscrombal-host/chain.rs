//! `chain`: whether each build can stand in for the one before it, and what then holds of the last.
//!
//! The theorem is `OfFiles` in crates/standin/specs/Claims.antt, which speaks of files and of what `viscrombal_compare` and
//! `viscrombal_check` answer: along a chain of such steps, of any length, the last build can stand in for the first (`series`), meets
//! every policy that the first meets (`policies`), and passes the whole check under every text under which the first does (`checks`).
//! The last is compared and checked all the same, so that a reader sees both. By which steps it came to differ from the first: steps.rs.

use std::io::Write;
use std::path::{Path, PathBuf};

use viscrombal::compat::{self, Compatibility};
use viscrombal::policy::Policy;
use viscrombal::wasm;

use crate::args::Options;
use crate::check::{self, Checked};
use crate::compare;
use crate::files::{self, or_stop, Asked, Stop};
use crate::json::Object;
use crate::steps::{self, Difference, Steps};
use crate::work::Progress;
use crate::{json, show, Status};

/// A build's file with its path.
struct Build<'a> {
    path: &'a Path,
    file: Vec<u8>,
}

impl Build<'_> {
    fn read(path: &Path, strict: bool) -> Result<Build<'_>, Stop> {
        Ok(Build { path, file: or_stop("build", path, files::read_module(path, strict))? })
    }

    /// The comparison with the build that this one is to stand in for.
    fn against<'b>(&'b self, baseline: &'b Build) -> Result<Compatibility<'b>, Stop> {
        let old = or_stop("build", baseline.path, wasm::parse(&baseline.file))?;
        let new = or_stop("build", self.path, wasm::parse(&self.file))?;
        or_stop("build", self.path, compat::compare_modules(&old, &new))
    }

    fn checked(&self, policy: &Policy) -> Result<Checked, Stop> {
        or_stop("build", self.path, check::checked(&self.file, policy))
    }
}

/// What is known of the ends of a chain.
struct Ends<'a> {
    first: &'a Path,
    last: &'a Path,
    strict: bool,
    unbroken: bool,
    first_passes: bool,
    last_passes: bool,
    last_stands_in: bool,
    differences: Vec<Difference>,
}

/// Reads the policy, then build after build.
pub fn run(out: &mut dyn Write, builds: &[PathBuf], path: &Path, options: Options) -> Result<Status, Stop> {
    let text = files::read_policy(path)?;
    let policy = or_stop("policy", path, Policy::parse(&text))?;
    let progress = Progress::new();
    let mut lines = Vec::new();
    let ends = follow(&mut lines, builds, &policy, options, &progress);
    drop(progress);
    if !options.json {
        writeln!(out, "{}", check::stated(&policy, path))?;
    }
    out.write_all(&lines)?;
    let ends = ends?;
    if options.json {
        writeln!(out, "{}", ends.tell(Asked::new(path, &policy).tell(Object::default())).done())?;
    } else {
        write!(out, "{}", ends.words(path))?;
    }
    Ok(Status::passing(ends.unbroken && ends.first_passes && ends.last_passes))
}

/// Every step, of which no more than three files are held at a time: the first, the one before, and the one that is to stand in.
fn follow<'a>(out: &mut Vec<u8>, builds: &'a [PathBuf], policy: &Policy, options: Options, progress: &Progress) -> Result<Ends<'a>, Stop> {
    let first = Build::read(&builds[0], options.strict)?;
    let mut last: Option<Build> = None;
    let mut unbroken = true;
    let mut steps = Steps::default();
    for (step, path) in builds.iter().enumerate().skip(1) {
        progress.say(step, builds.len() - 1, &show::path(path));
        let before = last.as_ref().unwrap_or(&first);
        let build = Build::read(path, options.strict)?;
        let answer = build.against(before)?;
        unbroken &= answer.is_compatible();
        steps.add(step, &answer);
        if options.json {
            let object = Object::default().raw("step", step).path("baseline", before.path).path("candidate", path);
            writeln!(out, "{}", compare::tell(&answer, object).done())?;
        } else {
            writeln!(out, "step {step}: {}", compare::stands(path, before.path, &answer))?;
            for line in show::table(&compare::differences(&answer)).lines() {
                writeln!(out, "  {line}")?;
            }
        }
        last = Some(build);
    }
    let last = last.as_ref().unwrap_or(&first);
    let ends = last.against(&first)?;
    Ok(Ends {
        first: first.path,
        last: last.path,
        strict: options.strict,
        unbroken,
        first_passes: first.checked(policy)?.verdict.is_compliant(),
        last_passes: last.checked(policy)?.verdict.is_compliant(),
        last_stands_in: ends.is_compatible(),
        differences: steps.between(&ends),
    })
}

impl Ends<'_> {
    /// What the theorem gives: nothing without a chain, and under this policy only where the first build passes.
    fn given(&self) -> &'static [&'static str] {
        match (self.unbroken, self.first_passes) {
            (true, true) => &["series", "policies", "checks"],
            (true, false) => &["series", "policies"],
            (false, _) => &[],
        }
    }

    fn words(&self, policy: &Path) -> String {
        let (first, last, policy) = (show::path(self.first), show::path(self.last), show::path(policy));
        let passes = |passes| if passes { "compliant" } else { "not compliant" };
        let mut rows = Vec::new();
        for &part in self.given() {
            let words = match part {
                "series" => format!("{last} can stand in for {first}"),
                "policies" => format!("{last} meets every policy that {first} meets"),
                _ => format!("{last} passes under {policy}, since {first} does"),
            };
            rows.push(vec![String::from("  theorem"), part.into(), words]);
        }
        if self.strict {
            rows.push(vec!["  asked".into(), "strict".into(), "every build is read strictly".into()]);
        }
        let stands = if self.last_stands_in { "can stand in" } else { "cannot stand in" };
        rows.push(vec!["  asked".into(), "compare".into(), format!("{last} {stands} for {first}")]);
        rows.push(vec!["  asked".into(), "check".into(), format!("{first} is {}", passes(self.first_passes))]);
        rows.push(vec!["  asked".into(), "check".into(), format!("{last} is {}", passes(self.last_passes))]);
        let chain = match (self.unbroken, self.first_passes) {
            (true, true) => "the chain is unbroken, and its first build passes",
            (true, false) => "the chain is unbroken, but its first build does not pass",
            (false, _) => "the chain is broken: the theorem gives nothing for its last build",
        };
        format!("{}\n{chain}\n{}", steps::words(self.first, self.last, &self.differences), show::table(&rows))
    }

    fn tell(&self, object: Object) -> Object {
        let object = object.path("first", self.first).path("last", self.last);
        let object = object.str("answer", if self.unbroken { "unbroken" } else { "broken" }).raw("unbroken", self.unbroken);
        let given = self.given().iter().map(|part| json::string(part));
        let object = object.raw("theorem", json::array(given)).raw("last_stands_in", self.last_stands_in);
        let object = steps::tell(&self.differences, object);
        object.raw("first_compliant", self.first_passes).raw("last_compliant", self.last_passes).raw("strict", self.strict)
    }
}
