//! `check`: each module against one policy.

use std::io::Write;
use std::path::{Path, PathBuf};

use viscrombal::policy::{self, Domain, DomainVerdict, Policy};
use viscrombal::{wasm, Verdict};

use crate::args::Options;
use crate::files::{self, or_stop, Asked, Stop, Trouble};
use crate::json::{self, Object};
use crate::work::{self, Progress};
use crate::{show, Status};

/// How many sources of domains that are not allowed are shown of a file.
const SHOWN: usize = 8;

/// A verdict, and for the domains that are not allowed which imports need them.
pub struct Checked {
    bytes: usize,
    pub verdict: Verdict,
    needs: Vec<Need>,
}

struct Need {
    domain: Domain,
    source: String,
    detail: String,
}

/// The check of one file.
pub fn checked(file: &[u8], policy: &Policy) -> viscrombal::Result<Checked> {
    let verdict = viscrombal::check(file, policy)?;
    let needs = if verdict.is_compliant() { Vec::new() } else { needs(file, &verdict.violations())? };
    Ok(Checked { bytes: file.len(), verdict, needs })
}

fn needs(file: &[u8], domains: &[Domain]) -> viscrombal::Result<Vec<Need>> {
    let all = policy::capabilities(&wasm::parse(file)?)?;
    let wanted = all.into_iter().filter(|need| domains.contains(&need.domain));
    Ok(wanted.map(|need| Need { domain: need.domain, source: need.source.into(), detail: need.detail.into() }).collect())
}

fn judge(path: &Path, policy: &Policy, strict: bool) -> Result<Checked, Trouble> {
    Ok(checked(&files::read_module(path, strict)?, policy)?)
}

/// Reads the policy, then every module.
pub fn run(out: &mut dyn Write, modules: &[PathBuf], path: &Path, options: Options) -> Result<Status, Stop> {
    let text = files::read_policy(path)?;
    let policy = or_stop("policy", path, Policy::parse(&text))?;
    let asked = Asked::new(path, &policy);
    let modules = &if options.recursive { modules.iter().flat_map(|path| files::walked(path)).collect() } else { modules.to_vec() };
    let progress = Progress::new();
    let mut status = Status::Pass;
    let mut answers = Vec::new();
    work::in_order(
        modules,
        |path| judge(path, &policy, options.strict),
        |i, answer| {
            status = status.max(status_of(&answer));
            if options.json {
                progress.clear();
                let object = asked.tell(Object::default().path("file", &modules[i]));
                writeln!(out, "{}", told(object, &modules[i], &answer, options))?;
            } else {
                answers.push(answer);
            }
            progress.say(i + 1, modules.len(), &show::path(&modules[i]));
            Ok(())
        },
    )?;
    drop(progress);
    if !options.json {
        write!(out, "{}\n{}", stated(&policy, path), report(modules, &answers, options))?;
    }
    Ok(status)
}

fn status_of(answer: &Result<Checked, Trouble>) -> Status {
    match answer {
        Ok(checked) => Status::passing(checked.verdict.is_compliant()),
        Err(_) => Status::Refused,
    }
}

/// A policy in a line.
pub fn stated(policy: &Policy, path: &Path) -> String {
    let rules = policy.rules().map(|(domain, rule)| format!("; {} {domain}", stance(rule.allow)));
    let rules: String = rules.collect();
    format!("policy {} ({}): default {}{rules}\n", show::name(policy.name()), show::path(path), stance(policy.default_allow()))
}

fn stance(allow: bool) -> &'static str {
    if allow {
        "allow"
    } else {
        "deny"
    }
}

/// The table of all files, why those that are not compliant are not, and how many there are of each.
fn report(modules: &[PathBuf], answers: &[Result<Checked, Trouble>], options: Options) -> String {
    let mut rows = vec![["file", "bytes"].into_iter().chain(Domain::EVERY.map(Domain::slug)).chain(["verdict"]).map(Into::into).collect()];
    let mut why = String::new();
    let mut counts = [0; 4];
    for (module, answer) in modules.iter().zip(answers) {
        let path = show::path(module);
        match answer {
            Ok(checked) => {
                counts[usize::from(!checked.verdict.is_compliant())] += 1;
                why += &checked.why(&path);
                rows.push(checked.row(path));
            }
            Err(trouble) => {
                counts[if matches!(trouble, Trouble::Refused(_)) { 2 } else { 3 }] += 1;
                why += &files::explained(module, trouble, options).map_or(String::new(), |located| format!("{path}: {located}\n"));
                rows.push([path].into_iter().chain([""; 8].map(Into::into)).chain([trouble.to_string()]).collect());
            }
        }
    }
    let [pass, no, refused, unreadable] = counts.map(show::count);
    let files = show::many(answers.len(), "file") + if options.strict { ", read strictly" } else { "" };
    let table = show::table(&rows);
    let break_before = if why.is_empty() { "" } else { "\n" };
    format!("{table}{break_before}{why}\n{files}: {pass} compliant, {no} not compliant, {refused} refused, {unreadable} not readable\n")
}

impl Checked {
    fn words(&self) -> &'static str {
        if self.verdict.is_compliant() {
            "compliant"
        } else {
            "not compliant"
        }
    }

    fn row(&self, path: String) -> Vec<String> {
        let cell = |verdict: &DomainVerdict| match (verdict.required, verdict.allowed) {
            (false, _) => "-".into(),
            (true, true) => show::count(verdict.many),
            (true, false) => format!("{} !", show::count(verdict.many)),
        };
        let domains = self.verdict.verdicts().iter().map(cell);
        [path, show::count(self.bytes)].into_iter().chain(domains).chain([self.words().into()]).collect()
    }

    /// A line for each source of a domain that is not allowed, of the first ones.
    fn why(&self, path: &str) -> String {
        let line = |need: &Need| {
            let (source, detail) = (show::name(&need.source), show::name(&need.detail));
            format!("{path}: {} is not allowed: imports {detail} from {source}\n", need.domain)
        };
        let first: String = self.needs.iter().take(SHOWN).map(line).collect();
        match self.needs.len().saturating_sub(SHOWN) {
            0 => first,
            more => format!("{first}{path}: and {} more\n", show::count(more)),
        }
    }

    /// The same as fields of an object.
    fn tell(&self, object: Object) -> Object {
        let domain = |verdict: &DomainVerdict| {
            let object = Object::default().str("domain", verdict.domain.slug()).raw("required", verdict.required);
            object.raw("allowed", verdict.allowed).raw("many", verdict.many).done()
        };
        let need = |need: &Need| {
            let object = Object::default().str("domain", need.domain.slug());
            object.str("source", &need.source).str("detail", &need.detail).done()
        };
        let violations = self.verdict.violations().into_iter().map(|domain| json::string(domain.slug()));
        let object = object.str("answer", self.words()).raw("bytes", self.bytes);
        let object = object.raw("compliant", self.verdict.is_compliant()).raw("violations", json::array(violations));
        let object = object.raw("domains", json::array(self.verdict.verdicts().iter().map(domain)));
        object.raw("needs", json::array(self.needs.iter().map(need)))
    }
}

fn told(object: Object, module: &Path, answer: &Result<Checked, Trouble>, options: Options) -> String {
    let object = match answer {
        Ok(checked) => checked.tell(object).raw("strict", options.strict),
        Err(trouble) => {
            let object = trouble.tell(object);
            match files::explained(module, trouble, options) {
                Some(located) => located.tell(object),
                None => object,
            }
        }
    };
    object.done()
}
