//! `compare`: whether a candidate can stand in for a baseline.

use std::io::Write;
use std::path::Path;

use viscrombal::compat::{self, Change, Compatibility};
use viscrombal::wasm::{self, Module};

use crate::args::Options;
use crate::files::{self, or_stop, Stop};
use crate::json::{self, Object};
use crate::{show, Status};

/// Reads both files, then compares them.
pub fn run(out: &mut dyn Write, baseline: &Path, candidate: &Path, options: Options) -> Result<Status, Stop> {
    let first = or_stop("baseline", baseline, files::read_module(baseline, options.strict))?;
    let second = or_stop("candidate", candidate, files::read_module(candidate, options.strict))?;
    let old = or_stop("baseline", baseline, wasm::parse(&first))?;
    let new = or_stop("candidate", candidate, wasm::parse(&second))?;
    let answer = or_stop("candidate", candidate, compat::compare_modules(&old, &new))?;
    if options.json {
        let object = Object::default().path("baseline", baseline).path("candidate", candidate);
        writeln!(out, "{}", tell(&answer, object).raw("strict", options.strict).done())?;
    } else {
        let rows = [sized("baseline", baseline, &old, options.strict), sized("candidate", candidate, &new, options.strict)];
        writeln!(out, "{}", show::table(&rows))?;
        if !differences(&answer).is_empty() {
            writeln!(out, "{}", show::table(&differences(&answer)))?;
        }
        writeln!(out, "{}", stands(candidate, baseline, &answer))?;
    }
    Ok(Status::passing(answer.is_compatible()))
}

fn sized(what: &str, path: &Path, module: &Module, strict: bool) -> Vec<String> {
    let bytes = show::many(module.byte_len(), "byte");
    let (imports, exports) = (show::many(module.imports().len(), "import"), show::many(module.exports().len(), "export"));
    let read = if strict { "read strictly" } else { "" };
    vec![what.into(), show::path(path), bytes, imports, exports, read.into()]
}

/// Both lists as rows of one table.
pub fn differences(answer: &Compatibility) -> Vec<Vec<String>> {
    let breaking = |breaks| String::from(if breaks { "breaks" } else { "" });
    let exports = answer.export_diffs().iter().map(|diff| {
        let what = format!("export {} ({})", show::name(diff.name), diff.kind);
        vec![diff.change.to_string(), what, breaking(diff.change == Change::Removed)]
    });
    let needs = answer.capability_diffs().iter().map(|diff| {
        let what = format!("need of {} via {} ({})", diff.domain, show::name(diff.source), show::name(diff.detail));
        vec![diff.change.to_string(), what, breaking(diff.change == Change::Added)]
    });
    exports.chain(needs).collect()
}

/// The answer in a line.
pub fn stands(candidate: &Path, baseline: &Path, answer: &Compatibility) -> String {
    let (candidate, baseline) = (show::path(candidate), show::path(baseline));
    match answer.breaking_reasons().len() {
        _ if answer.is_compatible() => format!("{candidate} can stand in for {baseline}"),
        reasons => format!("{candidate} cannot stand in for {baseline}: {}", show::many(reasons, "reason")),
    }
}

/// The answer as fields of an object.
pub fn tell(answer: &Compatibility, object: Object) -> Object {
    let exports = answer.export_diffs().iter().map(|diff| {
        let object = Object::default().str("change", diff.change.slug());
        object.str("name", diff.name).str("kind", &diff.kind.slug()).done()
    });
    let needs = answer.capability_diffs().iter().map(|diff| {
        let object = Object::default().str("change", diff.change.slug()).str("domain", diff.domain.slug());
        object.str("source", diff.source).str("detail", diff.detail).done()
    });
    let reasons = answer.breaking_reasons().into_iter().map(|reason| json::string(&reason));
    let words = if answer.is_compatible() { "stands in" } else { "cannot stand in" };
    let object = object.str("answer", words).raw("compatible", answer.is_compatible());
    let object = object.raw("exports", json::array(exports)).raw("capabilities", json::array(needs));
    object.raw("reasons", json::array(reasons))
}
