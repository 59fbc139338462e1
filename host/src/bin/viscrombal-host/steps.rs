//! What the first and the last build of a series differ in, and by which steps it came about.
//!
//! The theorem is `OfFileSeries` in crates/series/specs/Claims.antt. Of any series of builds that the archive accepts, whether or not each
//! can stand in for the one before it: what the comparison of the first with the last reports, the comparison of some step reports. So
//! each difference here has a step. What came and went between is none.

use std::collections::HashMap;
use std::path::Path;

use viscrombal::compat::{Change, Compatibility};
use viscrombal::policy::Domain;
use viscrombal::wasm::ExternalKind;

use crate::json::{self, Object};
use crate::show;

/// What a build may have: an export, or a need of a domain from a source.
#[derive(Debug, Clone, PartialEq, Eq, Hash)]
enum Thing {
    Export { name: String, kind: ExternalKind },
    Need { domain: Domain, source: String },
}

/// What a comparison reports, each once: an export that stands twice is reported twice, one after another.
fn changes(answer: &Compatibility) -> Vec<(Change, Thing)> {
    let exports = answer.export_diffs().iter().map(|diff| (diff.change, Thing::Export { name: diff.name.into(), kind: diff.kind }));
    let needs = answer.capability_diffs().iter();
    let needs = needs.map(|diff| (diff.change, Thing::Need { domain: diff.domain, source: diff.source.into() }));
    let mut all: Vec<_> = exports.chain(needs).collect();
    all.dedup();
    all
}

/// The steps that report a change, from 1 on.
#[derive(Default)]
pub struct Steps(HashMap<(Change, Thing), Vec<usize>>);

impl Steps {
    /// Takes down what the comparison of a step reports.
    pub fn add(&mut self, step: usize, answer: &Compatibility) {
        for change in changes(answer) {
            self.0.entry(change).or_default().push(step);
        }
    }

    /// What the comparison of the first with the last reports, with the steps that report the same.
    pub fn between(&self, ends: &Compatibility) -> Vec<Difference> {
        let all = changes(ends).into_iter();
        let steps = |change: &_| self.0.get(change).cloned().unwrap_or_default();
        all.map(|change| Difference { steps: steps(&change), change: change.0, thing: change.1 }).collect()
    }
}

/// Something that a series has lost or gained from its first build to its last.
pub struct Difference {
    change: Change,
    thing: Thing,
    steps: Vec<usize>,
}

impl Difference {
    fn row(&self) -> Vec<String> {
        let change = match self.change {
            Change::Removed => "  lost",
            Change::Added => "  gained",
        };
        let what = match &self.thing {
            Thing::Export { name, kind } => format!("export {} ({kind})", show::name(name)),
            Thing::Need { domain, source } => format!("need of {domain} via {}", show::name(source)),
        };
        let steps: Vec<_> = self.steps.iter().map(usize::to_string).collect();
        let by = format!("{} {}", if steps.len() == 1 { "step" } else { "steps" }, steps.join(", "));
        vec![change.into(), what, by]
    }

    fn object(&self) -> String {
        let object = match &self.thing {
            Thing::Export { name, kind } => Object::default().str("what", "export").str("name", name).str("kind", &kind.slug()),
            Thing::Need { domain, source } => Object::default().str("what", "need").str("domain", domain.slug()).str("source", source),
        };
        object.raw("steps", json::array(self.steps.iter().map(usize::to_string))).done()
    }
}

/// All differences in lines. Without one each of both can stand in for the other (`EachOther`, in the same file).
pub fn words(first: &Path, last: &Path, differences: &[Difference]) -> String {
    let (first, last) = (show::path(first), show::path(last));
    if differences.is_empty() {
        return format!("\nfrom {first} to {last}: nothing lost and nothing gained, each can stand in for the other\n");
    }
    let rows: Vec<_> = differences.iter().map(Difference::row).collect();
    format!("\nfrom {first} to {last}\n{}", show::table(&rows))
}

/// All differences as fields of an object.
pub fn tell(differences: &[Difference], object: Object) -> Object {
    let of = |change| json::array(differences.iter().filter(|difference| difference.change == change).map(Difference::object));
    object.raw("lost", of(Change::Removed)).raw("gained", of(Change::Added))
}
