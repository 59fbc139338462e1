//! `chain --policy P --stricter Q`: whether whoever passes under P passes under Q. No module is read.
//!
//! The theorem is `Allowing` in crates/series/specs/Claims.antt: every file that passes under P passes under Q exactly where Q allows
//! every domain that P allows (`texts`); where Q denies one, a file that needs it alone passes under P and not under Q (`apart`). What a
//! policy allows is what the archive read.

use std::io::Write;
use std::path::Path;

use viscrombal::policy::{Domain, Policy};

use crate::args::Options;
use crate::files::{self, or_stop, Asked, Stop};
use crate::json::{self, Object};
use crate::{check, show, Status};

/// Reads both policies, and holds what they allow against each other.
pub fn run(out: &mut dyn Write, first: &Path, second: &Path, options: Options) -> Result<Status, Stop> {
    let text = files::read_policy(first)?;
    let policy = or_stop("policy", first, Policy::parse(&text))?;
    let text = files::read_policy(second)?;
    let stricter = or_stop("policy", second, Policy::parse(&text))?;
    let denied = denied(&policy, &stricter);
    if options.json {
        let object = Asked::new(first, &policy).tell_as("policy", Object::default());
        let object = Asked::new(second, &stricter).tell_as("stricter", object);
        writeln!(out, "{}", tell(&denied, object).done())?;
    } else {
        write!(out, "{}{}", check::stated(&policy, first), check::stated(&stricter, second))?;
        write!(out, "\n{}", words(&show::path(first), &show::path(second), &denied))?;
    }
    Ok(Status::passing(denied.is_empty()))
}

/// The domains that the first allows and the second does not.
fn denied(first: &Policy, second: &Policy) -> Vec<Domain> {
    let denied = |domain: &Domain| first.effective(*domain).allow && !second.effective(*domain).allow;
    Domain::EVERY.into_iter().filter(denied).collect()
}

fn words(first: &str, second: &str, denied: &[Domain]) -> String {
    let Some(domain) = denied.first() else {
        let theorem = format!("  theorem  texts  whoever passes under {first} passes under {second}");
        return format!("{second} allows every domain that {first} allows\n{theorem}\n");
    };
    let theorem = format!("  theorem  apart  a build that needs {domain} alone passes under {first}, and not under {second}");
    let denied: Vec<_> = denied.iter().map(|domain| domain.slug()).collect();
    format!("{second} does not allow {}, which {first} allows\n{theorem}\n", denied.join(", "))
}

fn tell(denied: &[Domain], object: Object) -> Object {
    let follows = denied.is_empty();
    let object = object.str("answer", if follows { "follows" } else { "does not follow" }).raw("follows", follows);
    object.raw("denied", json::array(denied.iter().map(|domain| json::string(domain.slug()))))
}
