//! Policies, and verdicts on modules under them.

use std::fmt;

use crate::compat;
use crate::error::{Refusal, Result};
use crate::ffi;
use crate::rows::{name, with_room, Cells};
use crate::wasm::{self, Module};

/// What a module may reach through the functions that it imports.
#[derive(Debug, Clone, Copy, PartialEq, Eq, PartialOrd, Ord, Hash)]
#[allow(missing_docs)]
pub enum Domain {
    Filesystem,
    Environment,
    Clock,
    Network,
    Random,
    Stdio,
    /// A function that belongs to none of the others.
    Unknown,
}

impl Domain {
    /// The six that a function may belong to.
    pub const ALL: [Domain; 6] = [Domain::Filesystem, Domain::Environment, Domain::Clock, Domain::Network, Domain::Random, Domain::Stdio];

    /// All seven, in the order of verdicts.
    pub const EVERY: [Domain; 7] =
        [Domain::Filesystem, Domain::Environment, Domain::Clock, Domain::Network, Domain::Random, Domain::Stdio, Domain::Unknown];

    /// Stable slug, as in policies.
    pub fn slug(self) -> &'static str {
        match self {
            Domain::Filesystem => "fs",
            Domain::Environment => "env",
            Domain::Clock => "clock",
            Domain::Network => "network",
            Domain::Random => "random",
            Domain::Stdio => "stdio",
            Domain::Unknown => "unknown",
        }
    }

    /// By its slug, or one of the aliases `net` and `rand`.
    pub fn from_slug(slug: &str) -> Option<Domain> {
        match slug {
            "net" => Some(Domain::Network),
            "rand" => Some(Domain::Random),
            _ => Domain::EVERY.into_iter().find(|domain| domain.slug() == slug),
        }
    }

    /// By its number, 0 to 6.
    pub(crate) fn numbered(number: usize) -> Result<Domain> {
        Domain::EVERY.get(number).copied().ok_or(Refusal::STRANGE)
    }
}

impl fmt::Display for Domain {
    fn fmt(&self, f: &mut fmt::Formatter<'_>) -> fmt::Result {
        f.write_str(self.slug())
    }
}

/// A policy that was read and accepted, with the text that it was read from.
#[derive(Debug, Clone)]
pub struct Policy<'a> {
    text: &'a [u8],
    name: &'a str,
    default_allow: bool,
    rules: [Option<bool>; 7],
}

/// A domain's rule, and the tokens after its `:`. No verdict looks at tokens.
#[derive(Debug, Clone)]
#[non_exhaustive]
pub struct DomainRule<'a> {
    /// Whether the domain is allowed.
    pub allow: bool,
    /// Its tokens, listed by one call when the first is asked for.
    pub allow_list: Tokens<'a>,
}

impl<'a> Policy<'a> {
    /// Reads a policy's text.
    pub fn parse<T: AsRef<[u8]> + ?Sized>(text: &'a T) -> Result<Policy<'a>> {
        let text = text.as_ref();
        let told = ffi::policy(text)?;
        let name = if told.named == 0 { "default-deny" } else { name(text, told.start, told.size)? };
        let rules = told.rules.map(|rule| match rule.stance {
            0 => None,
            stance => Some(stance == 1),
        });
        Ok(Policy { text, name, default_allow: told.permit != 0, rules })
    }

    /// The text.
    pub fn text(&self) -> &'a [u8] {
        self.text
    }

    /// Its name, `default-deny` where the text gives none.
    pub fn name(&self) -> &'a str {
        self.name
    }

    /// Whether a domain without a rule is allowed.
    pub fn default_allow(&self) -> bool {
        self.default_allow
    }

    /// The rules that are there, in the order of domains.
    pub fn rules(&self) -> impl Iterator<Item = (Domain, DomainRule<'a>)> + '_ {
        let explicit = Domain::EVERY.into_iter().filter(|&domain| self.rules[domain as usize].is_some());
        explicit.map(|domain| (domain, self.effective(domain)))
    }

    /// A domain's rule, or without one the default.
    pub fn effective(&self, domain: Domain) -> DomainRule<'a> {
        let allow = self.rules[domain as usize].unwrap_or(self.default_allow);
        DomainRule { allow, allow_list: Tokens { text: self.text, domain, listed: None } }
    }

    /// The policy's text in the one form that the writer gives it.
    pub fn rewrite(&self) -> Result<Vec<u8>> {
        let (told, mut out) = with_room(2 * self.text.len() + 256, |out| ffi::rewrite(self.text, out))?;
        out.truncate(told.bytes);
        Ok(out)
    }
}

/// A domain's tokens, parts of the policy's text. The first that is asked for lists them all, by one call that reads the policy again.
#[derive(Debug, Clone)]
pub struct Tokens<'a> {
    text: &'a [u8],
    domain: Domain,
    listed: Option<std::vec::IntoIter<&'a str>>,
}

impl<'a> Iterator for Tokens<'a> {
    type Item = &'a str;

    fn next(&mut self) -> Option<&'a str> {
        let (text, domain) = (self.text, self.domain);
        self.listed.get_or_insert_with(|| tokens(text, domain).unwrap_or_default().into_iter()).next()
    }
}

fn tokens(text: &[u8], domain: Domain) -> Result<Vec<&str>> {
    let (told, out) = with_room(256, |out| ffi::tokens(text, domain as usize, out))?;
    Cells::of(&out, told.bytes)?.rows(told.count, |[from, len]| name(text, from, len))
}

/// What a policy says of one domain.
#[derive(Debug, Clone, Copy, PartialEq, Eq)]
#[non_exhaustive]
pub struct DomainVerdict {
    /// Which.
    pub domain: Domain,
    /// Whether the module imports a function of it.
    pub required: bool,
    /// Whether the policy allows it.
    pub allowed: bool,
    /// How many functions of it the module imports.
    pub many: usize,
}

impl DomainVerdict {
    /// Required and not allowed.
    pub fn is_violation(&self) -> bool {
        self.required && !self.allowed
    }
}

/// A verdict on a module under a policy, from [`check`] alone: both were read and accepted.
#[derive(Debug, Clone, PartialEq, Eq)]
pub struct Verdict {
    verdicts: [DomainVerdict; 7],
    set: u32,
    compliant: bool,
}

/// The original's name of it.
pub type Evaluation = Verdict;

/// Holds a module's file against a policy. The policy was accepted, so a refusal is the file's.
pub fn check(file: &[u8], policy: &Policy<'_>) -> Result<Verdict> {
    let told = ffi::check(file, policy.text)?;
    let mut domains = Domain::EVERY.into_iter();
    let verdicts = told.verdicts.map(|verdict| DomainVerdict {
        domain: domains.next().unwrap_or(Domain::Unknown),
        required: verdict.required != 0,
        allowed: verdict.allowed != 0,
        many: verdict.many,
    });
    Ok(Verdict { verdicts, set: told.set, compliant: told.compliant != 0 })
}

impl Verdict {
    /// Whether every domain that is required is allowed.
    pub fn is_compliant(&self) -> bool {
        self.compliant
    }

    /// The domains that are required and not allowed.
    pub fn violations(&self) -> Vec<Domain> {
        Domain::EVERY.into_iter().filter(|&domain| self.set >> (domain as u32) & 1 == 1).collect()
    }

    /// What is said of each domain, in their order.
    pub fn verdicts(&self) -> &[DomainVerdict; 7] {
        &self.verdicts
    }
}

/// A domain that a module needs, the module name of a function import that needs it, and that import's field.
#[derive(Debug, Clone, Copy, PartialEq, Eq)]
#[non_exhaustive]
#[allow(missing_docs)]
pub struct Requirement<'a> {
    pub domain: Domain,
    pub source: &'a str,
    pub detail: &'a str,
}

/// The pairs of domain and source that a module's functions need, by domain, then by source, each with the field of its first import.
///
/// They are what a comparison adds against a module that imports nothing.
pub fn capabilities<'a>(module: &Module<'a>) -> Result<Vec<Requirement<'a>>> {
    let nothing = wasm::parse(b"\0asm\x01\0\0\0")?;
    let all = compat::compare_modules(&nothing, module)?;
    let needs = all.capability_diffs().iter();
    Ok(needs.map(|diff| Requirement { domain: diff.domain, source: diff.source, detail: diff.detail }).collect())
}
