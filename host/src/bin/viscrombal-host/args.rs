//! The command's words.

use std::ffi::OsString;
use std::path::{Path, PathBuf};

/// What is asked for.
#[derive(Debug, PartialEq, Eq)]
pub enum Command {
    Help,
    Version,
    Check { modules: Vec<PathBuf>, policy: PathBuf, options: Options },
    Compare { baseline: PathBuf, candidate: PathBuf, options: Options },
    Chain { builds: Vec<PathBuf>, policy: PathBuf, options: Options },
    Order { policy: PathBuf, stricter: PathBuf, options: Options },
    Imports { modules: Vec<PathBuf>, options: Options },
    Locate { module: PathBuf, offset: usize, options: Options },
}

/// The word for standard input.
pub const INPUT: &str = "-";

/// How it is to be done and said.
#[derive(Debug, Default, Clone, Copy, PartialEq, Eq)]
pub struct Options {
    /// An object a line.
    pub json: bool,
    /// Every module must be read strictly.
    pub strict: bool,
    /// A folder stands for the modules below it.
    pub recursive: bool,
    /// Under a refusal, which field of the file it points at.
    pub explain: bool,
}

/// The command, or what is wrong with the words. Options stand anywhere; `-` is standard input; after `--` every word is a file.
pub fn parse(words: impl Iterator<Item = OsString>) -> Result<Command, &'static str> {
    let (mut plain, mut policy, mut options) = (Vec::new(), None, Options::default());
    let mut stricter = None;
    let mut words = words.fuse();
    while let Some(word) = words.next() {
        match word.to_str() {
            Some("-h" | "--help") => return Ok(Command::Help),
            Some("--version") => return Ok(Command::Version),
            Some("--json") => options.json = true,
            Some("--strict") => options.strict = true,
            Some("--recursive") => options.recursive = true,
            Some("--explain") => options.explain = true,
            Some("--policy") if policy.is_some() => return Err("more than one policy"),
            Some("--policy") => policy = Some(words.next().ok_or("--policy needs a file")?),
            Some("--stricter") if stricter.is_some() => return Err("more than one --stricter"),
            Some("--stricter") => stricter = Some(words.next().ok_or("--stricter needs a file")?),
            Some("--") => plain.extend(words.by_ref().map(|word| if word == INPUT { "./-".into() } else { word })),
            Some(INPUT) => plain.push(word),
            _ if word.as_encoded_bytes().starts_with(b"-") => return Err("an option that is not known (files after --)"),
            _ => plain.push(word),
        }
    }
    if plain.iter().chain(&policy).chain(&stricter).filter(|word| *word == INPUT).count() > 1 {
        return Err("standard input can be read once");
    }
    let policy = policy.map(PathBuf::from);
    let mut plain = plain.into_iter();
    let verb = plain.next().ok_or("no command")?;
    let files: Vec<PathBuf> = plain.map(PathBuf::from).collect();
    if let Some(stricter) = stricter.map(PathBuf::from) {
        let modules = options.strict || options.recursive || options.explain || !files.is_empty();
        return match (verb.to_str(), policy) {
            (Some("chain"), Some(policy)) if !modules => Ok(Command::Order { policy, stricter, options }),
            _ => Err("--stricter is for two policies alone: chain --policy FILE --stricter FILE"),
        };
    }
    match (verb.to_str(), policy) {
        (Some("compare" | "chain" | "locate"), _) if options.recursive => Err("--recursive is for check and imports"),
        (Some("imports"), Some(_)) => Err("imports takes no policy"),
        (Some("imports"), None) if files.is_empty() => Err("imports needs a module"),
        (Some("imports"), None) => Ok(Command::Imports { modules: files, options }),
        (Some("locate"), Some(_)) => Err("locate takes no policy"),
        (Some("locate"), None) => match <[PathBuf; 2]>::try_from(files) {
            Ok([module, offset]) => Ok(Command::Locate { module, offset: offset_of(&offset)?, options }),
            Err(_) => Err("locate needs a module and an offset"),
        },
        (Some("check"), Some(_)) if files.is_empty() => Err("check needs a module"),
        (Some("check"), Some(policy)) => Ok(Command::Check { modules: files, policy, options }),
        (Some("chain"), Some(_)) if files.len() < 2 => Err("chain needs two builds or more"),
        (Some("chain"), Some(policy)) => Ok(Command::Chain { builds: files, policy, options }),
        (Some("check" | "chain"), None) => Err("check and chain need --policy FILE"),
        (Some("compare"), Some(_)) => Err("compare takes no policy"),
        (Some("compare"), None) => match <[PathBuf; 2]>::try_from(files) {
            Ok([baseline, candidate]) => Ok(Command::Compare { baseline, candidate, options }),
            Err(_) => Err("compare needs two modules"),
        },
        _ => Err("no such command"),
    }
}

/// An offset as a hex viewer shows it: in decimal, or in hex after 0x.
fn offset_of(word: &Path) -> Result<usize, &'static str> {
    let word = word.to_str().unwrap_or("");
    let number = match word.strip_prefix("0x") {
        Some(hex) => usize::from_str_radix(hex, 16),
        None => word.parse(),
    };
    number.map_err(|_| "an offset is a number, or 0x and a number in hex")
}

#[cfg(test)]
mod tests {
    use super::*;

    fn parsed(words: &str) -> Result<Command, &'static str> {
        parse(words.split_whitespace().map(OsString::from))
    }

    #[test]
    fn options_stand_anywhere() {
        let options = Options { json: true, strict: true, ..Options::default() };
        let want = Ok(Command::Check { modules: vec!["a".into(), "b".into()], policy: "p".into(), options });
        assert_eq!(parsed("check a b --policy p --json --strict"), want);
        assert_eq!(parsed("--strict --json check --policy p a b"), want);
        assert_eq!(parsed("--policy p --json --strict -- check a b"), want);
    }

    #[test]
    fn a_file_may_begin_with_a_dash_after_two() {
        let want = Command::Compare { baseline: "-a".into(), candidate: "--json".into(), options: Options::default() };
        assert_eq!(parsed("compare -- -a --json"), Ok(want));
        let want = Command::Compare { baseline: "-".into(), candidate: "./-".into(), options: Options::default() };
        assert_eq!(parsed("compare - -- -"), Ok(want));
    }

    #[test]
    fn standard_input_is_one_dash() {
        let options = Options { recursive: true, ..Options::default() };
        let want = Command::Check { modules: vec!["-".into(), "a".into()], policy: "p".into(), options };
        assert_eq!(parsed("check --recursive - a --policy p"), Ok(want));
        let want = Command::Check { modules: vec!["a".into()], policy: "-".into(), options };
        assert_eq!(parsed("check a --policy - --recursive"), Ok(want));
        let words =
            ["check - - --policy p", "check - --policy -", "compare - -", "chain - a - --policy p", "chain --policy - --stricter -"];
        for words in words {
            assert_eq!(parsed(words), Err("standard input can be read once"), "{words}");
        }
        assert_eq!(parsed("check a --version"), Ok(Command::Version));
    }

    #[test]
    fn two_policies() {
        let options = Options { json: true, ..Options::default() };
        let want = Ok(Command::Order { policy: "p".into(), stricter: "q".into(), options });
        assert_eq!(parsed("chain --policy p --stricter q --json"), want);
        assert_eq!(parsed("--json --stricter q chain --policy p"), want);
        let want = Ok(Command::Order { policy: "p".into(), stricter: "-".into(), options: Options::default() });
        assert_eq!(parsed("chain --policy p --stricter -"), want);
    }

    #[test]
    fn imports_of_modules() {
        let options = Options { json: true, recursive: true, ..Options::default() };
        let want = Ok(Command::Imports { modules: vec!["a".into(), "-".into()], options });
        assert_eq!(parsed("imports a - --json --recursive"), want);
        assert_eq!(parsed("--recursive --json imports a -"), want);
    }

    #[test]
    fn offsets_are_decimal_or_hex() {
        for (word, offset) in [("0", 0), ("15", 15), ("0xf", 15), ("0x0F", 15)] {
            let want = Command::Locate { module: "a".into(), offset, options: Options::default() };
            assert_eq!(parsed(&format!("locate a {word}")), Ok(want));
        }
    }

    #[test]
    fn wrong_words_are_told() {
        for words in [
            "",
            "checks a",
            "check",
            "check a",
            "check --policy p",
            "check a --policy",
            "check a --policy p --policy q",
            "compare a",
            "compare a b c",
            "compare a b --policy p",
            "chain a --policy p",
            "chain a b",
            "chain --policy p",
            "chain --stricter q",
            "chain --policy p --stricter",
            "chain --policy p --stricter q --stricter q",
            "chain a b --policy p --stricter q",
            "chain --policy p --stricter q --strict",
            "chain --policy p --stricter q --recursive",
            "check --policy p --stricter q",
            "check a --policy p --stricter q",
            "compare a b --stricter q",
            "check a --polity p",
            "compare a b --recursive",
            "imports",
            "imports --json",
            "imports a --policy p",
            "imports a --stricter p",
            "import a",
            "locate a",
            "locate a b",
            "locate a 0x",
            "locate a -1",
            "locate a 1 2",
            "locate a 1 --policy p",
            "locate a 1 --recursive",
            "chain a b --policy p --recursive",
            "-x",
        ] {
            assert!(parsed(words).is_err(), "{words}");
        }
    }
}
