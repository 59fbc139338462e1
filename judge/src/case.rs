//! A case: a call of the port with its numbers and byte strings; and what the port's process answers.

/// The calls, by the numbers that driver/driver.c has for them.
#[derive(Clone, Copy, PartialEq, Eq, Debug)]
#[repr(u32)]
pub enum Call {
    Uleb128 = 1,
    Uleb128U32,
    Sleb128,
    Name,
    Module,
    Functions,
    Memories,
    Namespaces,
    Policy,
    Token,
    Write,
    Evaluate,
    Import,
    Path,
    Rewrite,
    Manifest,
    Requirements,
    AllImports,
    AllExports,
    Check,
    Needs,
    Compare,
    Differences,
    ExportName,
    SourceName,
    U8,
    U32Le,
    Take,
    Skip,
    Left,
    Kind,
    Section,
    ChangeWord,
    Reasons,
    CModule,
    CManifest,
    CCompare,
    EvaluateRecords,
    CTokens,
    Strict,
    CStrict,
}

pub const CALLS: [(Call, &str); 41] = [
    (Call::Uleb128, "uleb128"),
    (Call::Uleb128U32, "uleb128_u32"),
    (Call::Sleb128, "sleb128"),
    (Call::Name, "name"),
    (Call::Module, "module"),
    (Call::Functions, "functions"),
    (Call::Memories, "memories"),
    (Call::Namespaces, "namespaces"),
    (Call::Policy, "policy"),
    (Call::Token, "token"),
    (Call::Write, "write"),
    (Call::Evaluate, "evaluate"),
    (Call::Import, "import"),
    (Call::Path, "path"),
    (Call::Rewrite, "rewrite"),
    (Call::Manifest, "manifest"),
    (Call::Requirements, "requirements"),
    (Call::AllImports, "all_imports"),
    (Call::AllExports, "all_exports"),
    (Call::Check, "check"),
    (Call::Needs, "needs"),
    (Call::Compare, "compare"),
    (Call::Differences, "differences"),
    (Call::ExportName, "export_name"),
    (Call::SourceName, "source_name"),
    (Call::U8, "u8"),
    (Call::U32Le, "u32_le"),
    (Call::Take, "take"),
    (Call::Skip, "skip"),
    (Call::Left, "left"),
    (Call::Kind, "kind"),
    (Call::Section, "section"),
    (Call::ChangeWord, "change"),
    (Call::Reasons, "reasons"),
    (Call::CModule, "c_module"),
    (Call::CManifest, "c_manifest"),
    (Call::CCompare, "c_compare"),
    (Call::EvaluateRecords, "evaluate_records"),
    (Call::CTokens, "c_tokens"),
    (Call::Strict, "strict"),
    (Call::CStrict, "c_strict"),
];

#[derive(Clone, PartialEq, Eq, Debug)]
pub struct Case {
    pub call: Call,
    pub numbers: Vec<u64>,
    pub strings: Vec<Vec<u8>>,
}

pub struct Answer {
    pub numbers: Vec<u64>,
    pub bytes: Vec<u8>,
}

impl Case {
    pub fn new(call: Call, numbers: &[u64], strings: &[&[u8]]) -> Case {
        Case { call, numbers: numbers.to_vec(), strings: strings.iter().map(|s| s.to_vec()).collect() }
    }

    /// As driver.c reads it.
    pub fn encode(&self, out: &mut Vec<u8>) {
        for n in [self.call as u32, self.numbers.len() as u32, self.strings.len() as u32] {
            out.extend(n.to_le_bytes());
        }
        for n in &self.numbers {
            out.extend(n.to_le_bytes());
        }
        for s in &self.strings {
            out.extend((s.len() as u32).to_le_bytes());
            out.extend(s);
        }
    }

    /// As `judge one` reads it: the call, its numbers, its strings in hex.
    pub fn text(&self) -> String {
        let name = CALLS.iter().find(|c| c.0 == self.call).unwrap().1;
        let numbers: Vec<String> = self.numbers.iter().map(|n| n.to_string()).collect();
        let strings: Vec<String> = self.strings.iter().map(|s| hex(s)).collect();
        format!("{name} {} {}", list(&numbers), list(&strings))
    }

    pub fn parse(text: &str) -> Option<Case> {
        let mut words = text.split_whitespace();
        let name = words.next()?;
        let call = CALLS.iter().find(|c| c.1 == name)?.0;
        let numbers = unlist(words.next()?).map(|n| n.parse().ok()).collect::<Option<_>>()?;
        let strings = unlist(words.next()?).map(unhex).collect::<Option<_>>()?;
        Some(Case { call, numbers, strings })
    }
}

/// A list of words as one word; `-` is the empty list, and an empty word in a list is `.`.
fn list(words: &[String]) -> String {
    if words.is_empty() {
        return "-".into();
    }
    words.iter().map(|w| if w.is_empty() { "." } else { w }).collect::<Vec<_>>().join(",")
}

fn unlist(word: &str) -> impl Iterator<Item = &str> {
    word.split(',').filter(|w| *w != "-").map(|w| if w == "." { "" } else { w })
}

pub fn hex(s: &[u8]) -> String {
    s.iter().map(|b| format!("{b:02x}")).collect()
}

fn unhex(s: &str) -> Option<Vec<u8>> {
    (0..s.len()).step_by(2).map(|i| u8::from_str_radix(s.get(i..i + 2)?, 16).ok()).collect()
}
