//! Mistakes to plant in a copy of the port's sources: the list teeth.txt.
use std::fs;
use std::path::Path;

pub struct Mistake {
    pub name: String,
    pub file: String,
    old: String,
    new: String,
}

/// Blocks of four lines: a name, `file: `, `old: `, `new: `; `\n` is a line's end, `\\` a backslash.
pub fn mistakes(list: &str) -> Vec<Mistake> {
    let lines: Vec<&str> = list.lines().filter(|l| !l.is_empty() && !l.starts_with('#')).collect();
    let text = |l: &str, word: &str| {
        let rest = l.strip_prefix(word).unwrap_or_else(|| panic!("{l:?} does not begin {word:?}"));
        rest.replace("\\\\", "\u{1}").replace("\\n", "\n").replace('\u{1}', "\\")
    };
    lines
        .chunks(4)
        .map(|b| Mistake { name: b[0].into(), file: text(b[1], "file: "), old: text(b[2], "old: "), new: text(b[3], "new: ") })
        .collect()
}

impl Mistake {
    /// Into the crates of a folder; the old text must stand there exactly once.
    pub fn plant(&self, crates: &Path) -> Result<(), String> {
        let file = crates.join(&self.file);
        let source = fs::read_to_string(&file).map_err(|e| format!("{}: {e}", self.file))?;
        let stripped = crate::strip::stripped(&source);
        match stripped.matches(&self.old).count() {
            1 => fs::write(&file, stripped.replace(&self.old, &self.new)).map_err(|e| e.to_string()),
            n => Err(format!("{}: the old text stands {n} times in {}", self.name, self.file)),
        }
    }
}
