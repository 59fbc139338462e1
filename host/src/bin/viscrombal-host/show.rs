//! Words and tables for a person. Whatever came from a file or its name is shown so that it cannot break or reorder a line.

use std::fmt::Write;
use std::ops::RangeInclusive;
use std::os::unix::ffi::OsStrExt;
use std::path::Path;

/// Names longer than this are cut where they are shown.
const LONGEST: usize = 96;

/// Where all characters stand that are written from right to left, numbers of such scripts, and the marks and controls of direction: the
/// blocks of Unicode's bidirectional classes R, AL and AN, LRM and RLM, embeddings, overrides and isolates. One of them would move what
/// stands beside it on a line, numbers of a table too.
const TURNING: [RangeInclusive<char>; 8] = [
    '\u{590}'..='\u{8ff}',
    '\u{200e}'..='\u{200f}',
    '\u{202a}'..='\u{202e}',
    '\u{2066}'..='\u{2069}',
    '\u{fb1d}'..='\u{fdff}',
    '\u{fe70}'..='\u{feff}',
    '\u{10800}'..='\u{10fff}',
    '\u{1e800}'..='\u{1efff}',
];

/// Bytes as they are where they are plain, else in quotes, and what is no printable character, or turns a line, as an escape.
pub fn word(bytes: &[u8]) -> String {
    let plain = |byte: &u8| byte.is_ascii_alphanumeric() || b"-_./:@+=,~%$".contains(byte);
    if !bytes.is_empty() && bytes.iter().all(plain) {
        return String::from_utf8_lossy(bytes).into_owned();
    }
    let mut out = String::from("\"");
    for chunk in bytes.utf8_chunks() {
        for c in chunk.valid().escape_debug() {
            match TURNING.iter().any(|range| range.contains(&c)) {
                true => out.extend(c.escape_unicode()),
                false => out.push(c),
            }
        }
        for byte in chunk.invalid() {
            let _ = write!(out, "\\x{byte:02x}");
        }
    }
    out.push('"');
    out
}

/// A path, whole.
pub fn path(path: &Path) -> String {
    word(path.as_os_str().as_bytes())
}

/// A name of a module or a policy, cut where it is long.
pub fn name(name: &str) -> String {
    match name.char_indices().nth(LONGEST) {
        None => word(name.as_bytes()),
        Some((end, _)) => format!("{}.. ({} bytes)", word(&name.as_bytes()[..end]), count(name.len())),
    }
}

/// A number with its thousands apart.
pub fn count(number: usize) -> String {
    sum(number as u128)
}

/// The same of a sum.
pub fn sum(number: u128) -> String {
    let digits = number.to_string();
    let mut out = String::new();
    for (i, digit) in digits.chars().enumerate() {
        if i > 0 && (digits.len() - i) % 3 == 0 {
            out.push(',');
        }
        out.push(digit);
    }
    out
}

/// `1 file`, `2 files`.
pub fn many(number: usize, what: &str) -> String {
    format!("{} {what}{}", count(number), if number == 1 { "" } else { "s" })
}

/// Rows as a table of columns, two blanks apart; the last column is as long as it is.
pub fn table(rows: &[Vec<String>]) -> String {
    let columns = rows.iter().map(Vec::len).max().unwrap_or(0);
    let width = |column: usize| {
        let cells = rows.iter().filter_map(|row| row.get(column));
        cells.map(|cell| cell.chars().count()).max().unwrap_or(0)
    };
    let widths: Vec<usize> = (0..columns.saturating_sub(1)).map(width).chain([0]).collect();
    let mut out = String::new();
    for row in rows {
        let cells: Vec<String> = row.iter().zip(&widths).map(|(cell, &width)| format!("{cell:width$}")).collect();
        out += cells.join("  ").trim_end();
        out.push('\n');
    }
    out
}

#[cfg(test)]
mod tests {
    use super::*;

    #[test]
    fn words_stay_on_their_line() {
        assert_eq!(word(b"samples/tide-1.wasm"), "samples/tide-1.wasm");
        assert_eq!(word(b""), "\"\"");
        assert_eq!(word(b"a b"), "\"a b\"");
        assert_eq!(word("é".as_bytes()), "\"é\"");
        assert_eq!(word(b"a\ncompliant\r\x1b[2K\"\\"), r#""a\ncompliant\r\u{1b}[2K\"\\""#);
        assert_eq!(word("\u{202e}\u{2028}\u{85}\u{200b}".as_bytes()), r#""\u{202e}\u{2028}\u{85}\u{200b}""#);
        assert_eq!(word(b"a\xff\xfeb"), r#""a\xff\xfeb""#);
    }

    #[test]
    fn no_word_turns_its_line() {
        // a letter and a number of each script's block, and every mark and control of direction
        assert_eq!(word("a\u{5d0}\u{627}\u{661}".as_bytes()), r#""a\u{5d0}\u{627}\u{661}""#);
        for c in "\u{61c}\u{200e}\u{200f}\u{202a}\u{202b}\u{202c}\u{202d}\u{202e}\u{2066}\u{2067}\u{2068}\u{2069}".chars() {
            assert_eq!(word(c.to_string().as_bytes()), format!("\"{}\"", c.escape_unicode()));
        }
        for c in "\u{590}\u{7c0}\u{8ff}\u{fb1d}\u{fdff}\u{fe70}\u{10800}\u{10fff}\u{1e800}\u{1e900}\u{1efff}".chars() {
            assert_eq!(word(c.to_string().as_bytes()), format!("\"{}\"", c.escape_unicode()));
        }
        assert_eq!(word("жλ漢字 é".as_bytes()), "\"жλ漢字 é\"", "what goes from left to right stays");
    }

    #[test]
    fn long_names_are_cut() {
        assert_eq!(name(&"é".repeat(96)), format!("\"{}\"", "é".repeat(96)));
        assert_eq!(name(&"a".repeat(16_000)), format!("{}.. (16,000 bytes)", "a".repeat(96)));
    }

    #[test]
    fn numbers() {
        assert_eq!([0, 999, 1000, 16_777_216].map(count), ["0", "999", "1,000", "16,777,216"]);
        assert_eq!(sum(1 << 64), "18,446,744,073,709,551,616");
    }

    #[test]
    fn columns_line_up() {
        let rows = [vec!["a".into(), "bb".into(), "c".into()], vec!["aaa".into(), "b".into(), "cccc".into()], vec!["a".into()]];
        assert_eq!(table(&rows), "a    bb  c\naaa  b   cccc\na\n");
    }
}
