//! Refusals: a number, a place, and a name in words (docs/RULES.md, "Numbered answers").

use std::fmt;

use crate::ffi::INTERFACE;

/// What the calls of this crate answer.
pub type Result<T> = std::result::Result<T, Refusal>;

/// The original's name of a [`Refusal`].
pub type Error = Refusal;

/// The refusals, by their numbers. 3, the original's one kind of a bad number, is none of them: it is told apart as 17, 18 and 19.
#[derive(Debug, Clone, Copy, PartialEq, Eq, PartialOrd, Ord, Hash)]
#[non_exhaustive]
#[allow(missing_docs)]
pub enum ErrorKind {
    /// No refusal of the rules, and nothing that a file can bring about: the archive that was linked is of another version.
    OtherArchive = 0,
    UnexpectedEof = 1,
    BadMagic = 2,
    BadUtf8 = 4,
    MalformedSection = 5,
    Directive = 6,
    BadDefault = 7,
    BadDomain = 8,
    PackageInWorld = 9,
    NoName = 10,
    Unmatched = 11,
    Outside = 12,
    Full = 13,
    TooLong = 14,
    BadTable = 15,
    NoRoom = 16,
    TooManyBytes = 17,
    TenthByte = 18,
    AboveU32 = 19,
    NotStrict = 20,
}

use ErrorKind::*;

impl ErrorKind {
    /// The refusals of the rules, in the order of their numbers, 1 to 20 without 3.
    pub const ALL: &'static [ErrorKind] = &[
        UnexpectedEof,
        BadMagic,
        BadUtf8,
        MalformedSection,
        Directive,
        BadDefault,
        BadDomain,
        PackageInWorld,
        NoName,
        Unmatched,
        Outside,
        Full,
        TooLong,
        BadTable,
        NoRoom,
        TooManyBytes,
        TenthByte,
        AboveU32,
        NotStrict,
    ];

    /// The number of the rules, 1 to 20 and never 3; 0 where the archive is of another version.
    pub fn number(self) -> u32 {
        self as u32
    }

    /// What the original tells as its kind `BadLeb128`: a number of too many bytes, with a tenth byte too large, or above u32.
    pub fn is_bad_leb128(self) -> bool {
        matches!(self, TooManyBytes | TenthByte | AboveU32)
    }

    /// The name in words.
    pub fn words(self) -> &'static str {
        match self {
            OtherArchive => "the archive is of another version",
            UnexpectedEof => "the bytes end too soon",
            BadMagic => "not a WebAssembly module",
            BadUtf8 => "not well-formed UTF-8",
            MalformedSection => "an import of unknown kind",
            Directive => "a line that is no directive",
            BadDefault => "a default that is neither allow nor deny",
            BadDomain => "no such domain",
            PackageInWorld => "a package inside a world",
            NoName => "a world without a name",
            Unmatched => "a brace that closes nothing",
            Outside => "an import or export outside of a world",
            Full => "more entries than are taken",
            TooLong => "longer than is read",
            BadTable => "a table that does not hold",
            NoRoom => "no room for the answer",
            TooManyBytes => "a number of more than ten bytes",
            TenthByte => "a number whose tenth byte is too large",
            AboveU32 => "a number above 4,294,967,295",
            NotStrict => "not strict",
        }
    }

    /// A stable slug, for reports.
    pub fn slug(self) -> &'static str {
        match self {
            OtherArchive => "other-archive",
            UnexpectedEof => "unexpected-eof",
            BadMagic => "bad-magic",
            BadUtf8 => "bad-utf8",
            MalformedSection => "malformed-section",
            Directive => "directive",
            BadDefault => "bad-default",
            BadDomain => "bad-domain",
            PackageInWorld => "package-in-world",
            NoName => "no-name",
            Unmatched => "unmatched",
            Outside => "outside",
            Full => "full",
            TooLong => "too-long",
            BadTable => "bad-table",
            NoRoom => "no-room",
            TooManyBytes => "too-many-bytes",
            TenthByte => "tenth-byte",
            AboveU32 => "above-u32",
            NotStrict => "not-strict",
        }
    }
}

/// The eight rules of strict reading, by their numbers (docs/RULES.md, "Strict reading").
#[derive(Debug, Clone, Copy, PartialEq, Eq, PartialOrd, Ord, Hash)]
#[non_exhaustive]
#[allow(missing_docs)]
pub enum StrictRule {
    Version = 1,
    Numbers = 2,
    Ids = 3,
    Order = 4,
    Used = 5,
    Names = 6,
    Kinds = 7,
    Flags = 8,
}

impl StrictRule {
    /// All eight, in the order of their numbers.
    pub const ALL: [StrictRule; 8] = [
        StrictRule::Version,
        StrictRule::Numbers,
        StrictRule::Ids,
        StrictRule::Order,
        StrictRule::Used,
        StrictRule::Names,
        StrictRule::Kinds,
        StrictRule::Flags,
    ];

    /// 1 to 8.
    pub fn number(self) -> usize {
        self as usize
    }

    /// What breaks it, in words.
    pub fn words(self) -> &'static str {
        match self {
            StrictRule::Version => "a version other than 1",
            StrictRule::Numbers => "a number in more than five bytes",
            StrictRule::Ids => "a section id above 12",
            StrictRule::Order => "a section twice, or out of order",
            StrictRule::Used => "unused bytes in an import or export section",
            StrictRule::Names => "two exports of one name",
            StrictRule::Kinds => "an export of unknown kind",
            StrictRule::Flags => "a limits flag or a mutability other than 0 and 1",
        }
    }

    fn numbered(number: usize) -> Option<StrictRule> {
        StrictRule::ALL.into_iter().find(|rule| rule.number() == number)
    }
}

impl fmt::Display for StrictRule {
    fn fmt(&self, f: &mut fmt::Formatter<'_>) -> fmt::Result {
        write!(f, "rule {}: {}", self.number(), self.words())
    }
}

/// Why a file or a text was refused.
#[derive(Debug, Clone, Copy, PartialEq, Eq, Hash)]
pub struct Refusal {
    kind: ErrorKind,
    place: usize,
    offset: Option<usize>,
}

impl Refusal {
    /// What this crate answers where the archive hands back what its interface cannot.
    pub(crate) const STRANGE: Refusal = Refusal::other_archive(INTERFACE);

    /// Of an archive that has this interface.
    pub(crate) const fn other_archive(interface: u32) -> Refusal {
        Refusal { kind: OtherArchive, place: interface as usize, offset: None }
    }

    /// A number and a place from the archive.
    pub(crate) fn told(number: u32, place: usize) -> Refusal {
        match ErrorKind::ALL.iter().find(|kind| kind.number() == number) {
            Some(NotStrict) if StrictRule::numbered(place).is_none() => Refusal::STRANGE,
            Some(&kind) => Refusal { kind, place, offset: None },
            None => Refusal::STRANGE,
        }
    }

    /// The same for a module's file, with the offset that comes beside 5.
    pub(crate) fn of_module(number: u32, place: usize, beside: usize) -> Refusal {
        let told = Refusal::told(number, place);
        let offset = match told.kind {
            UnexpectedEof | BadMagic | BadUtf8 | TooManyBytes | TenthByte | AboveU32 => Some(place),
            MalformedSection => Some(beside),
            _ => None,
        };
        Refusal { offset, ..told }
    }

    /// Which of them.
    pub fn kind(&self) -> ErrorKind {
        self.kind
    }

    /// Its number: [`ErrorKind::number`].
    pub fn number(&self) -> u32 {
        self.kind.number()
    }

    /// Its place, as docs/RULES.md has it for each number: an offset of the file or the text, a line, a table's number, a kind's byte,
    /// bytes needed, or a rule of strict reading. Of another archive, its interface.
    pub fn place(&self) -> usize {
        self.place
    }

    /// Where in a module's file it is, counted from byte 0, as a hex viewer shows it: the place of 1, 2, 4, 17, 18 and 19, and of 5 the
    /// offset of the kind's byte. It is at most the file's length. No other refusal has one, nor has one of a text.
    pub fn offset(&self) -> Option<usize> {
        self.offset
    }

    /// The rule of strict reading that is broken, the lowest one: of 20 alone.
    pub fn rule(&self) -> Option<StrictRule> {
        match self.kind {
            NotStrict => StrictRule::numbered(self.place),
            _ => None,
        }
    }
}

impl fmt::Display for Refusal {
    fn fmt(&self, f: &mut fmt::Formatter<'_>) -> fmt::Result {
        let place = self.place;
        match self.kind {
            OtherArchive => write!(f, "{}: ", self.kind.words())?,
            _ => write!(f, "refused {} at {place}: {}", self.number(), self.kind.words())?,
        }
        match self.kind {
            OtherArchive if place == INTERFACE as usize => write!(f, "an answer that interface {place} does not have"),
            OtherArchive => write!(f, "it has interface {place}, and {INTERFACE} is asked for"),
            UnexpectedEof | BadMagic | BadUtf8 | MalformedSection | TooManyBytes | TenthByte | AboveU32 => match (self.kind, self.offset) {
                (MalformedSection, Some(offset)) => write!(f, " (its byte is {place:#04x}, offset {offset}, {offset:#x})"),
                (_, Some(offset)) => write!(f, " (offset {offset}, {offset:#x})"),
                (_, None) => write!(f, " (offset {place})"),
            },
            Directive | BadDefault | BadDomain | PackageInWorld | NoName | Unmatched | Outside => write!(f, " (line {place})"),
            Full => write!(f, " (table of {})", table(place)),
            TooLong | BadTable => Ok(()),
            NoRoom => write!(f, " ({place} bytes needed)"),
            NotStrict => self.rule().map_or(Ok(()), |rule| write!(f, " ({rule})")),
        }
    }
}

impl std::error::Error for Refusal {}

fn table(number: usize) -> &'static str {
    match number {
        1 => "sections",
        2 => "imports",
        3 => "exports",
        4 => "function names",
        5 => "worlds",
        6 => "references",
        _ => "rows",
    }
}

#[cfg(test)]
mod tests {
    use super::*;

    #[test]
    fn another_archive_is_told_in_words() {
        for (number, place) in [(99, 0), (20, 0), (20, 9), (u32::MAX, 7)] {
            let refusal = Refusal::told(number, place);
            assert_eq!((refusal.kind(), refusal.number()), (OtherArchive, 0));
            let words = format!("the archive is of another version: an answer that interface {INTERFACE} does not have");
            assert_eq!(refusal.to_string(), words);
        }
        let other = INTERFACE + 1;
        let words = format!("the archive is of another version: it has interface {other}, and {INTERFACE} is asked for");
        assert_eq!(Refusal::other_archive(other).to_string(), words);
    }
}
