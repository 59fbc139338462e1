//! JSON, in ASCII throughout: what is not is escaped, so that no name can break or reorder a line.

use std::fmt::{Display, Write};
use std::os::unix::ffi::OsStrExt;
use std::path::Path;

/// An object, field by field.
#[derive(Default)]
pub struct Object(String);

impl Object {
    /// A number, `true`, `false`, an array or another object.
    pub fn raw(mut self, key: &str, value: impl Display) -> Object {
        self.0.push(if self.0.is_empty() { '{' } else { ',' });
        quote(&mut self.0, key);
        let _ = write!(self.0, ":{value}");
        self
    }

    pub fn str(self, key: &str, value: &str) -> Object {
        self.raw(key, string(value))
    }

    /// A path. One that is not UTF-8 is given with replacement characters, and its bytes as `KEY_hex`.
    pub fn path(self, key: &str, path: &Path) -> Object {
        let object = self.str(key, &path.to_string_lossy());
        if path.to_str().is_some() {
            return object;
        }
        let hex: String = path.as_os_str().as_bytes().iter().map(|byte| format!("{byte:02x}")).collect();
        object.str(&format!("{key}_hex"), &hex)
    }

    pub fn done(self) -> String {
        if self.0.is_empty() {
            return "{}".into();
        }
        self.0 + "}"
    }
}

/// A string.
pub fn string(value: &str) -> String {
    let mut out = String::new();
    quote(&mut out, value);
    out
}

/// An array of values.
pub fn array(values: impl Iterator<Item = String>) -> String {
    format!("[{}]", values.collect::<Vec<_>>().join(","))
}

fn quote(out: &mut String, value: &str) {
    out.push('"');
    for c in value.chars() {
        match c {
            '"' | '\\' => out.extend(['\\', c]),
            ' '..='~' => out.push(c),
            _ => {
                for unit in c.encode_utf16(&mut [0; 2]) {
                    let _ = write!(out, "\\u{unit:04x}");
                }
            }
        }
    }
    out.push('"');
}

#[cfg(test)]
mod tests {
    use super::*;
    use std::ffi::OsStr;

    #[test]
    fn strings_are_ascii() {
        assert_eq!(string("a\"\\ ~"), r#""a\"\\ ~""#);
        assert_eq!(string("\n\0\x7f\u{85}\u{2028}\u{202e}é"), r#""\u000a\u0000\u007f\u0085\u2028\u202e\u00e9""#);
        assert_eq!(string("😀"), r#""\ud83d\ude00""#);
    }

    #[test]
    fn objects_and_arrays() {
        assert_eq!(Object::default().done(), "{}");
        let list = array(["a", "b"].map(string).into_iter());
        assert_eq!(Object::default().raw("n", 1).raw("b", true).raw("l", list).done(), r#"{"n":1,"b":true,"l":["a","b"]}"#);
    }

    #[test]
    fn a_path_keeps_its_bytes() {
        let path = Path::new(OsStr::from_bytes(b"a\xff"));
        assert_eq!(Object::default().path("file", path).done(), r#"{"file":"a\ufffd","file_hex":"61ff"}"#);
        assert_eq!(Object::default().path("file", Path::new("a")).done(), r#"{"file":"a"}"#);
    }
}
