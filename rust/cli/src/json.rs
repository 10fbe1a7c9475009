//! Objects in JSON, one on a line.

use std::fmt::Write;

/// An object that is being written.
pub struct Object(String);

impl Object {
    pub fn new() -> Self {
        Object(String::from("{"))
    }

    pub fn number(mut self, key: &str, number: usize) -> Self {
        self.key(key);
        self.0 += &number.to_string();
        self
    }

    pub fn boolean(mut self, key: &str, yes: bool) -> Self {
        self.key(key);
        self.0 += if yes { "true" } else { "false" };
        self
    }

    /// Numbers as a list.
    pub fn numbers(mut self, key: &str, numbers: &[u16]) -> Self {
        self.key(key);
        let listed: Vec<String> = numbers.iter().map(u16::to_string).collect();
        let _ = write!(self.0, "[{}]", listed.join(", "));
        self
    }

    pub fn null(mut self, key: &str) -> Self {
        self.key(key);
        self.0 += "null";
        self
    }

    /// Bytes as a string; what is not UTF-8 is replaced.
    pub fn string(mut self, key: &str, bytes: &[u8]) -> Self {
        self.key(key);
        quote(&mut self.0, &String::from_utf8_lossy(bytes));
        self
    }

    /// The object as a line.
    pub fn line(self) -> String {
        self.0 + "}\n"
    }

    fn key(&mut self, key: &str) {
        if self.0.len() > 1 {
            self.0.push_str(", ");
        }
        quote(&mut self.0, key);
        self.0.push_str(": ");
    }
}

fn quote(out: &mut String, text: &str) {
    out.push('"');
    for c in text.chars() {
        match c {
            '"' | '\\' => out.extend(['\\', c]),
            '\n' => out.push_str("\\n"),
            '\r' => out.push_str("\\r"),
            '\t' => out.push_str("\\t"),
            '\0'..'\x20' | '\x7f' => {
                let _ = write!(out, "\\u{:04x}", c as u32);
            }
            _ => out.push(c),
        }
    }
    out.push('"');
}
