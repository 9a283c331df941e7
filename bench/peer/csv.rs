//! Records of fields, by the rules of crates.io's csv crate with its default settings. Fields end
//! at commas and records at line ends, and empty lines are no records. A field that begins with a
//! quote continues to its closing quote; two quotes in it stand for one. A byte order mark is
//! dropped.

use std::borrow::Cow;

/// The greatest size of a file, in bytes.
pub const SIZE_LIMIT: usize = 16_777_216;

pub struct Records<'a> {
    rest: &'a [u8],
    fields: Vec<Cow<'a, [u8]>>,
}

impl<'a> Records<'a> {
    pub fn new(bytes: &'a [u8]) -> Records<'a> {
        Records {
            rest: bytes.strip_prefix(b"\xef\xbb\xbf").unwrap_or(bytes),
            fields: Vec::new(),
        }
    }

    /// The fields of the next record. They reuse the memory of the record before.
    pub fn next_record(&mut self) -> Option<&[Cow<'a, [u8]>]> {
        self.fields.clear();
        while let [b'\r' | b'\n', rest @ ..] = self.rest {
            self.rest = rest;
        }
        if self.rest.is_empty() {
            return None;
        }
        loop {
            let field = match self.rest {
                [b'"', rest @ ..] => {
                    self.rest = rest;
                    Cow::Owned(self.quoted())
                }
                _ => Cow::Borrowed(self.unquoted()),
            };
            self.fields.push(field);
            match self.rest {
                [b',', rest @ ..] => self.rest = rest,
                _ => return Some(&self.fields),
            }
        }
    }

    /// The bytes up to the end of a field.
    fn unquoted(&mut self) -> &'a [u8] {
        let ends = |byte: &u8| matches!(byte, b',' | b'\r' | b'\n');
        let end = self.rest.iter().position(ends).unwrap_or(self.rest.len());
        let (field, rest) = self.rest.split_at(end);
        self.rest = rest;
        field
    }

    /// A field after its first quote. The bytes after its closing quote belong to it too.
    fn quoted(&mut self) -> Vec<u8> {
        let mut field = Vec::new();
        loop {
            let end = self.rest.iter().position(|byte| *byte == b'"');
            let end = end.unwrap_or(self.rest.len());
            field.extend_from_slice(&self.rest[..end]);
            self.rest = &self.rest[end..];
            match self.rest {
                [b'"', b'"', rest @ ..] => {
                    field.push(b'"');
                    self.rest = rest;
                }
                [b'"', rest @ ..] => {
                    self.rest = rest;
                    field.extend_from_slice(self.unquoted());
                    return field;
                }
                _ => return field,
            }
        }
    }
}
