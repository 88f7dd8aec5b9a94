//! Tagged bytes, written to the end.

use super::reader::{FALSE, STRING, TABLE, TRUE};
use super::{Aside, Encode};

/// Bytes that are written to the end.
#[derive(Default)]
pub(crate) struct Writer {
    bytes: Vec<u8>,
    /// The metadata that is written.
    pub(crate) aside: Aside,
    /// Why the value is one that no table of a manifest holds.
    refused: Option<String>,
}

impl Writer {
    pub(crate) fn new(aside: Aside) -> Writer {
        Writer { aside, ..Writer::default() }
    }

    pub(crate) fn byte(&mut self, byte: u8) {
        self.bytes.push(byte);
    }

    /// Groups of seven bits, the lowest first, with 128 added to each but the last.
    pub(crate) fn number(&mut self, mut number: u64) {
        while number > 127 {
            self.byte(number as u8 | 128);
            number >>= 7;
        }
        self.byte(number as u8);
    }

    pub(crate) fn length(&mut self, length: usize) {
        self.number(length as u64);
    }

    /// A string without its tag.
    pub(crate) fn str(&mut self, text: &str) {
        self.length(text.len());
        self.bytes.extend_from_slice(text.as_bytes());
    }

    pub(crate) fn string(&mut self, text: &str) {
        self.byte(STRING);
        self.str(text);
    }

    pub(crate) fn boolean(&mut self, boolean: bool) {
        self.byte(if boolean { TRUE } else { FALSE });
    }

    /// Notes why what is written is nothing that a table holds. The first reason counts.
    pub(crate) fn refuse(&mut self, why: String) {
        self.refused.get_or_insert(why);
    }

    /// What was written, with the metadata; or why it is nothing that a table holds.
    pub(crate) fn finish(self) -> Result<(Vec<u8>, Aside), String> {
        match self.refused {
            None => Ok((self.bytes, self.aside)),
            Some(why) => Err(why),
        }
    }
}

/// The members of a table that is to be written, in any order.
#[derive(Default)]
pub(crate) struct Members<'a> {
    members: Vec<(&'a str, &'a dyn Encode)>,
}

impl<'a> Members<'a> {
    pub(crate) fn with_room(room: usize) -> Members<'a> {
        Members { members: Vec::with_capacity(room) }
    }

    pub(crate) fn push(&mut self, key: &'a str, value: &'a dyn Encode) {
        self.members.push((key, value));
    }

    /// Writes the table, with its keys in order.
    pub(crate) fn encode(mut self, writer: &mut Writer) {
        self.members.sort_unstable_by_key(|(key, _)| *key);
        writer.byte(TABLE);
        writer.length(self.members.len());
        for (key, value) in self.members {
            writer.str(key);
            value.encode(writer);
        }
    }
}

/// The metadata that the writer keeps aside for a place, as the value of a row.
pub(crate) struct AsideOf(fn(&mut Aside) -> &mut Option<crate::Value>);

#[allow(non_upper_case_globals)] // (named as the places of the rows are)
impl AsideOf {
    pub(crate) const package: AsideOf = AsideOf(|aside| &mut aside.package);
    pub(crate) const workspace: AsideOf = AsideOf(|aside| &mut aside.workspace);
}

impl Encode for AsideOf {
    fn encode(&self, writer: &mut Writer) {
        // (a row is written only where there is metadata, which is put back for the next use)
        if let Some(value) = (self.0)(&mut writer.aside).take() {
            value.encode(writer);
            *(self.0)(&mut writer.aside) = Some(value);
        }
    }
}
