//! Tagged bytes, read from the beginning. `docs/LIBRARY.md` has their layout.

use super::{Aside, Form};
use crate::value::Value;

pub(crate) const STRING: u8 = 1;
pub(crate) const FROM_ZERO: u8 = 2;
pub(crate) const BELOW_ZERO: u8 = 3;
pub(crate) const FALSE: u8 = 4;
pub(crate) const TRUE: u8 = 5;
pub(crate) const DATETIME: u8 = 6;
pub(crate) const ARRAY: u8 = 7;
pub(crate) const TABLE: u8 = 8;
pub(crate) const FLOAT: u8 = 9;

/// Bytes that are read from the beginning. Each function answers `None` where the bytes are not what it reads.
pub(crate) struct Reader<'a> {
    left: &'a [u8],
    /// Whether the library has written the bytes: then each string in them is UTF-8, by the contract of its call.
    is_written: bool,
    /// The metadata that was met.
    pub(crate) aside: Aside,
}

impl<'a> Reader<'a> {
    pub(crate) fn new(bytes: &'a [u8]) -> Reader<'a> {
        Reader { left: bytes, is_written: false, aside: Aside::default() }
    }

    /// The same for bytes that a call of the library has answered.
    pub(crate) fn of_answer(bytes: &'a [u8]) -> Reader<'a> {
        Reader { is_written: true, ..Reader::new(bytes) }
    }

    pub(crate) fn is_at_end(&self) -> bool {
        self.left.is_empty()
    }

    #[inline]
    pub(crate) fn byte(&mut self) -> Option<u8> {
        let (first, left) = self.left.split_first()?;
        self.left = left;
        Some(*first)
    }

    /// The next byte, which stays there.
    pub(crate) fn peek(&self) -> Option<u8> {
        self.left.first().copied()
    }

    /// Steps over the tag, if it is the next byte.
    #[inline]
    pub(crate) fn tag(&mut self, tag: u8) -> Option<()> {
        (self.byte()? == tag).then_some(())
    }

    /// Groups of seven bits, the lowest first, with 128 added to each but the last. A number has one form: the last of
    /// more groups than one is not 0.
    #[inline]
    pub(crate) fn number(&mut self) -> Option<u64> {
        // most numbers are lengths below 128
        if let Some((&byte @ ..128, left)) = self.left.split_first() {
            self.left = left;
            return Some(byte.into());
        }
        self.long_number()
    }

    fn long_number(&mut self) -> Option<u64> {
        let mut number = 0;
        for group in 0..10 {
            let byte = self.byte()?;
            let bits = u64::from(byte & 127);
            // (of the tenth group one bit is left)
            if group == 9 && bits > 1 {
                return None;
            }
            number |= bits << (7 * group);
            if byte < 128 {
                // (the first byte was 128 or more)
                return (byte > 0).then_some(number);
            }
        }
        None
    }

    /// The bytes of a string without its tag.
    #[inline]
    fn bytes(&mut self) -> Option<&'a [u8]> {
        let length = usize::try_from(self.number()?).ok()?;
        let (bytes, left) = self.left.split_at_checked(length)?;
        self.left = left;
        Some(bytes)
    }

    /// A string without its tag.
    #[inline]
    #[allow(unsafe_code)]
    pub(crate) fn str(&mut self) -> Option<&'a str> {
        let bytes = self.bytes()?;
        if self.is_written && !cfg!(debug_assertions) {
            // SAFETY: the tagged bytes of a table are those of its values (`encoded`, in the contract of the call), whose strings
            // are UTF-8; the archive is of the version that this crate was written for.
            return Some(unsafe { std::str::from_utf8_unchecked(bytes) });
        }
        std::str::from_utf8(bytes).ok()
    }

    /// A string, whose tag is next.
    #[inline]
    pub(crate) fn string(&mut self) -> Option<&'a str> {
        self.tag(STRING)?;
        self.str()
    }

    /// A whole number from 0 on, whose tag is next.
    pub(crate) fn whole_number(&mut self) -> Option<u64> {
        self.tag(FROM_ZERO)?;
        self.number()
    }

    /// The same as an index or as an offset of bytes.
    pub(crate) fn offset(&mut self) -> Option<usize> {
        self.whole_number()?.try_into().ok()
    }

    /// False or true, whose tag is next.
    pub(crate) fn boolean(&mut self) -> Option<bool> {
        match self.byte()? {
            FALSE => Some(false),
            TRUE => Some(true),
            _ => None,
        }
    }

    /// How many values the array has whose tag is next; they stand after it.
    pub(crate) fn array(&mut self) -> Option<u64> {
        self.tag(ARRAY)?;
        self.number()
    }

    /// The count, but no more than take as much memory as the bytes that are left: room may be reserved for this many,
    /// whatever the bytes say. (Each value takes more memory than bytes.)
    pub(crate) fn at_most<T>(&self, count: u64) -> usize {
        usize::try_from(count).unwrap_or(usize::MAX).min(self.left.len() / size_of::<T>().max(1))
    }

    /// The keys of a table, whose tag is next.
    pub(crate) fn table(&mut self) -> Option<Keys<'a>> {
        self.tag(TABLE)?;
        Some(Keys { left: self.number()?, last: None })
    }

    /// Whether a table is next whose `workspace` is true.
    pub(crate) fn is_inherited(&self) -> Option<bool> {
        if self.peek()? != TABLE {
            return Some(false);
        }
        let mut ahead = Reader::new(self.left);
        let mut keys = ahead.table()?;
        while let Some(key) = keys.next(&mut ahead)? {
            if key == "workspace" {
                return Some(ahead.byte()? == TRUE);
            }
            ahead.skip()?;
        }
        Some(false)
    }

    /// Steps over a value.
    pub(crate) fn skip(&mut self) -> Option<()> {
        match self.peek()? {
            STRING => {
                self.byte()?;
                self.bytes().map(drop)
            }
            FALSE | TRUE => self.byte().map(drop),
            // (what else may stand next to a key `workspace` is rare)
            _ => Value::decode(self).map(drop),
        }
    }
}

/// The keys of a table that is being read, which ascend in the order of their bytes.
pub(crate) struct Keys<'a> {
    left: u64,
    last: Option<&'a str>,
}

impl<'a> Keys<'a> {
    /// How many keys are still to come.
    pub(crate) fn left(&self) -> u64 {
        self.left
    }

    /// The next key, whose value stands after it; or `None`, where there are no more.
    #[inline]
    pub(crate) fn next(&mut self, reader: &mut Reader<'a>) -> Option<Option<&'a str>> {
        if self.left == 0 {
            return Some(None);
        }
        self.left -= 1;
        let key = reader.str()?;
        if self.last.is_some_and(|last| last >= key) {
            return None;
        }
        self.last = Some(key);
        Some(Some(key))
    }
}
