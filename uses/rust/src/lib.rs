//! A safe face of the static library for Rust: an iterator over the tokens of a text, and what a text imports and exports.
use std::fmt;

mod module;

pub use module::{Export, Form, Import, Module, Phase};

/// How a text is read.
#[derive(Clone, Copy, Debug, Default)]
pub struct Options {
    pub typescript: bool,
    pub module: bool,
    pub strict: bool,
}

impl Options {
    fn bits(self) -> u32 {
        u32::from(self.typescript) + 2 * u32::from(self.module) + 4 * u32::from(self.strict)
    }
}

/// Which slashes begin regular expressions.
#[derive(Clone, Copy, Debug)]
pub enum Slashes<'a> {
    /// Those where an operand is expected, by the tokens before them.
    ByRole,
    /// Those before which an expression is allowed, by the lexer's own flag.
    ByFlag,
    /// Those at these places, in bytes, each behind the one before it.
    At(&'a [u32]),
}

/// Why nothing was told.
#[derive(Clone, Copy, Debug, PartialEq, Eq)]
pub enum Error {
    /// A place is not that of a `/` or `/=` which is read there.
    NoSlash,
    OutOfMemory,
    /// The places do not ascend.
    Refused,
    /// The text has more than 4,294,967,295 bytes.
    TooLong,
}

impl fmt::Display for Error {
    fn fmt(&self, f: &mut fmt::Formatter) -> fmt::Result {
        f.write_str(match self {
            Error::NoSlash => "no slash",
            Error::OutOfMemory => "out of memory",
            Error::Refused => "the places do not ascend",
            Error::TooLong => "too long",
        })
    }
}

impl std::error::Error for Error {}

/// A token, as C sees it.
#[repr(C)]
#[derive(Clone, Copy, Debug, Default)]
struct Row {
    lo: u32,
    hi: u32,
    kind: u16,
    flags: u16,
}

#[repr(C)]
struct Answer {
    count: usize,
    status: u32,
}

extern "C" {
    fn ecma_count(text: *const u8, text_len: usize, options: u32, slashes: *const u32, slashes_len: usize) -> Answer;
    fn ecma_tokens(
        text: *const u8,
        text_len: usize,
        options: u32,
        slashes: *const u32,
        slashes_len: usize,
        out: *mut Row,
        out_len: usize,
    ) -> Answer;
}

/// A token of a text.
#[derive(Clone, Copy, Debug, PartialEq, Eq)]
pub struct Token<'a> {
    /// Where it begins, in bytes.
    pub lo: usize,
    /// Where it ends.
    pub hi: usize,
    /// The number of its kind.
    pub kind: u16,
    /// Whether a line terminator, or nothing, stands before it, or it is template text that has one.
    pub line_break_before: bool,
    /// Whether its value is not its spelling.
    pub is_respelled: bool,
    /// How it is spelled.
    pub spelling: &'a str,
}

/// The tokens of a text, in order.
#[derive(Clone, Debug)]
pub struct Tokens<'a> {
    text: &'a str,
    rows: std::vec::IntoIter<Row>,
}

fn checked(status: u32) -> Result<(), Error> {
    match status {
        0 => Ok(()),
        2 => Err(Error::NoSlash),
        5 => Err(Error::OutOfMemory),
        7 => Err(Error::Refused),
        8 => Err(Error::TooLong),
        other => unreachable!("a text is UTF-8, and there is room for all rows: status {other}"),
    }
}

/// The sum of options, and the places of slashes.
fn asked(options: Options, slashes: Slashes<'_>) -> (u32, &[u32]) {
    match slashes {
        Slashes::ByRole => (options.bits() + 16, &[]),
        Slashes::ByFlag => (options.bits() + 8, &[]),
        Slashes::At(places) => (options.bits(), places),
    }
}

impl<'a> Tokens<'a> {
    /// Reads a text, whatever is wrong with it.
    ///
    /// # Errors
    ///
    /// - [`Error::Refused`]: the places of [`Slashes::At`] do not ascend.
    /// - [`Error::TooLong`]: the text has more than 4,294,967,295 bytes.
    /// - [`Error::NoSlash`]: a place is not that of a `/` or `/=` which is read there.
    /// - [`Error::OutOfMemory`]: allocation fails in the library.
    pub fn new(text: &'a str, options: Options, slashes: Slashes) -> Result<Self, Error> {
        let (bits, places) = asked(options, slashes);
        // SAFETY: the calls ask nothing of their caller but that the pointers and lengths are those of slices.
        let counted = unsafe { ecma_count(text.as_ptr(), text.len(), bits, places.as_ptr(), places.len()) };
        checked(counted.status)?;
        let mut rows = vec![Row::default(); counted.count];
        // SAFETY: as above; the rows are this function's own.
        let answer = unsafe {
            ecma_tokens(text.as_ptr(), text.len(), bits, places.as_ptr(), places.len(), rows.as_mut_ptr(), rows.len())
        };
        checked(answer.status)?;
        Ok(Tokens { text, rows: rows.into_iter() })
    }
}

impl<'a> Iterator for Tokens<'a> {
    type Item = Token<'a>;

    fn next(&mut self) -> Option<Token<'a>> {
        let row = self.rows.next()?;
        let (lo, hi) = (row.lo as usize, row.hi as usize);
        Some(Token {
            lo,
            hi,
            kind: row.kind,
            line_break_before: row.flags & 1 != 0,
            is_respelled: row.flags & 2 != 0,
            spelling: &self.text[lo..hi],
        })
    }

    fn size_hint(&self) -> (usize, Option<usize>) {
        self.rows.size_hint()
    }
}
