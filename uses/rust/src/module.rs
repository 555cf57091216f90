//! What a text imports and exports.
use crate::{asked, checked, Error, Options, Slashes};
use std::ops::Range;

/// How a module is named.
#[derive(Clone, Copy, Debug, PartialEq, Eq)]
pub enum Form {
    Static,
    /// `export .. from`
    Reexport,
    /// A call of `import`.
    Call,
    /// `import.meta`, which names none.
    Meta,
    /// `import x = require("y")` of TypeScript.
    Equals,
    /// `declare module "x"` of TypeScript.
    Ambient,
    /// `require("x")`, where it is asked for.
    Require,
}

/// How far a module is brought.
#[derive(Clone, Copy, Debug, PartialEq, Eq)]
pub enum Phase {
    Evaluation,
    Defer,
    Source,
}

/// An import. Places are bytes.
#[derive(Clone, Debug, PartialEq, Eq)]
pub struct Import<'a> {
    pub form: Form,
    pub phase: Phase,
    /// Whether types alone are imported, as TypeScript's `type` says of the whole statement, or where a call stands that is a type.
    pub is_type: bool,
    /// How the string that names the module is spelled, without its quotes; one that is not closed has the first alone.
    pub specifier: Option<&'a str>,
    /// Whether that has an escape.
    pub is_escaped: bool,
    /// The string with the quotes that it has; else the first argument of a call; else the statement.
    pub name: Range<usize>,
    pub statement: Range<usize>,
    /// The braces behind `with` or `assert`, or the second argument of a call.
    pub attributes: Option<Range<usize>>,
    /// Of a call, where its left parenthesis is.
    pub paren: Option<usize>,
    /// Which exports are its own: their local names are names of the other module.
    pub exports: Range<usize>,
}

/// A name that is exported. Places are bytes; names are as they are spelled, strings with the quotes that they have.
#[derive(Clone, Debug, PartialEq, Eq)]
pub struct Export<'a> {
    pub name: &'a str,
    pub at: Range<usize>,
    /// Its name in this module, or of an `export .. from` in the other one.
    pub local: Option<&'a str>,
    /// Whether it is the name of a type alone.
    pub is_type: bool,
}

/// What a text imports and exports.
#[derive(Clone, Debug, PartialEq, Eq)]
pub struct Module<'a> {
    pub imports: Vec<Import<'a>>,
    pub exports: Vec<Export<'a>>,
    /// Whether there is nothing but imports, and exports that declare nothing.
    pub is_facade: bool,
    /// Whether there is an import or export, or `import.meta`.
    pub has_module_syntax: bool,
}

/// An import, as C sees it.
#[repr(C)]
#[derive(Clone, Copy, Default)]
struct ImportRow {
    lo: u32,
    hi: u32,
    statement_lo: u32,
    statement_hi: u32,
    paren: u32,
    attributes_lo: u32,
    attributes_hi: u32,
    form: u8,
    phase: u8,
    flags: u16,
    first_export: usize,
    exports: usize,
}

/// An export, as C sees it.
#[repr(C)]
#[derive(Clone, Copy, Default)]
struct ExportRow {
    lo: u32,
    hi: u32,
    local_lo: u32,
    local_hi: u32,
    flags: u32,
}

#[repr(C)]
struct Told {
    imports: usize,
    exports: usize,
    status: u32,
    flags: u32,
}

const NO_ROOM: u32 = 6;
const COMMONJS: u32 = 32;

extern "C" {
    #[allow(clippy::too_many_arguments)]
    fn ecma_imports(
        text: *const u8,
        text_len: usize,
        options: u32,
        slashes: *const u32,
        slashes_len: usize,
        imports: *mut ImportRow,
        imports_len: usize,
        exports: *mut ExportRow,
        exports_len: usize,
    ) -> Told;
}

fn range(lo: u32, hi: u32) -> Range<usize> {
    lo as usize..hi as usize
}

/// A string without its quotes; one that is not closed has the first alone.
fn without_quotes(spelling: &str) -> &str {
    let mut behind = spelling.chars();
    let Some(quote) = behind.next() else { return spelling };
    let open = behind.as_str();
    match open.strip_suffix(quote) {
        // Behind an odd number of backslashes the last quote is an escaped one.
        Some(closed) if (closed.len() - closed.trim_end_matches('\\').len()) % 2 == 0 => closed,
        _ => open,
    }
}

impl<'a> Import<'a> {
    fn of(text: &'a str, row: &ImportRow) -> Self {
        let name = range(row.lo, row.hi);
        let forms = [Form::Static, Form::Reexport, Form::Call, Form::Meta, Form::Equals, Form::Ambient, Form::Require];
        let form = forms[usize::from(row.form)];
        Import {
            form,
            phase: [Phase::Evaluation, Phase::Defer, Phase::Source][usize::from(row.phase)],
            is_type: row.flags & 1 != 0,
            specifier: (row.flags & 4 != 0).then(|| without_quotes(&text[name.clone()])),
            is_escaped: row.flags & 8 != 0,
            name,
            statement: range(row.statement_lo, row.statement_hi),
            attributes: (row.attributes_hi != 0).then(|| range(row.attributes_lo, row.attributes_hi)),
            paren: (form == Form::Call).then_some(row.paren as usize),
            exports: row.first_export..row.first_export + row.exports,
        }
    }
}

impl<'a> Export<'a> {
    fn of(text: &'a str, row: &ExportRow) -> Self {
        let at = range(row.lo, row.hi);
        Export {
            name: &text[at.clone()],
            at,
            local: (row.flags & 2 != 0).then(|| &text[range(row.local_lo, row.local_hi)]),
            is_type: row.flags & 1 != 0,
        }
    }
}

impl<'a> Module<'a> {
    /// Reads a text. `commonjs` says whether there is a row for each `require("x")`.
    ///
    /// # Errors
    ///
    /// As of [`Tokens::new`](crate::Tokens::new).
    pub fn new(text: &'a str, options: Options, commonjs: bool, slashes: Slashes) -> Result<Self, Error> {
        let (bits, places) = asked(options, slashes);
        let bits = bits + if commonjs { COMMONJS } else { 0 };
        let (mut imports, mut exports) = (vec![ImportRow::default(); 64], vec![ExportRow::default(); 64]);
        loop {
            // SAFETY: the call asks nothing of its caller but that the pointers and lengths are those of slices.
            let told = unsafe {
                ecma_imports(
                    text.as_ptr(),
                    text.len(),
                    bits,
                    places.as_ptr(),
                    places.len(),
                    imports.as_mut_ptr(),
                    imports.len(),
                    exports.as_mut_ptr(),
                    exports.len(),
                )
            };
            imports.resize(told.imports, ImportRow::default());
            exports.resize(told.exports, ExportRow::default());
            if told.status == NO_ROOM {
                continue;
            }
            checked(told.status)?;
            return Ok(Module {
                imports: imports.iter().map(|row| Import::of(text, row)).collect(),
                exports: exports.iter().map(|row| Export::of(text, row)).collect(),
                is_facade: told.flags & 1 != 0,
                has_module_syntax: told.flags & 2 != 0,
            });
        }
    }
}
