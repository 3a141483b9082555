//! JSON Schema documents from tables of types, by the proved generator, through its C interface.
//!
//! A table and an example are JSON text, and so is a document. Documents end in a newline.

use std::fmt;

/// A dialect of JSON Schema.
#[derive(Clone, Copy, Debug, PartialEq, Eq)]
#[repr(u32)]
pub enum Dialect {
    Draft2020_12 = 0,
    Draft2019_09 = 1,
    Draft07 = 2,
    /// the schema objects of OpenAPI 3.0
    OpenApi3 = 3,
}

/// How the document of a table's root is to be.
#[derive(Clone, Copy, Debug, Default, PartialEq, Eq)]
pub struct Options {
    /// rows are written in place
    pub inline: bool,
    /// for the values that are written, not for those that are read
    pub serialize: bool,
}

/// Why there is no document.
#[derive(Clone, Copy, Debug, PartialEq, Eq)]
pub enum Refused {
    /// Memory ran out.
    OutOfMemory,
    /// A row was reserved and never defined.
    UndefinedType,
    /// A list of fields or variants has a name twice.
    RepeatedName,
    /// Rows that are written in place contain each other.
    DirectCycle,
    /// Rows have each other's values.
    EmptyCycle,
    /// Notes put another value in the place of the definitions.
    DefinitionsPath,
    /// The input is not JSON.
    NotJson,
    /// The input is no table with a root.
    BadTable,
    /// A whole number of an example has more than 64 bits, or a float is out of range.
    NotWhole,
    /// Memory ran out while the text was written.
    Write,
    /// A number that this crate does not know.
    Other(u32),
}

impl Refused {
    fn of(status: u32) -> Refused {
        match status {
            1 => Refused::OutOfMemory,
            2 => Refused::UndefinedType,
            3 => Refused::RepeatedName,
            4 => Refused::DirectCycle,
            5 => Refused::EmptyCycle,
            9 => Refused::DefinitionsPath,
            20 => Refused::NotJson,
            21 => Refused::BadTable,
            22 => Refused::NotWhole,
            24 => Refused::Write,
            other => Refused::Other(other),
        }
    }
}

impl fmt::Display for Refused {
    fn fmt(&self, f: &mut fmt::Formatter<'_>) -> fmt::Result {
        f.write_str(match self {
            Refused::OutOfMemory => "memory ran out",
            Refused::UndefinedType => "a row was reserved and never defined",
            Refused::RepeatedName => "a name stands twice in a list of fields or variants",
            Refused::DirectCycle => "rows that are written in place contain each other",
            Refused::EmptyCycle => "rows have each other's values",
            Refused::DefinitionsPath => "notes put another value in the place of the definitions",
            Refused::NotJson => "the input is not JSON",
            Refused::BadTable => "the input is no table with a root",
            Refused::NotWhole => "a number of the example is out of range",
            Refused::Write => "memory ran out while the text was written",
            Refused::Other(status) => return write!(f, "refused with status {status}"),
        })
    }
}

impl std::error::Error for Refused {}

/// What a table is.
#[derive(Clone, Copy, Debug, PartialEq, Eq)]
pub enum Verdict {
    /// no table, or one with a fault
    Refused,
    /// What the documents accept is not promised.
    NotPlain,
    /// The documents accept exactly the values of the types.
    Plain,
    /// The same of documents for values that are read, in 2020-12 and 2019-09.
    PlainUnderReading,
    /// The same of documents for values that are written.
    PlainUnderWriting,
    /// The same of both.
    PlainUnderBoth,
}

const DONE: u32 = 0;
const NO_ROOM: u32 = 101;

extern "C" {
    fn schemars_types(dialect: u32, flags: u32, table: *const u8, len: usize, out: *mut u8, room: usize, needed: *mut usize) -> u32;
    fn schemars_sample(dialect: u32, example: *const u8, len: usize, out: *mut u8, room: usize, needed: *mut usize) -> u32;
    fn schemars_lint(table: *const u8, len: usize, verdict: *mut u32, out: *mut u8, room: usize, needed: *mut usize) -> u32;
}

/// The document of a table's root, or for OpenAPI its definitions.
///
/// # Errors
///
/// Why there is no document.
pub fn types(table: &[u8], dialect: Dialect, options: Options) -> Result<String, Refused> {
    let flags = u32::from(options.inline) | u32::from(options.serialize) << 1;
    // SAFETY: the slices are valid for their lengths, and `written` lends a buffer that overlaps nothing.
    written(table.len(), |out, needed| unsafe {
        schemars_types(dialect as u32, flags, table.as_ptr(), table.len(), out.as_mut_ptr(), out.len(), needed)
    })
}

/// The document of a schema that is made from an example, and accepts it.
///
/// # Errors
///
/// Why there is no document.
pub fn sample(example: &[u8], dialect: Dialect) -> Result<String, Refused> {
    // SAFETY: as in `types`.
    written(example.len(), |out, needed| unsafe {
        schemars_sample(dialect as u32, example.as_ptr(), example.len(), out.as_mut_ptr(), out.len(), needed)
    })
}

/// The verdict on a table, and what the linter prints.
///
/// # Errors
///
/// Only where memory runs out.
pub fn lint(table: &[u8]) -> Result<(Verdict, String), Refused> {
    let mut verdict = 0;
    // SAFETY: as in `types`.
    let text = written(table.len(), |out, needed| unsafe {
        schemars_lint(table.as_ptr(), table.len(), &mut verdict, out.as_mut_ptr(), out.len(), needed)
    })?;
    let verdict = match verdict {
        5 => Verdict::PlainUnderBoth,
        4 => Verdict::PlainUnderWriting,
        3 => Verdict::PlainUnderReading,
        2 => Verdict::Plain,
        1 => Verdict::NotPlain,
        _ => Verdict::Refused,
    };
    Ok((verdict, text))
}

// The text that a call writes; it is made again where the first buffer was too short.
fn written(len: usize, mut call: impl FnMut(&mut [u8], &mut usize) -> u32) -> Result<String, Refused> {
    let mut out = vec![0; len.saturating_mul(4).saturating_add(4096)];
    loop {
        let mut needed = 0;
        match call(&mut out, &mut needed) {
            DONE => {
                out.truncate(needed);
                return Ok(String::from_utf8(out).expect("a document is UTF-8"));
            }
            NO_ROOM => out.resize(needed, 0),
            status => return Err(Refused::of(status)),
        }
    }
}
