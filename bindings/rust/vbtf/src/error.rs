//! The errors of calls.

use crate::calls::written;
use std::fmt;
use vbtf_sys::{vbtf_error, vbtf_raw_error_text};

const CLOSED: u32 = 101;
const INVALID_ARGUMENT: u32 = 102;
const NOT_AN_OBJECT: u32 = 104;
const NO_TABLE: u32 = 105;
const RELOCATION_REFUSED: u32 = 107;
const SHARED_PLACE: u32 = 108;
const BAD_SECTION_NAME: u32 = 109;
const TOO_LONG: u32 = 111;

/// The text of a status that is no error of the library.
fn own_text(status: u32) -> Option<&'static str> {
    match status {
        INVALID_ARGUMENT => Some("invalid argument"),
        NOT_AN_OBJECT => Some("not an ELF object that is read here"),
        NO_TABLE => Some("the object has no section .BTF"),
        SHARED_PLACE => Some("a section with relocations shares its place with another section"),
        BAD_SECTION_NAME => Some("the name of a section of relocations cannot be read"),
        TOO_LONG => Some("the text would be too long"),
        _ => None,
    }
}

/// The error of a call. The variants and the texts are the library's; the variants have aya's names.
///
/// ```
/// use vbtf::{Endianness, Error, Table};
///
/// let error = Table::parse(&[], Endianness::Little).unwrap_err();
/// assert_eq!(error, Error::InvalidHeader);
/// assert_eq!(error.to_string(), "error parsing BTF header");
/// ```
#[derive(Debug, Clone, PartialEq, Eq)]
#[non_exhaustive]
pub enum Error {
    /// The header is truncated, or the string section is not within the data.
    InvalidHeader,
    /// The type section is not within the data, or a record is truncated or too large.
    InvalidTypeInfo,
    /// A record is of a kind that does not exist.
    InvalidTypeKind {
        /// The number of the kind.
        kind: u32,
    },
    /// No text is at an offset, or a text would be past the longest string section.
    InvalidStringOffset {
        /// The offset.
        offset: u64,
    },
    /// A part of `.BTF.ext` is not within its bounds.
    InvalidInfo {
        /// The start of the part.
        offset: u64,
        /// The number of bytes of the part.
        len: u64,
        /// The number of bytes of the data.
        section_len: u64,
    },
    /// No type has an id.
    UnknownBtfType {
        /// The id.
        type_id: u32,
    },
    /// A type has a kind that is not allowed there.
    UnexpectedBtfType {
        /// The id of the type.
        type_id: u32,
    },
    /// No type of the kind has the name.
    UnknownBtfTypeName {
        /// The first characters of the name that fit in 255 bytes.
        type_name: String,
    },
    /// A walk through types passed its limit of 32.
    MaximumTypeDepthReached {
        /// The id of the type at which the walk began, or would go on.
        type_id: u32,
    },
    /// A symbol has no known offset, or one past 32 bits.
    SymbolOffsetNotFound {
        /// The first characters of the symbol's name that fit in 255 bytes.
        symbol_name: String,
    },
    /// An entry of a DATASEC is no VAR.
    InvalidDatasec,
    /// A section has no known size, or one past 32 bits.
    UnknownSectionSize {
        /// The first characters of the section's name that fit in 255 bytes.
        section_name: String,
    },
    /// An allocation failed. The table that the call would change is unchanged.
    OutOfMemory,
    /// An argument is invalid: bytes follow the record of a type that is added, or the table already has a `.BTF.ext`.
    InvalidArgument,
    /// The bytes are no ELF object that is read here.
    NotAnObject {
        /// The number of the reason in the first list of `docs/OBJECTS.md`.
        reason: u32,
        /// The class, the encoding, or the index of a section or symbol; 0 if the reason has none.
        detail: u64,
    },
    /// The object has no section `.BTF`.
    NoTable,
    /// A relocation record has an error.
    RelocationRefused {
        /// The number of the reason in `docs/C.md`, from 1 on.
        reason: u32,
        /// The kind, the id of a type or the string offset of the reason; 0 if it has none.
        detail: u32,
        /// The string offset of the name of the record's section.
        name_offset: u64,
        /// The index of the record in the section.
        index: u64,
    },
    /// Another section has bytes in the place of a section with relocations.
    SharedPlace {
        /// The index of the section with relocations.
        index: u64,
    },
    /// The name of a section of relocation records cannot be read.
    BadSectionName {
        /// The string offset of the name.
        name_offset: u64,
    },
    /// The text of a C header would be far longer than the table.
    TooLong,
}

impl Error {
    /// The error of a call that returned this status.
    pub(crate) fn of(status: u32, error: &vbtf_error) -> Self {
        let type_id = error.id;
        match status {
            1 => Error::InvalidHeader,
            2 => Error::InvalidTypeInfo,
            4 => Error::InvalidTypeKind { kind: error.id },
            6 => Error::InvalidStringOffset { offset: error.offset },
            7 => Error::InvalidInfo {
                offset: error.offset,
                len: error.len,
                section_len: error.section_len,
            },
            9 => Error::UnknownBtfType { type_id },
            10 => Error::UnexpectedBtfType { type_id },
            11 => Error::UnknownBtfTypeName { type_name: name(error) },
            12 => Error::MaximumTypeDepthReached { type_id },
            13 => Error::SymbolOffsetNotFound { symbol_name: name(error) },
            14 => Error::InvalidDatasec,
            15 => Error::UnknownSectionSize { section_name: name(error) },
            20 => Error::OutOfMemory,
            CLOSED | INVALID_ARGUMENT => Error::InvalidArgument,
            NOT_AN_OBJECT => Error::NotAnObject { reason: error.id, detail: error.offset },
            NO_TABLE => Error::NoTable,
            RELOCATION_REFUSED => Error::RelocationRefused {
                reason: error.id,
                detail: error.section_len as u32,
                name_offset: error.offset,
                index: error.len,
            },
            SHARED_PLACE => Error::SharedPlace { index: error.offset },
            BAD_SECTION_NAME => Error::BadSectionName { name_offset: error.offset },
            TOO_LONG => Error::TooLong,
            other => unreachable!("status {other} of a call of vbtf"),
        }
    }

    /// The error in the form that the library gives to C.
    fn described(&self) -> vbtf_error {
        let (number, id, offset, len, section_len, name) = match self {
            Error::InvalidHeader => (1, 0, 0, 0, 0, ""),
            Error::InvalidTypeInfo => (2, 0, 0, 0, 0, ""),
            Error::InvalidTypeKind { kind } => (4, *kind, 0, 0, 0, ""),
            Error::InvalidStringOffset { offset } => (6, 0, *offset, 0, 0, ""),
            Error::InvalidInfo { offset, len, section_len } => {
                (7, 0, *offset, *len, *section_len, "")
            }
            Error::UnknownBtfType { type_id } => (9, *type_id, 0, 0, 0, ""),
            Error::UnexpectedBtfType { type_id } => (10, *type_id, 0, 0, 0, ""),
            Error::UnknownBtfTypeName { type_name } => (11, 0, 0, 0, 0, type_name.as_str()),
            Error::MaximumTypeDepthReached { type_id } => (12, *type_id, 0, 0, 0, ""),
            Error::SymbolOffsetNotFound { symbol_name } => (13, 0, 0, 0, 0, symbol_name.as_str()),
            Error::InvalidDatasec => (14, 0, 0, 0, 0, ""),
            Error::UnknownSectionSize { section_name } => (15, 0, 0, 0, 0, section_name.as_str()),
            Error::OutOfMemory => (20, 0, 0, 0, 0, ""),
            Error::InvalidArgument => (INVALID_ARGUMENT, 0, 0, 0, 0, ""),
            Error::NotAnObject { reason, detail } => (NOT_AN_OBJECT, *reason, *detail, 0, 0, ""),
            Error::NoTable => (NO_TABLE, 0, 0, 0, 0, ""),
            Error::RelocationRefused { reason, detail, name_offset, index } => {
                (RELOCATION_REFUSED, *reason, *name_offset, *index, u64::from(*detail), "")
            }
            Error::SharedPlace { index } => (SHARED_PLACE, 0, *index, 0, 0, ""),
            Error::BadSectionName { name_offset } => (BAD_SECTION_NAME, 0, *name_offset, 0, 0, ""),
            Error::TooLong => (TOO_LONG, 0, 0, 0, 0, ""),
        };
        let mut error =
            vbtf_error { number, id, offset, len, section_len, name_len: 0, name: [0; 255] };
        let end = end_of_chars(name, error.name.len());
        error.name[..end].copy_from_slice(&name.as_bytes()[..end]);
        error.name_len = end as u32;
        error
    }
}

/// The end of the last character that fits in this number of bytes.
fn end_of_chars(text: &str, room: usize) -> usize {
    let mut end = text.len().min(room);
    while !text.is_char_boundary(end) {
        end -= 1;
    }
    end
}

/// The name in an error, without the part of a character that may be at its end.
fn name(error: &vbtf_error) -> String {
    let bytes = &error.name[..error.name.len().min(error.name_len as usize)];
    let end = match std::str::from_utf8(bytes) {
        Ok(name) => name.len(),
        Err(cut) => cut.valid_up_to(),
    };
    String::from_utf8_lossy(&bytes[..end]).into_owned()
}

impl fmt::Display for Error {
    fn fmt(&self, f: &mut fmt::Formatter<'_>) -> fmt::Result {
        let error = self.described();
        if let Some(text) = own_text(error.number) {
            return f.write_str(text);
        }
        // SAFETY: the error and the buffer live as long as the call.
        let text = written(400, |out, room, needed, _| unsafe {
            vbtf_raw_error_text(&error, out, room, needed)
        });
        match text {
            Ok(text) => f.write_str(&String::from_utf8_lossy(&text)),
            Err(Error::InvalidArgument) => f.write_str("a relocation has an error"),
            Err(_) => f.write_str("out of memory"),
        }
    }
}

impl std::error::Error for Error {}
