//! The order of a table's words, and the kinds of its types.

use crate::error::Error;
use std::fmt;

/// The byte order of a table.
///
/// ```
/// use vbtf::{Endianness, Table};
///
/// let bytes = Table::new()?.to_bytes()?;
/// assert!(Table::parse(&bytes, Endianness::Little).is_ok());
/// assert!(Table::parse(&bytes, Endianness::Big).is_err());
/// # Ok::<(), vbtf::Error>(())
/// ```
#[derive(Debug, Clone, Copy, PartialEq, Eq, Hash)]
pub enum Endianness {
    /// The least byte of a word is first.
    Little,
    /// The highest byte of a word is first.
    Big,
}

/// The kind of a type (the kernel's documentation, "BPF Type Format").
///
/// ```
/// use vbtf::Kind;
///
/// assert_eq!(Kind::from_number(4), Some(Kind::Struct));
/// assert_eq!(Kind::Struct as u32, 4);
/// assert_eq!(Kind::Struct.to_string(), "[STRUCT]");
/// assert_eq!(Kind::from_number(20), None);
/// assert_eq!(Kind::try_from(4), Ok(Kind::Struct));
/// assert_eq!(Kind::try_from(20), Err(vbtf::Error::InvalidTypeKind { kind: 20 }));
/// ```
#[derive(Debug, Clone, Copy, PartialEq, Eq, Hash)]
#[non_exhaustive]
pub enum Kind {
    /// The type of id 0, which is void.
    Unknown,
    /// An integer.
    Int,
    /// A pointer to a type.
    Ptr,
    /// An array.
    Array,
    /// A structure, which has members.
    Struct,
    /// A union, which has members.
    Union,
    /// An enumeration, whose variants have values of 32 bits.
    Enum,
    /// The declaration of a structure or union that is defined elsewhere.
    Fwd,
    /// A name for a type.
    Typedef,
    /// A volatile type.
    Volatile,
    /// A constant type.
    Const,
    /// A restricted pointer.
    Restrict,
    /// A function, which has a prototype.
    Func,
    /// The prototype of functions, which has parameters.
    FuncProto,
    /// A variable.
    Var,
    /// A section of variables.
    DataSec,
    /// A floating-point number.
    Float,
    /// A tag on a type, a member or a parameter.
    DeclTag,
    /// A tag on the type that a pointer points to.
    TypeTag,
    /// An enumeration, whose variants have values of 64 bits.
    Enum64,
}

/// The kinds in the order of their numbers, each with its text.
const KINDS: [(Kind, &str); 20] = [
    (Kind::Unknown, "[UNKNOWN]"),
    (Kind::Int, "[INT]"),
    (Kind::Ptr, "[PTR]"),
    (Kind::Array, "[ARRAY]"),
    (Kind::Struct, "[STRUCT]"),
    (Kind::Union, "[UNION]"),
    (Kind::Enum, "[ENUM]"),
    (Kind::Fwd, "[FWD]"),
    (Kind::Typedef, "[TYPEDEF]"),
    (Kind::Volatile, "[VOLATILE]"),
    (Kind::Const, "[CONST]"),
    (Kind::Restrict, "[RESTRICT]"),
    (Kind::Func, "[FUNC]"),
    (Kind::FuncProto, "[FUNC_PROTO]"),
    (Kind::Var, "[VAR]"),
    (Kind::DataSec, "[DATASEC]"),
    (Kind::Float, "[FLOAT]"),
    (Kind::DeclTag, "[DECL_TAG]"),
    (Kind::TypeTag, "[TYPE_TAG]"),
    (Kind::Enum64, "[ENUM64]"),
];

impl Kind {
    /// The kind of this number; None above 19.
    pub fn from_number(number: u32) -> Option<Self> {
        KINDS.get(usize::try_from(number).ok()?).map(|(kind, _)| *kind)
    }
}

impl TryFrom<u32> for Kind {
    type Error = Error;

    /// The kind of this number; [`Error::InvalidTypeKind`] above 19.
    fn try_from(number: u32) -> Result<Self, Error> {
        Kind::from_number(number).ok_or(Error::InvalidTypeKind { kind: number })
    }
}

impl fmt::Display for Kind {
    fn fmt(&self, f: &mut fmt::Formatter<'_>) -> fmt::Result {
        f.pad(KINDS[*self as usize].1)
    }
}
