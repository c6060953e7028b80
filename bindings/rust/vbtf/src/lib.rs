//! BTF, the Linux kernel's type metadata for BPF programs: tables that are read, searched, compared, rewritten and
//! written by a library whose results are proved. Every call terminates on every input, and fails only for the
//! documented reasons, checked in a fixed order.
//!
//! The size and the members of a structure by its name:
//!
//! ```
//! use vbtf::{Endianness, Kind, Table};
//!
//! # let mut table = Table::new()?;
//! # let words = [table.add_string("pair")?, 0x0400_0001, 8, table.add_string("left")?, 0, 0];
//! # table.add_type(&words.map(u32::to_le_bytes).concat(), Endianness::Little)?;
//! # let bytes = table.to_bytes()?;
//! let table = Table::parse_by_magic(&bytes)?;
//! let id = table.id_by_type_name_kind("pair", Kind::Struct)?;
//! assert_eq!(table.type_size(id), Ok(8));
//! for member in table.type_by_id(id)?.members().into_iter().flatten() {
//!     println!("{}: from bit {}", table.string_at(member.name_offset)?, member.bit_offset);
//! }
//! # Ok::<(), vbtf::Error>(())
//! ```
#![deny(missing_docs)]

mod calls;
mod error;
mod ext;
mod kernel;
mod kind;
mod many;
mod object;
mod open;
mod table;
mod target;
mod types;
mod view;

pub use error::Error;
pub use ext::{Ext, FuncInfo, LineInfo, Part, Relocation};
pub use kernel::{Feature, FeatureAnswer, Kernel};
pub use kind::{Endianness, Kind};
pub use object::{Relocate, Tally};
pub use open::OpenError;
pub use table::{fields_are_compatible, types_are_compatible, Table};
pub use target::{Relocated, Target};
pub use types::{Array, Entry, Int, Items, Linkage, Member, Param, Type, Types, Variant};
pub use view::{Head, View};

/// The example of the README, for `cargo test`.
#[cfg(doctest)]
#[doc = include_str!("../README.md")]
struct Readme;
