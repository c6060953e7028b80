//! Opening the tables of files.

use crate::calls::called;
use crate::error::Error;
use crate::kind::Endianness;
use crate::table::Table;
use std::fmt;
use std::io;
use std::path::Path;
use vbtf_sys::{vbtf_raw_section, vbtf_section};

/// Why a table of a file is not opened.
#[derive(Debug)]
#[non_exhaustive]
pub enum OpenError {
    /// The file cannot be read.
    Read(io::Error),
    /// It has no table, or another one than a table of this library.
    Table(Error),
}

impl fmt::Display for OpenError {
    fn fmt(&self, f: &mut fmt::Formatter<'_>) -> fmt::Result {
        match self {
            OpenError::Read(error) => error.fmt(f),
            OpenError::Table(error) => error.fmt(f),
        }
    }
}

impl std::error::Error for OpenError {
    fn source(&self) -> Option<&(dyn std::error::Error + 'static)> {
        match self {
            OpenError::Read(error) => Some(error),
            OpenError::Table(error) => Some(error),
        }
    }
}

impl From<io::Error> for OpenError {
    fn from(error: io::Error) -> Self {
        OpenError::Read(error)
    }
}

impl From<Error> for OpenError {
    fn from(error: Error) -> Self {
        OpenError::Table(error)
    }
}

/// The bytes of the first section of a name in an object, and the object's byte order.
fn section<'a>(object: &'a [u8], name: &str) -> Result<(&'a [u8], Endianness), Error> {
    let (at, len) = (object.as_ptr(), object.len());
    // SAFETY: the object and the name live as long as the call.
    let place: vbtf_section = called(|place, error| unsafe {
        vbtf_raw_section(at, len, name.as_ptr(), name.len(), place, error)
    })?;
    let start = place.offset as usize;
    let bytes = if place.len == 0 { &[] } else { &object[start..start + place.len as usize] };
    let endianness = match place.order {
        0 => Endianness::Little,
        _ => Endianness::Big,
    };
    Ok((bytes, endianness))
}

impl Table {
    /// The table in bytes: the section `.BTF` of an ELF object, with its `.BTF.ext` if it has one, or the bytes of a
    /// table, in the order of its magic.
    ///
    /// ```
    /// use vbtf::Table;
    ///
    /// let bytes = Table::new()?.to_bytes()?;
    /// assert!(Table::open_bytes(&bytes)?.is_empty());
    /// # Ok::<(), vbtf::Error>(())
    /// ```
    ///
    /// # Errors
    ///
    /// [`Error::NotAnObject`], [`Error::NoTable`], and those of [`Table::parse`] and [`Table::open_ext`].
    pub fn open_bytes(bytes: &[u8]) -> Result<Self, Error> {
        if !bytes.starts_with(b"\x7fELF") {
            return Table::parse_by_magic(bytes);
        }
        let (data, endianness) = section(bytes, ".BTF")?;
        let mut table = Table::parse(data, endianness)?;
        match section(bytes, ".BTF.ext") {
            Ok((ext, endianness)) => table.open_ext(ext, endianness)?,
            Err(Error::NoTable) => {}
            Err(error) => return Err(error),
        }
        Ok(table)
    }

    /// The table of a file, as [`Table::open_bytes`] opens it.
    ///
    /// ```no_run
    /// let kernel = vbtf::Table::open("/sys/kernel/btf/vmlinux")?;
    /// println!("{} types", kernel.len());
    /// # Ok::<(), vbtf::OpenError>(())
    /// ```
    pub fn open(path: impl AsRef<Path>) -> Result<Self, OpenError> {
        Ok(Table::open_bytes(&std::fs::read(path)?)?)
    }
}
