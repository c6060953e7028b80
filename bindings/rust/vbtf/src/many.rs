//! Texts in the memory of a table, and many values of one call.

use crate::calls::called;
use crate::error::Error;
use crate::kind::{Endianness, Kind};
use crate::table::Table;
use std::borrow::Cow;
use std::ops::Range;
use std::{ptr, slice};
use vbtf_sys::*;

/// The number of the kind that stands for every kind.
const ANY_KIND: u32 = u32::MAX;

/// The values that a call writes to a buffer.
pub(crate) fn filled<T: Clone + Default>(
    places: usize,
    call: impl FnOnce(*mut T, usize, *mut u64) -> u32,
) -> Vec<T> {
    let mut values = vec![T::default(); places];
    let mut count = 0;
    call(values.as_mut_ptr(), places, &mut count);
    values.truncate(count as usize);
    values
}

impl Table {
    /// The words of the types from an id on, at most as many as there are places.
    pub(crate) fn words_from(&self, first: u32, places: usize) -> Vec<vbtf_type> {
        // SAFETY: the loan and the buffer live as long as the call.
        filled(places, |out, room, count| unsafe {
            vbtf_lent_types(&mut self.loan(), first, out, room, count)
        })
    }

    /// The bytes of the name at a string offset, up to its zero byte, in the memory of the table.
    ///
    /// ```
    /// let mut table = vbtf::Table::new()?;
    /// let offset = table.add_string("int")?;
    /// assert_eq!(table.bytes_at(offset)?, b"int");
    /// assert!(table.bytes_at(offset + 4).is_err());
    /// # Ok::<(), vbtf::Error>(())
    /// ```
    pub fn bytes_at(&self, offset: u32) -> Result<&[u8], Error> {
        // SAFETY: the loan lives as long as the call. The bytes are the table's, which is borrowed as long as the
        // slice.
        unsafe {
            let mut len = 0;
            let name: vbtf_name_bytes = called(|name, error| {
                vbtf_lent_name(&mut self.loan(), offset, name, &mut len, error)
            })?;
            Ok(slice::from_raw_parts(name.at, len))
        }
    }

    /// The strings up to and with their last zero byte, in the memory of the table: the name at each offset below their
    /// number is there, up to its zero byte.
    ///
    /// ```
    /// let mut table = vbtf::Table::new()?;
    /// table.add_string("int")?;
    /// assert_eq!(table.names(), b"\0int\0");
    /// # Ok::<(), vbtf::Error>(())
    /// ```
    pub fn names(&self) -> &[u8] {
        let mut names = vbtf_name_bytes { at: ptr::null(), len: 0 };
        // SAFETY: the loan lives as long as the call. The bytes are the table's, which is borrowed as long as the
        // slice. A handle that is open gets no null pointer.
        unsafe {
            vbtf_lent_names(&mut self.loan(), &mut names);
            slice::from_raw_parts(names.at, names.len)
        }
    }

    /// The text at a string offset, with U+FFFD in place of each piece that is not UTF-8. A text that is UTF-8 is not
    /// copied.
    ///
    /// ```
    /// let mut table = vbtf::Table::new()?;
    /// let offset = table.add_string("int")?;
    /// assert_eq!(table.text_at(offset)?, "int");
    /// # Ok::<(), vbtf::Error>(())
    /// ```
    pub fn text_at(&self, offset: u32) -> Result<Cow<'_, str>, Error> {
        Ok(String::from_utf8_lossy(self.bytes_at(offset)?))
    }

    /// The sizes in bytes of the types of these ids, as far as the table has them; `None` for a type without a size.
    ///
    /// ```
    /// let table = vbtf::Table::new()?;
    /// assert_eq!(table.type_sizes(0..2), [None]);
    /// # Ok::<(), vbtf::Error>(())
    /// ```
    pub fn type_sizes(&self, ids: Range<u32>) -> Vec<Option<u64>> {
        // SAFETY: as in `words_from`.
        let sizes = filled(ids.len().min(self.len() as usize), |out, room, count| unsafe {
            vbtf_lent_sizes(&mut self.loan(), ids.start, out, room, count)
        });
        sizes.into_iter().map(|size| (size != u64::MAX).then_some(size)).collect()
    }

    /// What these ids resolve to, as far as the table has them; `None` for an id that resolves to no type.
    ///
    /// ```
    /// let table = vbtf::Table::new()?;
    /// assert_eq!(table.resolved_types(0..2), [Some(0)]);
    /// # Ok::<(), vbtf::Error>(())
    /// ```
    pub fn resolved_types(&self, ids: Range<u32>) -> Vec<Option<u32>> {
        // SAFETY: as in `words_from`.
        let ids = filled(ids.len().min(self.len() as usize), |out, room, count| unsafe {
            vbtf_lent_resolved(&mut self.loan(), ids.start, out, room, count)
        });
        ids.into_iter().map(|id| (id != u32::MAX).then_some(id)).collect()
    }

    /// The least id, from one on, of a type of this name, and of this kind if there is one.
    ///
    /// ```
    /// use vbtf::{Kind, Table};
    ///
    /// let table = Table::new()?;
    /// assert_eq!(table.find_from("", None, 0), Ok(0));
    /// assert!(table.find_from("", Some(Kind::Int), 0).is_err());
    /// # Ok::<(), vbtf::Error>(())
    /// ```
    pub fn find_from(&self, name: &str, kind: Option<Kind>, first: u32) -> Result<u32, Error> {
        let (at, len) = (name.as_ptr(), name.len());
        let kind = kind.map_or(ANY_KIND, |kind| kind as u32);
        // SAFETY: the loan and the name live as long as the call.
        called(|id, error| unsafe {
            vbtf_lent_find_from(&mut self.loan(), at, len, kind, first, id, error)
        })
    }

    /// The alignment of a type in bytes, by libbpf's rule; `docs/TABLES.md` has it.
    ///
    /// ```
    /// use vbtf::{Endianness, Error, Table};
    ///
    /// let mut table = Table::new()?;
    /// let words = [0, 0x0100_0000, 4, 0x0100_0020];
    /// let id = table.add_type(&words.map(u32::to_le_bytes).concat(), Endianness::Little)?;
    /// assert_eq!(table.type_alignment(id), Ok(4));
    /// assert_eq!(table.type_alignment(0), Err(Error::UnexpectedBtfType { type_id: 0 }));
    /// # Ok::<(), vbtf::Error>(())
    /// ```
    pub fn type_alignment(&self, type_id: u32) -> Result<u32, Error> {
        // SAFETY: the loan lives as long as the call.
        called(|it, error| unsafe { vbtf_lent_alignment(&mut self.loan(), type_id, it, error) })
    }

    /// The alignments in bytes of the types of these ids, as far as the table has them; `None` for a type without an
    /// alignment.
    ///
    /// ```
    /// let table = vbtf::Table::new()?;
    /// assert_eq!(table.type_alignments(0..2)?, [None]);
    /// # Ok::<(), vbtf::Error>(())
    /// ```
    pub fn type_alignments(&self, ids: Range<u32>) -> Result<Vec<Option<u32>>, Error> {
        let mut values = vec![0; ids.len()];
        let (at, room, mut count) = (values.as_mut_ptr(), values.len(), 0);
        // SAFETY: the loan and the buffer live as long as the call.
        called::<()>(|_, error| unsafe {
            vbtf_lent_alignments(&mut self.loan(), ids.start, at, room, &mut count, error)
        })?;
        values.truncate(count as usize);
        Ok(values.into_iter().map(|it| (it != 0).then_some(it)).collect())
    }

    /// The byte order of the table.
    ///
    /// ```
    /// use vbtf::{Endianness, Table};
    ///
    /// assert_eq!(Table::new()?.endianness(), Endianness::Little);
    /// # Ok::<(), vbtf::Error>(())
    /// ```
    pub fn endianness(&self) -> Endianness {
        let mut order = 0;
        // SAFETY: the loan lives as long as the call.
        unsafe { vbtf_lent_order(&mut self.loan(), &mut order) };
        if order == Endianness::Big as u32 {
            Endianness::Big
        } else {
            Endianness::Little
        }
    }
}
