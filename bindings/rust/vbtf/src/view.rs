//! Views: tables that are only read, in the caller's bytes.

use crate::calls::called;
use crate::error::Error;
use crate::kind::{Endianness, Kind};
use crate::many::filled;
use crate::types::{Entry, Member, Param, Variant};
use std::borrow::Cow;
use std::ops::Range;
use vbtf_sys::*;

/// The number of the byte order of the magic at the beginning of the data.
const BY_MAGIC: u32 = 2;

/// What each call of a view begins with: the types and their length, the places and their number, and the byte order.
type Parts = (*const u8, usize, *const u32, usize, u32);

/// A call that writes a value for each id from one on.
type Filling<W> = unsafe extern "C" fn(
    *const u8,
    usize,
    *const u32,
    usize,
    u32,
    u32,
    *mut W,
    usize,
    *mut u64,
) -> u32;

/// A call that writes the value of an id.
type Reading<W> = unsafe extern "C" fn(
    *const u8,
    usize,
    *const u32,
    usize,
    u32,
    u32,
    *mut W,
    *mut vbtf_error,
) -> u32;

/// A call that writes the items of the type of an id.
type Listing<W> = unsafe extern "C" fn(
    *const u8,
    usize,
    *const u32,
    usize,
    u32,
    u32,
    *mut W,
    usize,
    *mut u64,
    *mut vbtf_error,
) -> u32;

/// A table that is only read: the bytes of a `.BTF` section, and where each record begins, in 4 bytes a type. It opens
/// faster than a [`Table`](crate::Table) and takes less memory; any number of threads can read it.
///
/// ```
/// use vbtf::{Endianness, Kind, Table, View};
///
/// let mut table = Table::new()?;
/// let words = [table.add_string("int")?, 0x0100_0000, 4, 0x0100_0020];
/// table.add_type(&words.map(u32::to_le_bytes).concat(), Endianness::Little)?;
/// let bytes = table.to_bytes()?;
///
/// let view = View::parse(&bytes, Endianness::Little)?;
/// let id = view.id_by_type_name_kind("int", Kind::Int)?;
/// let head = view.head(id).unwrap();
/// assert_eq!(view.text_at(head.name_offset).unwrap(), "int");
/// assert_eq!(view.type_size(id), Ok(4));
/// # Ok::<(), vbtf::Error>(())
/// ```
#[derive(Clone)]
pub struct View<'a> {
    types: &'a [u8],
    strings: &'a [u8],
    places: Vec<u32>,
    order: u32,
}

/// The first words of a type.
#[derive(Debug, Clone, Copy, PartialEq, Eq, Hash)]
pub struct Head {
    /// The kind.
    pub kind: Kind,
    /// The string offset of the name.
    pub name_offset: u32,
    /// The info word: the kind, the kind flag and the number of items.
    pub info: u32,
    /// The size in bytes or the id of another type, by the kind; 0 for the kinds that have neither.
    pub size_or_type: u32,
}

impl Head {
    fn of(words: vbtf_type) -> Option<Self> {
        let vbtf_type { kind, name_offset, info, size_or_type } = words;
        Some(Head { kind: Kind::from_number(kind)?, name_offset, info, size_or_type })
    }
}

impl<'a> View<'a> {
    /// The view of the table that bytes represent, whose order has this number.
    fn parse_as(data: &'a [u8], order: u32) -> Result<Self, Error> {
        // Each record has at least 12 bytes.
        let mut places = vec![0; data.len() / 12 + 1];
        // SAFETY: the slices live as long as the call.
        let parts: vbtf_view_parts = called(|parts, error| unsafe {
            let (at, room) = (places.as_mut_ptr(), places.len());
            vbtf_raw_view_index(data.as_ptr(), data.len(), order, at, room, parts, error)
        })?;
        places.truncate(parts.count as usize);
        places.shrink_to_fit();
        let section = |at: u64, len: u64| &data[at as usize..][..len as usize];
        Ok(View {
            types: section(parts.types_at, parts.types_len),
            strings: section(parts.strings_at, parts.names_len),
            places,
            order: parts.order,
        })
    }

    /// The view of the table that the bytes of a `.BTF` section in this order represent. The errors are those of
    /// [`Table::parse`](crate::Table::parse).
    pub fn parse(data: &'a [u8], endianness: Endianness) -> Result<Self, Error> {
        Self::parse_as(data, endianness as u32)
    }

    /// The same in the order of the magic: big-endian if the bytes begin with 0xeb 0x9f, otherwise little-endian.
    pub fn parse_by_magic(data: &'a [u8]) -> Result<Self, Error> {
        Self::parse_as(data, BY_MAGIC)
    }

    /// The number of types, including the type of id 0.
    pub fn type_count(&self) -> u32 {
        self.places.len() as u32
    }

    /// What each call begins with.
    fn parts(&self) -> Parts {
        (self.types.as_ptr(), self.types.len(), self.places.as_ptr(), self.places.len(), self.order)
    }

    /// The values of these ids, as far as the table has them.
    fn values<W: Clone + Default>(&self, ids: Range<u32>, call: Filling<W>) -> Vec<W> {
        let (types, types_len, places, len, order) = self.parts();
        // SAFETY: the slices and the buffer live as long as the call.
        filled(ids.len().min(self.places.len()), |out, room, count| unsafe {
            call(types, types_len, places, len, order, ids.start, out, room, count)
        })
    }

    /// The value of an id.
    fn value<W>(&self, type_id: u32, call: Reading<W>) -> Result<W, Error> {
        let (types, types_len, places, len, order) = self.parts();
        // SAFETY: the slices live as long as the call.
        called(|value, error| unsafe {
            call(types, types_len, places, len, order, type_id, value, error)
        })
    }

    /// The items of the type of an id.
    fn items<W, T>(&self, type_id: u32, call: Listing<W>) -> Result<Vec<T>, Error>
    where
        W: Clone + Default,
        T: From<W>,
    {
        let (types, types_len, places, len, order) = self.parts();
        let room = self.head(type_id).map_or(0, |head| head.info as usize & 0xffff);
        let mut items = vec![W::default(); room];
        let out = items.as_mut_ptr();
        // SAFETY: the slices and the buffer live as long as the call.
        let count: u64 = called(|count, error| unsafe {
            call(types, types_len, places, len, order, type_id, out, room, count, error)
        })?;
        items.truncate(count as usize);
        Ok(items.into_iter().map(T::from).collect())
    }

    /// The first words of the types of these ids, as far as the table has them.
    pub fn heads(&self, ids: Range<u32>) -> Vec<Head> {
        self.values(ids, vbtf_raw_view_types).into_iter().filter_map(Head::of).collect()
    }

    /// The first words of the type of an id; `None` if there is none.
    pub fn head(&self, type_id: u32) -> Option<Head> {
        self.heads(type_id..type_id.checked_add(1)?).pop()
    }

    /// The bytes of the name at a string offset, up to its zero byte; `None` if no name is at the offset.
    pub fn bytes_at(&self, offset: u32) -> Option<&'a [u8]> {
        self.strings
            .get(offset as usize..)?
            .split(|byte| *byte == 0)
            .next()
            .filter(|_| (offset as usize) < self.strings.len())
    }

    /// The text at a string offset, with U+FFFD in place of each piece that is not UTF-8.
    pub fn text_at(&self, offset: u32) -> Option<Cow<'a, str>> {
        self.bytes_at(offset).map(String::from_utf8_lossy)
    }

    /// The members of a STRUCT or UNION, in order; [`Error::UnexpectedBtfType`] for a type of another kind.
    pub fn members(&self, type_id: u32) -> Result<Vec<Member>, Error> {
        self.items(type_id, vbtf_raw_view_members)
    }

    /// The variants of an ENUM or ENUM64, in order; [`Error::UnexpectedBtfType`] for a type of another kind.
    pub fn variants(&self, type_id: u32) -> Result<Vec<Variant>, Error> {
        self.items(type_id, vbtf_raw_view_variants)
    }

    /// The parameters of a FUNC_PROTO, in order; [`Error::UnexpectedBtfType`] for a type of another kind.
    pub fn params(&self, type_id: u32) -> Result<Vec<Param>, Error> {
        self.items(type_id, vbtf_raw_view_params)
    }

    /// The entries of a DATASEC, in order; [`Error::UnexpectedBtfType`] for a type of another kind.
    pub fn entries(&self, type_id: u32) -> Result<Vec<Entry>, Error> {
        self.items(type_id, vbtf_raw_view_entries)
    }

    /// The members of the types of these ids, as far as the table has them, type after type, and the number of the
    /// members of each type: 0 for a type that is no STRUCT or UNION.
    pub fn members_from(&self, ids: Range<u32>) -> (Vec<u32>, Vec<Member>) {
        let heads = self.heads(ids.clone());
        // A type that is no STRUCT or UNION only makes the buffer longer than needed.
        let room = heads.iter().map(|head| head.info as usize & 0xffff).sum();
        let mut counts = vec![0; heads.len()];
        let mut members = vec![vbtf_member::default(); room];
        let (types, types_len, places, len, order) = self.parts();
        let (mut done, mut written) = (0, 0);
        // SAFETY: the slices and the buffers live as long as the call.
        unsafe {
            let (numbers, out) = (counts.as_mut_ptr(), members.as_mut_ptr());
            vbtf_raw_view_members_from(
                types,
                types_len,
                places,
                len,
                order,
                ids.start,
                numbers,
                counts.len(),
                out,
                room,
                &mut done,
                &mut written,
            );
        }
        counts.truncate(done as usize);
        members.truncate(written as usize);
        (counts, members.into_iter().map(Member::from).collect())
    }

    /// The size of a type in bytes, as [`Table::type_size`](crate::Table::type_size) gives it.
    pub fn type_size(&self, type_id: u32) -> Result<u64, Error> {
        self.value(type_id, vbtf_raw_view_size)
    }

    /// The id that an id resolves to, as [`Table::resolve_type`](crate::Table::resolve_type) gives it.
    pub fn resolve_type(&self, type_id: u32) -> Result<u32, Error> {
        self.value(type_id, vbtf_raw_view_resolve)
    }

    /// The sizes in bytes of the types of these ids, as far as the table has them; `None` for a type without a size.
    pub fn type_sizes(&self, ids: Range<u32>) -> Vec<Option<u64>> {
        let sizes = self.values(ids, vbtf_raw_view_sizes);
        sizes.into_iter().map(|size| (size != u64::MAX).then_some(size)).collect()
    }

    /// What these ids resolve to, as far as the table has them; `None` for an id that resolves to no type.
    pub fn resolved_types(&self, ids: Range<u32>) -> Vec<Option<u32>> {
        let ids = self.values(ids, vbtf_raw_view_resolved);
        ids.into_iter().map(|id| (id != u32::MAX).then_some(id)).collect()
    }

    /// The least id of a type of this kind and name, as
    /// [`Table::id_by_type_name_kind`](crate::Table::id_by_type_name_kind) gives it.
    pub fn id_by_type_name_kind(&self, name: &str, kind: Kind) -> Result<u32, Error> {
        let (types, types_len, places, len, order) = self.parts();
        // SAFETY: the slices live as long as the call.
        called(|id, error| unsafe {
            vbtf_raw_view_find(
                types,
                types_len,
                self.strings.as_ptr(),
                self.strings.len(),
                places,
                len,
                order,
                name.as_ptr(),
                name.len(),
                kind as u32,
                id,
                error,
            )
        })
    }
}
