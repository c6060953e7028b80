//! A table, and the calls that read it.

use crate::calls::{called, found, written};
use crate::error::Error;
use crate::ext::Ext;
use crate::kernel::{answers_of, FeatureAnswer, Kernel};
use crate::kind::{Endianness, Kind};
use crate::types::{Type, Types};
use std::collections::hash_map::RandomState;
use std::hash::{BuildHasher, Hasher};
use vbtf_sys::*;

/// The number of the byte order of the magic at the beginning of the data.
const BY_MAGIC: u32 = 2;

/// A random number, from which the library derives the keys of its hashes: nobody can choose names that collide.
pub(crate) fn random_seed() -> u64 {
    RandomState::new().build_hasher().finish()
}

/// A table of types. Several threads may read one at the same time.
///
/// ```
/// let table = vbtf::Table::new()?;
/// assert!(table.is_empty());
/// assert_eq!(table.types().count(), 1);
/// # Ok::<(), vbtf::Error>(())
/// ```
#[derive(Debug)]
pub struct Table {
    handle: vbtf_table,
    /// The expected number of bytes of the written table. If it has more, a second call is made.
    room: usize,
}

// SAFETY: the library proves `Send` of the handle, and the calls that take `&Table` only read.
unsafe impl Send for Table {}
unsafe impl Sync for Table {}

impl Drop for Table {
    fn drop(&mut self) {
        // SAFETY: the table is open, and nobody reads it any more.
        unsafe { vbtf_close(&mut self.handle) }
    }
}

impl Table {
    /// A closed table, for a call that opens it.
    fn closed() -> vbtf_table {
        vbtf_table { at: std::ptr::null_mut(), state: 0 }
    }

    /// A loan of the table for one call, which only reads it.
    pub(crate) fn loan(&self) -> vbtf_table {
        vbtf_table { at: self.handle.at, state: 2 }
    }

    /// An empty table in little-endian order: one string byte, which is zero, and the type of id 0.
    pub fn new() -> Result<Self, Error> {
        let mut handle = Self::closed();
        // SAFETY: the table is closed.
        called::<()>(|_, error| unsafe { vbtf_raw_new(&mut handle, error) })?;
        Ok(Self { handle, room: 256 })
    }

    /// The table that bytes represent, whose order has this number.
    fn parse_as(data: &[u8], order: u32) -> Result<Self, Error> {
        let mut handle = Self::closed();
        // SAFETY: the table is closed, and the slice lives as long as the call.
        called::<()>(|_, error| unsafe {
            vbtf_raw_parse(&mut handle, data.as_ptr(), data.len(), order, error)
        })?;
        Ok(Self { handle, room: data.len() + 256 })
    }

    /// The table that the bytes of a `.BTF` section in this order represent.
    pub fn parse(data: &[u8], endianness: Endianness) -> Result<Self, Error> {
        Self::parse_as(data, endianness as u32)
    }

    /// The table that the bytes of a `.BTF` section represent, in the order of their magic: big-endian if they begin
    /// with 0xeb 0x9f, otherwise little-endian.
    ///
    /// ```
    /// use vbtf::Table;
    ///
    /// let bytes = Table::new()?.to_bytes()?;
    /// assert_eq!(Table::parse_by_magic(&bytes)?.to_bytes(), Ok(bytes));
    /// # Ok::<(), vbtf::Error>(())
    /// ```
    pub fn parse_by_magic(data: &[u8]) -> Result<Self, Error> {
        Self::parse_as(data, BY_MAGIC)
    }

    /// An equal table, without the `.BTF.ext`; [`Error::OutOfMemory`] if an allocation fails.
    ///
    /// ```
    /// let mut table = vbtf::Table::new()?;
    /// table.add_string("int")?;
    /// let copy = table.try_clone()?;
    /// table.add_string("char")?;
    /// assert_eq!(copy.string_at(1)?, "int");
    /// assert!(copy.string_at(5).is_err());
    /// # Ok::<(), vbtf::Error>(())
    /// ```
    pub fn try_clone(&self) -> Result<Self, Error> {
        let mut handle = Self::closed();
        // SAFETY: the loan lives as long as the call, and the copy is closed.
        called::<()>(|_, error| unsafe { vbtf_lent_clone(&mut self.loan(), &mut handle, error) })?;
        Ok(Self { handle, room: self.room })
    }

    /// The bytes of the table, in its own order.
    pub fn to_bytes(&self) -> Result<Vec<u8>, Error> {
        // SAFETY: the loan lives as long as the call.
        written(self.room, |out, room, needed, error| unsafe {
            vbtf_lent_bytes(&mut self.loan(), out, room, needed, error)
        })
    }

    /// The types of a base and those of a split table over it, such as the BTF of a kernel module over that of the
    /// kernel. The ids of the split table begin after the last id of the base, and its string offsets after the strings
    /// of the base. The table has its own copy of the base.
    ///
    /// ```
    /// use vbtf::{Endianness, Table};
    ///
    /// let base = Table::new()?;
    /// let split = Table::new()?.to_bytes()?;
    /// let table = Table::parse_over(&base, &split, Endianness::Little)?;
    /// assert_eq!(table.string_len(), 2);
    /// assert_eq!(table.split_bytes(base.len(), base.string_len())?, split);
    /// # Ok::<(), vbtf::Error>(())
    /// ```
    ///
    /// # Errors
    ///
    /// Those of [`Table::parse`] for the data; also [`Error::InvalidHeader`] if the strings of both are longer than
    /// 4294967295 bytes, or [`Error::InvalidTypeInfo`] if the types are.
    pub fn parse_over(base: &Table, data: &[u8], endianness: Endianness) -> Result<Self, Error> {
        let mut handle = Self::closed();
        let (at, len, order) = (data.as_ptr(), data.len(), endianness as u32);
        // SAFETY: the loan and the slice live as long as the call, and the table is closed.
        called::<()>(|_, error| unsafe {
            vbtf_lent_parse_over(&mut base.loan(), &mut handle, at, len, order, error)
        })?;
        Ok(Self { handle, room: base.room + data.len() })
    }

    /// The types of the table above a base as the bytes of a split table. The base is the first `base_types` types,
    /// including the type of id 0, and the first `base_strings` bytes of the strings: the [`Table::len`] and the
    /// [`Table::string_len`] of the base.
    ///
    /// # Errors
    ///
    /// [`Error::UnknownBtfType`] if `base_types` is 0 or the table has fewer types; otherwise
    /// [`Error::InvalidStringOffset`] if the table has fewer bytes of strings.
    pub fn split_bytes(&self, base_types: u32, base_strings: u32) -> Result<Vec<u8>, Error> {
        // SAFETY: the loan lives as long as the call.
        written(256, |out, room, needed, error| unsafe {
            let mut loan = self.loan();
            vbtf_lent_split_bytes(&mut loan, base_types, base_strings, out, room, needed, error)
        })
    }

    /// The length of the strings in bytes.
    pub fn string_len(&self) -> u32 {
        let mut len = 0;
        // SAFETY: as above.
        unsafe { vbtf_lent_string_len(&mut self.loan(), &mut len) };
        len
    }

    /// The number of strings, which is the number of zero bytes in them.
    ///
    /// ```
    /// let mut table = vbtf::Table::new()?;
    /// table.add_string("int")?;
    /// assert_eq!(table.string_count(), 2);
    /// # Ok::<(), vbtf::Error>(())
    /// ```
    pub fn string_count(&self) -> u64 {
        let mut count = 0;
        // SAFETY: as above.
        unsafe { vbtf_lent_string_count(&mut self.loan(), &mut count) };
        count
    }

    /// Appends the types and the strings of a split table to the table, which is its base and keeps its byte order.
    /// [`Table::truncate`] removes them, so that the modules of a kernel can be read one after another over one table.
    ///
    /// ```
    /// use vbtf::{Endianness, Table};
    ///
    /// let mut table = Table::new()?;
    /// let split = Table::new()?.to_bytes()?;
    /// let (types, strings) = (table.len(), table.string_len());
    /// table.append_split(&split, Endianness::Little)?;
    /// assert_eq!(table.string_len(), 2);
    /// table.truncate(types, strings)?;
    /// assert_eq!(table.to_bytes()?, split);
    /// # Ok::<(), vbtf::Error>(())
    /// ```
    ///
    /// # Errors
    ///
    /// Those of [`Table::parse_over`]; the table is then unchanged.
    pub fn append_split(&mut self, data: &[u8], endianness: Endianness) -> Result<(), Error> {
        let (at, len, order) = (data.as_ptr(), data.len(), endianness as u32);
        // SAFETY: the table is open, and nobody reads it meanwhile; the slice lives as long as the call.
        called(|_, error| unsafe { vbtf_raw_append_split(&mut self.handle, at, len, order, error) })
    }

    /// Removes all types except the first `base_types`, including the type of id 0, and all bytes of the strings except
    /// the first `base_strings`.
    ///
    /// # Errors
    ///
    /// Those of [`Table::split_bytes`]; the table is then unchanged.
    pub fn truncate(&mut self, base_types: u32, base_strings: u32) -> Result<(), Error> {
        // SAFETY: the table is open, and nobody reads it meanwhile.
        called(|_, error| unsafe {
            vbtf_raw_truncate(&mut self.handle, base_types, base_strings, error)
        })
    }

    /// The number of types of the table, including the type of id 0.
    pub fn len(&self) -> u32 {
        let mut count = 0;
        // SAFETY: as above.
        unsafe { vbtf_lent_count(&mut self.loan(), &mut count) };
        u32::try_from(count).expect("ids have 32 bits")
    }

    /// Whether the type of id 0 is the only one.
    pub fn is_empty(&self) -> bool {
        self.len() < 2
    }

    /// The type of an id; [`Error::UnknownBtfType`] if there is none.
    pub fn type_by_id(&self, type_id: u32) -> Result<Type<'_>, Error> {
        // SAFETY: as above.
        let words =
            called(|out, error| unsafe { vbtf_lent_type(&mut self.loan(), type_id, out, error) })?;
        Ok(Type::new(self, type_id, words))
    }

    /// The types in the order of their ids, id 0 first.
    pub fn types(&self) -> Types<'_> {
        Types::new(self)
    }

    /// The text at a string offset, with U+FFFD in place of each piece that is not UTF-8.
    pub fn string_at(&self, offset: u32) -> Result<String, Error> {
        // SAFETY: as above.
        let bytes = written(64, |out, room, needed, error| unsafe {
            vbtf_lent_text(&mut self.loan(), offset, out, room, needed, error)
        })?;
        Ok(String::from_utf8(bytes).expect("the library's texts are UTF-8"))
    }

    /// All types as a C header, as `bpftool btf dump .. format c` writes it.
    pub fn header(&self) -> Result<String, Error> {
        // SAFETY: as above.
        let bytes = written(1 << 16, |out, room, needed, error| unsafe {
            vbtf_lent_header(&mut self.loan(), out, room, needed, error)
        })?;
        Ok(String::from_utf8(bytes).expect("the library's texts are UTF-8"))
    }

    /// The least id of a type of this kind and name.
    pub fn id_by_type_name_kind(&self, name: &str, kind: Kind) -> Result<u32, Error> {
        let kind = kind as u32;
        // SAFETY: as above.
        called(|id, error| unsafe {
            vbtf_lent_find(&mut self.loan(), name.as_ptr(), name.len(), kind, id, error)
        })
    }

    /// The id of the first type that is no TYPEDEF, VOLATILE, CONST, RESTRICT or TYPE_TAG, from an id on.
    pub fn resolve_type(&self, type_id: u32) -> Result<u32, Error> {
        // SAFETY: as above.
        called(|to, error| unsafe { vbtf_lent_resolve(&mut self.loan(), type_id, to, error) })
    }

    /// The size of a type in bytes.
    pub fn type_size(&self, type_id: u32) -> Result<u64, Error> {
        // SAFETY: as above.
        called(|size, error| unsafe { vbtf_lent_size(&mut self.loan(), type_id, size, error) })
    }

    /// The value of the first variant of a name, in the ENUM or ENUM64 that an id resolves to, or in the UNION that a
    /// rewrite of this table put in place of an ENUM64. An ENUM's value of 32 bits is
    /// zero-extended, even if it is signed. `None` if no variant has the name.
    ///
    /// ```
    /// use vbtf::{Endianness, Table};
    ///
    /// let mut table = Table::new()?;
    /// let words = [0, 0x0600_0001, 4, table.add_string("DROP")?, 2];
    /// let id = table.add_type(&words.map(u32::to_le_bytes).concat(), Endianness::Little)?;
    /// assert_eq!(table.variant_value(id, "DROP"), Ok(Some(2)));
    /// assert_eq!(table.variant_value(id, "PASS"), Ok(None));
    /// # Ok::<(), vbtf::Error>(())
    /// ```
    pub fn variant_value(&self, type_id: u32, name: &str) -> Result<Option<u64>, Error> {
        let (at, len) = (name.as_ptr(), name.len());
        // SAFETY: as above.
        found(|value, error| unsafe {
            vbtf_lent_value(&mut self.loan(), type_id, at, len, value, error)
        })
    }

    /// Adds a text and a zero byte to the strings, and returns the offset of the text.
    pub fn add_string(&mut self, text: &str) -> Result<u32, Error> {
        // SAFETY: the table is open, and nobody reads it meanwhile.
        called(|offset, error| unsafe {
            vbtf_raw_add_string(&mut self.handle, text.as_ptr(), text.len(), offset, error)
        })
    }

    /// Adds the type whose record these bytes are, and returns its id; [`Error::InvalidArgument`] if bytes follow
    /// the record.
    pub fn add_type(&mut self, record: &[u8], endianness: Endianness) -> Result<u32, Error> {
        let order = endianness as u32;
        // SAFETY: as above.
        called(|id, error| unsafe {
            vbtf_raw_add_type(&mut self.handle, record.as_ptr(), record.len(), order, id, error)
        })
    }
}

impl Table {
    /// Opens the index of the types.
    pub(crate) fn open_target(&mut self) -> Result<(), Error> {
        // SAFETY: the table is open, and nobody reads it meanwhile.
        called(|_, error| unsafe { vbtf_raw_target_open(&mut self.handle, error) })
    }

    /// Closes the index of the types.
    pub(crate) fn close_target(&mut self) {
        // SAFETY: as above.
        unsafe { vbtf_target_close(&mut self.handle) }
    }
}

/// `.BTF.ext`, which a table has at most one of.
impl Table {
    /// Opens the `.BTF.ext` that bytes represent, whose order has this number.
    fn open_ext_as(&mut self, data: &[u8], order: u32) -> Result<(), Error> {
        let seed = random_seed();
        // SAFETY: the table is open, and nobody reads it meanwhile; the slice lives as long as the call.
        called(|_, error| unsafe {
            vbtf_raw_open_ext(&mut self.handle, data.as_ptr(), data.len(), order, seed, error)
        })
    }

    /// Opens the `.BTF.ext` that these bytes in an order represent, whose names are in the strings of the table;
    /// [`Error::InvalidArgument`] if the table has one.
    pub fn open_ext(&mut self, data: &[u8], endianness: Endianness) -> Result<(), Error> {
        self.open_ext_as(data, endianness as u32)
    }

    /// The same in the order of the bytes' magic: big-endian if they begin with 0xeb 0x9f, otherwise little-endian.
    pub fn open_ext_by_magic(&mut self, data: &[u8]) -> Result<(), Error> {
        self.open_ext_as(data, BY_MAGIC)
    }

    /// Closes the `.BTF.ext` of the table, and frees it.
    pub fn close_ext(&mut self) {
        // SAFETY: the table is open, and nobody reads it meanwhile.
        unsafe { vbtf_close_ext(&mut self.handle) }
    }

    /// The `.BTF.ext` that is open over the table.
    pub fn ext(&self) -> Option<Ext<'_>> {
        // SAFETY: the loan lives as long as the call.
        let sizes = called(|out, _| unsafe { vbtf_lent_ext(&mut self.loan(), out) });
        Some(Ext::new(self, sizes.ok()?))
    }
}

impl Table {
    /// Rewrites the table for a kernel that lacks some features, and returns the kernel's answers. Ids stay,
    /// strings are only appended, and at most four types are. An error leaves the table unchanged.
    ///
    /// ```
    /// use vbtf::{Feature, Kernel, Table};
    ///
    /// let mut table = Table::new()?;
    /// let answers = table.rewrite(&Kernel::with(&[Feature::Func]))?;
    /// assert!(answers.is_empty());
    /// # Ok::<(), vbtf::Error>(())
    /// ```
    pub fn rewrite(&mut self, kernel: &Kernel) -> Result<Vec<FeatureAnswer>, Error> {
        let Kernel { words, sections, symbols } = kernel;
        // SAFETY: the table is open, and nobody reads it meanwhile; the slices live as long as the call.
        let asked = called(|asked, error| unsafe {
            vbtf_raw_rewrite(
                &mut self.handle,
                sections.names.as_ptr(),
                sections.names.len(),
                sections.entries.as_ptr(),
                sections.entries.len(),
                symbols.names.as_ptr(),
                symbols.names.len(),
                symbols.entries.as_ptr(),
                symbols.entries.len(),
                words,
                random_seed(),
                asked,
                error,
            )
        })?;
        Ok(answers_of(&asked))
    }
}

/// Whether the types of two fields are compatible, each in its own table.
pub fn fields_are_compatible(
    local: &Table,
    local_id: u32,
    target: &Table,
    target_id: u32,
) -> Result<bool, Error> {
    // SAFETY: as above; both loans may be of one table.
    called(|answer, error| unsafe {
        let (mut here, mut there) = (local.loan(), target.loan());
        vbtf_lent_fields_compatible(&mut here, local_id, &mut there, target_id, answer, error)
    })
}

/// Whether two types are compatible, each in its own table, on cyclic types too.
pub fn types_are_compatible(
    local: &Table,
    local_id: u32,
    target: &Table,
    target_id: u32,
) -> Result<bool, Error> {
    // SAFETY: as above.
    called(|answer, error| unsafe {
        let (mut here, mut there) = (local.loan(), target.loan());
        vbtf_lent_types_compatible(&mut here, local_id, &mut there, target_id, answer, error)
    })
}
