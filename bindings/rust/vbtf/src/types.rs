//! The types of a table, and their items.

use crate::calls::{called, found};
use crate::error::Error;
use crate::kind::Kind;
use crate::table::Table;
use std::borrow::Cow;
use std::fmt;
use std::iter::FusedIterator;
use std::marker::PhantomData;
use std::ops::Range;
use std::vec::IntoIter;
use vbtf_sys::{
    vbtf_entry, vbtf_error, vbtf_item, vbtf_lent_entries, vbtf_lent_item, vbtf_lent_members,
    vbtf_lent_params, vbtf_lent_variants, vbtf_member, vbtf_param, vbtf_table, vbtf_type,
    vbtf_variant,
};

/// A call that writes the items of a type to a buffer.
type Listing<W> =
    unsafe extern "C" fn(*mut vbtf_table, u32, *mut W, usize, *mut u64, *mut vbtf_error) -> u32;

/// A type of a table: its kind, the first words of its record, and its items.
///
/// Each of [`members`](Type::members), [`variants`](Type::variants) and so on returns `None` for a type of another
/// kind.
///
/// ```
/// use vbtf::{Endianness, Kind, Table};
///
/// let mut table = Table::new()?;
/// let words = [table.add_string("int")?, 0x0100_0000, 4, 0x0100_0020];
/// let id = table.add_type(&words.map(u32::to_le_bytes).concat(), Endianness::Little)?;
///
/// let int = table.type_by_id(id)?;
/// assert_eq!((int.kind(), int.name()?.as_str(), int.size()), (Kind::Int, "int", Some(4)));
/// assert_eq!(int.int().map(|it| it.bits), Some(32));
/// assert!(int.members().is_none());
/// # Ok::<(), vbtf::Error>(())
/// ```
#[derive(Clone, Copy)]
pub struct Type<'a> {
    table: &'a Table,
    id: u32,
    words: vbtf_type,
}

impl<'a> Type<'a> {
    pub(crate) fn new(table: &'a Table, id: u32, words: vbtf_type) -> Self {
        Type { table, id, words }
    }

    /// The id of the type in its table.
    pub fn id(&self) -> u32 {
        self.id
    }

    /// The kind of the type.
    pub fn kind(&self) -> Kind {
        Kind::from_number(self.words.kind).expect("each record has a kind")
    }

    /// The string offset of the name.
    pub fn name_offset(&self) -> u32 {
        self.words.name_offset
    }

    /// The name, with U+FFFD in place of each piece that is not UTF-8.
    pub fn name(&self) -> Result<String, Error> {
        self.table.string_at(self.words.name_offset)
    }

    /// The same, as [`Table::text_at`] reads it.
    pub fn text(&self) -> Result<Cow<'a, str>, Error> {
        self.table.text_at(self.words.name_offset)
    }

    /// The info word: vlen in bits 0 to 15, the kind in bits 24 to 28, the kind flag in bit 31.
    pub fn info(&self) -> u32 {
        self.words.info
    }

    /// The number of members, variants, parameters or entries of the type. The vlen of a FUNC is its linkage.
    pub fn vlen(&self) -> u32 {
        self.words.info & 0xffff
    }

    /// The kind flag. Of a STRUCT or UNION: some members may be bit-fields. Of an ENUM or ENUM64: the values are
    /// signed. Of a FWD: the type is a UNION.
    pub fn kind_flag(&self) -> bool {
        self.words.info >> 31 == 1
    }

    /// The size in bytes that the record of an INT, FLOAT, ENUM, ENUM64, STRUCT, UNION or DATASEC has.
    /// [`Table::type_size`] returns the size of other types, too.
    pub fn size(&self) -> Option<u32> {
        use Kind::{DataSec, Enum, Enum64, Float, Int, Struct, Union};
        let has_size =
            matches!(self.kind(), Int | Float | Enum | Enum64 | Struct | Union | DataSec);
        has_size.then_some(self.words.size_or_type)
    }

    /// The id of the type that a PTR, TYPEDEF, VOLATILE, CONST, RESTRICT, VAR, DECL_TAG or TYPE_TAG is about, that a
    /// FUNC_PROTO returns, or that is the prototype of a FUNC.
    pub fn target(&self) -> Option<u32> {
        use Kind::{
            Const, DeclTag, Func, FuncProto, Ptr, Restrict, TypeTag, Typedef, Var, Volatile,
        };
        let has_target = matches!(
            self.kind(),
            Ptr | Typedef
                | Volatile
                | Const
                | Restrict
                | Var
                | DeclTag
                | TypeTag
                | Func
                | FuncProto
        );
        has_target.then_some(self.words.size_or_type)
    }

    /// The words of the item of an index.
    fn item(&self, index: u32) -> Option<[u32; 3]> {
        // SAFETY: the loan lives as long as the call.
        let item: Result<Option<vbtf_item>, Error> = found(|item, error| unsafe {
            vbtf_lent_item(&mut self.table.loan(), self.id, index, item, error)
        });
        item.ok().flatten().map(|it| it.words)
    }

    /// The items of a type of one of these kinds, from one call.
    fn items<W: Clone + Default, T: From<W>>(
        &self,
        kinds: &[Kind],
        call: Listing<W>,
    ) -> Option<Items<'a, T>> {
        if !kinds.contains(&self.kind()) {
            return None;
        }
        let mut words = vec![W::default(); self.vlen() as usize];
        let (at, room, mut count) = (words.as_mut_ptr(), words.len(), 0);
        // SAFETY: the loan and the buffer live as long as the call.
        called::<()>(|_, error| unsafe {
            call(&mut self.table.loan(), self.id, at, room, &mut count, error)
        })
        .ok()?;
        words.truncate(count as usize);
        let items: Vec<T> = words.into_iter().map(T::from).collect();
        Some(Items { items: items.into_iter(), of: PhantomData })
    }

    /// The members of a STRUCT or UNION.
    pub fn members(&self) -> Option<Items<'a, Member>> {
        self.items(&[Kind::Struct, Kind::Union], vbtf_lent_members)
    }

    /// The variants of an ENUM or ENUM64.
    pub fn variants(&self) -> Option<Items<'a, Variant>> {
        self.items(&[Kind::Enum, Kind::Enum64], vbtf_lent_variants)
    }

    /// The parameters of a FUNC_PROTO.
    pub fn params(&self) -> Option<Items<'a, Param>> {
        self.items(&[Kind::FuncProto], vbtf_lent_params)
    }

    /// The entries of a DATASEC.
    pub fn entries(&self) -> Option<Items<'a, Entry>> {
        self.items(&[Kind::DataSec], vbtf_lent_entries)
    }

    /// The words of the one item of a type of this kind.
    fn single(&self, kind: Kind) -> Option<[u32; 3]> {
        if self.kind() == kind {
            self.item(0)
        } else {
            None
        }
    }

    /// The fields of an ARRAY.
    pub fn array(&self) -> Option<Array> {
        let [type_id, index_type_id, len] = self.single(Kind::Array)?;
        Some(Array { type_id, index_type_id, len })
    }

    /// The fields of an INT besides its size.
    pub fn int(&self) -> Option<Int> {
        let [word, ..] = self.single(Kind::Int)?;
        Some(Int { encoding: word >> 24 & 0xf, offset: word >> 16 & 0xff, bits: word & 0xff })
    }

    /// The linkage of a VAR or FUNC.
    pub fn linkage(&self) -> Option<Linkage> {
        if self.kind() == Kind::Func {
            return Some(Linkage::from(self.vlen()));
        }
        let [number, ..] = self.single(Kind::Var)?;
        Some(Linkage::from(number))
    }

    /// The index of the member or parameter that a DECL_TAG is on, or -1 if it is on the type as a whole.
    pub fn component_index(&self) -> Option<i32> {
        let [word, ..] = self.single(Kind::DeclTag)?;
        Some(word as i32)
    }
}

impl PartialEq for Type<'_> {
    /// Whether both are the same type of one table.
    fn eq(&self, other: &Self) -> bool {
        std::ptr::eq(self.table, other.table) && self.id == other.id
    }
}

impl Eq for Type<'_> {}

impl fmt::Debug for Type<'_> {
    fn fmt(&self, f: &mut fmt::Formatter<'_>) -> fmt::Result {
        let mut fields = f.debug_struct("Type");
        fields.field("id", &self.id).field("kind", &self.kind()).field("name", &self.name());
        fields.field("info", &self.words.info).field("size_or_type", &self.words.size_or_type);
        fields.finish_non_exhaustive()
    }
}

/// The types of a table, in the order of their ids.
///
/// ```
/// use vbtf::{Kind, Table};
///
/// let table = Table::new()?;
/// let kinds: Vec<Kind> = table.types().map(|it| it.kind()).collect();
/// assert_eq!(kinds, [Kind::Unknown]);
/// # Ok::<(), vbtf::Error>(())
/// ```
#[derive(Debug, Clone)]
pub struct Types<'a> {
    table: &'a Table,
    range: Range<u32>,
    /// The words of the types from this id on, which one call has read.
    first: u32,
    block: Vec<vbtf_type>,
}

/// The number of types that [`Types`] reads in one call.
const BLOCK: usize = 256;

impl<'a> Types<'a> {
    pub(crate) fn new(table: &'a Table) -> Self {
        Types { table, range: 0..table.len(), first: 0, block: Vec::new() }
    }

    /// The type of an id of the table, with those after it if they are not read yet.
    fn at(&mut self, id: u32) -> Option<Type<'a>> {
        let known = |it: &Self| it.block.get(id.checked_sub(it.first)? as usize).copied();
        if known(self).is_none() {
            self.block = self.table.words_from(id, BLOCK);
            self.first = id;
        }
        Some(Type::new(self.table, id, known(self)?))
    }
}

impl<'a> Iterator for Types<'a> {
    type Item = Type<'a>;

    fn next(&mut self) -> Option<Type<'a>> {
        let id = self.range.next()?;
        self.at(id)
    }

    fn nth(&mut self, n: usize) -> Option<Type<'a>> {
        let id = self.range.nth(n)?;
        self.at(id)
    }

    fn size_hint(&self) -> (usize, Option<usize>) {
        self.range.size_hint()
    }
}

impl DoubleEndedIterator for Types<'_> {
    fn next_back(&mut self) -> Option<Self::Item> {
        self.table.type_by_id(self.range.next_back()?).ok()
    }
}

impl ExactSizeIterator for Types<'_> {
    fn len(&self) -> usize {
        self.range.len()
    }
}

impl FusedIterator for Types<'_> {}

/// The types of a table, as [`Table::types`] has them.
///
/// ```
/// use vbtf::Table;
///
/// let table = Table::new()?;
/// for it in &table {
///     println!("{}: {}", it.id(), it.kind());
/// }
/// # Ok::<(), vbtf::Error>(())
/// ```
impl<'a> IntoIterator for &'a Table {
    type Item = Type<'a>;
    type IntoIter = Types<'a>;

    fn into_iter(self) -> Types<'a> {
        self.types()
    }
}

/// The members, variants, parameters or entries of a type, in order.
///
/// ```
/// use vbtf::{Endianness, Table};
///
/// let mut table = Table::new()?;
/// let names = [table.add_string("length")?, table.add_string("data")?];
/// let words = [0, 0x0400_0002, 16, names[0], 0, 0, names[1], 0, 64];
/// let id = table.add_type(&words.map(u32::to_le_bytes).concat(), Endianness::Little)?;
///
/// let members = table.type_by_id(id)?.members().expect("the type is a STRUCT");
/// assert_eq!(members.len(), 2);
/// for member in members {
///     println!("{}: from bit {}", table.string_at(member.name_offset)?, member.bit_offset);
/// }
/// # Ok::<(), vbtf::Error>(())
/// ```
#[derive(Debug, Clone)]
pub struct Items<'a, T> {
    items: IntoIter<T>,
    of: PhantomData<Type<'a>>,
}

impl<T> Iterator for Items<'_, T> {
    type Item = T;

    fn next(&mut self) -> Option<T> {
        self.items.next()
    }

    fn nth(&mut self, n: usize) -> Option<T> {
        self.items.nth(n)
    }

    fn size_hint(&self) -> (usize, Option<usize>) {
        self.items.size_hint()
    }
}

impl<T> DoubleEndedIterator for Items<'_, T> {
    fn next_back(&mut self) -> Option<T> {
        self.items.next_back()
    }
}

impl<T> ExactSizeIterator for Items<'_, T> {
    fn len(&self) -> usize {
        self.items.len()
    }
}

impl<T> FusedIterator for Items<'_, T> {}

/// A member of a STRUCT or UNION.
///
/// ```
/// use vbtf::{Endianness, Member, Table};
///
/// // Bit-fields of 5 bits and of 3.
/// let words = [0, 0x8400_0002, 4, 0, 7, 0x0500_0000, 0, 7, 0x0300_0005];
/// let mut table = Table::new()?;
/// let id = table.add_type(&words.map(u32::to_le_bytes).concat(), Endianness::Little)?;
///
/// let last = table.type_by_id(id)?.members().and_then(|mut it| it.next_back());
/// let wanted = Member { name_offset: 0, type_id: 7, bit_offset: 5, bit_field_size: Some(3) };
/// assert_eq!(last, Some(wanted));
/// # Ok::<(), vbtf::Error>(())
/// ```
#[derive(Debug, Clone, Copy, PartialEq, Eq, Hash)]
pub struct Member {
    /// The string offset of the name.
    pub name_offset: u32,
    /// The id of the member's type.
    pub type_id: u32,
    /// The first bit of the member.
    pub bit_offset: u32,
    /// The number of bits of a bit-field.
    pub bit_field_size: Option<u32>,
}

impl From<vbtf_member> for Member {
    fn from(words: vbtf_member) -> Self {
        let vbtf_member { name_offset, type_, bit_offset, bit_field_size } = words;
        let bit_field_size = (bit_field_size != 0).then_some(bit_field_size);
        Member { name_offset, type_id: type_, bit_offset, bit_field_size }
    }
}

/// A variant of an ENUM or ENUM64.
///
/// ```
/// use vbtf::{Endianness, Table};
///
/// // Signed, of -1 and 1.
/// let words = [0, 0x8600_0002, 4, 0, u32::MAX, 0, 1];
/// let mut table = Table::new()?;
/// let id = table.add_type(&words.map(u32::to_le_bytes).concat(), Endianness::Little)?;
///
/// let variants = table.type_by_id(id)?.variants().expect("the type is an ENUM");
/// let values: Vec<i128> = variants.map(|it| it.number()).collect();
/// assert_eq!(values, [-1, 1]);
/// # Ok::<(), vbtf::Error>(())
/// ```
#[derive(Debug, Clone, Copy, PartialEq, Eq, Hash)]
pub struct Variant {
    /// The string offset of the name.
    pub name_offset: u32,
    /// The bits of the value: 32 in an ENUM, with zeros above them, and 64 in an ENUM64.
    pub value: u64,
    /// The number of bits of the value.
    pub bits: u32,
    /// Whether the value is signed.
    pub is_signed: bool,
}

impl From<vbtf_variant> for Variant {
    fn from(words: vbtf_variant) -> Self {
        let vbtf_variant { name_offset, bits, is_signed, value } = words;
        Variant { name_offset, value, bits, is_signed }
    }
}

impl Variant {
    /// The value as a number, below 0 if it is signed and its highest bit is 1.
    pub fn number(&self) -> i128 {
        match (self.is_signed, self.bits) {
            (false, _) => i128::from(self.value),
            (true, 32) => i128::from(self.value as u32 as i32),
            (true, _) => i128::from(self.value as i64),
        }
    }
}

/// A parameter of a FUNC_PROTO. The last one of a variadic function has type 0 and no name.
///
/// ```
/// use vbtf::{Endianness, Param, Table};
///
/// let words = [0, 0x0d00_0001, 0, 0, 7];
/// let mut table = Table::new()?;
/// let id = table.add_type(&words.map(u32::to_le_bytes).concat(), Endianness::Little)?;
///
/// let params: Option<Vec<Param>> = table.type_by_id(id)?.params().map(Iterator::collect);
/// assert_eq!(params, Some(vec![Param { name_offset: 0, type_id: 7 }]));
/// # Ok::<(), vbtf::Error>(())
/// ```
#[derive(Debug, Clone, Copy, PartialEq, Eq, Hash)]
pub struct Param {
    /// The string offset of the name.
    pub name_offset: u32,
    /// The id of the parameter's type.
    pub type_id: u32,
}

impl From<vbtf_param> for Param {
    fn from(words: vbtf_param) -> Self {
        Param { name_offset: words.name_offset, type_id: words.type_ }
    }
}

/// An entry of a DATASEC: a variable, and its place in the section.
///
/// ```
/// use vbtf::{Endianness, Entry, Table};
///
/// let words = [0, 0x0f00_0001, 16, 7, 4, 8];
/// let mut table = Table::new()?;
/// let id = table.add_type(&words.map(u32::to_le_bytes).concat(), Endianness::Little)?;
///
/// let first = table.type_by_id(id)?.entries().and_then(|mut it| it.next());
/// assert_eq!(first, Some(Entry { type_id: 7, offset: 4, size: 8 }));
/// # Ok::<(), vbtf::Error>(())
/// ```
#[derive(Debug, Clone, Copy, PartialEq, Eq, Hash)]
pub struct Entry {
    /// The id of the VAR.
    pub type_id: u32,
    /// The offset of the variable in the section, in bytes.
    pub offset: u32,
    /// The size of the variable in bytes.
    pub size: u32,
}

impl From<vbtf_entry> for Entry {
    fn from(words: vbtf_entry) -> Self {
        Entry { type_id: words.type_, offset: words.offset, size: words.size }
    }
}

/// The fields of an ARRAY.
///
/// ```
/// use vbtf::{Array, Endianness, Table};
///
/// let words = [0, 0x0300_0000, 0, 7, 8, 10];
/// let mut table = Table::new()?;
/// let id = table.add_type(&words.map(u32::to_le_bytes).concat(), Endianness::Little)?;
///
/// let array = table.type_by_id(id)?.array();
/// assert_eq!(array, Some(Array { type_id: 7, index_type_id: 8, len: 10 }));
/// # Ok::<(), vbtf::Error>(())
/// ```
#[derive(Debug, Clone, Copy, PartialEq, Eq, Hash)]
pub struct Array {
    /// The id of the type of the elements.
    pub type_id: u32,
    /// The id of the type of an index.
    pub index_type_id: u32,
    /// The number of elements.
    pub len: u32,
}

/// The fields of an INT besides its size.
///
/// ```
/// use vbtf::{Endianness, Int, Table};
///
/// let words = [0, 0x0100_0000, 1, 0x0400_0008];
/// let mut table = Table::new()?;
/// let id = table.add_type(&words.map(u32::to_le_bytes).concat(), Endianness::Little)?;
///
/// let int = table.type_by_id(id)?.int();
/// assert_eq!(int, Some(Int { encoding: Int::BOOL, offset: 0, bits: 8 }));
/// # Ok::<(), vbtf::Error>(())
/// ```
#[derive(Debug, Clone, Copy, PartialEq, Eq, Hash)]
pub struct Int {
    /// [`Int::SIGNED`], [`Int::CHAR`], [`Int::BOOL`] or 0.
    pub encoding: u32,
    /// The first bit of the integer.
    pub offset: u32,
    /// The number of bits of the integer.
    pub bits: u32,
}

impl Int {
    /// The encoding of a signed integer.
    pub const SIGNED: u32 = 1;
    /// The encoding of a character.
    pub const CHAR: u32 = 2;
    /// The encoding of a truth value.
    pub const BOOL: u32 = 4;
}

/// The linkage of a VAR or FUNC.
///
/// ```
/// use vbtf::{Endianness, Linkage, Table};
///
/// let words = [0, 0x0e00_0000, 7, 1];
/// let mut table = Table::new()?;
/// let id = table.add_type(&words.map(u32::to_le_bytes).concat(), Endianness::Little)?;
/// assert_eq!(table.type_by_id(id)?.linkage(), Some(Linkage::Global));
/// # Ok::<(), vbtf::Error>(())
/// ```
#[derive(Debug, Clone, Copy, PartialEq, Eq, Hash)]
#[non_exhaustive]
pub enum Linkage {
    /// Of this object alone.
    Static,
    /// Of all objects.
    Global,
    /// Defined in another object, or in the kernel.
    Extern,
    /// Any other.
    Unknown,
}

impl From<u32> for Linkage {
    /// The linkage of this number; `Unknown` above 2.
    fn from(number: u32) -> Self {
        match number {
            0 => Linkage::Static,
            1 => Linkage::Global,
            2 => Linkage::Extern,
            _ => Linkage::Unknown,
        }
    }
}
