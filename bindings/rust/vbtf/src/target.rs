//! A table that programs are relocated against, one record at a time.

use crate::calls::called;
use crate::error::Error;
use crate::ext::Relocation;
use crate::table::Table;
use vbtf_sys::{vbtf_lent_relocate, vbtf_relocated, vbtf_relocation};

/// What a relocation asks to be written into its instruction, as [`Target::relocate`] returns it. Values are 64-bit
/// patterns.
#[derive(Debug, Clone, Copy, PartialEq, Eq, Hash, Default)]
pub struct Relocated {
    /// The value for the program's own table, which the compiler wrote into the instruction.
    pub expected: u64,
    /// The value for the target.
    pub value: u64,
    /// The size in bytes of the local field that a load or store reads or writes; 0 if there is none.
    pub local_size: u32,
    /// The size in bytes of the target's field; 0 if there is none.
    pub target_size: u32,
    /// Whether the instruction becomes a call that the kernel refuses, because nothing in the target matches.
    pub is_poisoned: bool,
    /// Whether the instruction must have the expected value before it is patched.
    pub validates: bool,
    /// Whether the size of a load or store may change from the local size to the target's.
    pub is_adjustable: bool,
}

/// A table with an open index of its types, against which records are relocated one by one. The index has 4 bytes for
/// each type that has a name. Several threads may relocate against one target at the same time.
///
/// ```
/// use vbtf::{Endianness, Relocation, Table, Target};
///
/// // `struct pair { int left; }`, and the access string of its first member.
/// let mut table = Table::new()?;
/// let int = [table.add_string("int")?, 0x0100_0000, 4, 0x0100_0020];
/// let int = table.add_type(&int.map(u32::to_le_bytes).concat(), Endianness::Little)?;
/// let pair = [table.add_string("pair")?, 0x0400_0001, 4, table.add_string("left")?, int, 0];
/// let type_id = table.add_type(&pair.map(u32::to_le_bytes).concat(), Endianness::Little)?;
/// let access_offset = table.add_string("0:0")?;
///
/// let program = table.try_clone()?;
/// let target = Target::new(table)?;
/// // Kind 1 asks for the size of a field in bytes.
/// let relocation = Relocation { offset: 0, type_id, access_offset, kind: 1 };
/// assert_eq!(target.relocate(&program, &relocation)?.value, 4);
/// # Ok::<(), vbtf::Error>(())
/// ```
#[derive(Debug)]
pub struct Target {
    table: Table,
}

impl Target {
    /// Opens an index of the types of a table. [`Error::OutOfMemory`] is the only error.
    pub fn new(mut table: Table) -> Result<Self, Error> {
        table.open_target()?;
        Ok(Target { table })
    }

    /// The table. [`Table::relocate_object`] uses the open index.
    pub fn table(&self) -> &Table {
        &self.table
    }

    /// Closes the index, and returns the table.
    pub fn into_table(mut self) -> Table {
        self.table.close_target();
        self.table
    }

    /// What a record of a program asks to be written, where `local` is the table of the program. The record has all
    /// candidates of the target, as in the kernel.
    ///
    /// # Errors
    ///
    /// [`Error::RelocationRefused`] with the reason if the record has an error. Its section and its index are not known
    /// here: `name_offset` and `index` are 0.
    pub fn relocate(&self, local: &Table, relocation: &Relocation) -> Result<Relocated, Error> {
        let record = vbtf_relocation {
            offset: relocation.offset,
            type_: relocation.type_id,
            access_offset: relocation.access_offset,
            kind: relocation.kind,
        };
        // SAFETY: the loans and the record live as long as the call; both loans may be of one table.
        let relocated: vbtf_relocated = called(|out, error| unsafe {
            let (mut here, mut there) = (local.loan(), self.table.loan());
            vbtf_lent_relocate(&mut here, &mut there, &record, out, error)
        })?;
        Ok(Relocated {
            expected: relocated.expected,
            value: relocated.value,
            local_size: relocated.local_size,
            target_size: relocated.target_size,
            is_poisoned: relocated.is_poisoned,
            validates: relocated.validates,
            is_adjustable: relocated.is_adjustable,
        })
    }
}
