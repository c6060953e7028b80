//! Objects whose code is relocated for a table.

use crate::calls::written;
use crate::error::Error;
use crate::table::{random_seed, Table};
use vbtf_sys::{vbtf_lent_relocate_object, vbtf_tally};

/// How [`Table::relocate_object`] relocates. The default is what libbpf does.
#[derive(Debug, Clone, Copy, PartialEq, Eq, Default)]
pub struct Relocate {
    /// Each record has all candidates, as in the kernel; otherwise the records of one type share theirs, and each
    /// record with a match removes the types that do not match.
    pub fresh_candidates: bool,
    /// A record with an error changes nothing; otherwise it is [`Error::RelocationRefused`].
    pub keep_refused: bool,
}

/// The numbers of relocation records of an object, without those of sections that have no code in the file.
#[derive(Debug, Clone, Copy, PartialEq, Eq)]
pub struct Tally {
    /// The records.
    pub records: u64,
    /// The records whose instruction became a call that the kernel refuses, because nothing in the table matches.
    pub poisoned: u64,
    /// The records with an error.
    pub refused: u64,
}

impl Table {
    /// The ELF object with its code relocated for this table (CO-RE): each relocation in `.BTF.ext` is resolved, and
    /// the value for this table is patched into its instruction. The new object is as long as the old one. An object
    /// without `.BTF.ext` is not changed.
    ///
    /// ```no_run
    /// let kernel = vbtf::Table::parse_by_magic(&std::fs::read("/sys/kernel/btf/vmlinux")?)?;
    /// let object = std::fs::read("program.o")?;
    /// let (relocated, tally) = kernel.relocate_object(&object, vbtf::Relocate::default())?;
    /// println!("{} of {} instructions poisoned", tally.poisoned, tally.records);
    /// # let _ = relocated;
    /// # Ok::<(), Box<dyn std::error::Error>>(())
    /// ```
    ///
    /// # Errors
    ///
    /// [`Error::NotAnObject`], [`Error::NoTable`]; the error of the object's table or of its `.BTF.ext`; then for each
    /// section of records [`Error::BadSectionName`], [`Error::SharedPlace`], and [`Error::RelocationRefused`] with the
    /// first record that has an error.
    pub fn relocate_object(&self, object: &[u8], how: Relocate) -> Result<(Vec<u8>, Tally), Error> {
        let options = u32::from(how.fresh_candidates) | u32::from(how.keep_refused) << 1;
        let seed = random_seed();
        let mut tally = vbtf_tally::default();
        let counted: *mut vbtf_tally = &mut tally;
        // SAFETY: the loan, the slices and the tally live as long as the call.
        let file = written(object.len(), |out, room, needed, error| unsafe {
            vbtf_lent_relocate_object(
                object.as_ptr(),
                object.len(),
                &mut self.loan(),
                options,
                seed,
                out,
                room,
                needed,
                counted,
                error,
            )
        })?;
        let vbtf_tally { records, poisoned, refused } = tally;
        Ok((file, Tally { records, poisoned, refused }))
    }
}
