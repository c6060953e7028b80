//! The `.BTF.ext` of a table.

use crate::calls::written;
use crate::error::Error;
use crate::table::Table;
use vbtf_sys::{
    vbtf_ext_sizes, vbtf_lent_ext_names, vbtf_lent_ext_records, vbtf_lent_ext_relocations,
    vbtf_lent_ext_section,
};

/// A part of `.BTF.ext`.
///
/// ```
/// use vbtf::{Part, Table};
///
/// let table = Table::new()?;
/// let sections = table.ext().map(|ext| ext.sections(Part::LineInfo));
/// assert!(sections.is_none());
/// # Ok::<(), vbtf::Error>(())
/// ```
#[derive(Debug, Clone, Copy, PartialEq, Eq, Hash)]
#[non_exhaustive]
pub enum Part {
    /// The first instructions of functions.
    FuncInfo,
    /// The lines of source.
    LineInfo,
}

/// The `.BTF.ext` that is open over a table: records about a program's instructions, by section.
///
/// ```
/// use vbtf::{Endianness, Table};
///
/// // The section `text` has one function, of type 7, at its first instruction.
/// let mut table = Table::new()?;
/// let section = table.add_string("text")?;
/// let words = [0x0001_eb9f, 24, 0, 20, 20, 0, 8, section, 1, 0, 7];
/// table.open_ext(&words.map(u32::to_le_bytes).concat(), Endianness::Little)?;
///
/// let ext = table.ext().expect("one is open");
/// let functions = ext.func_info("text")?;
/// assert_eq!((functions.len(), functions[0].type_id), (1, 7));
/// # Ok::<(), vbtf::Error>(())
/// ```
#[derive(Debug, Clone, Copy)]
pub struct Ext<'a> {
    table: &'a Table,
    sizes: vbtf_ext_sizes,
}

impl<'a> Ext<'a> {
    pub(crate) fn new(table: &'a Table, sizes: vbtf_ext_sizes) -> Self {
        Ext { table, sizes }
    }

    /// The size of a function's record in the bytes of the section; 0 if there are none.
    pub fn func_info_rec_size(&self) -> u64 {
        self.sizes.func_size
    }

    /// The size of a line's record in the bytes of the section; 0 if there are none.
    pub fn line_info_rec_size(&self) -> u64 {
        self.sizes.line_size
    }

    /// The number of sections with records in a part.
    pub fn section_count(&self, part: Part) -> u64 {
        match part {
            Part::FuncInfo => self.sizes.func_sections,
            Part::LineInfo => self.sizes.line_sections,
        }
    }

    /// The names of the sections with records in a part, each once, in no particular order.
    pub fn sections(&self, part: Part) -> Result<Vec<String>, Error> {
        // SAFETY: the loan lives as long as the call.
        let bytes = written(64, |out, room, needed, error| unsafe {
            vbtf_lent_ext_names(&mut self.table.loan(), part as u32, out, room, needed, error)
        })?;
        let names = bytes.split_inclusive(|byte| *byte == 0);
        Ok(names
            .map(|name| String::from_utf8_lossy(&name[..name.len() - 1]).into_owned())
            .collect())
    }

    /// The string offset of the name of each section of relocations, in order; several may have one name.
    pub fn relocation_sections(&self) -> impl Iterator<Item = u32> + 'a {
        let table = self.table;
        (0..).map_while(move |index| {
            let mut name_offset = 0;
            // SAFETY: the loan lives as long as the call.
            let status =
                unsafe { vbtf_lent_ext_section(&mut table.loan(), index, &mut name_offset) };
            (status == 0).then_some(name_offset)
        })
    }

    /// The words of the records of a section; none if no section has the name.
    fn words(&self, part: Part, section: &str) -> Result<Vec<u32>, Error> {
        let (name, len) = (section.as_ptr(), section.len());
        // SAFETY: as above, and so does the name.
        let bytes: Vec<u8> = written(256, |out, room, needed, error| unsafe {
            let loan = &mut self.table.loan();
            vbtf_lent_ext_records(loan, part as u32, name, len, out, room, needed, error)
        })?;
        let words = bytes.chunks_exact(4);
        Ok(words.map(|word| u32::from_le_bytes([word[0], word[1], word[2], word[3]])).collect())
    }

    /// The functions of a section.
    pub fn func_info(&self, section: &str) -> Result<Vec<FuncInfo>, Error> {
        let words = self.words(Part::FuncInfo, section)?;
        Ok(words.chunks_exact(2).map(FuncInfo::read).collect())
    }

    /// The lines of source of a section.
    pub fn line_info(&self, section: &str) -> Result<Vec<LineInfo>, Error> {
        let words = self.words(Part::LineInfo, section)?;
        Ok(words.chunks_exact(4).map(LineInfo::read).collect())
    }

    /// The relocations of a section.
    pub fn relocations(&self, section: &str) -> Result<Vec<Relocation>, Error> {
        let (name, len) = (section.as_ptr(), section.len());
        // SAFETY: as above.
        let words: Vec<u32> = written(64, |out, room, needed, error| unsafe {
            vbtf_lent_ext_relocations(&mut self.table.loan(), name, len, out, room, needed, error)
        })?;
        Ok(words.chunks_exact(4).map(Relocation::read).collect())
    }
}

/// The first instruction of a function.
///
/// ```
/// let function = vbtf::FuncInfo { instruction: 0, type_id: 7 };
/// assert_eq!(8 * function.instruction, 0, "the byte at which it begins");
/// ```
#[derive(Debug, Clone, Copy, PartialEq, Eq, Hash)]
pub struct FuncInfo {
    /// The instruction, counted from the first of the section.
    pub instruction: u32,
    /// The id of the FUNC.
    pub type_id: u32,
}

impl FuncInfo {
    fn read(words: &[u32]) -> Self {
        FuncInfo { instruction: words[0], type_id: words[1] }
    }
}

/// The source line of an instruction.
///
/// ```
/// let line =
///     vbtf::LineInfo { instruction: 3, file_name_offset: 1, text_offset: 9, number: 17, column: 9 };
/// assert_eq!(format!("{}:{}", line.number, line.column), "17:9");
/// ```
#[derive(Debug, Clone, Copy, PartialEq, Eq, Hash)]
pub struct LineInfo {
    /// The instruction, counted from the first of the section.
    pub instruction: u32,
    /// The string offset of the name of the file.
    pub file_name_offset: u32,
    /// The string offset of the text of the line.
    pub text_offset: u32,
    /// The number of the line.
    pub number: u32,
    /// The number of the column.
    pub column: u32,
}

impl LineInfo {
    fn read(words: &[u32]) -> Self {
        LineInfo {
            instruction: words[0],
            file_name_offset: words[1],
            text_offset: words[2],
            number: words[3] >> 10,
            column: words[3] & 0x3ff,
        }
    }
}

/// A relocation for the kernel at hand (CO-RE).
///
/// ```
/// let relocation = vbtf::Relocation { offset: 24, type_id: 7, access_offset: 1, kind: 0 };
/// assert_eq!(relocation.offset / 8, 3, "the instruction");
/// ```
#[derive(Debug, Clone, Copy, PartialEq, Eq, Hash)]
pub struct Relocation {
    /// The offset of the instruction in the section, in bytes.
    pub offset: u32,
    /// The id of the type of the relocation.
    pub type_id: u32,
    /// The string offset of the text that names the member, such as `0:1:2`.
    pub access_offset: u32,
    /// The number of the kind of relocation.
    pub kind: u32,
}

impl Relocation {
    fn read(words: &[u32]) -> Self {
        Relocation { offset: words[0], type_id: words[1], access_offset: words[2], kind: words[3] }
    }
}
