//! `.BTF.ext`: opening and closing one, and the records of its sections.

use vbtf::{Endianness, Error, FuncInfo, LineInfo, Part, Relocation, Table};

/// The words after the first four bytes: a function and two lines in `run`, and relocations in `run` and `word`.
const WORDS: [u32; 37] = [
    32, 0, 20, 20, 44, 64, 68, 8, 1, 1, 0, 7, 16, 1, 2, 0, 5, 1, 0x4409, 40, 5, 1, 0x4c02, 16, 1,
    2, 8, 4, 5, 0, 24, 4, 5, 1, 5, 1, 16,
];
const REST: [u32; 3] = [4, 5, 12];

fn bytes(endianness: Endianness) -> Vec<u8> {
    let mut bytes = match endianness {
        Endianness::Little => vec![0x9f, 0xeb, 1, 0],
        Endianness::Big => vec![0xeb, 0x9f, 1, 0],
    };
    for word in WORDS.iter().chain(&REST) {
        bytes.extend(match endianness {
            Endianness::Little => word.to_le_bytes(),
            Endianness::Big => word.to_be_bytes(),
        });
    }
    bytes
}

fn table() -> Table {
    let mut table = Table::new().expect("memory suffices");
    assert_eq!((table.add_string("run"), table.add_string("word")), (Ok(1), Ok(5)));
    table
}

#[test]
fn records_are_read() {
    for endianness in [Endianness::Little, Endianness::Big] {
        let mut table = table();
        table.open_ext_by_magic(&bytes(endianness)).unwrap();
        let ext = table.ext().unwrap();
        assert_eq!(ext.func_info("run"), Ok(vec![FuncInfo { instruction: 0, type_id: 7 }]));
        let line = |instruction, number, column| LineInfo {
            instruction,
            file_name_offset: 5,
            text_offset: 1,
            number,
            column,
        };
        assert_eq!(ext.line_info("run"), Ok(vec![line(0, 17, 9), line(5, 19, 2)]));
        let relocation = |offset, kind| Relocation { offset, type_id: 4, access_offset: 5, kind };
        assert_eq!(ext.relocations("run"), Ok(vec![relocation(8, 0), relocation(24, 1)]));
        assert_eq!(ext.relocations("word"), Ok(vec![relocation(16, 12)]));
        assert_eq!(ext.func_info("word"), Ok(vec![]));
    }
}

#[test]
fn sections_are_named() {
    let mut table = table();
    table.open_ext(&bytes(Endianness::Big), Endianness::Big).unwrap();
    let ext = table.ext().unwrap();
    let parts = [(Part::FuncInfo, vec!["run"]), (Part::LineInfo, vec!["run"])];
    for (part, names) in parts {
        assert_eq!(ext.section_count(part), names.len() as u64);
        assert_eq!(ext.sections(part).unwrap(), names);
    }
    let names = ext.relocation_sections().map(|offset| table.string_at(offset).unwrap());
    assert_eq!(names.collect::<Vec<_>>(), ["run", "word"]);
    assert_eq!((ext.func_info_rec_size(), ext.line_info_rec_size()), (8, 16));
}

#[test]
fn a_table_has_at_most_one() {
    let (mut table, bytes) = (table(), bytes(Endianness::Little));
    assert!(table.ext().is_none());
    let cut = table.open_ext(&bytes[..7], Endianness::Little);
    assert_eq!(cut, Err(Error::InvalidHeader));
    assert!(table.ext().is_none());
    assert_eq!(table.open_ext(&bytes, Endianness::Little), Ok(()));
    assert_eq!(table.open_ext(&bytes, Endianness::Little), Err(Error::InvalidArgument));
    table.close_ext();
    assert!(table.ext().is_none());
    assert_eq!(table.open_ext(&bytes, Endianness::Little), Ok(()));
}
