//! A small table, read, compared, rewritten and written through the C library.

use std::thread;
use vbtf::{
    fields_are_compatible, types_are_compatible, Endianness, Error, Ext, Feature, FeatureAnswer,
    Items, Kernel, Kind, Member, Table, Type, Types,
};

const STRINGS: &[u8] = b"\0char\0_license\0license\0f\0caf\xff\0";

/// INT 1 of a byte, VAR 2 `_license` of it, DATASEC 3 `license` of size 0 with it, FUNC_PROTO 4, FUNC 5 `f`, CONST 6 of
/// 1, FWD 7, PTR 8 to 1.
const WORDS: [u32; 29] = [
    1,
    0x0100_0000,
    1,
    8,
    6,
    0x0e00_0000,
    1,
    1,
    15,
    0x0f00_0001,
    0,
    2,
    0,
    1,
    0,
    0x0d00_0000,
    0,
    23,
    0x0c00_0001,
    4,
    0,
    0x0a00_0000,
    1,
    25,
    0x0700_0000,
    0,
    0,
    0x0200_0000,
    1,
];

fn bytes(endianness: Endianness) -> Vec<u8> {
    let word = |value: u32| match endianness {
        Endianness::Little => value.to_le_bytes(),
        Endianness::Big => value.to_be_bytes(),
    };
    let len = 4 * WORDS.len() as u32;
    let mut bytes = match endianness {
        Endianness::Little => vec![0x9f, 0xeb, 1, 0],
        Endianness::Big => vec![0xeb, 0x9f, 1, 0],
    };
    for value in [24, 0, len, len, STRINGS.len() as u32].iter().chain(&WORDS) {
        bytes.extend_from_slice(&word(*value));
    }
    bytes.extend_from_slice(STRINGS);
    bytes
}

fn table(endianness: Endianness) -> Table {
    Table::parse(&bytes(endianness), endianness).expect("the table is well formed")
}

#[test]
fn copies_are_equal_and_stay() {
    let mut table = table(Endianness::Big);
    let copy = table.try_clone().expect("memory is there");
    table.add_string("text").expect("there is room");
    assert_ne!(table.to_bytes(), copy.to_bytes());
    drop(table);
    assert_eq!(copy.to_bytes(), Ok(bytes(Endianness::Big)));
}

#[test]
fn types_are_read() {
    let table = table(Endianness::Big);
    let kinds: Vec<Kind> = table.types().map(|it| it.kind()).collect();
    let wanted = [
        Kind::Unknown,
        Kind::Int,
        Kind::Var,
        Kind::DataSec,
        Kind::FuncProto,
        Kind::Func,
        Kind::Const,
        Kind::Fwd,
        Kind::Ptr,
    ];
    assert_eq!(kinds, wanted);
    assert_eq!(table.types().len(), 9);
    assert_eq!(table.string_at(25).unwrap(), "caf\u{fffd}");
    assert_eq!(table.id_by_type_name_kind("license", Kind::DataSec), Ok(3));
    assert_eq!(table.resolve_type(6), Ok(1));
    assert_eq!(table.type_size(6), Ok(1));
    assert_eq!(table.type_size(7), Err(Error::UnexpectedBtfType { type_id: 7 }));
    assert_eq!(table.type_by_id(9), Err(Error::UnknownBtfType { type_id: 9 }));
    assert_eq!(table.types().rev().map(|it| it.id()).nth(1), Some(7));
}

#[test]
fn orders_are_read_in_the_magic() {
    for endianness in [Endianness::Little, Endianness::Big] {
        let bytes = bytes(endianness);
        assert_eq!(Table::parse_by_magic(&bytes).and_then(|it| it.to_bytes()), Ok(bytes));
    }
}

#[test]
fn values_move_to_other_threads_and_are_shared() {
    fn is_send_and_sync<T: Send + Sync>() {}
    is_send_and_sync::<Table>();
    is_send_and_sync::<Type<'_>>();
    is_send_and_sync::<Types<'_>>();
    is_send_and_sync::<Items<'_, Member>>();
    is_send_and_sync::<Ext<'_>>();
    is_send_and_sync::<Kernel>();
    is_send_and_sync::<Error>();
}

#[test]
fn tables_are_written_as_they_were_read() {
    for endianness in [Endianness::Little, Endianness::Big] {
        assert_eq!(table(endianness).to_bytes(), Ok(bytes(endianness)));
    }
}

#[test]
fn types_are_compared_in_threads() {
    let (here, there) = (table(Endianness::Little), table(Endianness::Big));
    thread::scope(|scope| {
        for _ in 0..4 {
            scope.spawn(|| {
                assert_eq!(types_are_compatible(&here, 4, &there, 4), Ok(true));
                assert_eq!(fields_are_compatible(&here, 8, &here, 1), Ok(false));
            });
        }
    });
}

#[test]
fn a_table_is_rewritten_for_a_kernel() {
    let mut table = table(Endianness::Little);
    let mut kernel = Kernel::with(&[Feature::Func, Feature::DataSec]);
    let missing = Error::UnknownSectionSize { section_name: "license".to_string() };
    assert_eq!(table.rewrite(&kernel), Err(missing));
    assert_eq!(table.to_bytes(), Ok(bytes(Endianness::Little)));
    kernel.section("license", 13).symbol("_license", 40);
    let wanted = [(Feature::DataSec, true), (Feature::Func, true), (Feature::FuncGlobal, false)];
    let wanted = wanted.map(|(feature, granted)| FeatureAnswer { feature, granted });
    assert_eq!(table.rewrite(&kernel), Ok(wanted.to_vec()));
    assert_eq!(table.type_size(3), Ok(13));
}

#[test]
fn strings_are_added() {
    let mut table = Table::new().unwrap();
    assert_eq!(table.add_string("int"), Ok(1));
    assert_eq!(table.string_at(1).unwrap(), "int");
    assert!(table.is_empty());
}

#[test]
fn the_types_are_written_as_a_c_header() {
    let folder = concat!(env!("CARGO_MANIFEST_DIR"), "/../../../tests/corpus_data");
    for object in ["clang14.bpfel.prog.o", "clang14.bpfeb.prog.o"] {
        let table = Table::open(format!("{folder}/{object}")).unwrap();
        let text = std::fs::read_to_string(format!("{folder}/{object}.header")).unwrap();
        assert_eq!(table.header().unwrap(), text);
    }
}
