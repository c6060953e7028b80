//! The items of types of each kind, the values of variants, and types that are added.

use vbtf::{
    Array, Endianness, Entry, Error, Feature, Int, Kernel, Kind, Linkage, Member, Param, Table,
    Type, Variant,
};

/// Records in words: INT 1, STRUCT 2 with a bit-field, UNION 3 without the kind flag, signed ENUM 4, ENUM64 5,
/// FUNC_PROTO 6, FUNC 7, VAR 8, DATASEC 9, ARRAY 10, DECL_TAG 11 of 2 as a whole.
const RECORDS: [&[u32]; 11] = [
    &[1, 0x0100_0000, 4, 0x0108_0020],
    &[0, 0x8400_0002, 4, 5, 1, 0x0500_0003, 7, 1, 0x20],
    &[0, 0x0500_0001, 4, 5, 1, 0x0500_0003],
    &[0, 0x8600_0002, 4, 9, u32::MAX, 13, 7],
    &[0, 0x1300_0001, 8, 9, 4, 3],
    &[0, 0x0d00_0002, 1, 5, 1, 0, 0],
    &[5, 0x0c00_0002, 6],
    &[5, 0x0e00_0000, 1, 1],
    &[5, 0x0f00_0001, 16, 8, 4, 12],
    &[0, 0x0300_0000, 0, 1, 3, 6],
    &[5, 0x1100_0000, 2, u32::MAX],
];

fn record(words: &[u32], endianness: Endianness) -> Vec<u8> {
    let bytes = words.iter().flat_map(|word| match endianness {
        Endianness::Little => word.to_le_bytes(),
        Endianness::Big => word.to_be_bytes(),
    });
    bytes.collect()
}

/// A table of these records, whose strings are `int`, `a`, `b`, `low` and `high`.
fn table() -> Table {
    let mut table = Table::new().expect("memory suffices");
    for text in ["int", "a", "b", "low", "high"] {
        table.add_string(text).expect("memory suffices");
    }
    for (index, words) in RECORDS.iter().enumerate() {
        let endianness = if index % 2 == 0 { Endianness::Little } else { Endianness::Big };
        assert_eq!(table.add_type(&record(words, endianness), endianness), Ok(index as u32 + 1));
    }
    table
}

fn type_of(table: &Table, type_id: u32) -> Type<'_> {
    table.type_by_id(type_id).expect("the table has the type")
}

#[test]
fn members_are_listed() {
    let table = table();
    let a = Member { name_offset: 5, type_id: 1, bit_offset: 3, bit_field_size: Some(5) };
    let b = Member { name_offset: 7, type_id: 1, bit_offset: 32, bit_field_size: None };
    let whole =
        Member { name_offset: 5, type_id: 1, bit_offset: 0x0500_0003, bit_field_size: None };
    let members = |type_id| type_of(&table, type_id).members().map(Iterator::collect::<Vec<_>>);
    assert_eq!(members(2), Some(vec![a, b]));
    assert_eq!(members(3), Some(vec![whole]));
    assert_eq!(members(4), None);
    let mut both = type_of(&table, 2).members().unwrap();
    assert_eq!((both.len(), both.next_back(), both.len()), (2, Some(b), 1));
    assert_eq!((both.next(), both.next(), both.next_back()), (Some(a), None, None));
    assert_eq!(type_of(&table, 2).members().unwrap().nth(1), Some(b));
}

#[test]
fn variants_are_listed() {
    let table = table();
    let variants = |type_id| type_of(&table, type_id).variants().map(Iterator::collect::<Vec<_>>);
    let numbers =
        |type_id| variants(type_id).map(|all| all.iter().map(Variant::number).collect::<Vec<_>>());
    let high = Variant { name_offset: 9, value: 0x3_0000_0004, bits: 64, is_signed: false };
    assert_eq!(variants(5), Some(vec![high]));
    assert_eq!(numbers(5), Some(vec![0x3_0000_0004]));
    assert_eq!(numbers(4), Some(vec![-1, 7]));
    assert_eq!(variants(4).unwrap()[0].value, 0xffff_ffff);
    assert_eq!(variants(2), None);
}

#[test]
fn other_items_are_read() {
    let table = table();
    let params = type_of(&table, 6).params().map(Iterator::collect::<Vec<_>>);
    let named = Param { name_offset: 5, type_id: 1 };
    let variadic = Param { name_offset: 0, type_id: 0 };
    assert_eq!(params, Some(vec![named, variadic]));
    let entries = type_of(&table, 9).entries().map(Iterator::collect::<Vec<_>>);
    assert_eq!(entries, Some(vec![Entry { type_id: 8, offset: 4, size: 12 }]));
    let array = Array { type_id: 1, index_type_id: 3, len: 6 };
    assert_eq!(type_of(&table, 10).array(), Some(array));
    let int = Int { encoding: Int::SIGNED, offset: 8, bits: 32 };
    assert_eq!(type_of(&table, 1).int(), Some(int));
    let linkages = table.types().map(|it| it.linkage()).collect::<Vec<_>>();
    assert_eq!(linkages[7], Some(Linkage::Extern));
    assert_eq!(linkages[8], Some(Linkage::Global));
    assert_eq!(linkages.iter().flatten().count(), 2);
    assert_eq!(type_of(&table, 11).component_index(), Some(-1));
    assert_eq!(type_of(&table, 10).component_index(), None);
}

#[test]
fn types_have_names_sizes_and_targets() {
    let table = table();
    let named: Vec<_> = table.types().filter_map(|it| it.name().ok()).collect();
    assert_eq!(named, ["", "int", "", "", "", "", "", "a", "a", "a", "", "a"]);
    let sizes: Vec<_> = table.types().map(|it| it.size()).collect();
    let sized = [(1, 4), (2, 4), (3, 4), (4, 4), (5, 8), (9, 16)];
    for (type_id, size) in sizes.into_iter().enumerate() {
        let wanted = sized.iter().find(|(id, _)| *id == type_id).map(|(_, size)| *size);
        assert_eq!(size, wanted, "{type_id}");
    }
    let targets: Vec<_> = [6, 8, 11, 2].map(|id| type_of(&table, id).target()).to_vec();
    assert_eq!(targets, [Some(1), Some(1), Some(2), None]);
    assert_eq!(type_of(&table, 2).kind(), Kind::Struct);
    assert!(type_of(&table, 2).kind_flag() && !type_of(&table, 3).kind_flag());
}

#[test]
fn variants_have_values_by_name() {
    let mut table = table();
    let values = [(4, "low", Some(0xffff_ffff)), (5, "low", Some(0x3_0000_0004)), (4, "a", None)];
    for (type_id, name, value) in values {
        assert_eq!(table.variant_value(type_id, name), Ok(value), "{name}");
    }
    assert_eq!(table.variant_value(1, "low"), Err(Error::UnexpectedBtfType { type_id: 1 }));
    table.rewrite(&Kernel::probed(|it| it != Feature::Enum64)).unwrap();
    assert_eq!(type_of(&table, 5).kind(), Kind::Union);
    assert_eq!(table.variant_value(5, "low"), Ok(Some(0x3_0000_0004)));
}

#[test]
fn records_with_an_error_are_not_added() {
    let mut table = table();
    let len = table.len();
    let refused = [
        (vec![0, 0x0200_0000], Error::InvalidTypeInfo),
        (vec![0, 0x1400_0000, 0], Error::InvalidTypeKind { kind: 20 }),
        (vec![0, 0x0200_0000, 1, 0], Error::InvalidArgument),
    ];
    for (words, error) in refused {
        let bytes = record(&words, Endianness::Big);
        assert_eq!(table.add_type(&bytes, Endianness::Big), Err(error));
        assert_eq!(table.len(), len);
    }
}
