//! A view of bytes has the values of a table of the same bytes.

use vbtf::{Endianness, Kind, Table, View};

/// The table of a kernel's types of `crates/btf_examples`.
fn kernel() -> Vec<u8> {
    std::fs::read(concat!(
        env!("CARGO_MANIFEST_DIR"),
        "/../../../crates/btf_examples/data/kernel.btf"
    ))
    .unwrap()
}

#[test]
fn each_type_is_that_of_the_table() {
    let bytes = kernel();
    let table = Table::parse(&bytes, Endianness::Little).unwrap();
    let view = View::parse_by_magic(&bytes).unwrap();
    let heads = view.heads(0..u32::MAX);
    assert_eq!((view.type_count(), heads.len()), (table.len(), table.len() as usize));
    for (id, head) in (0..).zip(&heads) {
        let one = table.type_by_id(id).unwrap();
        assert_eq!(head.kind, one.kind());
        assert_eq!(view.text_at(head.name_offset).unwrap(), one.name().unwrap());
        assert_eq!(view.head(id), Some(*head));
        assert_eq!(view.type_size(id), table.type_size(id));
        assert_eq!(view.resolve_type(id), table.resolve_type(id));
        let members = one.members().map(|members| members.collect::<Vec<_>>());
        assert_eq!(view.members(id).ok(), members);
        assert_eq!(view.variants(id).ok(), one.variants().map(|it| it.collect::<Vec<_>>()));
        assert_eq!(view.params(id).ok(), one.params().map(|it| it.collect::<Vec<_>>()));
        assert_eq!(view.entries(id).ok(), one.entries().map(|it| it.collect::<Vec<_>>()));
    }
    assert_eq!(view.type_sizes(0..9), table.type_sizes(0..9));
    assert_eq!(view.resolved_types(3..u32::MAX), table.resolved_types(3..u32::MAX));
}

#[test]
fn members_of_many_types_are_those_of_each() {
    let bytes = kernel();
    let view = View::parse_by_magic(&bytes).unwrap();
    let all = 0..view.type_count();
    let (counts, members) = view.members_from(0..u32::MAX);
    let each: Vec<_> = all.map(|id| view.members(id).unwrap_or_default()).collect();
    assert_eq!(counts, each.iter().map(|it| it.len() as u32).collect::<Vec<_>>());
    assert_eq!(members, each.concat());
    assert_eq!(view.members_from(view.type_count()..u32::MAX), (vec![], vec![]));
}

#[test]
fn names_are_found_and_read_as_in_the_table() {
    let bytes = kernel();
    let table = Table::parse(&bytes, Endianness::Little).unwrap();
    let view = View::parse(&bytes, Endianness::Little).unwrap();
    for (name, kind) in
        [("int", Kind::Int), ("task_struct", Kind::Struct), ("no such type", Kind::Func)]
    {
        assert_eq!(view.id_by_type_name_kind(name, kind), table.id_by_type_name_kind(name, kind));
    }
    for name in ["\u{ffff}", "\u{fffd}", "int\0"] {
        assert_eq!(
            view.id_by_type_name_kind(name, Kind::Int),
            table.id_by_type_name_kind(name, Kind::Int)
        );
    }
    for offset in (0..64).chain([table.string_len() - 1, table.string_len(), u32::MAX]) {
        assert_eq!(view.bytes_at(offset), table.bytes_at(offset).ok());
    }
}

#[test]
fn bytes_that_are_no_table_are_refused_alike() {
    let bytes = kernel();
    for len in [0, 23, 24, bytes.len() / 2, bytes.len() - 1] {
        let (view, table) =
            (View::parse_by_magic(&bytes[..len]), Table::parse_by_magic(&bytes[..len]));
        assert_eq!(view.err(), table.err());
    }
}
