//! Records that are relocated one by one.

use vbtf::{Endianness, Error, Relocate, Relocated, Relocation, Table, Target};

/// A file that clang made, of tests/objects.
fn file(name: &str) -> Vec<u8> {
    let folder = concat!(env!("CARGO_MANIFEST_DIR"), "/../../../tests/objects/relocated");
    std::fs::read(format!("{folder}/{name}")).unwrap()
}

/// The table that the object `prog.o` is relocated for.
fn kernel() -> Table {
    Table::parse(&file("kernel.btf"), Endianness::Little).unwrap()
}

/// The program's table, with two access strings.
fn program() -> (Table, [u32; 2]) {
    // `struct s { int a; int b; }` of `prog.c`.
    let mut table = Table::new().unwrap();
    let int = [table.add_string("int").unwrap(), 0x0100_0000, 4, 0x0100_0020];
    let int = table.add_type(&int.map(u32::to_le_bytes).concat(), Endianness::Little).unwrap();
    let mut names = ["s", "a", "b"].map(|name| table.add_string(name).unwrap()).into_iter();
    let mut name = || names.next().unwrap();
    let s = [name(), 0x0400_0002, 8, name(), int, 0, name(), int, 32];
    table.add_type(&s.map(u32::to_le_bytes).concat(), Endianness::Little).unwrap();
    let accesses = ["0:1", "0"].map(|access| table.add_string(access).unwrap());
    (table, accesses)
}

/// The record of this kind about `struct s`.
fn record(access_offset: u32, kind: u32) -> Relocation {
    Relocation { offset: 0, type_id: 2, access_offset, kind }
}

#[test]
fn a_record_has_the_value_for_the_target() {
    let (program, [member, whole]) = program();
    let target = Target::new(kernel()).unwrap();
    let value = |access, kind| target.relocate(&program, &record(access, kind)).unwrap();
    // `b` is at byte 4 of the program's `struct s`, and at byte 8 of the kernel's, which has 16 bytes.
    let offset = Relocated {
        expected: 4,
        value: 8,
        local_size: 4,
        target_size: 4,
        is_poisoned: false,
        validates: true,
        is_adjustable: true,
    };
    assert_eq!(value(member, 0), offset);
    assert_eq!((value(whole, 9).expected, value(whole, 9).value), (8, 16));
}

#[test]
fn nothing_matches_in_an_empty_table() {
    let (program, [member, _]) = program();
    let target = Target::new(Table::new().unwrap()).unwrap();
    assert!(target.relocate(&program, &record(member, 0)).unwrap().is_poisoned);
    let exists = target.relocate(&program, &record(member, 2)).unwrap();
    assert_eq!((exists.is_poisoned, exists.expected, exists.value), (false, 1, 0));
}

#[test]
fn records_with_errors_are_refused() {
    let (program, [member, _]) = program();
    let target = Target::new(kernel()).unwrap();
    let refused = |record| target.relocate(&program, &record).unwrap_err();
    let because =
        |reason, detail| Error::RelocationRefused { reason, detail, name_offset: 0, index: 0 };
    assert_eq!(refused(record(member, 13)), because(2, 13));
    assert_eq!(refused(record(member, 13)).to_string(), "unknown relocation kind 13");
    assert_eq!(refused(Relocation { type_id: 3, ..record(member, 0) }), because(3, 3));
    assert_eq!(refused(record(member, 7)), because(7, 0));
}

#[test]
fn a_table_is_a_target_again_after_a_change() {
    let (program, [member, _]) = program();
    let target = Target::new(kernel()).unwrap();
    let object = file("prog.o");
    let relocated = kernel().relocate_object(&object, Relocate::default()).unwrap().0;
    assert_eq!(target.table().relocate_object(&object, Relocate::default()).unwrap().0, relocated);
    let mut table = target.into_table();
    table.add_string("text").unwrap();
    let target = Target::new(table).unwrap();
    assert_eq!(target.relocate(&program, &record(member, 0)).unwrap().value, 8);
    let changed = Target::new(target.into_table()).unwrap();
    assert_eq!(changed.relocate(&program, &record(member, 0)).unwrap().value, 8);
}
