//! Objects that are relocated for a table.

use vbtf::{Endianness, Error, Relocate, Table};

/// A file that clang made, of tests/objects.
fn file(name: &str) -> Vec<u8> {
    let folder = concat!(env!("CARGO_MANIFEST_DIR"), "/../../../tests/objects/relocated");
    std::fs::read(format!("{folder}/{name}")).unwrap()
}

/// The object `prog.o`, and the table that it is relocated for.
fn program() -> (Vec<u8>, Table) {
    (file("prog.o"), Table::parse(&file("kernel.btf"), Endianness::Little).unwrap())
}

#[test]
fn code_is_relocated() {
    let (object, kernel) = program();
    let (relocated, tally) = kernel.relocate_object(&object, Relocate::default()).unwrap();
    assert_eq!((tally.records, tally.poisoned, tally.refused), (4, 0, 0));
    // `r0 = *(u32 *)(r1 + 4)`, which reads `b` of `struct s` at byte 8 of the kernel's.
    let (old, new) = ([0x61, 0x10, 4, 0], [0x61, 0x10, 8, 0]);
    let at = object.windows(4).position(|it| it == old).unwrap();
    assert_eq!(relocated[at..at + 4], new);
    let how = Relocate { fresh_candidates: true, keep_refused: false };
    assert_eq!(kernel.relocate_object(&object, how).unwrap().0, relocated);
}

#[test]
fn nothing_matches_in_an_empty_table() {
    let tally = Table::new().unwrap().relocate_object(&program().0, Relocate::default()).unwrap().1;
    assert_eq!((tally.records, tally.poisoned, tally.refused), (4, 3, 0));
}

#[test]
fn relocated_code_has_other_values_than_its_table() {
    let (object, kernel) = program();
    let (relocated, _) = kernel.relocate_object(&object, Relocate::default()).unwrap();
    let error = kernel.relocate_object(&relocated, Relocate::default()).unwrap_err();
    assert!(matches!(error, Error::RelocationRefused { reason: 21, index: 0, .. }));
    assert_eq!(error.to_string(), "the instruction does not have the value of the local type");
    let how = Relocate { fresh_candidates: false, keep_refused: true };
    let (again, tally) = kernel.relocate_object(&relocated, how).unwrap();
    assert_eq!((tally.records, tally.poisoned, tally.refused), (4, 0, 4));
    assert_eq!(again, relocated);
}

#[test]
fn other_bytes_are_refused() {
    let (object, kernel) = program();
    let refused = |bytes: &[u8]| kernel.relocate_object(bytes, Relocate::default()).unwrap_err();
    assert_eq!(refused(&[]), Error::NotAnObject { reason: 1, detail: 0 });
    let cut = refused(&object[..object.len() - 1]);
    assert_eq!(cut, Error::NotAnObject { reason: 6, detail: 0 });
    let mut renamed = object.clone();
    while let Some(at) = renamed.windows(5).position(|it| it == b".BTF\0" || it == b".BTF.") {
        renamed[at] = b'_';
    }
    assert_eq!(refused(&renamed), Error::NoTable);
}
