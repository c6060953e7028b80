//! Split tables over a base.

use vbtf::{Endianness, Error, Table};

/// A file of `tests/corpus_data`: `base.btf`, the tables of modules over it, and what bpftool wrote of them.
fn file(name: &str) -> Vec<u8> {
    let folder = concat!(env!("CARGO_MANIFEST_DIR"), "/../../../tests/corpus_data");
    std::fs::read(format!("{folder}/{name}")).unwrap()
}

fn base() -> Table {
    Table::parse(&file("base.btf"), Endianness::Little).unwrap()
}

/// The lines that bpftool writes of the types from an id on, up to the name.
fn listed(table: &Table, first: u32) -> Vec<String> {
    let line = |id| {
        let found = table.type_by_id(id).unwrap();
        let name = found.name().unwrap();
        let name = if name.is_empty() { "(anon)" } else { &*name };
        format!("[{id}] {} '{name}'", found.kind().to_string().trim_matches(['[', ']']))
    };
    (first..table.len()).map(line).collect()
}

#[test]
fn modules_are_read_over_their_base_and_written_again() {
    for module in ["module1.btf", "module2.btf", "module3.btf"] {
        let (base, blob) = (base(), file(module));
        let (types, strings) = (base.len(), base.string_len());
        let table = Table::parse_over(&base, &blob, Endianness::Little).unwrap();
        drop(base);
        let lines = String::from_utf8(file(&format!("{module}.bpftool"))).unwrap();
        let lines: Vec<_> = lines.lines().filter(|line| line.starts_with('[')).collect();
        let types_listed = listed(&table, types);
        assert_eq!(types_listed.len(), lines.len());
        assert!(lines.iter().zip(&types_listed).all(|(line, listed)| line.starts_with(listed)));
        assert_eq!(table.split_bytes(types, strings).unwrap(), blob);
    }
}

#[test]
fn other_bytes_and_bases_are_refused() {
    let (base, blob) = (base(), file("module1.btf"));
    let short = Table::parse_over(&base, &blob[1..], Endianness::Little);
    assert_eq!(short.unwrap_err(), Error::InvalidHeader);
    let table = Table::parse_over(&base, &blob, Endianness::Little).unwrap();
    assert_eq!(table.split_bytes(0, 0), Err(Error::UnknownBtfType { type_id: 0 }));
    let offset = table.string_len() + 1;
    let beyond = Error::InvalidStringOffset { offset: offset.into() };
    assert_eq!(table.split_bytes(1, offset), Err(beyond));
}

#[test]
fn modules_are_read_one_after_another_over_one_table() {
    let mut table = base();
    let (types, strings) = (table.len(), table.string_len());
    for module in ["module1.btf", "module2.btf", "module3.btf"] {
        let blob = file(module);
        table.append_split(&blob, Endianness::Little).unwrap();
        let lines = String::from_utf8(file(&format!("{module}.bpftool"))).unwrap();
        let lines: Vec<_> = lines.lines().filter(|line| line.starts_with('[')).collect();
        assert!(lines.iter().zip(listed(&table, types)).all(|(line, it)| line.starts_with(&it)));
        assert_eq!(table.split_bytes(types, strings).unwrap(), blob);
        assert_eq!(table.append_split(&blob[1..], Endianness::Little), Err(Error::InvalidHeader));
        table.truncate(types, strings).unwrap();
    }
    assert_eq!(table.to_bytes().unwrap(), base().to_bytes().unwrap());
    assert_eq!(table.truncate(0, 0), Err(Error::UnknownBtfType { type_id: 0 }));
}
