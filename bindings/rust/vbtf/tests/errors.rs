//! The texts of errors.

use vbtf::{Error, Kind, Table};

/// Errors, and their texts as `crates/btf_plain/src/error.rt` declares them.
#[test]
fn errors_have_the_library_s_texts() {
    let name = || "pair".to_string();
    let texts = [
        (Error::InvalidHeader, "error parsing BTF header"),
        (Error::InvalidTypeInfo, "invalid BTF type info segment"),
        (Error::InvalidTypeKind { kind: 20 }, "invalid BTF type kind `20`"),
        (Error::InvalidStringOffset { offset: 9 }, "invalid BTF string offset: 9"),
        (
            Error::InvalidInfo { offset: 8, len: 12, section_len: 16 },
            "invalid BTF info, offset: 8 len: 12 section_len: 16",
        ),
        (Error::UnknownBtfType { type_id: 9 }, "unknown BTF type id `9`"),
        (Error::UnexpectedBtfType { type_id: 9 }, "unexpected BTF type id `9`"),
        (Error::UnknownBtfTypeName { type_name: name() }, "unknown BTF type `pair`"),
        (Error::MaximumTypeDepthReached { type_id: 9 }, "maximum depth reached resolving BTF type"),
        (Error::SymbolOffsetNotFound { symbol_name: name() }, "Offset not found for symbol `pair`"),
        (Error::InvalidDatasec, "BTF type that is not VAR was found in DATASEC"),
        (
            Error::UnknownSectionSize { section_name: name() },
            "Unable to determine the size of section `pair`",
        ),
        (Error::OutOfMemory, "out of memory"),
        (Error::InvalidArgument, "invalid argument"),
        (Error::NotAnObject { reason: 1, detail: 0 }, "not an ELF object that is read here"),
        (Error::NoTable, "the object has no section .BTF"),
        (
            Error::RelocationRefused { reason: 21, detail: 0, name_offset: 9, index: 0 },
            "the instruction does not have the value of the local type",
        ),
        (
            Error::RelocationRefused { reason: 6, detail: 3, name_offset: 0, index: 0 },
            "type 3 has no name",
        ),
        (
            Error::RelocationRefused { reason: 28, detail: 0, name_offset: 0, index: 0 },
            "the target has more than 256 candidates",
        ),
        (
            Error::RelocationRefused { reason: 29, detail: 0, name_offset: 0, index: 0 },
            "two types have more than 1048576 pairs of members",
        ),
        (
            Error::RelocationRefused { reason: 31, detail: 0, name_offset: 0, index: 0 },
            "a relocation has an error",
        ),
        (
            Error::SharedPlace { index: 3 },
            "a section with relocations shares its place with another section",
        ),
        (
            Error::BadSectionName { name_offset: 9 },
            "the name of a section of relocations cannot be read",
        ),
    ];
    for (error, text) in texts {
        assert_eq!(error.to_string(), text);
    }
}

#[test]
fn long_names_end_with_a_whole_character() {
    let table = Table::new().unwrap();
    for (name, cut) in [("n".repeat(300), "n".repeat(255)), ("é".repeat(200), "é".repeat(127))] {
        let error = table.id_by_type_name_kind(&name, Kind::Int).unwrap_err();
        assert_eq!(error.to_string(), format!("unknown BTF type `{cut}`"));
        assert_eq!(error, Error::UnknownBtfTypeName { type_name: cut });
    }
}

#[test]
fn errors_can_be_boxed() {
    let error: Box<dyn std::error::Error + Send + Sync> = Error::OutOfMemory.into();
    assert_eq!(error.to_string(), "out of memory");
}
