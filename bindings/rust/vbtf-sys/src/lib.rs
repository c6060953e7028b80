//! The calls of the C library `vbtf`, as they are in its archive. `bindings/c/vbtf.h` has what each does, and what its
//! caller has to uphold; the crate `vbtf` has them as methods.
#![no_std]
#![allow(non_camel_case_types)]

use core::ffi::c_void;

/// A handle of a table. All zero is closed.
#[repr(C)]
#[derive(Debug)]
pub struct vbtf_table {
    pub at: *mut c_void,
    pub state: u32,
}

/// An error of the library. Fields that the error does not have are 0.
#[repr(C)]
#[derive(Debug, Clone, Copy)]
pub struct vbtf_error {
    pub number: u32,
    pub id: u32,
    pub offset: u64,
    pub len: u64,
    pub section_len: u64,
    pub name_len: u32,
    pub name: [u8; 255],
}

/// The kind and the first words of a record.
#[repr(C)]
#[derive(Debug, Clone, Copy, Default)]
pub struct vbtf_type {
    pub kind: u32,
    pub name_offset: u32,
    pub info: u32,
    pub size_or_type: u32,
}

/// What a blob has: its byte order, its header's values, where its sections are, and the number of its types.
#[repr(C)]
#[derive(Debug, Clone, Copy, Default)]
pub struct vbtf_view_parts {
    pub types_at: u64,
    pub types_len: u64,
    pub strings_at: u64,
    pub strings_len: u64,
    /// The end of the string offsets at which a name can be read.
    pub names_len: u64,
    pub count: u64,
    pub order: u32,
    pub magic: u16,
    pub version: u8,
    pub flags: u8,
}

/// A kernel that a table is rewritten for. `bindings/c/vbtf.h` has the bits of `features`.
#[repr(C)]
#[derive(Debug, Clone, Copy, Default)]
pub struct vbtf_kernel {
    pub features: u32,
    pub fill_sized: u32,
    pub ksyms: u32,
    pub placeholder: u32,
}

/// A name in a buffer, and the size of the section or the offset of the symbol that has it.
#[repr(C)]
#[derive(Debug, Clone, Copy, Default)]
pub struct vbtf_named {
    pub at: u32,
    pub len: u32,
    pub number: u64,
}

/// The features that a rewrite asked about, in order, and whether the kernel has them.
#[repr(C)]
#[derive(Debug, Clone, Copy, Default)]
pub struct vbtf_asked {
    pub count: u32,
    pub features: [u8; 32],
    pub granted: [u8; 32],
}

/// An item of a type as words of its record.
#[repr(C)]
#[derive(Debug, Clone, Copy, Default)]
pub struct vbtf_item {
    pub info: u32,
    pub count: u32,
    pub words: [u32; 3],
}

/// A member of a STRUCT or UNION.
#[repr(C)]
#[derive(Debug, Clone, Copy, Default)]
pub struct vbtf_member {
    pub name_offset: u32,
    pub type_: u32,
    pub bit_offset: u32,
    pub bit_field_size: u32,
}

/// A variant of an ENUM or ENUM64.
#[repr(C)]
#[derive(Debug, Clone, Copy, Default)]
pub struct vbtf_variant {
    pub name_offset: u32,
    pub bits: u32,
    pub is_signed: bool,
    pub value: u64,
}

/// A parameter of a FUNC_PROTO.
#[repr(C)]
#[derive(Debug, Clone, Copy, Default)]
pub struct vbtf_param {
    pub name_offset: u32,
    pub type_: u32,
}

/// An entry of a DATASEC.
#[repr(C)]
#[derive(Debug, Clone, Copy, Default)]
pub struct vbtf_entry {
    pub type_: u32,
    pub offset: u32,
    pub size: u32,
}

/// The bytes of names in the memory of a table, up to the last zero byte.
#[repr(C)]
#[derive(Debug, Clone, Copy)]
pub struct vbtf_name_bytes {
    pub at: *const u8,
    pub len: usize,
}

/// Where the bytes of a section are in an object, and the object's byte order.
#[repr(C)]
#[derive(Debug, Clone, Copy, Default)]
pub struct vbtf_section {
    pub offset: u64,
    pub len: u64,
    pub order: u32,
}

/// The sizes of the records of a `.BTF.ext`, and the numbers of its sections.
#[repr(C)]
#[derive(Debug, Clone, Copy, Default)]
pub struct vbtf_ext_sizes {
    pub func_size: u64,
    pub line_size: u64,
    pub func_sections: u64,
    pub line_sections: u64,
    pub relocation_sections: u64,
}

/// The numbers of relocation records of an object.
#[repr(C)]
#[derive(Debug, Clone, Copy, Default)]
pub struct vbtf_tally {
    pub records: u64,
    pub poisoned: u64,
    pub refused: u64,
}

/// A relocation record.
#[repr(C)]
#[derive(Debug, Clone, Copy, Default)]
pub struct vbtf_relocation {
    pub offset: u32,
    pub type_: u32,
    pub access_offset: u32,
    pub kind: u32,
}

/// What a relocation asks to be written into its instruction.
#[repr(C)]
#[derive(Debug, Clone, Copy, Default)]
pub struct vbtf_relocated {
    pub expected: u64,
    pub value: u64,
    pub local_size: u32,
    pub target_size: u32,
    pub is_poisoned: bool,
    pub validates: bool,
    pub is_adjustable: bool,
}

extern "C" {
    pub fn vbtf_raw_rewrite(
        table: *mut vbtf_table,
        section_names: *const u8,
        section_names_len: usize,
        sections: *const vbtf_named,
        section_count: usize,
        symbol_names: *const u8,
        symbol_names_len: usize,
        symbols: *const vbtf_named,
        symbol_count: usize,
        kernel: *const vbtf_kernel,
        seed: u64,
        asked: *mut vbtf_asked,
        error: *mut vbtf_error,
    ) -> u32;
    pub fn vbtf_raw_sanitize_object(
        object: *const u8,
        len: usize,
        kernel: *const vbtf_kernel,
        placeholder: *const u8,
        placeholder_len: usize,
        seed: u64,
        out: *mut u8,
        room: usize,
        needed: *mut u64,
        asked: *mut vbtf_asked,
        error: *mut vbtf_error,
    ) -> u32;
    pub fn vbtf_lent_relocate_object(
        object: *const u8,
        len: usize,
        target: *mut vbtf_table,
        options: u32,
        seed: u64,
        out: *mut u8,
        room: usize,
        needed: *mut u64,
        tally: *mut vbtf_tally,
        error: *mut vbtf_error,
    ) -> u32;
    pub fn vbtf_raw_target_open(table: *mut vbtf_table, error: *mut vbtf_error) -> u32;
    pub fn vbtf_target_close(table: *mut vbtf_table);
    pub fn vbtf_lent_relocate(
        local: *mut vbtf_table,
        target: *mut vbtf_table,
        relocation: *const vbtf_relocation,
        relocated: *mut vbtf_relocated,
        error: *mut vbtf_error,
    ) -> u32;
    pub fn vbtf_version() -> u32;
    pub fn vbtf_raw_new(table: *mut vbtf_table, error: *mut vbtf_error) -> u32;
    pub fn vbtf_lent_clone(
        table: *mut vbtf_table,
        copy: *mut vbtf_table,
        error: *mut vbtf_error,
    ) -> u32;
    pub fn vbtf_close(table: *mut vbtf_table);
    pub fn vbtf_raw_parse(
        table: *mut vbtf_table,
        data: *const u8,
        len: usize,
        order: u32,
        error: *mut vbtf_error,
    ) -> u32;
    pub fn vbtf_lent_parse_over(
        base: *mut vbtf_table,
        table: *mut vbtf_table,
        data: *const u8,
        len: usize,
        order: u32,
        error: *mut vbtf_error,
    ) -> u32;
    pub fn vbtf_lent_split_bytes(
        table: *mut vbtf_table,
        base_types: u32,
        base_strings: u32,
        out: *mut u8,
        room: usize,
        needed: *mut u64,
        error: *mut vbtf_error,
    ) -> u32;
    pub fn vbtf_lent_string_len(table: *mut vbtf_table, len: *mut u32) -> u32;
    pub fn vbtf_lent_string_count(table: *mut vbtf_table, count: *mut u64) -> u32;
    pub fn vbtf_raw_append_split(
        table: *mut vbtf_table,
        data: *const u8,
        len: usize,
        order: u32,
        error: *mut vbtf_error,
    ) -> u32;
    pub fn vbtf_raw_truncate(
        table: *mut vbtf_table,
        base_types: u32,
        base_strings: u32,
        error: *mut vbtf_error,
    ) -> u32;
    pub fn vbtf_raw_section(
        object: *const u8,
        len: usize,
        name: *const u8,
        name_len: usize,
        section: *mut vbtf_section,
        error: *mut vbtf_error,
    ) -> u32;
    pub fn vbtf_raw_add_string(
        table: *mut vbtf_table,
        text: *const u8,
        len: usize,
        offset: *mut u32,
        error: *mut vbtf_error,
    ) -> u32;
    pub fn vbtf_lent_count(table: *mut vbtf_table, count: *mut u64) -> u32;
    pub fn vbtf_lent_type(
        table: *mut vbtf_table,
        id: u32,
        out: *mut vbtf_type,
        error: *mut vbtf_error,
    ) -> u32;
    pub fn vbtf_lent_types(
        table: *mut vbtf_table,
        first: u32,
        out: *mut vbtf_type,
        room: usize,
        count: *mut u64,
    ) -> u32;
    pub fn vbtf_lent_sizes(
        table: *mut vbtf_table,
        first: u32,
        out: *mut u64,
        room: usize,
        count: *mut u64,
    ) -> u32;
    pub fn vbtf_lent_resolved(
        table: *mut vbtf_table,
        first: u32,
        out: *mut u32,
        room: usize,
        count: *mut u64,
    ) -> u32;
    pub fn vbtf_lent_find(
        table: *mut vbtf_table,
        name: *const u8,
        len: usize,
        kind: u32,
        id: *mut u32,
        error: *mut vbtf_error,
    ) -> u32;
    pub fn vbtf_lent_resolve(
        table: *mut vbtf_table,
        id: u32,
        to: *mut u32,
        error: *mut vbtf_error,
    ) -> u32;
    pub fn vbtf_lent_size(
        table: *mut vbtf_table,
        id: u32,
        size: *mut u64,
        error: *mut vbtf_error,
    ) -> u32;
    pub fn vbtf_raw_view_index(
        data: *const u8,
        len: usize,
        order: u32,
        places: *mut u32,
        room: usize,
        parts: *mut vbtf_view_parts,
        error: *mut vbtf_error,
    ) -> u32;
    pub fn vbtf_raw_view_types(
        types: *const u8,
        types_len: usize,
        places: *const u32,
        places_len: usize,
        order: u32,
        first: u32,
        out: *mut vbtf_type,
        room: usize,
        count: *mut u64,
    ) -> u32;
    pub fn vbtf_raw_view_sizes(
        types: *const u8,
        types_len: usize,
        places: *const u32,
        places_len: usize,
        order: u32,
        first: u32,
        out: *mut u64,
        room: usize,
        count: *mut u64,
    ) -> u32;
    pub fn vbtf_raw_view_resolved(
        types: *const u8,
        types_len: usize,
        places: *const u32,
        places_len: usize,
        order: u32,
        first: u32,
        out: *mut u32,
        room: usize,
        count: *mut u64,
    ) -> u32;
    pub fn vbtf_raw_view_size(
        types: *const u8,
        types_len: usize,
        places: *const u32,
        places_len: usize,
        order: u32,
        id: u32,
        size: *mut u64,
        error: *mut vbtf_error,
    ) -> u32;
    pub fn vbtf_raw_view_resolve(
        types: *const u8,
        types_len: usize,
        places: *const u32,
        places_len: usize,
        order: u32,
        id: u32,
        to: *mut u32,
        error: *mut vbtf_error,
    ) -> u32;
    pub fn vbtf_raw_view_members(
        types: *const u8,
        types_len: usize,
        places: *const u32,
        places_len: usize,
        order: u32,
        id: u32,
        out: *mut vbtf_member,
        room: usize,
        count: *mut u64,
        error: *mut vbtf_error,
    ) -> u32;
    pub fn vbtf_raw_view_variants(
        types: *const u8,
        types_len: usize,
        places: *const u32,
        places_len: usize,
        order: u32,
        id: u32,
        out: *mut vbtf_variant,
        room: usize,
        count: *mut u64,
        error: *mut vbtf_error,
    ) -> u32;
    pub fn vbtf_raw_view_params(
        types: *const u8,
        types_len: usize,
        places: *const u32,
        places_len: usize,
        order: u32,
        id: u32,
        out: *mut vbtf_param,
        room: usize,
        count: *mut u64,
        error: *mut vbtf_error,
    ) -> u32;
    pub fn vbtf_raw_view_entries(
        types: *const u8,
        types_len: usize,
        places: *const u32,
        places_len: usize,
        order: u32,
        id: u32,
        out: *mut vbtf_entry,
        room: usize,
        count: *mut u64,
        error: *mut vbtf_error,
    ) -> u32;
    pub fn vbtf_raw_view_members_from(
        types: *const u8,
        types_len: usize,
        places: *const u32,
        places_len: usize,
        order: u32,
        first: u32,
        counts: *mut u32,
        ids: usize,
        out: *mut vbtf_member,
        room: usize,
        done: *mut u64,
        written: *mut u64,
    ) -> u32;
    pub fn vbtf_raw_view_find(
        types: *const u8,
        types_len: usize,
        strings: *const u8,
        strings_len: usize,
        places: *const u32,
        places_len: usize,
        order: u32,
        name: *const u8,
        len: usize,
        kind: u32,
        id: *mut u32,
        error: *mut vbtf_error,
    ) -> u32;
    pub fn vbtf_lent_header(
        table: *mut vbtf_table,
        out: *mut u8,
        room: usize,
        needed: *mut u64,
        error: *mut vbtf_error,
    ) -> u32;
    pub fn vbtf_lent_text(
        table: *mut vbtf_table,
        offset: u32,
        out: *mut u8,
        room: usize,
        needed: *mut u64,
        error: *mut vbtf_error,
    ) -> u32;
    pub fn vbtf_lent_bytes(
        table: *mut vbtf_table,
        out: *mut u8,
        room: usize,
        needed: *mut u64,
        error: *mut vbtf_error,
    ) -> u32;
    pub fn vbtf_lent_fields_compatible(
        local: *mut vbtf_table,
        id: u32,
        target: *mut vbtf_table,
        other: u32,
        answer: *mut bool,
        error: *mut vbtf_error,
    ) -> u32;
    pub fn vbtf_lent_types_compatible(
        local: *mut vbtf_table,
        id: u32,
        target: *mut vbtf_table,
        other: u32,
        answer: *mut bool,
        error: *mut vbtf_error,
    ) -> u32;
    pub fn vbtf_lent_item(
        table: *mut vbtf_table,
        id: u32,
        index: u32,
        item: *mut vbtf_item,
        error: *mut vbtf_error,
    ) -> u32;
    pub fn vbtf_lent_members(
        table: *mut vbtf_table,
        id: u32,
        out: *mut vbtf_member,
        room: usize,
        count: *mut u64,
        error: *mut vbtf_error,
    ) -> u32;
    pub fn vbtf_lent_variants(
        table: *mut vbtf_table,
        id: u32,
        out: *mut vbtf_variant,
        room: usize,
        count: *mut u64,
        error: *mut vbtf_error,
    ) -> u32;
    pub fn vbtf_lent_params(
        table: *mut vbtf_table,
        id: u32,
        out: *mut vbtf_param,
        room: usize,
        count: *mut u64,
        error: *mut vbtf_error,
    ) -> u32;
    pub fn vbtf_lent_entries(
        table: *mut vbtf_table,
        id: u32,
        out: *mut vbtf_entry,
        room: usize,
        count: *mut u64,
        error: *mut vbtf_error,
    ) -> u32;
    pub fn vbtf_lent_name(
        table: *mut vbtf_table,
        offset: u32,
        name: *mut vbtf_name_bytes,
        len: *mut usize,
        error: *mut vbtf_error,
    ) -> u32;
    pub fn vbtf_lent_names(table: *mut vbtf_table, names: *mut vbtf_name_bytes) -> u32;
    pub fn vbtf_lent_find_from(
        table: *mut vbtf_table,
        name: *const u8,
        len: usize,
        kind: u32,
        first: u32,
        id: *mut u32,
        error: *mut vbtf_error,
    ) -> u32;
    pub fn vbtf_lent_order(table: *mut vbtf_table, order: *mut u32) -> u32;
    pub fn vbtf_lent_index_find(
        table: *mut vbtf_table,
        name: *const u8,
        len: usize,
        kind: u32,
        id: *mut u32,
        error: *mut vbtf_error,
    ) -> u32;
    pub fn vbtf_lent_alignment(
        table: *mut vbtf_table,
        id: u32,
        alignment: *mut u32,
        error: *mut vbtf_error,
    ) -> u32;
    pub fn vbtf_lent_alignments(
        table: *mut vbtf_table,
        first: u32,
        out: *mut u32,
        room: usize,
        count: *mut u64,
        error: *mut vbtf_error,
    ) -> u32;
    pub fn vbtf_lent_value(
        table: *mut vbtf_table,
        id: u32,
        name: *const u8,
        len: usize,
        value: *mut u64,
        error: *mut vbtf_error,
    ) -> u32;
    pub fn vbtf_raw_add_type(
        table: *mut vbtf_table,
        record: *const u8,
        len: usize,
        order: u32,
        id: *mut u32,
        error: *mut vbtf_error,
    ) -> u32;
    pub fn vbtf_raw_error_text(
        error: *const vbtf_error,
        out: *mut u8,
        room: usize,
        needed: *mut u64,
    ) -> u32;
    pub fn vbtf_raw_open_ext(
        table: *mut vbtf_table,
        data: *const u8,
        len: usize,
        order: u32,
        seed: u64,
        error: *mut vbtf_error,
    ) -> u32;
    pub fn vbtf_close_ext(table: *mut vbtf_table);
    pub fn vbtf_lent_ext(table: *mut vbtf_table, ext: *mut vbtf_ext_sizes) -> u32;
    pub fn vbtf_lent_ext_names(
        table: *mut vbtf_table,
        part: u32,
        out: *mut u8,
        room: usize,
        needed: *mut u64,
        error: *mut vbtf_error,
    ) -> u32;
    pub fn vbtf_lent_ext_section(table: *mut vbtf_table, index: u32, name_offset: *mut u32) -> u32;
    pub fn vbtf_lent_ext_records(
        table: *mut vbtf_table,
        part: u32,
        name: *const u8,
        len: usize,
        out: *mut u8,
        room: usize,
        needed: *mut u64,
        error: *mut vbtf_error,
    ) -> u32;
    pub fn vbtf_lent_ext_relocations(
        table: *mut vbtf_table,
        name: *const u8,
        len: usize,
        out: *mut u32,
        room: usize,
        needed: *mut u64,
        error: *mut vbtf_error,
    ) -> u32;
}
