/*
 * vbtf.h: tables of BTF, the Linux kernel's type metadata for BPF programs.
 *
 * The library below these calls is proved: each call terminates on every input, and docs/C.md has its results. A call
 * returns a status: VBTF_OK, the number of an error of the library, or a status of this binding. If the last argument
 * is a struct vbtf_error, the call describes an error of the library there; the argument may be null.
 *
 * Nothing checks these duties of the caller:
 *
 *  - A struct vbtf_table is zeroed before its first call, and not copied while it is open. VBTF_TABLE_INIT zeroes it.
 *  - Several threads may read one table at the same time. During a call that takes a table without const, no other
 *    thread makes a call on that table.
 *  - Arguments that are written to overlap no other argument.
 *  - malloc, realloc and free are those of one allocator. No call is made from a signal handler.
 */
#ifndef VBTF_H
#define VBTF_H

#include <stdbool.h>
#include <stddef.h>
#include <stdint.h>
#include <stdlib.h>

#ifdef __cplusplus
extern "C" {
#endif

/* How the calls of this header are defined: inline, except in the shared library, which has them as functions. */
#ifndef VBTF_INLINE
#define VBTF_INLINE static inline
#endif

/* The version of this header. vbtf_version returns that of the library, in the same form. */
#define VBTF_VERSION_MAJOR 0
#define VBTF_VERSION_MINOR 1
#define VBTF_VERSION_PATCH 0
#define VBTF_VERSION (VBTF_VERSION_MAJOR << 16 | VBTF_VERSION_MINOR << 8 | VBTF_VERSION_PATCH)

/* ---- statuses */

enum vbtf_status {
	VBTF_OK = 0,

	/* errors of the library */
	VBTF_INVALID_HEADER = 1,         /* the header is truncated, or the strings are not within the data */
	VBTF_INVALID_TYPE_INFO = 2,      /* the types are not within the data, or a record is truncated or too large */
	VBTF_INVALID_TYPE_KIND = 4,      /* a record is of a kind that does not exist; the kind is in id */
	VBTF_INVALID_STRING_OFFSET = 6,  /* no text is at offset */
	VBTF_INVALID_INFO = 7,           /* a part of .BTF.ext is not within its bounds: offset, len, section_len */
	VBTF_UNKNOWN_TYPE = 9,           /* no type has id */
	VBTF_UNEXPECTED_TYPE = 10,       /* the type of id has a kind that is not allowed there */
	VBTF_UNKNOWN_TYPE_NAME = 11,     /* no type of the kind has the name */
	VBTF_TOO_DEEP = 12,              /* a walk passed 32 types; it began at id, or would go on there */
	VBTF_SYMBOL_NOT_FOUND = 13,      /* the symbol of the name has no known offset, or one past 32 bits */
	VBTF_INVALID_DATASEC = 14,       /* an entry of a DATASEC is no VAR */
	VBTF_UNKNOWN_SECTION_SIZE = 15,  /* the section of the name has no known size, or one past 32 bits */
	VBTF_OUT_OF_MEMORY = 20,         /* an allocation failed */

	/* of this binding */
	VBTF_NO_ROOM = 100,              /* the buffer is too short; nothing was written to it */
	VBTF_CLOSED = 101,               /* the table, its .BTF.ext or its index is not open */
	VBTF_BAD_ARGUMENT = 102,         /* an argument is invalid, or the table, .BTF.ext or index is open already */
	VBTF_NO_ITEM = 103,              /* the type has no item of the index, or no variant of the name */
	VBTF_NOT_AN_OBJECT = 104,        /* the bytes are no ELF object that is read here; error.id has the reason */
	VBTF_NO_TABLE = 105,             /* the object has no section .BTF; vbtf_section: none of the name */
	VBTF_NOT_REPLACEABLE = 106,      /* the bytes of the section .BTF cannot be replaced */
	VBTF_RELOCATION_REFUSED = 107,   /* a relocation has an error: see vbtf_relocate and vbtf_relocate_object */
	VBTF_SHARED_PLACE = 108,         /* another section has bytes in the place of the section of index offset */
	VBTF_BAD_SECTION_NAME = 109,     /* the name of a section of relocations, at offset, cannot be read */
	VBTF_NOT_READ = 110,             /* vbtf_open.h: the file cannot be read; errno says why */
	VBTF_TOO_LONG = 111              /* vbtf_header: the text would be too long */
};

/* An error of the library. Fields that the error does not have are 0. */
struct vbtf_error {
	uint32_t number;         /* the status of the call */
	uint32_t id;             /* the id of a type, or the number of a kind */
	uint64_t offset;
	uint64_t len;
	uint64_t section_len;
	uint32_t name_len;       /* the number of bytes of name, at most 255 */
	unsigned char name[255]; /* the first bytes of the name of a type, a symbol or a section; no zero byte ends it */
};

/* ---- tables */

struct vbtf_table {
	void *at;
	uint32_t state;
};

#define VBTF_TABLE_INIT { 0, 0 }

/* The byte order. VBTF_BY_MAGIC is big-endian if the data begins with 0xeb 0x9f, otherwise little-endian. */
enum vbtf_order { VBTF_LITTLE = 0, VBTF_BIG = 1, VBTF_BY_MAGIC = 2 };

enum vbtf_kind {
	VBTF_KIND_UNKNOWN, VBTF_KIND_INT, VBTF_KIND_PTR, VBTF_KIND_ARRAY, VBTF_KIND_STRUCT, VBTF_KIND_UNION,
	VBTF_KIND_ENUM, VBTF_KIND_FWD, VBTF_KIND_TYPEDEF, VBTF_KIND_VOLATILE, VBTF_KIND_CONST, VBTF_KIND_RESTRICT,
	VBTF_KIND_FUNC, VBTF_KIND_FUNC_PROTO, VBTF_KIND_VAR, VBTF_KIND_DATASEC, VBTF_KIND_FLOAT, VBTF_KIND_DECL_TAG,
	VBTF_KIND_TYPE_TAG, VBTF_KIND_ENUM64
};

/* Any kind, for vbtf_find_from. */
#define VBTF_ANY_KIND UINT32_MAX

/* The text of a kind, such as `[INT]`; null if there is no such kind. */
VBTF_INLINE const char *vbtf_kind_text(uint32_t kind)
{
	static const char *const texts[] = {
		"[UNKNOWN]", "[INT]", "[PTR]", "[ARRAY]", "[STRUCT]", "[UNION]", "[ENUM]", "[FWD]", "[TYPEDEF]",
		"[VOLATILE]", "[CONST]", "[RESTRICT]", "[FUNC]", "[FUNC_PROTO]", "[VAR]", "[DATASEC]", "[FLOAT]",
		"[DECL_TAG]", "[TYPE_TAG]", "[ENUM64]",
	};
	return kind < sizeof texts / sizeof *texts ? texts[kind] : NULL;
}

/* The kind and the first words of a record. */
struct vbtf_type {
	uint32_t kind;
	uint32_t name_offset;
	uint32_t info;           /* vlen in bits 0 to 15, the kind in bits 24 to 28, the kind flag in bit 31 */
	uint32_t size_or_type;   /* the size in bytes, or the id of another type, by the kind; 0 of a kind without both */
};

/* The number of members, variants, parameters or entries of a type. The vlen of a FUNC is its linkage. */
VBTF_INLINE uint32_t vbtf_vlen(const struct vbtf_type *type)
{
	return type->info & 0xffff;
}

/*
 * The kind flag. Of a STRUCT or UNION: some members may be bit-fields. Of an ENUM or ENUM64: the values are signed. Of
 * a FWD: the type is a UNION.
 */
VBTF_INLINE bool vbtf_kind_flag(const struct vbtf_type *type)
{
	return type->info >> 31 == 1;
}

/* A member of a STRUCT or UNION. */
struct vbtf_member {
	uint32_t name_offset;
	uint32_t type;
	uint32_t bit_offset;
	uint32_t bit_field_size; /* in bits; 0 for a member that is no bit-field */
};

/* A variant of an ENUM or ENUM64. */
struct vbtf_variant {
	uint32_t name_offset;
	uint32_t bits;           /* the number of bits of the value: 32 in an ENUM, 64 in an ENUM64 */
	bool is_signed;
	uint64_t value;          /* zero-extended to 64 bits, even if it is signed */
};

/* A parameter of a FUNC_PROTO. The last one of a variadic function has type 0 and no name. */
struct vbtf_param {
	uint32_t name_offset;
	uint32_t type;
};

/* An entry of a DATASEC: a variable, and its offset and size in the section in bytes. */
struct vbtf_entry {
	uint32_t type;
	uint32_t offset;
	uint32_t size;
};

struct vbtf_array {
	uint32_t type;           /* the type of an element */
	uint32_t index_type;
	uint32_t len;
};

/* The fields of an INT besides its size. */
struct vbtf_int {
	uint32_t encoding;       /* 1 for signed, 2 for char, 4 for bool, or 0 */
	uint32_t offset;         /* the first bit of the integer */
	uint32_t bits;
};

/* The linkage of a VAR or FUNC. VBTF_LINKAGE_UNKNOWN is any other. */
enum vbtf_linkage {
	VBTF_LINKAGE_STATIC, VBTF_LINKAGE_GLOBAL, VBTF_LINKAGE_EXTERN, VBTF_LINKAGE_UNKNOWN
};

/* An item of a type as words of its record, which vbtf_member_at and the calls after it read. */
struct vbtf_item {
	uint32_t info;           /* the info word of the type */
	uint32_t count;          /* the number of words of the item */
	uint32_t words[3];
};

/* The bytes of names in the memory of a table, up to the last zero byte. */
struct vbtf_name_bytes {
	const char *at;
	size_t len;
};

/* ---- views */

/* What a blob has. Offsets and lengths are in bytes. */
struct vbtf_view_parts {
	uint64_t types_at;       /* the type section in the blob */
	uint64_t types_len;
	uint64_t strings_at;     /* the string section in the blob */
	uint64_t strings_len;
	uint64_t names_len;      /* a name can be read at each string offset below it, and at no other */
	uint64_t count;          /* the number of types, including the type of id 0 */
	uint32_t order;          /* VBTF_LITTLE or VBTF_BIG */
	uint16_t magic;          /* of the header; magic, version and flags are not checked */
	uint8_t version;
	uint8_t flags;
};

/*
 * A view: a table that is only read. It has the caller's blob, which has to stay as it is, and 4 bytes for each type.
 * A view has no state: any number of threads can read one, and each can have a copy of the struct.
 */
struct vbtf_view {
	const uint8_t *types;
	const uint8_t *strings;
	uint32_t *places;        /* where each record begins in the types */
	struct vbtf_view_parts parts;
};

#define VBTF_VIEW_INIT { NULL, NULL, NULL, { 0, 0, 0, 0, 0, 0, 0, 0, 0, 0 } }

/* Where the bytes of a section are in an object, and the byte order of the object. */
struct vbtf_section {
	uint64_t offset;
	uint64_t len;            /* 0 for a section that has no bytes in the object */
	uint32_t order;          /* VBTF_LITTLE or VBTF_BIG */
};

/* ---- .BTF.ext */

enum vbtf_part { VBTF_PART_FUNC_INFO = 0, VBTF_PART_LINE_INFO = 1 };

/* The sizes of the records of a .BTF.ext in bytes, 0 if there are none, and the numbers of sections with records. */
struct vbtf_ext_sizes {
	uint64_t func_size;
	uint64_t line_size;
	uint64_t func_sections;
	uint64_t line_sections;
	uint64_t relocation_sections;
};

/* The first instruction of a function, counted from the first of the section, and the id of the FUNC. */
struct vbtf_func_info {
	uint32_t instruction;
	uint32_t type;
};

/* The line of source that an instruction is from. */
struct vbtf_line_info {
	uint32_t instruction;
	uint32_t file_name_offset;
	uint32_t line_offset;    /* of the text of the line */
	uint32_t line_column;    /* the line number in bits 10 to 31, and the column in bits 0 to 9 */
};

/* A relocation for the kernel at hand (CO-RE). */
struct vbtf_relocation {
	uint32_t offset;         /* of the instruction, in bytes */
	uint32_t type;
	uint32_t access_offset;  /* of the text that names the member, such as "0:1:2" */
	uint32_t kind;
};

/* ---- kernels and programs, for a rewrite */

/* The features of a kernel, by the position of their bits in `features`. */
enum vbtf_feature {
	VBTF_FEATURE_FUNC,         /* FUNC and FUNC_PROTO */
	VBTF_FEATURE_FUNC_GLOBAL,  /* a FUNC whose linkage is Global */
	VBTF_FEATURE_DATASEC,      /* VAR and DATASEC */
	VBTF_FEATURE_DATASEC_ZERO, /* a DATASEC without entries */
	VBTF_FEATURE_FLOAT,
	VBTF_FEATURE_DECL_TAG,
	VBTF_FEATURE_TYPE_TAG,
	VBTF_FEATURE_ENUM64        /* ENUM64, and an ENUM with a sign */
};

struct vbtf_kernel {
	uint32_t features;       /* 1 << VBTF_FEATURE_FUNC for FUNC, and so on */
	uint32_t fill_sized;     /* not 0: a sized DATASEC without entries gets an entry if the kernel requires one */
	uint32_t ksyms;          /* the id of the DATASEC .ksyms; 0 for none */
	uint32_t placeholder;    /* the id of the variable that replaces functions in it; 0 for none */
};

/* A name in a buffer, and the size of the section or the offset of the symbol that has it. */
struct vbtf_named {
	uint32_t at;             /* the offset of the name in the buffer */
	uint32_t len;
	uint64_t number;
};

/* The sections or the symbols of a program. `names` can be a string table of an object. */
struct vbtf_names {
	const char *names;
	size_t names_len;
	const struct vbtf_named *entries;
	size_t count;
};

/* The features that a rewrite asked about, in order, and whether the kernel has them (1) or not (0). */
struct vbtf_asked {
	uint32_t count;
	uint8_t features[32];    /* as many as the bits of a kernel's features: later versions may know more than eight */
	uint8_t granted[32];
};

/* ---- relocations of objects */

/* The options of vbtf_relocate_object. */
enum vbtf_option {
	VBTF_FRESH_CANDIDATES = 1, /* each record has all candidates, as in the kernel; otherwise those of libbpf */
	VBTF_KEEP_REFUSED = 2      /* a record with an error changes nothing; otherwise it refuses the object */
};

/* The numbers of relocation records of an object, apart from sections without code in the file. */
struct vbtf_tally {
	uint64_t records;
	uint64_t poisoned;       /* whose instruction became a call that the kernel refuses */
	uint64_t refused;        /* with an error */
};

/* What a relocation asks to be written into its instruction. */
struct vbtf_relocated {
	uint64_t expected;       /* the value for the program's own table, which the compiler wrote */
	uint64_t value;          /* the value for the target */
	uint32_t local_size;     /* in bytes, of the field that a load or store reads or writes; 0 if there is none */
	uint32_t target_size;    /* of the target's field */
	bool is_poisoned;        /* the instruction becomes a call that the kernel refuses: nothing matches */
	bool validates;          /* the instruction must have the expected value before it is patched */
	bool is_adjustable;      /* a load or store may get the target's size */
};

/* ---- the exported calls, which the inline functions below call; slices may not be null */

uint32_t vbtf_version(void);
uint32_t vbtf_raw_new(struct vbtf_table *table, struct vbtf_error *error);
void vbtf_close(struct vbtf_table *table);
uint32_t vbtf_raw_parse(struct vbtf_table *table, const uint8_t *data, size_t len, uint32_t order,
                        struct vbtf_error *error);
uint32_t vbtf_lent_clone(struct vbtf_table *table, struct vbtf_table *copy, struct vbtf_error *error);
uint32_t vbtf_lent_parse_over(struct vbtf_table *base, struct vbtf_table *table, const uint8_t *data, size_t len,
                              uint32_t order, struct vbtf_error *error);
uint32_t vbtf_lent_split_bytes(struct vbtf_table *table, uint32_t base_types, uint32_t base_strings, uint8_t *out,
                               size_t room, uint64_t *needed, struct vbtf_error *error);
uint32_t vbtf_lent_string_len(struct vbtf_table *table, uint32_t *len);
uint32_t vbtf_lent_string_count(struct vbtf_table *table, uint64_t *count);
uint32_t vbtf_raw_append_split(struct vbtf_table *table, const uint8_t *data, size_t len, uint32_t order,
                               struct vbtf_error *error);
uint32_t vbtf_raw_truncate(struct vbtf_table *table, uint32_t base_types, uint32_t base_strings,
                           struct vbtf_error *error);
uint32_t vbtf_raw_section(const uint8_t *object, size_t len, const uint8_t *name, size_t name_len,
                          struct vbtf_section *section, struct vbtf_error *error);
uint32_t vbtf_raw_add_string(struct vbtf_table *table, const uint8_t *text, size_t len, uint32_t *offset,
                             struct vbtf_error *error);
uint32_t vbtf_raw_add_type(struct vbtf_table *table, const uint8_t *record, size_t len, uint32_t order, uint32_t *id,
                           struct vbtf_error *error);
uint32_t vbtf_raw_error_text(const struct vbtf_error *error, uint8_t *out, size_t room, uint64_t *needed);
uint32_t vbtf_lent_count(struct vbtf_table *table, uint64_t *count);
uint32_t vbtf_lent_type(struct vbtf_table *table, uint32_t id, struct vbtf_type *type, struct vbtf_error *error);
uint32_t vbtf_lent_types(struct vbtf_table *table, uint32_t first, struct vbtf_type *out, size_t room, uint64_t *count);
uint32_t vbtf_lent_sizes(struct vbtf_table *table, uint32_t first, uint64_t *out, size_t room, uint64_t *count);
uint32_t vbtf_lent_resolved(struct vbtf_table *table, uint32_t first, uint32_t *out, size_t room, uint64_t *count);
uint32_t vbtf_lent_find(struct vbtf_table *table, const uint8_t *name, size_t len, uint32_t kind, uint32_t *id,
                        struct vbtf_error *error);
uint32_t vbtf_lent_find_from(struct vbtf_table *table, const uint8_t *name, size_t len, uint32_t kind, uint32_t first,
                             uint32_t *id, struct vbtf_error *error);
uint32_t vbtf_lent_index_find(struct vbtf_table *table, const uint8_t *name, size_t len, uint32_t kind, uint32_t *id,
                              struct vbtf_error *error);
uint32_t vbtf_lent_order(struct vbtf_table *table, uint32_t *order);
uint32_t vbtf_lent_alignment(struct vbtf_table *table, uint32_t id, uint32_t *alignment, struct vbtf_error *error);
uint32_t vbtf_lent_alignments(struct vbtf_table *table, uint32_t first, uint32_t *out, size_t room, uint64_t *count,
                              struct vbtf_error *error);
uint32_t vbtf_lent_resolve(struct vbtf_table *table, uint32_t id, uint32_t *to, struct vbtf_error *error);
uint32_t vbtf_lent_size(struct vbtf_table *table, uint32_t id, uint64_t *size, struct vbtf_error *error);
uint32_t vbtf_lent_header(struct vbtf_table *table, uint8_t *out, size_t room, uint64_t *needed,
                          struct vbtf_error *error);
uint32_t vbtf_lent_text(struct vbtf_table *table, uint32_t offset, uint8_t *out, size_t room, uint64_t *needed,
                        struct vbtf_error *error);
uint32_t vbtf_lent_name(struct vbtf_table *table, uint32_t offset, struct vbtf_name_bytes *name, size_t *len,
                        struct vbtf_error *error);
uint32_t vbtf_lent_names(struct vbtf_table *table, struct vbtf_name_bytes *names);
uint32_t vbtf_lent_bytes(struct vbtf_table *table, uint8_t *out, size_t room, uint64_t *needed,
                         struct vbtf_error *error);
uint32_t vbtf_lent_item(struct vbtf_table *table, uint32_t id, uint32_t index, struct vbtf_item *item,
                        struct vbtf_error *error);
uint32_t vbtf_lent_members(struct vbtf_table *table, uint32_t id, struct vbtf_member *out, size_t room,
                           uint64_t *count, struct vbtf_error *error);
uint32_t vbtf_lent_variants(struct vbtf_table *table, uint32_t id, struct vbtf_variant *out, size_t room,
                            uint64_t *count, struct vbtf_error *error);
uint32_t vbtf_lent_params(struct vbtf_table *table, uint32_t id, struct vbtf_param *out, size_t room, uint64_t *count,
                          struct vbtf_error *error);
uint32_t vbtf_lent_entries(struct vbtf_table *table, uint32_t id, struct vbtf_entry *out, size_t room, uint64_t *count,
                           struct vbtf_error *error);
uint32_t vbtf_lent_value(struct vbtf_table *table, uint32_t id, const uint8_t *name, size_t len, uint64_t *value,
                         struct vbtf_error *error);
uint32_t vbtf_lent_fields_compatible(struct vbtf_table *local, uint32_t id, struct vbtf_table *target, uint32_t other,
                                     bool *answer, struct vbtf_error *error);
uint32_t vbtf_lent_types_compatible(struct vbtf_table *local, uint32_t id, struct vbtf_table *target, uint32_t other,
                                    bool *answer, struct vbtf_error *error);

uint32_t vbtf_raw_view_index(const uint8_t *data, size_t len, uint32_t order, uint32_t *places, size_t room,
                             struct vbtf_view_parts *parts, struct vbtf_error *error);
uint32_t vbtf_raw_view_types(const uint8_t *types, size_t types_len, const uint32_t *places, size_t places_len,
                             uint32_t order, uint32_t first, struct vbtf_type *out, size_t room, uint64_t *count);
uint32_t vbtf_raw_view_sizes(const uint8_t *types, size_t types_len, const uint32_t *places, size_t places_len,
                             uint32_t order, uint32_t first, uint64_t *out, size_t room, uint64_t *count);
uint32_t vbtf_raw_view_resolved(const uint8_t *types, size_t types_len, const uint32_t *places, size_t places_len,
                                uint32_t order, uint32_t first, uint32_t *out, size_t room, uint64_t *count);
uint32_t vbtf_raw_view_size(const uint8_t *types, size_t types_len, const uint32_t *places, size_t places_len,
                            uint32_t order, uint32_t id, uint64_t *size, struct vbtf_error *error);
uint32_t vbtf_raw_view_resolve(const uint8_t *types, size_t types_len, const uint32_t *places, size_t places_len,
                               uint32_t order, uint32_t id, uint32_t *to, struct vbtf_error *error);
uint32_t vbtf_raw_view_members(const uint8_t *types, size_t types_len, const uint32_t *places, size_t places_len,
                               uint32_t order, uint32_t id, struct vbtf_member *out, size_t room, uint64_t *count,
                               struct vbtf_error *error);
uint32_t vbtf_raw_view_variants(const uint8_t *types, size_t types_len, const uint32_t *places, size_t places_len,
                               uint32_t order, uint32_t id, struct vbtf_variant *out, size_t room, uint64_t *count,
                               struct vbtf_error *error);
uint32_t vbtf_raw_view_params(const uint8_t *types, size_t types_len, const uint32_t *places, size_t places_len,
                               uint32_t order, uint32_t id, struct vbtf_param *out, size_t room, uint64_t *count,
                               struct vbtf_error *error);
uint32_t vbtf_raw_view_entries(const uint8_t *types, size_t types_len, const uint32_t *places, size_t places_len,
                               uint32_t order, uint32_t id, struct vbtf_entry *out, size_t room, uint64_t *count,
                               struct vbtf_error *error);
uint32_t vbtf_raw_view_members_from(const uint8_t *types, size_t types_len, const uint32_t *places, size_t places_len,
                                    uint32_t order, uint32_t first, uint32_t *counts, size_t ids,
                                    struct vbtf_member *out, size_t room, uint64_t *done, uint64_t *written);
uint32_t vbtf_raw_view_find(const uint8_t *types, size_t types_len, const uint8_t *strings, size_t strings_len,
                            const uint32_t *places, size_t places_len, uint32_t order, const uint8_t *name, size_t len,
                            uint32_t kind, uint32_t *id, struct vbtf_error *error);

uint32_t vbtf_raw_rewrite(struct vbtf_table *table, const uint8_t *section_names, size_t section_names_len,
                          const struct vbtf_named *sections, size_t section_count, const uint8_t *symbol_names,
                          size_t symbol_names_len, const struct vbtf_named *symbols, size_t symbol_count,
                          const struct vbtf_kernel *kernel, uint64_t seed, struct vbtf_asked *asked,
                          struct vbtf_error *error);

uint32_t vbtf_raw_sanitize_object(const uint8_t *object, size_t len, const struct vbtf_kernel *kernel,
                                  const uint8_t *placeholder, size_t placeholder_len, uint64_t seed, uint8_t *out,
                                  size_t room, uint64_t *needed, struct vbtf_asked *asked, struct vbtf_error *error);

uint32_t vbtf_lent_relocate_object(const uint8_t *object, size_t len, struct vbtf_table *target, uint32_t options,
                                   uint64_t seed, uint8_t *out, size_t room, uint64_t *needed,
                                   struct vbtf_tally *tally, struct vbtf_error *error);

uint32_t vbtf_raw_target_open(struct vbtf_table *table, struct vbtf_error *error);
void vbtf_target_close(struct vbtf_table *table);
uint32_t vbtf_lent_relocate(struct vbtf_table *local, struct vbtf_table *target,
                            const struct vbtf_relocation *relocation, struct vbtf_relocated *relocated,
                            struct vbtf_error *error);

uint32_t vbtf_raw_open_ext(struct vbtf_table *table, const uint8_t *data, size_t len, uint32_t order, uint64_t seed,
                           struct vbtf_error *error);
void vbtf_close_ext(struct vbtf_table *table);
uint32_t vbtf_lent_ext(struct vbtf_table *table, struct vbtf_ext_sizes *ext);
uint32_t vbtf_lent_ext_names(struct vbtf_table *table, uint32_t part, uint8_t *out, size_t room, uint64_t *needed,
                             struct vbtf_error *error);
uint32_t vbtf_lent_ext_section(struct vbtf_table *table, uint32_t index, uint32_t *name_offset);
uint32_t vbtf_lent_ext_records(struct vbtf_table *table, uint32_t part, const uint8_t *name, size_t len, uint8_t *out,
                               size_t room, uint64_t *needed, struct vbtf_error *error);
uint32_t vbtf_lent_ext_relocations(struct vbtf_table *table, const uint8_t *name, size_t len, uint32_t *out,
                                   size_t room, uint64_t *needed, struct vbtf_error *error);

/* A loan of a table, for calls that only read it. */
static inline struct vbtf_table vbtf_loan(const struct vbtf_table *table)
{
	struct vbtf_table loan;
	loan.at = table->at;
	loan.state = table->state == 1 ? 2 : table->state;
	return loan;
}

/* A pointer to bytes, which is not null. */
static inline const uint8_t *vbtf_bytes_or_none(const void *bytes)
{
	return bytes ? (const uint8_t *)bytes : (const uint8_t *)"";
}

/* ---- errors */

/* The error that a call writes: the caller's, or another one that nobody reads. */
static inline struct vbtf_error *vbtf_error_or(struct vbtf_error *error, struct vbtf_error *unread)
{
	return error ? error : unread;
}

/* The maximum length of the text of an error, including the zero byte after it. */
#define VBTF_ERROR_ROOM 400

/*
 * Writes the text of a status, and of the error that the call described, to the buffer, with a zero byte after it, and
 * returns the buffer. Without an error, the text has 0 in place of its number, and no name. For VBTF_RELOCATION_REFUSED
 * it is the reason of the error; without an error, "a relocation has an error". If the buffer is too short, the text is
 * truncated. If an allocation for the text fails, the text is "out of memory".
 */
VBTF_INLINE const char *vbtf_error_text(uint32_t status, const struct vbtf_error *error, char *out, size_t room)
{
	static const char *const texts[] = {
		"buffer too short", "not open", "invalid argument", "no such item", "not an ELF object that is read here",
		"the object has no section .BTF", "the bytes of the section .BTF cannot be replaced",
		"a relocation has an error", "a section with relocations shares its place with another section",
		"the name of a section of relocations cannot be read", "the file cannot be read",
	};
	struct vbtf_error unknown = { 0, 0, 0, 0, 0, 0, { 0 } };
	uint8_t written[1024];
	const char *text = "unknown error";
	uint64_t len = 0;
	uint32_t answer;
	size_t end = 0;
	if (status == VBTF_OK)
		text = "no error";
	else if (status >= VBTF_NO_ROOM && status - VBTF_NO_ROOM < sizeof texts / sizeof *texts)
		text = texts[status - VBTF_NO_ROOM];
	if (status < VBTF_NO_ROOM || status == VBTF_RELOCATION_REFUSED) {
		unknown.number = status;
		answer = vbtf_raw_error_text(error ? error : &unknown, written, sizeof written - 1, &len);
		written[len < sizeof written ? len : 0] = 0;
		if (answer == VBTF_OK)
			text = (const char *)written;
		else if (answer == VBTF_OUT_OF_MEMORY)
			text = "out of memory";
	}
	if (room == 0)
		return "";
	for (; end + 1 < room && text[end]; end++)
		out[end] = text[end];
	out[end] = 0;
	return out;
}

/* Describes an error that a function of this header found, and returns its status. */
static inline uint32_t vbtf_describe(struct vbtf_error *error, uint32_t number, uint32_t id)
{
	if (!error)
		return number;
	error->number = number;
	error->id = id;
	error->offset = 0;
	error->len = 0;
	error->section_len = 0;
	error->name_len = 0;
	return number;
}

/* ---- open and write */

/*
 * Opens a closed table that has no type but that of id 0, in little-endian order. VBTF_BAD_ARGUMENT if the table is
 * open; it is then unchanged.
 */
VBTF_INLINE uint32_t vbtf_new(struct vbtf_table *table, struct vbtf_error *error)
{
	struct vbtf_error unread;
	return vbtf_raw_new(table, vbtf_error_or(error, &unread));
}

/*
 * Opens a closed table with the table that the bytes of a .BTF section represent, whose words are in this order.
 *
 * VBTF_INVALID_HEADER, VBTF_INVALID_TYPE_INFO, VBTF_INVALID_TYPE_KIND: the first error, in the order that
 * docs/BEHAVIOUR.md states. VBTF_BAD_ARGUMENT if the table is open, or the order is no order. After an error the
 * table is unchanged.
 */
VBTF_INLINE uint32_t vbtf_parse(struct vbtf_table *table, const void *data, size_t len, uint32_t order,
                                  struct vbtf_error *error)
{
	struct vbtf_error unread;
	return vbtf_raw_parse(table, vbtf_bytes_or_none(data), len, order, vbtf_error_or(error, &unread));
}

/*
 * Opens a closed table with a copy of another table, without its .BTF.ext and its index. VBTF_CLOSED if `table` is not
 * open, otherwise VBTF_BAD_ARGUMENT if `copy` is open. After an error `copy` is unchanged.
 */
VBTF_INLINE uint32_t vbtf_clone(const struct vbtf_table *table, struct vbtf_table *copy, struct vbtf_error *error)
{
	struct vbtf_error unread;
	struct vbtf_table loan = vbtf_loan(table);
	return vbtf_lent_clone(&loan, copy, vbtf_error_or(error, &unread));
}

/* Closes a table, its .BTF.ext and its index, and frees them: `vbtf_close`, above. A closed table stays closed. */

/*
 * Writes the bytes of the table, in its own order, and their number to `needed`. VBTF_NO_ROOM if the buffer has less
 * room: then only `needed` is written.
 */
VBTF_INLINE uint32_t vbtf_bytes(const struct vbtf_table *table, void *out, size_t room, uint64_t *needed,
                                  struct vbtf_error *error)
{
	struct vbtf_error unread;
	struct vbtf_table loan = vbtf_loan(table);
	uint8_t none;
	return vbtf_lent_bytes(&loan, out ? (uint8_t *)out : &none, out ? room : 0, needed, vbtf_error_or(error, &unread));
}

/* ---- split tables */

/*
 * Opens a closed table with the types of a base and those of a split table over it, such as the BTF of a kernel module
 * over that of the kernel. The ids of the split table begin after the last id of the base, and its string offsets after
 * the strings of the base. The table has its own copy of the base, which may then be closed.
 *
 * The errors are those of vbtf_parse for the data; also VBTF_INVALID_HEADER if the strings of both are longer than
 * 4294967295 bytes, or VBTF_INVALID_TYPE_INFO if the types are. VBTF_CLOSED if the base is not open. After an error
 * the table is unchanged.
 */
VBTF_INLINE uint32_t vbtf_parse_over(struct vbtf_table *table, const struct vbtf_table *base, const void *data,
                                       size_t len, uint32_t order, struct vbtf_error *error)
{
	struct vbtf_error unread;
	struct vbtf_table loan = vbtf_loan(base);
	return vbtf_lent_parse_over(&loan, table, vbtf_bytes_or_none(data), len, order, vbtf_error_or(error, &unread));
}

/*
 * Writes the types of a table above a base as the bytes of a split table, as vbtf_bytes writes the whole. The base is
 * the first `base_types` types, including the type of id 0, and the first `base_strings` bytes of the strings: the
 * vbtf_count and the vbtf_string_len of the base. VBTF_UNKNOWN_TYPE if `base_types` is 0 or the table has fewer types;
 * otherwise VBTF_INVALID_STRING_OFFSET if the table has fewer bytes of strings.
 */
VBTF_INLINE uint32_t vbtf_split_bytes(const struct vbtf_table *table, uint32_t base_types, uint32_t base_strings,
                                        void *out, size_t room, uint64_t *needed, struct vbtf_error *error)
{
	struct vbtf_error unread;
	struct vbtf_table loan = vbtf_loan(table);
	uint8_t none;
	return vbtf_lent_split_bytes(&loan, base_types, base_strings, out ? (uint8_t *)out : &none, out ? room : 0,
	                             needed, vbtf_error_or(error, &unread));
}

/* The length of the strings in bytes, where the string offsets of a split table over this table begin. */
VBTF_INLINE uint32_t vbtf_string_len(const struct vbtf_table *table, uint32_t *len)
{
	struct vbtf_table loan = vbtf_loan(table);
	return vbtf_lent_string_len(&loan, len);
}

/* The number of strings, which is the number of zero bytes in them. */
VBTF_INLINE uint32_t vbtf_string_count(const struct vbtf_table *table, uint64_t *count)
{
	struct vbtf_table loan = vbtf_loan(table);
	return vbtf_lent_string_count(&loan, count);
}

/*
 * Appends the types and the strings of a split table to its base, and closes the base's index. vbtf_truncate removes
 * them, so that the modules of a kernel can be read one after another over one table. `order`: as vbtf_parse; the table
 * keeps its own. After an error the table is unchanged.
 *
 * The errors of vbtf_parse_over.
 */
VBTF_INLINE uint32_t vbtf_append_split(struct vbtf_table *table, const void *data, size_t len, uint32_t order,
                                       struct vbtf_error *error)
{
	struct vbtf_error unread;
	return vbtf_raw_append_split(table, vbtf_bytes_or_none(data), len, order, vbtf_error_or(error, &unread));
}

/*
 * Removes all types except the first `base_types`, id 0 included, and all bytes of the strings except the first
 * `base_strings`, and closes the index. After an error the table is unchanged.
 *
 * VBTF_UNKNOWN_TYPE if `base_types` is 0 or the table has fewer types; VBTF_INVALID_STRING_OFFSET if it has fewer bytes
 * of strings.
 */
VBTF_INLINE uint32_t vbtf_truncate(struct vbtf_table *table, uint32_t base_types, uint32_t base_strings,
                                   struct vbtf_error *error)
{
	struct vbtf_error unread;
	return vbtf_raw_truncate(table, base_types, base_strings, vbtf_error_or(error, &unread));
}

/* ---- read */

/* The number of types of the table, including the type of id 0. */
VBTF_INLINE uint32_t vbtf_count(const struct vbtf_table *table, uint64_t *count)
{
	struct vbtf_table loan = vbtf_loan(table);
	return vbtf_lent_count(&loan, count);
}

/* The byte order of the table: VBTF_LITTLE or VBTF_BIG. */
VBTF_INLINE uint32_t vbtf_order(const struct vbtf_table *table, uint32_t *order)
{
	struct vbtf_table loan = vbtf_loan(table);
	return vbtf_lent_order(&loan, order);
}

/* The kind and the first words of the type of an id; VBTF_UNKNOWN_TYPE if there is none. */
VBTF_INLINE uint32_t vbtf_type_by_id(const struct vbtf_table *table, uint32_t id, struct vbtf_type *type,
                                       struct vbtf_error *error)
{
	struct vbtf_error unread;
	struct vbtf_table loan = vbtf_loan(table);
	return vbtf_lent_type(&loan, id, type, vbtf_error_or(error, &unread));
}

/*
 * What vbtf_type_by_id writes for the ids from `first` on, in one call: as many types as there are and as fit in the
 * buffer. Their number goes to `count`; it is 0 if no type has the id `first`.
 */
VBTF_INLINE uint32_t vbtf_types(const struct vbtf_table *table, uint32_t first, struct vbtf_type *out, size_t room,
                                  uint64_t *count)
{
	struct vbtf_table loan = vbtf_loan(table);
	struct vbtf_type none;
	return vbtf_lent_types(&loan, first, out ? out : &none, out ? room : 0, count);
}

/*
 * The text at a string offset, up to the first zero byte, in UTF-8 and without a zero byte after it: U+FFFD is in the
 * place of each piece that is not UTF-8. VBTF_INVALID_STRING_OFFSET if no zero byte is at the offset or after it.
 * VBTF_NO_ROOM if the buffer is shorter than the text: then only `needed` is written, the length of the text.
 */
VBTF_INLINE uint32_t vbtf_text_at(const struct vbtf_table *table, uint32_t offset, void *out, size_t room,
                                    uint64_t *needed, struct vbtf_error *error)
{
	struct vbtf_error unread;
	struct vbtf_table loan = vbtf_loan(table);
	uint8_t none;
	return vbtf_lent_text(&loan, offset, out ? (uint8_t *)out : &none, out ? room : 0, needed,
	                      vbtf_error_or(error, &unread));
}

/*
 * All types of the table as a C header, as `bpftool btf dump .. format c` writes it, without a zero byte after it.
 * VBTF_UNKNOWN_TYPE, VBTF_UNEXPECTED_TYPE, VBTF_TOO_DEEP: no C declaration can have the type error.id.
 * VBTF_TOO_LONG: the text would be far longer than the table. VBTF_NO_ROOM if the buffer is shorter than the text: then
 * only `needed` is written, the length of the text.
 */
VBTF_INLINE uint32_t vbtf_header(const struct vbtf_table *table, void *out, size_t room, uint64_t *needed,
                                 struct vbtf_error *error)
{
	struct vbtf_error unread;
	struct vbtf_table loan = vbtf_loan(table);
	uint8_t none;
	return vbtf_lent_header(&loan, out ? (uint8_t *)out : &none, out ? room : 0, needed, vbtf_error_or(error, &unread));
}

/*
 * The name at a string offset, without a copy: a pointer to its first byte in the table, and the number of bytes before
 * its zero byte. They are the bytes of the table, whatever they are. They stay until the table is changed or closed.
 * VBTF_INVALID_STRING_OFFSET if no zero byte is at the offset or after it; `text` and `len` are then unchanged.
 */
VBTF_INLINE uint32_t vbtf_name(const struct vbtf_table *table, uint32_t offset, const char **text, size_t *len,
                                 struct vbtf_error *error)
{
	struct vbtf_error unread;
	struct vbtf_table loan = vbtf_loan(table);
	struct vbtf_name_bytes name = { NULL, 0 };
	uint32_t status = vbtf_lent_name(&loan, offset, &name, len, vbtf_error_or(error, &unread));
	if (status == VBTF_OK)
		*text = name.at;
	return status;
}

/*
 * The memory of all names, for who reads many: the name at each string offset below `names->len` is at
 * `names->at + offset`, up to its zero byte, and no name is at another offset. The bytes stay until the table is
 * changed or closed.
 */
VBTF_INLINE uint32_t vbtf_names(const struct vbtf_table *table, struct vbtf_name_bytes *names)
{
	struct vbtf_table loan = vbtf_loan(table);
	struct vbtf_name_bytes all = { NULL, 0 };
	uint32_t status = vbtf_lent_names(&loan, &all);
	if (status == VBTF_OK)
		*names = all;
	return status;
}

/* The name at a string offset in the memory of all names; null if no name is at the offset. */
VBTF_INLINE const char *vbtf_name_in(const struct vbtf_name_bytes *names, uint32_t offset)
{
	return offset < names->len ? names->at + offset : NULL;
}

/* ---- items of a type, by their index */

/* The first words of a type whose kind has its bit in `kinds`; otherwise VBTF_UNEXPECTED_TYPE. */
static inline uint32_t vbtf_type_of_kinds(struct vbtf_table *loan, uint32_t id, uint32_t kinds, struct vbtf_type *type,
                                          struct vbtf_error *error)
{
	struct vbtf_error unread;
	uint32_t status = vbtf_lent_type(loan, id, type, vbtf_error_or(error, &unread));
	if (status == VBTF_OK && !(kinds >> type->kind & 1))
		return vbtf_describe(error, VBTF_UNEXPECTED_TYPE, id);
	return status;
}

/* The kind in an info word, and the kind flag. */
static inline uint32_t vbtf_info_kind(uint32_t info)
{
	return info >> 24 & 0x1f;
}

static inline bool vbtf_info_flag(uint32_t info)
{
	return info >> 31 == 1;
}

/* An item of a type whose kind has its bit in `kinds`. */
static inline uint32_t vbtf_item_of_kinds(const struct vbtf_table *table, uint32_t id, uint32_t index, uint32_t kinds,
                                          struct vbtf_item *item, struct vbtf_error *error)
{
	struct vbtf_error unread;
	struct vbtf_table loan = vbtf_loan(table);
	struct vbtf_type type;
	uint32_t wanted, status = vbtf_lent_item(&loan, id, index, item, vbtf_error_or(error, &unread));
	if (status == VBTF_NO_ITEM) {
		wanted = vbtf_type_of_kinds(&loan, id, kinds, &type, vbtf_error_or(error, &unread));
		return wanted == VBTF_OK ? status : wanted;
	}
	if (status == VBTF_OK && !(kinds >> vbtf_info_kind(item->info) & 1))
		return vbtf_describe(error, VBTF_UNEXPECTED_TYPE, id);
	return status;
}

/*
 * A member of a STRUCT or UNION, a variant of an ENUM or ENUM64, a parameter of a FUNC_PROTO, an entry of a DATASEC.
 * The indices of a type are those below its vbtf_vlen. VBTF_UNKNOWN_TYPE if no type has the id, VBTF_UNEXPECTED_TYPE
 * if the type is of another kind, VBTF_NO_ITEM if it has no item of the index.
 */
VBTF_INLINE uint32_t vbtf_member_at(const struct vbtf_table *table, uint32_t id, uint32_t index,
                                      struct vbtf_member *member, struct vbtf_error *error)
{
	const uint32_t kinds = 1u << VBTF_KIND_STRUCT | 1u << VBTF_KIND_UNION;
	struct vbtf_item item;
	uint32_t status = vbtf_item_of_kinds(table, id, index, kinds, &item, error);
	if (status != VBTF_OK)
		return status;
	member->name_offset = item.words[0];
	member->type = item.words[1];
	member->bit_offset = vbtf_info_flag(item.info) ? item.words[2] & 0xffffff : item.words[2];
	member->bit_field_size = vbtf_info_flag(item.info) ? item.words[2] >> 24 : 0;
	return VBTF_OK;
}

VBTF_INLINE uint32_t vbtf_variant_at(const struct vbtf_table *table, uint32_t id, uint32_t index,
                                       struct vbtf_variant *variant, struct vbtf_error *error)
{
	const uint32_t kinds = 1u << VBTF_KIND_ENUM | 1u << VBTF_KIND_ENUM64;
	struct vbtf_item item;
	uint32_t status = vbtf_item_of_kinds(table, id, index, kinds, &item, error);
	if (status != VBTF_OK)
		return status;
	variant->name_offset = item.words[0];
	variant->bits = vbtf_info_kind(item.info) == VBTF_KIND_ENUM64 ? 64 : 32;
	variant->is_signed = vbtf_info_flag(item.info);
	variant->value = item.words[1];
	if (variant->bits == 64)
		variant->value |= (uint64_t)item.words[2] << 32;
	return VBTF_OK;
}

VBTF_INLINE uint32_t vbtf_param_at(const struct vbtf_table *table, uint32_t id, uint32_t index,
                                     struct vbtf_param *param, struct vbtf_error *error)
{
	struct vbtf_item item;
	uint32_t status = vbtf_item_of_kinds(table, id, index, 1u << VBTF_KIND_FUNC_PROTO, &item, error);
	if (status != VBTF_OK)
		return status;
	param->name_offset = item.words[0];
	param->type = item.words[1];
	return VBTF_OK;
}

VBTF_INLINE uint32_t vbtf_entry_at(const struct vbtf_table *table, uint32_t id, uint32_t index,
                                     struct vbtf_entry *entry, struct vbtf_error *error)
{
	struct vbtf_item item;
	uint32_t status = vbtf_item_of_kinds(table, id, index, 1u << VBTF_KIND_DATASEC, &item, error);
	if (status != VBTF_OK)
		return status;
	entry->type = item.words[0];
	entry->offset = item.words[1];
	entry->size = item.words[2];
	return VBTF_OK;
}

/*
 * What vbtf_member_at, vbtf_variant_at, vbtf_param_at and vbtf_entry_at write for the indices from 0 on, in one call:
 * as many items as the type has and as fit in the buffer. Their number goes to `count`. The errors are theirs, without
 * VBTF_NO_ITEM. After an error the buffer and `count` are unchanged.
 */
VBTF_INLINE uint32_t vbtf_members(const struct vbtf_table *table, uint32_t id, struct vbtf_member *out, size_t room,
                                    uint64_t *count, struct vbtf_error *error)
{
	struct vbtf_error unread;
	struct vbtf_table loan = vbtf_loan(table);
	struct vbtf_member none;
	return vbtf_lent_members(&loan, id, out ? out : &none, out ? room : 0, count, vbtf_error_or(error, &unread));
}

VBTF_INLINE uint32_t vbtf_variants(const struct vbtf_table *table, uint32_t id, struct vbtf_variant *out, size_t room,
                                     uint64_t *count, struct vbtf_error *error)
{
	struct vbtf_error unread;
	struct vbtf_table loan = vbtf_loan(table);
	struct vbtf_variant none;
	return vbtf_lent_variants(&loan, id, out ? out : &none, out ? room : 0, count, vbtf_error_or(error, &unread));
}

VBTF_INLINE uint32_t vbtf_params(const struct vbtf_table *table, uint32_t id, struct vbtf_param *out, size_t room,
                                   uint64_t *count, struct vbtf_error *error)
{
	struct vbtf_error unread;
	struct vbtf_table loan = vbtf_loan(table);
	struct vbtf_param none;
	return vbtf_lent_params(&loan, id, out ? out : &none, out ? room : 0, count, vbtf_error_or(error, &unread));
}

VBTF_INLINE uint32_t vbtf_entries(const struct vbtf_table *table, uint32_t id, struct vbtf_entry *out, size_t room,
                                    uint64_t *count, struct vbtf_error *error)
{
	struct vbtf_error unread;
	struct vbtf_table loan = vbtf_loan(table);
	struct vbtf_entry none;
	return vbtf_lent_entries(&loan, id, out ? out : &none, out ? room : 0, count, vbtf_error_or(error, &unread));
}

/*
 * The fields of an ARRAY, an INT, a VAR or FUNC, and a DECL_TAG. The component of a DECL_TAG is the index of a member
 * or parameter, or -1 for the type as a whole. VBTF_UNKNOWN_TYPE, VBTF_UNEXPECTED_TYPE: as above.
 */
VBTF_INLINE uint32_t vbtf_array_of(const struct vbtf_table *table, uint32_t id, struct vbtf_array *array,
                                     struct vbtf_error *error)
{
	struct vbtf_item item;
	uint32_t status = vbtf_item_of_kinds(table, id, 0, 1u << VBTF_KIND_ARRAY, &item, error);
	if (status != VBTF_OK)
		return status;
	array->type = item.words[0];
	array->index_type = item.words[1];
	array->len = item.words[2];
	return VBTF_OK;
}

VBTF_INLINE uint32_t vbtf_int_of(const struct vbtf_table *table, uint32_t id, struct vbtf_int *integer,
                                   struct vbtf_error *error)
{
	struct vbtf_item item;
	uint32_t status = vbtf_item_of_kinds(table, id, 0, 1u << VBTF_KIND_INT, &item, error);
	if (status != VBTF_OK)
		return status;
	integer->encoding = item.words[0] >> 24 & 0xf;
	integer->offset = item.words[0] >> 16 & 0xff;
	integer->bits = item.words[0] & 0xff;
	return VBTF_OK;
}

VBTF_INLINE uint32_t vbtf_linkage_of(const struct vbtf_table *table, uint32_t id, uint32_t *linkage,
                                       struct vbtf_error *error)
{
	struct vbtf_error unread;
	const uint32_t kinds = 1u << VBTF_KIND_VAR | 1u << VBTF_KIND_FUNC;
	struct vbtf_table loan = vbtf_loan(table);
	struct vbtf_type type;
	struct vbtf_item item;
	uint32_t status = vbtf_type_of_kinds(&loan, id, kinds, &type, vbtf_error_or(error, &unread));
	if (status == VBTF_OK && type.kind == VBTF_KIND_VAR)
		status = vbtf_lent_item(&loan, id, 0, &item, vbtf_error_or(error, &unread));
	if (status != VBTF_OK)
		return status;
	*linkage = type.kind == VBTF_KIND_VAR ? item.words[0] : vbtf_vlen(&type);
	if (*linkage > VBTF_LINKAGE_UNKNOWN)
		*linkage = VBTF_LINKAGE_UNKNOWN;
	return VBTF_OK;
}

VBTF_INLINE uint32_t vbtf_component_of(const struct vbtf_table *table, uint32_t id, int32_t *component,
                                         struct vbtf_error *error)
{
	struct vbtf_item item;
	uint32_t status = vbtf_item_of_kinds(table, id, 0, 1u << VBTF_KIND_DECL_TAG, &item, error);
	if (status == VBTF_OK)
		*component = (int32_t)item.words[0];
	return status;
}

/*
 * The value of the first variant of this name in the enumeration that `id` resolves to, or in the UNION that a rewrite
 * of this table put in place of an ENUM64. An ENUM's value of 32 bits is zero-extended, even if it is signed.
 *
 * The errors of vbtf_resolve; VBTF_UNEXPECTED_TYPE if the type is no enumeration; VBTF_INVALID_STRING_OFFSET if an
 * earlier variant has a name that cannot be read; VBTF_NO_ITEM if no variant has the name; VBTF_BAD_ARGUMENT if the
 * name is not UTF-8.
 */
VBTF_INLINE uint32_t vbtf_value(const struct vbtf_table *table, uint32_t id, const char *name, size_t len,
                                  uint64_t *value, struct vbtf_error *error)
{
	struct vbtf_error unread;
	struct vbtf_table loan = vbtf_loan(table);
	return vbtf_lent_value(&loan, id, vbtf_bytes_or_none(name), len, value, vbtf_error_or(error, &unread));
}

/* ---- look up and walk */

/*
 * The least id of a type of this kind and name, which may be id 0. VBTF_UNKNOWN_TYPE_NAME if there is none;
 * VBTF_INVALID_STRING_OFFSET if a type of the kind with a lower id has a name that cannot be read;
 * VBTF_BAD_ARGUMENT if the name is not UTF-8, or the kind is no kind.
 */
VBTF_INLINE uint32_t vbtf_find(const struct vbtf_table *table, const char *name, size_t len, uint32_t kind,
                                 uint32_t *id, struct vbtf_error *error)
{
	struct vbtf_error unread;
	struct vbtf_table loan = vbtf_loan(table);
	return vbtf_lent_find(&loan, vbtf_bytes_or_none(name), len, kind, id, vbtf_error_or(error, &unread));
}

/*
 * The least id from `first` on of a type of this name, and of this kind or of any kind (VBTF_ANY_KIND).
 * VBTF_UNKNOWN_TYPE_NAME if there is none; VBTF_INVALID_STRING_OFFSET if the search reaches a type of the kind whose
 * name cannot be read; VBTF_BAD_ARGUMENT if the name is not UTF-8, or the kind is no kind.
 */
VBTF_INLINE uint32_t vbtf_find_from(const struct vbtf_table *table, const char *name, size_t len, uint32_t kind,
                                      uint32_t first, uint32_t *id, struct vbtf_error *error)
{
	struct vbtf_error unread;
	struct vbtf_table loan = vbtf_loan(table);
	return vbtf_lent_find_from(&loan, vbtf_bytes_or_none(name), len, kind, first, id, vbtf_error_or(error, &unread));
}

/*
 * The id of the first type that is no TYPEDEF, VOLATILE, CONST, RESTRICT or TYPE_TAG, from `id` on.
 * VBTF_UNKNOWN_TYPE of an id that has no type; VBTF_TOO_DEEP if the first 32 types are of these kinds.
 */
VBTF_INLINE uint32_t vbtf_resolve(const struct vbtf_table *table, uint32_t id, uint32_t *to,
                                    struct vbtf_error *error)
{
	struct vbtf_error unread;
	struct vbtf_table loan = vbtf_loan(table);
	return vbtf_lent_resolve(&loan, id, to, vbtf_error_or(error, &unread));
}

/*
 * The size of a type in bytes. VBTF_UNKNOWN_TYPE, VBTF_UNEXPECTED_TYPE of a type that has no size,
 * VBTF_INVALID_TYPE_INFO if the size passes 32 bits, VBTF_TOO_DEEP: the first error of the walk from `id` on.
 */
VBTF_INLINE uint32_t vbtf_size(const struct vbtf_table *table, uint32_t id, uint64_t *size,
                                 struct vbtf_error *error)
{
	struct vbtf_error unread;
	struct vbtf_table loan = vbtf_loan(table);
	return vbtf_lent_size(&loan, id, size, vbtf_error_or(error, &unread));
}

/*
 * The alignment of a type in bytes, by libbpf's rule with pointers of 8 bytes (docs/TABLES.md). For many types,
 * vbtf_alignments is faster.
 *
 * VBTF_UNKNOWN_TYPE of an id that has no type; VBTF_UNEXPECTED_TYPE of the id of a type without an alignment;
 * VBTF_TOO_DEEP if the type contains itself.
 */
VBTF_INLINE uint32_t vbtf_alignment(const struct vbtf_table *table, uint32_t id, uint32_t *alignment,
                                    struct vbtf_error *error)
{
	struct vbtf_error unread;
	struct vbtf_table loan = vbtf_loan(table);
	return vbtf_lent_alignment(&loan, id, alignment, vbtf_error_or(error, &unread));
}

/*
 * The alignments of the types from `first` on, as many as there are and as fit in the buffer; their number goes to
 * `count`. A type for which vbtf_alignment returns an error has 0.
 */
VBTF_INLINE uint32_t vbtf_alignments(const struct vbtf_table *table, uint32_t first, uint32_t *out, size_t room,
                                     uint64_t *count, struct vbtf_error *error)
{
	struct vbtf_error unread;
	struct vbtf_table loan = vbtf_loan(table);
	uint32_t none;
	return vbtf_lent_alignments(&loan, first, out ? out : &none, out ? room : 0, count,
	                            vbtf_error_or(error, &unread));
}

/*
 * What vbtf_size writes for the ids from `first` on, in one call: as many sizes as there are types and as fit in the
 * buffer. Their number goes to `count`; it is 0 if no type has the id `first`. A type for which vbtf_size returns an
 * error has UINT64_MAX.
 */
VBTF_INLINE uint32_t vbtf_sizes(const struct vbtf_table *table, uint32_t first, uint64_t *out, size_t room,
                                  uint64_t *count)
{
	struct vbtf_table loan = vbtf_loan(table);
	uint64_t none;
	return vbtf_lent_sizes(&loan, first, out ? out : &none, out ? room : 0, count);
}

/*
 * What vbtf_resolve writes for the ids from `first` on, in one call, as vbtf_sizes writes the sizes. An id for which
 * vbtf_resolve returns an error has UINT32_MAX.
 */
VBTF_INLINE uint32_t vbtf_resolved(const struct vbtf_table *table, uint32_t first, uint32_t *out, size_t room,
                                     uint64_t *count)
{
	struct vbtf_table loan = vbtf_loan(table);
	uint32_t none;
	return vbtf_lent_resolved(&loan, first, out ? out : &none, out ? room : 0, count);
}

/* ---- compare; both tables may be one */

/*
 * Whether the types of two fields are compatible, by the rules of aya. docs/C.md lists where libbpf's
 * bpf_core_fields_are_compat answers otherwise. VBTF_UNEXPECTED_TYPE of a kind that no field has; VBTF_UNKNOWN_TYPE;
 * VBTF_INVALID_STRING_OFFSET; VBTF_TOO_DEEP. After an error `answer` is false.
 */
VBTF_INLINE uint32_t vbtf_fields_are_compatible(const struct vbtf_table *local, uint32_t id,
                                                  const struct vbtf_table *target, uint32_t other, bool *answer,
                                                  struct vbtf_error *error)
{
	struct vbtf_error unread;
	struct vbtf_table here = vbtf_loan(local), there = vbtf_loan(target);
	*answer = false;
	return vbtf_lent_fields_compatible(&here, id, &there, other, answer, vbtf_error_or(error, &unread));
}

/*
 * Whether two types are compatible, by the rules of aya, on cyclic types too. docs/C.md lists where libbpf's
 * bpf_core_types_are_compat answers otherwise. VBTF_UNEXPECTED_TYPE of a VAR, FUNC, DATASEC or DECL_TAG;
 * VBTF_UNKNOWN_TYPE; VBTF_TOO_DEEP, also of a pair of types that depends on itself. After an error `answer` is false.
 */
VBTF_INLINE uint32_t vbtf_types_are_compatible(const struct vbtf_table *local, uint32_t id,
                                                 const struct vbtf_table *target, uint32_t other, bool *answer,
                                                 struct vbtf_error *error)
{
	struct vbtf_error unread;
	struct vbtf_table here = vbtf_loan(local), there = vbtf_loan(target);
	*answer = false;
	return vbtf_lent_types_compatible(&here, id, &there, other, answer, vbtf_error_or(error, &unread));
}

/* ---- rewrite */

/*
 * Rewrites a table for a kernel that lacks some features, and reports the features that the rewrite asked about.
 * `sections` has the sizes of the program's sections, and `symbols` the offsets of its symbols; either may be null.
 * `seed` is a random number, as for vbtf_open_ext, with which their names are hashed. Ids stay, strings are only
 * appended, and at most four types are appended. Closes the index of the table.
 *
 * The first error: VBTF_INVALID_STRING_OFFSET, VBTF_UNKNOWN_TYPE, VBTF_UNEXPECTED_TYPE,
 * VBTF_INVALID_DATASEC, VBTF_UNKNOWN_SECTION_SIZE, VBTF_SYMBOL_NOT_FOUND, VBTF_INVALID_TYPE_INFO; VBTF_BAD_ARGUMENT
 * if a name of an entry is not in its buffer, or is not UTF-8. After an error the table is unchanged, and `asked` has
 * the first features that the rewrite asks about.
 */
VBTF_INLINE uint32_t vbtf_rewrite(struct vbtf_table *table, const struct vbtf_names *sections,
                                    const struct vbtf_names *symbols, const struct vbtf_kernel *kernel,
                                    uint64_t seed, struct vbtf_asked *asked, struct vbtf_error *error)
{
	struct vbtf_error unread;
	static const struct vbtf_named nothing = { 0, 0, 0 };
	static const struct vbtf_names none = { "", 0, &nothing, 0 };
	const struct vbtf_names *sizes = sections ? sections : &none, *offsets = symbols ? symbols : &none;
	return vbtf_raw_rewrite(table, vbtf_bytes_or_none(sizes->names), sizes->names_len,
	                        sizes->entries ? sizes->entries : &nothing, sizes->count,
	                        vbtf_bytes_or_none(offsets->names), offsets->names_len,
	                        offsets->entries ? offsets->entries : &nothing, offsets->count, kernel, seed, asked,
	                        vbtf_error_or(error, &unread));
}

/*
 * The first section of a name in an ELF object. After an error the section is unchanged.
 *
 * VBTF_NOT_AN_OBJECT: as vbtf_sanitize_object; VBTF_NO_TABLE if no section has the name.
 */
VBTF_INLINE uint32_t vbtf_section(const void *object, size_t len, const char *name, size_t name_len,
                                  struct vbtf_section *section, struct vbtf_error *error)
{
	struct vbtf_error unread;
	return vbtf_raw_section(vbtf_bytes_or_none(object), len, vbtf_bytes_or_none(name), name_len, section,
	                        vbtf_error_or(error, &unread));
}

/*
 * Rewrites the table in the section .BTF of an ELF object for a kernel. Writes the new object to a buffer, its length
 * in bytes to `needed`, and the features that the rewrite asked about to `asked`. The sizes of sections, the offsets of
 * symbols and the ids of .ksyms come from the object; `placeholder` is the name of the variable that replaces functions
 * of .ksyms, or empty if there is none. `seed` is a random number, with which the names of sections and symbols are
 * hashed: who does not know it cannot choose names that collide. Every other section has the same bytes.
 *
 * VBTF_NO_ROOM if the buffer has less room: then only `needed` and `asked` are written. The first error:
 * VBTF_NOT_AN_OBJECT, where error.id is the number of the reason in docs/OBJECTS.md, from 1 on, and error.offset the
 * index of the section or symbol that it names; VBTF_NO_TABLE; those of vbtf_parse and vbtf_rewrite, and
 * VBTF_UNKNOWN_TYPE_NAME of the placeholder; VBTF_NOT_REPLACEABLE. VBTF_BAD_ARGUMENT if the placeholder is not UTF-8.
 */
VBTF_INLINE uint32_t vbtf_sanitize_object(const void *object, size_t len, const struct vbtf_kernel *kernel,
                                            const char *placeholder, size_t placeholder_len, uint64_t seed,
                                            void *out, size_t room, uint64_t *needed, struct vbtf_asked *asked,
                                            struct vbtf_error *error)
{
	struct vbtf_error unread;
	uint8_t none = 0;
	return vbtf_raw_sanitize_object(vbtf_bytes_or_none(object), len, kernel, vbtf_bytes_or_none(placeholder),
	                                placeholder_len, seed, out ? (uint8_t *)out : &none, out ? room : 0, needed,
	                                asked, vbtf_error_or(error, &unread));
}

/*
 * Relocates the code of an ELF object for a table, for example that of the running kernel (CO-RE): each relocation in
 * .BTF.ext is resolved, and the value for the target is patched into its instruction. Do this before
 * vbtf_sanitize_object, because relocations refer to the types that the compiler wrote. Writes the new object, which
 * is as long as the old one, to a buffer, its length in bytes to `needed`, and the numbers of records to `tally`, which
 * may be null. `options` has bits of enum vbtf_option. `seed` is a random number, as for vbtf_sanitize_object. An
 * object without .BTF.ext is not changed.
 *
 * VBTF_NO_ROOM if the buffer has less room: then only `needed` and `tally` are written. The first error:
 * VBTF_NOT_AN_OBJECT, as of vbtf_sanitize_object; VBTF_NO_TABLE; those of vbtf_parse for the object's table, and those
 * of vbtf_open_ext for its .BTF.ext; then for each section of relocations VBTF_BAD_SECTION_NAME, VBTF_SHARED_PLACE, and
 * without VBTF_KEEP_REFUSED the first record with an error as VBTF_RELOCATION_REFUSED: error.id is the number of the
 * reason in docs/C.md, error.section_len its kind, id or offset, error.offset the string offset of the section's name,
 * and error.len the index of the record.
 * VBTF_CLOSED if the table is not open; VBTF_BAD_ARGUMENT if another bit of `options` is set. After an error the buffer
 * and the tally are unchanged. Without an open index (vbtf_target_open) the call makes one, and frees it.
 */
VBTF_INLINE uint32_t vbtf_relocate_object(const void *object, size_t len, const struct vbtf_table *target,
                                            uint32_t options, uint64_t seed, void *out, size_t room,
                                            uint64_t *needed, struct vbtf_tally *tally, struct vbtf_error *error)
{
	struct vbtf_error unread;
	struct vbtf_tally uncounted;
	struct vbtf_table loan = vbtf_loan(target);
	uint8_t none = 0;
	return vbtf_lent_relocate_object(vbtf_bytes_or_none(object), len, &loan, options, seed,
	                                 out ? (uint8_t *)out : &none, out ? room : 0, needed,
	                                 tally ? tally : &uncounted, vbtf_error_or(error, &unread));
}

/*
 * Opens an index of the types of a table, for relocations to this table. It has 4 bytes for each type that has a name.
 * A table has at most one. A call that changes the table (vbtf_add_string, vbtf_add_type, vbtf_rewrite) closes it, and
 * may close it also if that call fails. VBTF_BAD_ARGUMENT if the table has an open index.
 */
VBTF_INLINE uint32_t vbtf_target_open(struct vbtf_table *table, struct vbtf_error *error)
{
	struct vbtf_error unread;
	return vbtf_raw_target_open(table, vbtf_error_or(error, &unread));
}

/*
 * The same index for a program that looks up many names: vbtf_index_find takes time in the logarithm of the number of
 * types. A table has one index, which vbtf_target_open and vbtf_index_open open.
 */
VBTF_INLINE uint32_t vbtf_index_open(struct vbtf_table *table, struct vbtf_error *error)
{
	return vbtf_target_open(table, error);
}

VBTF_INLINE void vbtf_index_close(struct vbtf_table *table)
{
	vbtf_target_close(table);
}

/*
 * The least id above 0 of a type of this kind whose name has these bytes, from the open index. Names that cannot be
 * read are passed over.
 *
 * VBTF_UNKNOWN_TYPE_NAME if there is none; VBTF_CLOSED if no index is open; VBTF_BAD_ARGUMENT if the name is empty or
 * not UTF-8, or the kind is no kind.
 */
VBTF_INLINE uint32_t vbtf_index_find(const struct vbtf_table *table, const char *name, size_t len, uint32_t kind,
                                     uint32_t *id, struct vbtf_error *error)
{
	struct vbtf_error unread;
	struct vbtf_table loan = vbtf_loan(table);
	return vbtf_lent_index_find(&loan, vbtf_bytes_or_none(name), len, kind, id, vbtf_error_or(error, &unread));
}

/* Closes the index of a table, and frees it: `vbtf_target_close`, above. The table stays open. */

/*
 * Relocates one relocation of a program for a target: writes what it asks to be written into its instruction. `local`
 * is the table of the program. The relocation has all candidates of the target, as in the kernel. Both tables may be
 * one.
 *
 * VBTF_RELOCATION_REFUSED if the relocation has an error: error.id is the number of the reason in docs/C.md, and
 * error.section_len its kind, id or offset. VBTF_CLOSED if a table or the index of the target is not open. After an
 * error `relocated` is unchanged.
 */
VBTF_INLINE uint32_t vbtf_relocate(const struct vbtf_table *local, const struct vbtf_table *target,
                                     const struct vbtf_relocation *relocation, struct vbtf_relocated *relocated,
                                     struct vbtf_error *error)
{
	struct vbtf_error unread;
	struct vbtf_table here = vbtf_loan(local), there = vbtf_loan(target);
	return vbtf_lent_relocate(&here, &there, relocation, relocated, vbtf_error_or(error, &unread));
}

/* ---- views: tables that are only read */

/*
 * Opens a view of a blob, without a copy: allocates 4 bytes for each type. The blob has to stay as it is until the view
 * is closed. VBTF_INVALID_HEADER, VBTF_INVALID_TYPE_INFO, VBTF_INVALID_TYPE_KIND: the first error, as of vbtf_parse.
 * After an error the view is unchanged.
 */
VBTF_INLINE uint32_t vbtf_view_open(struct vbtf_view *view, const void *data, size_t len, uint32_t order,
                                    struct vbtf_error *error)
{
	struct vbtf_error unread;
	const uint8_t *bytes = vbtf_bytes_or_none(data);
	struct vbtf_view_parts parts = { 0, 0, 0, 0, 0, 0, 0, 0, 0, 0 };
	/* Each record has at least 12 bytes. Pages of it that no record needs are never touched. */
	size_t room = len / 12 + 1;
	uint32_t *places = (uint32_t *)malloc(room * sizeof *places), *fitting;
	uint32_t status = VBTF_OUT_OF_MEMORY;

	if (!places)
		return vbtf_describe(error, VBTF_OUT_OF_MEMORY, 0);
	status = vbtf_raw_view_index(bytes, len, order, places, room, &parts, vbtf_error_or(error, &unread));
	if (status != VBTF_OK) {
		free(places);
		return status;
	}
	fitting = (uint32_t *)realloc(places, parts.count * sizeof *places);
	view->types = bytes + parts.types_at;
	view->strings = bytes + parts.strings_at;
	view->places = fitting ? fitting : places;
	view->parts = parts;
	return VBTF_OK;
}

/* Frees the places of a view. The blob is the caller's. */
VBTF_INLINE void vbtf_view_close(struct vbtf_view *view)
{
	struct vbtf_view none = VBTF_VIEW_INIT;
	free(view->places);
	*view = none;
}

/* The number of types, including the type of id 0; 0 for a closed view. */
VBTF_INLINE uint64_t vbtf_view_count(const struct vbtf_view *view)
{
	return view->parts.count;
}

/* A closed view has no bytes; a pointer that is passed with a length of 0 is still no null pointer. */
static inline const uint8_t *vbtf_view_types_at(const struct vbtf_view *view)
{
	return vbtf_bytes_or_none(view->types);
}

static inline const uint32_t *vbtf_view_places(const struct vbtf_view *view)
{
	static const uint32_t none = 0;
	return view->places ? view->places : &none;
}

/*
 * The kind and the first words of the types from the id `first` on, in one call: as many types as there are and as fit
 * in the buffer. Their number goes to `count`; it is 0 if no type has the id `first`.
 */
VBTF_INLINE uint32_t vbtf_view_types(const struct vbtf_view *view, uint32_t first, struct vbtf_type *out, size_t room,
                                     uint64_t *count)
{
	struct vbtf_type none;
	return vbtf_raw_view_types(vbtf_view_types_at(view), view->parts.types_len, vbtf_view_places(view),
	                           view->parts.count, view->parts.order, first, out ? out : &none, out ? room : 0, count);
}

/* The kind and the first words of the type of an id; VBTF_UNKNOWN_TYPE if there is none. */
VBTF_INLINE uint32_t vbtf_view_type(const struct vbtf_view *view, uint32_t id, struct vbtf_type *type,
                                    struct vbtf_error *error)
{
	uint64_t count = 0;
	vbtf_view_types(view, id, type, 1, &count);
	return count ? VBTF_OK : vbtf_describe(error, VBTF_UNKNOWN_TYPE, id);
}

/* The name at a string offset in the blob, up to its zero byte; null if no name is at the offset. */
VBTF_INLINE const char *vbtf_view_name(const struct vbtf_view *view, uint32_t offset)
{
	return offset < view->parts.names_len ? (const char *)view->strings + offset : NULL;
}

/* What vbtf_members, vbtf_variants, vbtf_params and vbtf_entries write. */
VBTF_INLINE uint32_t vbtf_view_members(const struct vbtf_view *view, uint32_t id, struct vbtf_member *out, size_t room,
                                       uint64_t *count, struct vbtf_error *error)
{
	struct vbtf_error unread;
	struct vbtf_member none;
	return vbtf_raw_view_members(vbtf_view_types_at(view), view->parts.types_len, vbtf_view_places(view),
	                             view->parts.count, view->parts.order, id, out ? out : &none, out ? room : 0, count,
	                             vbtf_error_or(error, &unread));
}

VBTF_INLINE uint32_t vbtf_view_variants(const struct vbtf_view *view, uint32_t id, struct vbtf_variant *out,
                                        size_t room, uint64_t *count, struct vbtf_error *error)
{
	struct vbtf_error unread;
	struct vbtf_variant none;
	return vbtf_raw_view_variants(vbtf_view_types_at(view), view->parts.types_len, vbtf_view_places(view),
	                              view->parts.count, view->parts.order, id, out ? out : &none, out ? room : 0, count,
	                              vbtf_error_or(error, &unread));
}

VBTF_INLINE uint32_t vbtf_view_params(const struct vbtf_view *view, uint32_t id, struct vbtf_param *out, size_t room,
                                      uint64_t *count, struct vbtf_error *error)
{
	struct vbtf_error unread;
	struct vbtf_param none;
	return vbtf_raw_view_params(vbtf_view_types_at(view), view->parts.types_len, vbtf_view_places(view),
	                            view->parts.count, view->parts.order, id, out ? out : &none, out ? room : 0, count,
	                            vbtf_error_or(error, &unread));
}

VBTF_INLINE uint32_t vbtf_view_entries(const struct vbtf_view *view, uint32_t id, struct vbtf_entry *out, size_t room,
                                       uint64_t *count, struct vbtf_error *error)
{
	struct vbtf_error unread;
	struct vbtf_entry none;
	return vbtf_raw_view_entries(vbtf_view_types_at(view), view->parts.types_len, vbtf_view_places(view),
	                             view->parts.count, view->parts.order, id, out ? out : &none, out ? room : 0, count,
	                             vbtf_error_or(error, &unread));
}

/*
 * The members of all types from the id `first` on, type after type, in one call, and the number of the members of each
 * type in `counts`: 0 for a type that is no STRUCT or UNION. The call stops before the first type for which `counts`
 * has no place or whose members do not all fit. `done` gets the number of types, and `written` that of members.
 */
VBTF_INLINE uint32_t vbtf_view_members_from(const struct vbtf_view *view, uint32_t first, uint32_t *counts, size_t ids,
                                            struct vbtf_member *out, size_t room, uint64_t *done, uint64_t *written)
{
	struct vbtf_member none;
	uint32_t no_count;
	return vbtf_raw_view_members_from(vbtf_view_types_at(view), view->parts.types_len, vbtf_view_places(view),
	                                  view->parts.count, view->parts.order, first, counts ? counts : &no_count,
	                                  counts ? ids : 0, out ? out : &none, out ? room : 0, done, written);
}

/* The size of a type in bytes, as vbtf_size gives it. */
VBTF_INLINE uint32_t vbtf_view_size(const struct vbtf_view *view, uint32_t id, uint64_t *size,
                                    struct vbtf_error *error)
{
	struct vbtf_error unread;
	return vbtf_raw_view_size(vbtf_view_types_at(view), view->parts.types_len, vbtf_view_places(view),
	                          view->parts.count, view->parts.order, id, size, vbtf_error_or(error, &unread));
}

/* What an id resolves to, as vbtf_resolve gives it. */
VBTF_INLINE uint32_t vbtf_view_resolve(const struct vbtf_view *view, uint32_t id, uint32_t *to,
                                       struct vbtf_error *error)
{
	struct vbtf_error unread;
	return vbtf_raw_view_resolve(vbtf_view_types_at(view), view->parts.types_len, vbtf_view_places(view),
	                             view->parts.count, view->parts.order, id, to, vbtf_error_or(error, &unread));
}

/* What vbtf_sizes writes. */
VBTF_INLINE uint32_t vbtf_view_sizes(const struct vbtf_view *view, uint32_t first, uint64_t *out, size_t room,
                                     uint64_t *count)
{
	uint64_t none;
	return vbtf_raw_view_sizes(vbtf_view_types_at(view), view->parts.types_len, vbtf_view_places(view),
	                           view->parts.count, view->parts.order, first, out ? out : &none, out ? room : 0, count);
}

/* What vbtf_resolved writes. */
VBTF_INLINE uint32_t vbtf_view_resolved(const struct vbtf_view *view, uint32_t first, uint32_t *out, size_t room,
                                        uint64_t *count)
{
	uint32_t none;
	return vbtf_raw_view_resolved(vbtf_view_types_at(view), view->parts.types_len, vbtf_view_places(view),
	                              view->parts.count, view->parts.order, first, out ? out : &none, out ? room : 0,
	                              count);
}

/* The least id of a type of this kind and name, as vbtf_find gives it. */
VBTF_INLINE uint32_t vbtf_view_find(const struct vbtf_view *view, const char *name, size_t len, uint32_t kind,
                                    uint32_t *id, struct vbtf_error *error)
{
	struct vbtf_error unread;
	return vbtf_raw_view_find(vbtf_view_types_at(view), view->parts.types_len, vbtf_bytes_or_none(view->strings),
	                          view->parts.strings_len, vbtf_view_places(view), view->parts.count, view->parts.order,
	                          vbtf_bytes_or_none(name), len, kind, id, vbtf_error_or(error, &unread));
}

/* ---- build */

/*
 * Adds a text and a zero byte to the strings, and writes its offset. VBTF_INVALID_STRING_OFFSET if the strings
 * would pass 4,294,967,295 bytes; VBTF_BAD_ARGUMENT if the text is not UTF-8. After an error the table is unchanged.
 * Closes the index of the table.
 */
VBTF_INLINE uint32_t vbtf_add_string(struct vbtf_table *table, const char *text, size_t len, uint32_t *offset,
                                       struct vbtf_error *error)
{
	struct vbtf_error unread;
	return vbtf_raw_add_string(table, vbtf_bytes_or_none(text), len, offset, vbtf_error_or(error, &unread));
}

/*
 * Adds the type of the record in these bytes, VBTF_LITTLE or VBTF_BIG, and writes its id. VBTF_INVALID_TYPE_INFO if
 * the record is truncated, or the types would pass 4,294,967,295 bytes; VBTF_INVALID_TYPE_KIND; VBTF_BAD_ARGUMENT if
 * bytes follow the record, or the order is no order. After an error the table is unchanged. Closes the index of the
 * table.
 */
VBTF_INLINE uint32_t vbtf_add_type(struct vbtf_table *table, const void *record, size_t len, uint32_t order,
                                     uint32_t *id, struct vbtf_error *error)
{
	struct vbtf_error unread;
	return vbtf_raw_add_type(table, vbtf_bytes_or_none(record), len, order, id, vbtf_error_or(error, &unread));
}

/* ---- .BTF.ext */

/*
 * Opens the .BTF.ext that these bytes represent, whose names are in the strings of the table. A table has at most one.
 * `seed` is a random number, for example from getrandom: an attacker who knows it can choose names of sections that
 * take time proportional to the square of their number. It changes no result.
 *
 * VBTF_INVALID_HEADER, VBTF_INVALID_INFO, VBTF_INVALID_STRING_OFFSET: the first error, in the order that
 * docs/BEHAVIOUR.md states. VBTF_BAD_ARGUMENT if the table has one already, or the order is no order.
 */
VBTF_INLINE uint32_t vbtf_open_ext(struct vbtf_table *table, const void *data, size_t len, uint32_t order,
                                     uint64_t seed, struct vbtf_error *error)
{
	struct vbtf_error unread;
	return vbtf_raw_open_ext(table, vbtf_bytes_or_none(data), len, order, seed, vbtf_error_or(error, &unread));
}

/* Closes the .BTF.ext of a table, and frees it: `vbtf_close_ext`, above. The table stays open. */

/* The sizes of the .BTF.ext of a table. VBTF_CLOSED if none is open, here and in the calls below. */
VBTF_INLINE uint32_t vbtf_ext(const struct vbtf_table *table, struct vbtf_ext_sizes *ext)
{
	struct vbtf_table loan = vbtf_loan(table);
	return vbtf_lent_ext(&loan, ext);
}

/*
 * The names of the sections with records in a part, each once, in no particular order, with a zero byte after it.
 * VBTF_NO_ROOM if the buffer has less room: then only `needed` is written, the length in bytes. VBTF_BAD_ARGUMENT
 * if there is no such part.
 */
VBTF_INLINE uint32_t vbtf_ext_names(const struct vbtf_table *table, uint32_t part, char *out, size_t room,
                                      uint64_t *needed, struct vbtf_error *error)
{
	struct vbtf_error unread;
	struct vbtf_table loan = vbtf_loan(table);
	uint8_t none;
	return vbtf_lent_ext_names(&loan, part, out ? (uint8_t *)out : &none, out ? room : 0, needed,
	                           vbtf_error_or(error, &unread));
}

/*
 * The string offset of the name of a section of relocations, by the index of the section; several may have one name.
 * VBTF_NO_ITEM if there are fewer sections.
 */
VBTF_INLINE uint32_t vbtf_ext_section(const struct vbtf_table *table, uint32_t index, uint32_t *name_offset)
{
	struct vbtf_table loan = vbtf_loan(table);
	return vbtf_lent_ext_section(&loan, index, name_offset);
}

/* The words of the records of a section, each of this many words. `room` and `needed` count records. */
VBTF_INLINE uint32_t vbtf_ext_words(const struct vbtf_table *table, uint32_t part, const char *section, size_t len,
                                      uint32_t *out, size_t room, uint64_t *needed, size_t words,
                                      struct vbtf_error *error)
{
	struct vbtf_error unread;
	struct vbtf_table loan = vbtf_loan(table);
	uint32_t none = 0, status;
	uint8_t *bytes = (uint8_t *)(out ? out : &none);
	uint64_t written = 0;
	status = vbtf_lent_ext_records(&loan, part, vbtf_bytes_or_none(section), len, bytes, out ? 4 * words * room : 0,
	                               &written, vbtf_error_or(error, &unread));
	for (uint64_t i = 0; out && status == VBTF_OK && i < written; i += 4)
		out[i / 4] = (uint32_t)bytes[i] | (uint32_t)bytes[i + 1] << 8 | (uint32_t)bytes[i + 2] << 16
		             | (uint32_t)bytes[i + 3] << 24;
	if (status == VBTF_OK || status == VBTF_NO_ROOM)
		*needed = written / (4 * words);
	return status;
}

/*
 * The records of the section of this name, and their number, which is 0 if no section has the name. `room` and
 * `needed` count records. VBTF_NO_ROOM if the buffer has less room: then only `needed` is written.
 * VBTF_BAD_ARGUMENT if the name is not UTF-8. VBTF_INVALID_STRING_OFFSET if the name of a section of relocations
 * cannot be read.
 */
VBTF_INLINE uint32_t vbtf_ext_func_info(const struct vbtf_table *table, const char *section, size_t len,
                                          struct vbtf_func_info *out, size_t room, uint64_t *needed,
                                          struct vbtf_error *error)
{
	return vbtf_ext_words(table, VBTF_PART_FUNC_INFO, section, len, (uint32_t *)out, room, needed, 2, error);
}

VBTF_INLINE uint32_t vbtf_ext_line_info(const struct vbtf_table *table, const char *section, size_t len,
                                          struct vbtf_line_info *out, size_t room, uint64_t *needed,
                                          struct vbtf_error *error)
{
	return vbtf_ext_words(table, VBTF_PART_LINE_INFO, section, len, (uint32_t *)out, room, needed, 4, error);
}

VBTF_INLINE uint32_t vbtf_ext_relocations(const struct vbtf_table *table, const char *section, size_t len,
                                            struct vbtf_relocation *out, size_t room, uint64_t *needed,
                                            struct vbtf_error *error)
{
	struct vbtf_error unread;
	struct vbtf_table loan = vbtf_loan(table);
	uint32_t none = 0, status;
	uint64_t words = 0;
	status = vbtf_lent_ext_relocations(&loan, vbtf_bytes_or_none(section), len, out ? (uint32_t *)out : &none,
	                                   out ? 4 * room : 0, &words, vbtf_error_or(error, &unread));
	if (status == VBTF_OK || status == VBTF_NO_ROOM)
		*needed = words / 4;
	return status;
}

#ifdef __cplusplus
}
#endif

#endif
