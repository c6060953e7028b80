/*
 * vbtf_open.h: opens the tables of files. A file is an ELF object with a section .BTF, or holds the bytes of a table,
 * as /sys/kernel/btf/vmlinux does. These calls read files in C, which is tested and not proved; the proved calls of
 * vbtf.h read the bytes.
 */
#ifndef VBTF_OPEN_H
#define VBTF_OPEN_H

#include "vbtf.h"

#include <errno.h>
#include <stdio.h>
#include <stdlib.h>
#include <string.h>
#include <sys/random.h>

#ifdef __cplusplus
extern "C" {
#endif

/* Reads a file to its end into memory of malloc; returns null if this fails, and errno says why. */
static inline unsigned char *vbtf_file_bytes(const char *path, size_t *len)
{
	size_t room = 1 << 16;
	FILE *file = fopen(path, "rb");
	unsigned char *bytes = file ? (unsigned char *)malloc(room) : NULL, *more;
	int failed = 0;
	*len = 0;
	while (bytes && (*len += fread(bytes + *len, 1, room - *len, file)) == room) {
		more = room > SIZE_MAX / 2 ? NULL : (unsigned char *)realloc(bytes, room *= 2);
		if (!more)
			free(bytes);
		bytes = more;
	}
	if (bytes && ferror(file)) {
		failed = errno ? errno : EIO;
		free(bytes);
		bytes = NULL;
	}
	if (file)
		fclose(file);
	if (failed)
		errno = failed;
	return bytes;
}

/* Opens the .BTF.ext of an object for the table of this object, if there is one. */
static inline uint32_t vbtf_open_ext_of(struct vbtf_table *table, const unsigned char *object, size_t len,
                                        struct vbtf_error *error)
{
	struct vbtf_section section;
	uint64_t seed = 0;
	uint32_t status = vbtf_section(object, len, ".BTF.ext", 8, &section, error);
	if (status == VBTF_NO_TABLE)
		return VBTF_OK;
	if (status == VBTF_OK && getentropy(&seed, sizeof seed))
		status = VBTF_NOT_READ;
	if (status == VBTF_OK)
		status = vbtf_open_ext(table, object + section.offset, section.len, section.order, seed, error);
	return status;
}

/*
 * Opens the table in bytes: the section .BTF of an ELF object, and its .BTF.ext if it has one, or the bytes of a table,
 * whose order is that of its magic. With a base, the table is a split table over it, and has the types of both.
 *
 * Statuses: those of vbtf_section, vbtf_parse, vbtf_parse_over and vbtf_open_ext. After an error the table is closed.
 */
VBTF_INLINE uint32_t vbtf_open_bytes(struct vbtf_table *table, const struct vbtf_table *base, const void *bytes,
                                     size_t len, struct vbtf_error *error)
{
	static const unsigned char magic[] = { 0x7f, 'E', 'L', 'F' };
	const unsigned char *data = (const unsigned char *)bytes;
	struct vbtf_section section = { 0, 0, VBTF_BY_MAGIC };
	bool is_object = len >= sizeof magic && !memcmp(data, magic, sizeof magic);
	uint32_t status = VBTF_OK;
	section.len = len;
	if (is_object)
		status = vbtf_section(data, len, ".BTF", 4, &section, error);
	if (status == VBTF_OK && base)
		status = vbtf_parse_over(table, base, data + section.offset, section.len, section.order, error);
	else if (status == VBTF_OK)
		status = vbtf_parse(table, data + section.offset, section.len, section.order, error);
	if (status == VBTF_OK && is_object) {
		status = vbtf_open_ext_of(table, data, len, error);
		if (status != VBTF_OK)
			vbtf_close(table);
	}
	return status;
}

/*
 * Opens the table of a file, as vbtf_open_bytes. With a base, which may be null, the file has a split table, as those
 * below /sys/kernel/btf except vmlinux.
 *
 * Status VBTF_NOT_READ if the file cannot be read; errno says why.
 */
VBTF_INLINE uint32_t vbtf_open_path(struct vbtf_table *table, const struct vbtf_table *base, const char *path,
                                    struct vbtf_error *error)
{
	size_t len;
	uint32_t status;
	unsigned char *bytes = vbtf_file_bytes(path, &len);
	if (!bytes)
		return VBTF_NOT_READ;
	status = vbtf_open_bytes(table, base, bytes, len, error);
	free(bytes);
	return status;
}

/* Opens the table of the running kernel, as vbtf_open_path. */
VBTF_INLINE uint32_t vbtf_open_kernel(struct vbtf_table *table, struct vbtf_error *error)
{
	return vbtf_open_path(table, NULL, "/sys/kernel/btf/vmlinux", error);
}

#ifdef __cplusplus
}
#endif

#endif
