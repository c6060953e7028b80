/* Shared code of the examples: reading a table from standard input or a file, and messages. */
#ifndef INPUT_H
#define INPUT_H

#include <vbtf.h>

#include <stdio.h>
#include <stdlib.h>

/* Reads a stream to its end; returns null if an allocation or the stream fails. */
static inline unsigned char *read_all(FILE *stream, size_t *len)
{
	size_t room = 1 << 16;
	unsigned char *bytes = malloc(room);
	*len = 0;
	while (bytes) {
		*len += fread(bytes + *len, 1, room - *len, stream);
		if (*len < room)
			break;
		unsigned char *more = realloc(bytes, room *= 2);
		if (!more)
			free(bytes);
		bytes = more;
	}
	if (bytes && ferror(stream)) {
		free(bytes);
		bytes = NULL;
	}
	return bytes;
}

/* Writes an error to standard error, and returns the exit status for it. */
static inline int report(const char *program, uint32_t status, const struct vbtf_error *error)
{
	char text[VBTF_ERROR_ROOM];
	fprintf(stderr, "%s: %s\n", program, vbtf_error_text(status, error, text, sizeof text));
	return 1;
}

/* Opens the table of standard input; returns 0, or the exit status after a message. */
static inline int open_input(const char *program, struct vbtf_table *table)
{
	struct vbtf_error error;
	size_t len;
	unsigned char *bytes = read_all(stdin, &len);
	if (!bytes) {
		fprintf(stderr, "%s: standard input cannot be read\n", program);
		return 1;
	}
	uint32_t status = vbtf_parse(table, bytes, len, VBTF_BY_MAGIC, &error);
	free(bytes);
	return status == VBTF_OK ? 0 : report(program, status, &error);
}

#endif
