/* Files in memory. */
#ifndef FILE_H
#define FILE_H

#include "table.h"

struct file {
	uint8_t *bytes;
	size_t len;
};

static inline struct file read_file(const char *path)
{
	struct file file = { NULL, 0 };
	FILE *stream = fopen(path, "rb");
	if (!stream || fseek(stream, 0, SEEK_END) || ftell(stream) <= 0) {
		fprintf(stderr, "%s: cannot be read\n", path);
		exit(1);
	}
	file.len = (size_t)ftell(stream);
	rewind(stream);
	file.bytes = malloc(file.len);
	check(file.bytes && fread(file.bytes, 1, file.len, stream) == file.len);
	fclose(stream);
	return file;
}

#endif
