/* Objects that are rewritten for a kernel: the program's argument is an object of clang. */
#include "file.h"

static const struct vbtf_kernel none = { 0, 0, 0, 0 }, all = { 0xff, 0, 0, 0 };

/* Rewrites the object for a kernel; `wanted` is the number of features that the rewrite asks about. */
static struct file sanitized(const struct file *object, const struct vbtf_kernel *kernel, uint32_t wanted)
{
	struct file file = { NULL, 0 };
	struct vbtf_error error;
	struct vbtf_asked asked;
	uint64_t needed = 0;
	check(vbtf_sanitize_object(object->bytes, object->len, kernel, NULL, 0, 7, NULL, 0, &needed, &asked, &error)
	      == VBTF_NO_ROOM);
	file.len = (size_t)needed;
	file.bytes = malloc(file.len);
	check(vbtf_sanitize_object(object->bytes, object->len, kernel, NULL, 0, 7, file.bytes, file.len, &needed, &asked,
	                           &error) == VBTF_OK);
	check(needed == file.len && asked.count == wanted);
	for (uint32_t i = 0; i < asked.count; i++)
		check(asked.granted[i] == (kernel->features >> asked.features[i] & 1));
	return file;
}

/* A second rewrite for the same kernel changes nothing, and another kernel gets another table. */
static void rewritten(const struct file *object)
{
	struct file old = sanitized(object, &none, 5), again = sanitized(&old, &none, 0);
	struct file new = sanitized(object, &all, 6);
	check(old.len == again.len && memcmp(old.bytes, again.bytes, old.len) == 0);
	check(new.len != old.len || memcmp(new.bytes, old.bytes, old.len) != 0);
	free(old.bytes);
	free(again.bytes);
	free(new.bytes);
}

/* Bytes that are no object, and an object without a table. */
static void refused(const struct file *object)
{
	struct vbtf_error error;
	struct vbtf_asked asked;
	uint64_t needed = 0;
	uint8_t out[64];
	uint8_t *bytes = malloc(object->len);
	memcpy(bytes, object->bytes, object->len);
	check(vbtf_sanitize_object(NULL, 0, &none, NULL, 0, 7, out, sizeof out, &needed, &asked, &error) == VBTF_NOT_AN_OBJECT);
	check(error.number == VBTF_NOT_AN_OBJECT && error.id == 1);
	check(vbtf_sanitize_object(bytes, object->len - 1, &none, NULL, 0, 7, out, sizeof out, &needed, &asked, &error)
	      == VBTF_NOT_AN_OBJECT);
	check(error.id == 6);
	check(vbtf_sanitize_object(bytes, object->len, &none, "\xff", 1, 7, out, sizeof out, &needed, &asked, &error)
	      == VBTF_BAD_ARGUMENT);
	for (size_t i = 0; i + 5 <= object->len; i++)
		if (memcmp(bytes + i, ".BTF", 5) == 0)
			bytes[i] = '_';
	check(vbtf_sanitize_object(bytes, object->len, &none, NULL, 0, 7, out, sizeof out, &needed, &asked, &error)
	      == VBTF_NO_TABLE);
	free(bytes);
}

int main(int argc, char **argv)
{
	struct file object;
	if (argc != 2)
		return 1;
	object = read_file(argv[1]);
	rewritten(&object);
	refused(&object);
	free(object.bytes);
	return counted("object");
}
