/* The peer of bench/avro.sh: reads a schema's line and values of it from the standard input, decodes each value with
 * libavro, encodes it again and writes what came of it, as `codec_tool avro copy` does.
 *
 * It is written to be quick: all of the input and all of the output are held in memory, and one value is used again for each
 * record, so that libavro makes none anew. */
#include <avro.h>
#include <stdio.h>
#include <stdlib.h>
#include <string.h>

static void fail(const char *what) {
    fprintf(stderr, "%s: %s\n", what, avro_strerror());
    exit(1);
}

static char *read_all(size_t *length) {
    size_t room = 1 << 20, count = 0, got;
    char *bytes = malloc(room);
    while (bytes && (got = fread(bytes + count, 1, room - count, stdin)) > 0) {
        count += got;
        if (count == room) {
            room *= 2;
            bytes = realloc(bytes, room);
        }
    }
    if (!bytes) fail("no memory");
    *length = count;
    return bytes;
}

int main(void) {
    size_t length;
    char *input = read_all(&length);
    char *values = memchr(input, '\n', length);
    if (!values) fail("no schema");
    values++;
    size_t left = length - (values - input);

    avro_schema_t schema;
    if (avro_schema_from_json_length(input, values - 1 - input, &schema)) fail("bad schema");
    avro_value_iface_t *iface = avro_generic_class_from_schema(schema);
    avro_value_t value;
    avro_generic_value_new(iface, &value);

    /* No written form is longer than what was read. */
    char *output = malloc(left ? left : 1);
    avro_reader_t reader = avro_reader_memory(values, left);
    avro_writer_t writer = avro_writer_memory(output, left);
    while (avro_writer_tell(writer) < (int64_t)left) {
        avro_value_reset(&value);
        if (avro_value_read(reader, &value)) fail("read");
        if (avro_value_write(writer, &value)) fail("write");
    }
    size_t written = avro_writer_tell(writer);
    if (fwrite(output, 1, written, stdout) != written) fail("output");
    return 0;
}
