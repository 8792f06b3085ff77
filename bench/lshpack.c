/* HPACK of ls-hpack, from lighttpd's source. */
#include "implementation.h"
#include "writer.h"

#include <lshpack.h>
#include <stdlib.h>
#include <string.h>

enum { WITHOUT_INDEXING = 1 };

/* Name and value stand in one buffer, which the headers count from. */
struct input {
    size_t count;
    char *text;
    struct lsxpack_header fields[];
};

struct decoder {
    struct lshpack_dec hpack;
    char output[PACKET_ROOM];
};

#define TEXT_(number) #number
#define TEXT(number) TEXT_(number)

static const char *version(void)
{
    return TEXT(LSHPACK_MAJOR_VERSION) "." TEXT(LSHPACK_MINOR_VERSION) "." TEXT(LSHPACK_PATCH_VERSION);
}

static void *convert(const struct message *message)
{
    const struct list *list = &message->list;
    struct input *input = calloc(1, sizeof *input + list->count * sizeof input->fields[0]);
    size_t length = 0, at = 0;
    for (size_t i = 0; i < list->count; i++)
        length += list->fields[i].name.length + list->fields[i].value.length;
    if (input == NULL || (input->text = malloc(length + 1)) == NULL)
        fail("no memory");
    input->count = list->count;
    for (size_t i = 0; i < list->count; i++) {
        struct text name = list->fields[i].name, value = list->fields[i].value;
        memcpy(input->text + at, name.at, name.length);
        memcpy(input->text + at + name.length, value.at, value.length);
        lsxpack_header_set_offset2(&input->fields[i], input->text, at, name.length, at + name.length, value.length);
        input->fields[i].indexed_type = message->how == LITERAL ? WITHOUT_INDEXING : 0;
        at += name.length + value.length;
    }
    return input;
}

static void unconvert(void *from)
{
    struct input *input = from;
    free(input->text);
    free(input);
}

static void *encoder_new(size_t limit)
{
    struct lshpack_enc *encoder = calloc(1, sizeof *encoder);
    if (encoder == NULL || lshpack_enc_init(encoder) != 0)
        fail("ls-hpack: no encoder");
    lshpack_enc_set_max_capacity(encoder, (unsigned)limit);
    return encoder;
}

static void encoder_free(void *encoder)
{
    lshpack_enc_cleanup(encoder);
    free(encoder);
}

/* The encoder keeps hashes in the header that it is given; each time it gets a fresh one, as from a host's new message. */
static void encode(void *encoder, const void *from, struct packet *out)
{
    const struct input *input = from;
    unsigned char *at = out->bytes, *end = out->bytes + PACKET_ROOM;
    for (size_t i = 0; i < input->count; i++) {
        struct lsxpack_header field = input->fields[i];
        unsigned char *next = lshpack_enc_encode(encoder, at, end, &field);
        if (next == at)
            fail("ls-hpack: encode");
        at = next;
    }
    out->before = out->after = 0;
    out->block = (size_t)(at - out->bytes);
}

static void *decoder_new(size_t limit)
{
    struct decoder *decoder = calloc(1, sizeof *decoder);
    if (decoder == NULL)
        fail("no memory");
    lshpack_dec_init(&decoder->hpack);
    lshpack_dec_set_max_capacity(&decoder->hpack, (unsigned)limit);
    return decoder;
}

static void decoder_free(void *end)
{
    struct decoder *decoder = end;
    lshpack_dec_cleanup(&decoder->hpack);
    free(decoder);
}

static size_t decode(void *end, const struct packet *in, struct sink *sink, uint8_t *acknowledgement)
{
    (void)acknowledgement;
    struct decoder *decoder = end;
    const unsigned char *at = in->bytes, *stop = in->bytes + in->block;
    char *output = decoder->output;
    while (at < stop) {
        struct lsxpack_header field;
        lsxpack_header_prepare_decode(&field, output, 0, (size_t)(decoder->output + sizeof decoder->output - output));
        int result = lshpack_dec_decode(&decoder->hpack, &at, stop, &field);
        if (result != LSHPACK_OK)
            fail("ls-hpack: decode: %d", result);
        sink_take(sink, (uint8_t *)field.buf + field.name_offset, field.name_len, (uint8_t *)field.buf + field.val_offset,
                  field.val_len);
        output += lsxpack_header_get_dec_size(&field);
    }
    return 0;
}

const struct implementation lshpack = {
    .name = "ls-hpack",
    .version = version,
    .convert = convert,
    .unconvert = unconvert,
    .encoder_new = encoder_new,
    .encoder_free = encoder_free,
    .encode = encode,
    .decoder_new = decoder_new,
    .decoder_free = decoder_free,
    .decode = decode,
    .writer_new = writer_new,
    .writer_free = writer_free,
    .write = hpack_write,
};
