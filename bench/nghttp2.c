/* HPACK of nghttp2. */
#include "implementation.h"
#include "writer.h"

#include <nghttp2/nghttp2.h>
#include <stdlib.h>

struct input {
    size_t count;
    nghttp2_nv fields[];
};

static const char *version(void)
{
    return nghttp2_version(0)->version_str;
}

static void *convert(const struct message *message)
{
    const struct list *list = &message->list;
    struct input *input = calloc(1, sizeof *input + list->count * sizeof input->fields[0]);
    if (input == NULL)
        fail("no memory");
    input->count = list->count;
    for (size_t i = 0; i < list->count; i++) {
        const struct field *field = &list->fields[i];
        uint8_t flags = message->how == LITERAL && field_stored(field) ? NGHTTP2_NV_FLAG_NO_INDEX : NGHTTP2_NV_FLAG_NONE;
        input->fields[i] =
            (nghttp2_nv){(uint8_t *)field->name.at, (uint8_t *)field->value.at, field->name.length, field->value.length, flags};
    }
    return input;
}

static void *encoder_new(size_t limit)
{
    nghttp2_hd_deflater *deflater;
    if (nghttp2_hd_deflate_new(&deflater, limit) != 0 || nghttp2_hd_deflate_change_table_size(deflater, limit) != 0)
        fail("nghttp2: no deflater");
    return deflater;
}

static void encoder_free(void *encoder)
{
    nghttp2_hd_deflate_del(encoder);
}

static void encode(void *encoder, const void *from, struct packet *out)
{
    const struct input *input = from;
    ssize_t length = nghttp2_hd_deflate_hd(encoder, out->bytes, PACKET_ROOM, input->fields, input->count);
    if (length < 0)
        fail("nghttp2: deflate: %s", nghttp2_strerror((int)length));
    out->before = out->after = 0;
    out->block = (size_t)length;
}

static void *decoder_new(size_t limit)
{
    nghttp2_hd_inflater *inflater;
    if (nghttp2_hd_inflate_new(&inflater) != 0 || nghttp2_hd_inflate_change_table_size(inflater, limit) != 0)
        fail("nghttp2: no inflater");
    return inflater;
}

static void decoder_free(void *decoder)
{
    nghttp2_hd_inflate_del(decoder);
}

static size_t decode(void *decoder, const struct packet *in, struct sink *sink, uint8_t *acknowledgement)
{
    (void)acknowledgement;
    const uint8_t *at = in->bytes;
    size_t left = in->block;
    for (;;) {
        nghttp2_nv field;
        int flags = 0;
        ssize_t taken = nghttp2_hd_inflate_hd2(decoder, &field, &flags, at, left, 1);
        if (taken < 0)
            fail("nghttp2: inflate: %s", nghttp2_strerror((int)taken));
        at += taken;
        left -= (size_t)taken;
        if (flags & NGHTTP2_HD_INFLATE_EMIT)
            sink_take(sink, field.name, field.namelen, field.value, field.valuelen);
        if (flags & NGHTTP2_HD_INFLATE_FINAL)
            break;
    }
    nghttp2_hd_inflate_end_headers(decoder);
    return 0;
}

const struct implementation nghttp2 = {
    .name = "nghttp2",
    .version = version,
    .convert = convert,
    .unconvert = free,
    .encoder_new = encoder_new,
    .encoder_free = encoder_free,
    .encode = encode,
    .decoder_new = decoder_new,
    .decoder_free = decoder_free,
    .decode = decode,
    .writer_new = writer_new,
    .writer_free = writer_free,
    .write = hpack_write,
};
