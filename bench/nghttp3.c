/* QPACK of nghttp3. */
#include "implementation.h"
#include "writer.h"

#include <nghttp3/nghttp3.h>
#include <stdlib.h>
#include <string.h>

enum { BLOCKED_STREAMS = 100, FIELDS = 1024 };

struct input {
    size_t count;
    nghttp3_nv fields[];
};

struct encoder {
    nghttp3_qpack_encoder *qpack;
    nghttp3_buf prefix, block, instructions;
};

struct decoder {
    nghttp3_qpack_decoder *qpack;
    nghttp3_qpack_stream_context *context;
    nghttp3_rcbuf *held[2 * FIELDS];
};

static const char *version(void)
{
    return nghttp3_version(0)->version_str;
}

static void *convert(const struct message *message)
{
    const struct list *list = &message->list;
    struct input *input = calloc(1, sizeof *input + list->count * sizeof input->fields[0]);
    if (input == NULL)
        fail("no memory");
    input->count = list->count;
    for (size_t i = 0; i < list->count; i++) {
        const struct field *field = &list->fields[i];
        uint8_t flags = message->how == LITERAL && field_stored(field) ? NGHTTP3_NV_FLAG_NEVER_INDEX : NGHTTP3_NV_FLAG_NONE;
        input->fields[i] =
            (nghttp3_nv){(uint8_t *)field->name.at, (uint8_t *)field->value.at, field->name.length, field->value.length, flags};
    }
    return input;
}

static void *encoder_new(size_t limit)
{
    struct encoder *encoder = calloc(1, sizeof *encoder);
    if (encoder == NULL || nghttp3_qpack_encoder_new(&encoder->qpack, limit, nghttp3_mem_default()) != 0)
        fail("nghttp3: no encoder");
    nghttp3_qpack_encoder_set_max_dtable_capacity(encoder->qpack, limit);
    nghttp3_qpack_encoder_set_max_blocked_streams(encoder->qpack, BLOCKED_STREAMS);
    return encoder;
}

static void encoder_free(void *end)
{
    struct encoder *encoder = end;
    nghttp3_buf_free(&encoder->prefix, nghttp3_mem_default());
    nghttp3_buf_free(&encoder->block, nghttp3_mem_default());
    nghttp3_buf_free(&encoder->instructions, nghttp3_mem_default());
    nghttp3_qpack_encoder_del(encoder->qpack);
    free(encoder);
}

static uint8_t *put_buffer(uint8_t *at, const nghttp3_buf *buffer)
{
    size_t length = (size_t)(buffer->last - buffer->pos);
    if (length != 0)
        memcpy(at, buffer->pos, length);
    return at + length;
}

/* The buffers are used again, so that the encoder need not allocate them for each block. */
static void encode(void *end, const void *from, struct packet *out)
{
    struct encoder *encoder = end;
    const struct input *input = from;
    nghttp3_buf_reset(&encoder->prefix);
    nghttp3_buf_reset(&encoder->block);
    nghttp3_buf_reset(&encoder->instructions);
    int result = nghttp3_qpack_encoder_encode(encoder->qpack, &encoder->prefix, &encoder->block, &encoder->instructions, 0,
                                              input->fields, input->count);
    if (result != 0)
        fail("nghttp3: encode: %s", nghttp3_strerror(result));
    uint8_t *at = put_buffer(out->bytes, &encoder->instructions);
    out->before = (size_t)(at - out->bytes);
    at = put_buffer(put_buffer(at, &encoder->prefix), &encoder->block);
    out->block = (size_t)(at - out->bytes) - out->before;
    out->after = 0;
}

static void acknowledge(void *end, const uint8_t *bytes, size_t length)
{
    struct encoder *encoder = end;
    nghttp3_ssize taken = nghttp3_qpack_encoder_read_decoder(encoder->qpack, bytes, length);
    if (taken != (nghttp3_ssize)length)
        fail("nghttp3: acknowledgement: %s", nghttp3_strerror((int)taken));
}

static void *decoder_new(size_t limit)
{
    struct decoder *decoder = calloc(1, sizeof *decoder);
    if (decoder == NULL || nghttp3_qpack_decoder_new(&decoder->qpack, limit, BLOCKED_STREAMS, nghttp3_mem_default()) != 0 ||
        nghttp3_qpack_stream_context_new(&decoder->context, 0, nghttp3_mem_default()) != 0)
        fail("nghttp3: no decoder");
    return decoder;
}

static void decoder_free(void *end)
{
    struct decoder *decoder = end;
    nghttp3_qpack_stream_context_del(decoder->context);
    nghttp3_qpack_decoder_del(decoder->qpack);
    free(decoder);
}

static void read_block(struct decoder *decoder, const uint8_t *at, size_t left, struct sink *sink)
{
    size_t held = 0;
    uint8_t flags = 0;
    nghttp3_qpack_stream_context_reset(decoder->context);
    while (!(flags & NGHTTP3_QPACK_DECODE_FLAG_FINAL)) {
        nghttp3_qpack_nv field;
        nghttp3_ssize taken = nghttp3_qpack_decoder_read_request(decoder->qpack, decoder->context, &field, &flags, at, left, 1);
        if (taken < 0 || flags & NGHTTP3_QPACK_DECODE_FLAG_BLOCKED)
            fail("nghttp3: block: %s", taken < 0 ? nghttp3_strerror((int)taken) : "blocked");
        at += taken;
        left -= (size_t)taken;
        if (flags & NGHTTP3_QPACK_DECODE_FLAG_EMIT) {
            nghttp3_vec name = nghttp3_rcbuf_get_buf(field.name), value = nghttp3_rcbuf_get_buf(field.value);
            sink_take(sink, name.base, name.len, value.base, value.len);
            decoder->held[held++] = field.name;
            decoder->held[held++] = field.value;
        }
    }
    while (held > 0)
        nghttp3_rcbuf_decref(decoder->held[--held]);
}

static size_t decode(void *end, const struct packet *in, struct sink *sink, uint8_t *acknowledgement)
{
    struct decoder *decoder = end;
    if (in->before != 0) {
        nghttp3_ssize taken = nghttp3_qpack_decoder_read_encoder(decoder->qpack, in->bytes, in->before);
        if (taken != (nghttp3_ssize)in->before)
            fail("nghttp3: instructions: %s", nghttp3_strerror((int)taken));
    }
    read_block(decoder, in->bytes + in->before, in->block, sink);
    size_t length = nghttp3_qpack_decoder_get_decoder_streamlen(decoder->qpack);
    nghttp3_buf buffer = {acknowledgement, acknowledgement + ACKNOWLEDGEMENT_ROOM, acknowledgement, acknowledgement};
    if (length != 0)
        nghttp3_qpack_decoder_write_decoder(decoder->qpack, &buffer);
    return length;
}

const struct implementation nghttp3 = {
    .name = "nghttp3",
    .version = version,
    .convert = convert,
    .unconvert = free,
    .encoder_new = encoder_new,
    .encoder_free = encoder_free,
    .encode = encode,
    .acknowledge = acknowledge,
    .decoder_new = decoder_new,
    .decoder_free = decoder_free,
    .decode = decode,
    .writer_new = writer_new,
    .writer_free = writer_free,
    .write = qpack_write,
    .known_names_only = true,
};
