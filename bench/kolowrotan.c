/* Kolowrotan, through its C interface. */
#include "implementation.h"
#include "kolowrotan.h"
#include "writer.h"

#include <stdlib.h>
#include <string.h>

/* What a library before packed strings answers to them. */
enum { H_SET = 4 };

/* The field list that the encoder's block call takes, and the fields that are inserted. */
struct input {
    const struct message *message;
    size_t length;
    uint8_t list[];
};

struct encoder {
    uint64_t stream;
    size_t oldest, newest;
    uint32_t indexes[1 << 17]; /* of the entries held, in the order of their inserts */
    uint8_t memory[KOLOWROTAN_ENCODER_LENGTH];
};

struct decoder {
    uint64_t stream;
    uint8_t memory[KOLOWROTAN_DECODER_LENGTH];
    uint8_t output[PACKET_ROOM];
};

static const char *version(void)
{
    return "";
}

static _Noreturn void not_done(uint64_t result, const char *call)
{
    if (KOLOWROTAN_ANSWER(result) == H_SET)
        refuse("kolowrotan: this library refuses packed strings");
    fail("kolowrotan: %s answered %d", call, KOLOWROTAN_ANSWER(result));
}

static size_t done(uint64_t result, const char *call)
{
    if (KOLOWROTAN_ANSWER(result) != KOLOWROTAN_DONE)
        not_done(result, call);
    return KOLOWROTAN_FIRST(result);
}

static uint8_t *put_text(uint8_t *at, struct text text)
{
    *at++ = (uint8_t)(text.length < 128 ? text.length : text.length | 128);
    if (text.length >= 128)
        *at++ = (uint8_t)(text.length >> 7);
    memcpy(at, text.at, text.length);
    return at + text.length;
}

static void *convert(const struct message *message)
{
    size_t room = 0;
    for (size_t i = 0; i < message->list.count; i++)
        room += message->list.fields[i].name.length + message->list.fields[i].value.length + 5;
    struct input *input = malloc(sizeof *input + room);
    if (input == NULL)
        fail("no memory");
    uint8_t *at = input->list;
    for (size_t i = 0; i < message->list.count; i++) {
        *at++ = 0;
        at = put_text(at, message->list.fields[i].name);
        at = put_text(at, message->list.fields[i].value);
    }
    input->message = message;
    input->length = (size_t)(at - input->list);
    return input;
}

static void *encoder_new(size_t limit)
{
    struct encoder *encoder = calloc(1, sizeof *encoder);
    if (encoder == NULL)
        fail("no memory");
    done(kolowrotan_encoder_start(encoder->memory, sizeof encoder->memory, limit), "start");
    return encoder;
}

static size_t insert_all(struct encoder *encoder, const struct list *list, uint8_t *output)
{
    size_t length = 0;
    for (size_t i = 0; i < list->count; i++) {
        const struct field *field = &list->fields[i];
        if (!field_stored(field))
            continue;
        uint64_t result = kolowrotan_encoder_insert(encoder->memory, sizeof encoder->memory, field->name.at, field->name.length,
                                                    field->value.at, field->value.length, output + length, PACKET_ROOM - length);
        length += done(result, "insert");
        encoder->indexes[encoder->newest++] = KOLOWROTAN_SECOND(result);
    }
    return length;
}

/* Deletes as many of the oldest entries as the list has put in. */
static size_t delete_oldest(struct encoder *encoder, const struct list *list, uint8_t *output)
{
    size_t length = 0;
    for (size_t i = 0; i < list->count; i++) {
        if (!field_stored(&list->fields[i]))
            continue;
        uint64_t index = encoder->indexes[encoder->oldest++];
        length += done(
            kolowrotan_encoder_delete(encoder->memory, sizeof encoder->memory, index, output + length, KOLOWROTAN_DELETE_ROOM),
            "delete");
    }
    return length;
}

static void encode(void *end, const void *from, struct packet *out)
{
    struct encoder *encoder = end;
    const struct input *input = from;
    const struct message *message = input->message;
    out->before = out->block = out->after = 0;
    if (message->how == LOAD || message->how == CHURN)
        out->before = insert_all(encoder, &message->list, out->bytes);
    if (message->how == LOAD)
        return;
    out->block = done(kolowrotan_encoder_block(encoder->memory, sizeof encoder->memory, encoder->stream++, KOLOWROTAN_NONTRAILER,
                                               input->list, input->length, out->bytes + out->before, KOLOWROTAN_BLOCK_LENGTH),
                      "encoder block");
    if (message->how == CHURN)
        out->after = delete_oldest(encoder, &message->list, out->bytes + out->before + out->block);
}

static void acknowledge(void *end, const uint8_t *bytes, size_t length)
{
    struct encoder *encoder = end;
    for (size_t at = 0; at < length;)
        at +=
            done(kolowrotan_encoder_acknowledge(encoder->memory, sizeof encoder->memory, bytes + at, length - at), "acknowledge");
}

static void *decoder_new(size_t limit)
{
    struct decoder *decoder = calloc(1, sizeof *decoder);
    if (decoder == NULL)
        fail("no memory");
    done(kolowrotan_decoder_start(decoder->memory, sizeof decoder->memory, limit), "start");
    return decoder;
}

static void read_all(struct decoder *decoder, const uint8_t *bytes, size_t length)
{
    for (size_t at = 0; at < length;)
        at += done(kolowrotan_decoder_read(decoder->memory, sizeof decoder->memory, bytes + at, length - at), "read");
}

static const uint8_t *take_text(const uint8_t *at, struct text *text)
{
    text->length = *at++;
    if (text->length >= 128)
        text->length += ((size_t)*at++ << 7) - 128;
    text->at = at;
    return at + text->length;
}

static void check_list(const uint8_t *at, size_t length, struct sink *sink)
{
    const uint8_t *end = at + length;
    while (at < end) {
        struct text name, value;
        at = take_text(take_text(at + 1, &name), &value);
        sink_check(sink, name.at, name.length, value.at, value.length);
    }
}

static size_t decode(void *end, const struct packet *in, struct sink *sink, uint8_t *acknowledgement)
{
    struct decoder *decoder = end;
    read_all(decoder, in->bytes, in->before);
    if (in->block != 0) {
        size_t length =
            done(kolowrotan_decoder_block(decoder->memory, sizeof decoder->memory, decoder->stream++, KOLOWROTAN_NONTRAILER,
                                          in->bytes + in->before, in->block, decoder->output, sizeof decoder->output),
                 "decoder block");
        sink->total += length;
        if (sink->expected != NULL)
            check_list(decoder->output, length, sink);
    }
    if (in->after == 0)
        return 0;
    if (in->block != 0) /* the message is whole: else the entries that it refers to are kept for it */
        done(kolowrotan_decoder_ended(decoder->memory, sizeof decoder->memory, decoder->stream - 1), "ended");
    read_all(decoder, in->bytes + in->before + in->block, in->after);
    for (size_t written = 0;;) {
        size_t more = done(kolowrotan_decoder_collect(decoder->memory, sizeof decoder->memory, acknowledgement + written,
                                                      ACKNOWLEDGEMENT_ROOM - written),
                           "collect");
        if (more == 0)
            return written;
        written += more;
    }
}

const struct implementation kolowrotan = {
    .name = "kolowrotan",
    .version = version,
    .convert = convert,
    .unconvert = free,
    .encoder_new = encoder_new,
    .encoder_free = free,
    .encode = encode,
    .acknowledge = acknowledge,
    .decoder_new = decoder_new,
    .decoder_free = free,
    .decode = decode,
    .writer_new = draft_new,
    .writer_free = draft_free,
    .write = draft_write,
    .fixed_limit = KOLOWROTAN_LIMIT,
    .given_back = true,
};
