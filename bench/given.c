#include "given.h"
#include "huffman.h"
#include "wire.h"

static uint8_t *put_stream_list(uint8_t *at, const struct place *place)
{
    at = put_integer(at, 0, 8, place->horizon);
    at = put_integer(at, 0, 8, place->listed);
    for (size_t i = 0; i < place->listed; i++)
        at = put_integer(at, 0, 8, 1);
    return at;
}

void make_delete(struct bytes *bytes, const struct place *place, size_t index)
{
    uint8_t *at = put_integer(bytes->at, 0, 6, index);
    at = put_stream_list(put_stream_list(at, place), place);
    bytes->length = (size_t)(at - bytes->at);
}

/* All lengths are below 128. */
void make_list(struct bytes *bytes, const struct list *list)
{
    uint8_t *at = bytes->at;
    for (size_t i = 0; i < list->count; i++) {
        *at++ = 0;
        at = put_string(at, 0, 8, list->fields[i].name);
        at = put_string(at, 0, 8, list->fields[i].value);
    }
    bytes->length = (size_t)(at - bytes->at);
}

void make_indexes(struct bytes *bytes)
{
    uint8_t *at = bytes->at;
    for (size_t i = 0; i < FIELDS; i++)
        at = put_integer(at, 0x80, 7, FIRST_INDEX + i);
    bytes->length = (size_t)(at - bytes->at);
}

void make_literals(struct bytes *bytes, const struct list *list, bool packed)
{
    uint8_t *(*put)(uint8_t *, unsigned, unsigned, struct text) = packed ? put_packed : put_string;
    uint8_t *at = bytes->at;
    for (size_t i = 0; i < list->count; i++) {
        at = put_integer(at, 0, 6, 0);
        at = put(put(at, 0, 7, list->fields[i].name), 0, 7, list->fields[i].value);
    }
    bytes->length = (size_t)(at - bytes->at);
}

void make_insert(struct bytes *bytes, size_t index, struct text value)
{
    uint8_t *at = put_integer(bytes->at, 0x80, 7, index);
    at = put_integer(at, 0, 8, FIRST_INDEX);
    at = put_string(at, 0, 7, value);
    bytes->length = (size_t)(at - bytes->at);
}

void make_acknowledgement(struct bytes *bytes, size_t index)
{
    bytes->length = (size_t)(put_integer(bytes->at, 0x40, 6, index) - bytes->at);
}
