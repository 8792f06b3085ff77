/*
 * One call of the library, made again and again on the same memory.
 *
 *   calls ENTRIES DELETES LISTED HORIZON READY CALL ROUNDS
 *
 * The table has ENTRIES entries: fields of machine reports, or where these do not fit fields with no name and no value. The last
 * DELETES of them are under deletion. At the decoder both lists of a delete have this HORIZON and LISTED streams beside. Every
 * part below the horizon is finished but the last stream's trailer, which is the longest to look for; with READY 1 that one too.
 *
 * Before each call the memory is restored. CALL none-decoder or none-encoder only restores, and is what has to be taken off. The
 * status is 2 where the library refuses packed strings.
 */
#include "kolowrotan.h"
#include "given.h"

#include <stdio.h>
#include <stdlib.h>
#include <string.h>

enum { H_SET = 4, REFUSED = 2 }; /* what a library before packed strings answers to them, and the status then */
enum { MACHINE_ENTRIES = 80, LAST_STREAM = 4095, NO_STREAM = 5000, NEW_UNIT = 3000, ROOM = 1 << 16 };

static uint8_t encoder[KOLOWROTAN_ENCODER_LENGTH], decoder[KOLOWROTAN_DECODER_LENGTH];
static uint8_t saved_encoder[KOLOWROTAN_ENCODER_LENGTH], saved_decoder[KOLOWROTAN_DECODER_LENGTH];
static uint8_t output[ROOM];

static uint64_t expect(uint64_t result, int answer, const char *call)
{
    if (KOLOWROTAN_ANSWER(result) != answer) {
        fprintf(stderr, "%s answered %d\n", call, KOLOWROTAN_ANSWER(result));
        exit(KOLOWROTAN_ANSWER(result) == H_SET ? REFUSED : 1);
    }
    return KOLOWROTAN_FIRST(result);
}

/* ---- the memory ---- */

static void start(const struct place *place)
{
    expect(kolowrotan_encoder_start(encoder, sizeof encoder, KOLOWROTAN_LIMIT), 0, "start");
    expect(kolowrotan_decoder_start(decoder, sizeof decoder, KOLOWROTAN_LIMIT), 0, "start");
    for (size_t stream = 0; stream < place->horizon; stream++) {
        uint64_t result;
        if (stream + 1 < place->horizon || place->ready)
            result = kolowrotan_decoder_ended(decoder, sizeof decoder, stream);
        else
            result = kolowrotan_decoder_over(decoder, sizeof decoder, stream);
        expect(result, 0, "a finished part");
    }
}

static void fill(const struct place *place)
{
    enum kind kind = place->entries > MACHINE_ENTRIES ? EMPTY : MACHINE;
    for (size_t i = 0; i < place->entries; i++) {
        struct list list = list_make(kind, false, FIELDS, (unsigned)(i / FIELDS));
        struct field *field = &list.fields[i % FIELDS];
        uint64_t length = expect(kolowrotan_encoder_insert(encoder, sizeof encoder, field->name.at, field->name.length,
                                                           field->value.at, field->value.length, output, ROOM),
                                 0, "insert");
        expect(kolowrotan_decoder_read(decoder, sizeof decoder, output, length), 0, "read");
        list_free(&list);
    }
}

static void delete_last(const struct place *place)
{
    for (size_t i = place->entries - place->deletes; i < place->entries; i++) {
        struct bytes bytes;
        make_delete(&bytes, place, FIRST_INDEX + i);
        expect(kolowrotan_encoder_delete(encoder, sizeof encoder, FIRST_INDEX + i, output, ROOM), 0, "delete");
        expect(kolowrotan_decoder_read(decoder, sizeof decoder, bytes.at, bytes.length), 0, "read");
    }
    memcpy(saved_encoder, encoder, sizeof encoder);
    memcpy(saved_decoder, decoder, sizeof decoder);
}

/* ---- the calls ---- */

static struct bytes given; /* what the call reads */
static struct text name, value;
static size_t given_index;

static uint64_t decoder_block_at(uint64_t stream)
{
    return kolowrotan_decoder_block(decoder, sizeof decoder, stream, KOLOWROTAN_NONTRAILER, given.at, given.length, output, ROOM);
}

static uint64_t encoder_block_at(uint64_t stream)
{
    return kolowrotan_encoder_block(encoder, sizeof encoder, stream, KOLOWROTAN_NONTRAILER, given.at, given.length, output, ROOM);
}

static uint64_t none(void)
{
    return 0;
}

static uint64_t decoder_test(void)
{
    return decoder_block_at(NO_STREAM);
}

static uint64_t decoder_block(void)
{
    return decoder_block_at(LAST_STREAM);
}

static uint64_t decoder_read(void)
{
    return kolowrotan_decoder_read(decoder, sizeof decoder, given.at, given.length);
}

static uint64_t decoder_ended(void)
{
    return kolowrotan_decoder_ended(decoder, sizeof decoder, LAST_STREAM);
}

static uint64_t decoder_collect(void)
{
    return kolowrotan_decoder_collect(decoder, sizeof decoder, output, ROOM);
}

static uint64_t decoder_hold(void)
{
    return kolowrotan_decoder_hold(decoder, sizeof decoder, given_index);
}

static uint64_t encoder_test(void)
{
    return encoder_block_at(NO_STREAM);
}

static uint64_t encoder_block(void)
{
    return encoder_block_at(LAST_STREAM);
}

static uint64_t encoder_delete(void)
{
    return kolowrotan_encoder_delete(encoder, sizeof encoder, given_index, output, ROOM);
}

static uint64_t encoder_acknowledge(void)
{
    return kolowrotan_encoder_acknowledge(encoder, sizeof encoder, given.at, given.length);
}

static uint64_t encoder_insert(void)
{
    return kolowrotan_encoder_insert(encoder, sizeof encoder, name.at, name.length, value.at, value.length, output, ROOM);
}

enum needs { NOTHING, INDEXES, LITERALS, PACKED, OLD_LIST, NEW_LIST, RAW_LIST, INSERT, DELETE, ACKNOWLEDGEMENT, FIRST, LAST };

static const struct call {
    const char *name;
    uint64_t (*make)(void);
    enum needs needs;
    int answer;
} calls[] = {
    {"none-decoder", none, NOTHING, 0},
    {"decoder-test", decoder_test, INDEXES, KOLOWROTAN_OUT_OF_TURN},
    {"decoder-warm", decoder_block, INDEXES, 0},
    {"decoder-literal", decoder_block, LITERALS, 0},
    {"decoder-packed", decoder_block, PACKED, 0},
    {"decoder-insert", decoder_read, INSERT, 0},
    {"decoder-delete", decoder_read, DELETE, 0},
    {"decoder-ended", decoder_ended, NOTHING, 0},
    {"decoder-collect", decoder_collect, NOTHING, 0},
    {"decoder-hold", decoder_hold, LAST, 0},
    {"none-encoder", none, NOTHING, 0},
    {"encoder-test", encoder_test, OLD_LIST, KOLOWROTAN_OUT_OF_TURN},
    {"encoder-warm", encoder_block, OLD_LIST, 0},
    {"encoder-literal", encoder_block, NEW_LIST, 0},
    {"encoder-raw", encoder_block, RAW_LIST, 0},
    {"encoder-insert", encoder_insert, INSERT, 0},
    {"encoder-delete", encoder_delete, FIRST, 0},
    {"encoder-acknowledge", encoder_acknowledge, ACKNOWLEDGEMENT, 0},
};

/* Makes what the call reads. Lists stay, since texts point into them. */
static void prepare(const struct place *place, enum needs needs)
{
    enum kind held = place->entries > MACHINE_ENTRIES ? EMPTY : MACHINE;
    struct list old = list_make(held, false, FIELDS, 0), other = list_make(OTHER, false, FIELDS, NEW_UNIT),
                raw = list_make(OTHER, true, FIELDS, NEW_UNIT), new = list_make(held, false, FIELDS, NEW_UNIT);
    size_t last = FIRST_INDEX + place->entries - 1;
    given_index = needs == LAST ? last : FIRST_INDEX;
    name = new.fields[0].name;
    value = new.fields[0].value;
    if (needs == INDEXES)
        make_indexes(&given);
    if (needs == LITERALS || needs == PACKED)
        make_literals(&given, &other, needs == PACKED);
    if (needs == OLD_LIST || needs == NEW_LIST || needs == RAW_LIST)
        make_list(&given, needs == OLD_LIST ? &old : needs == RAW_LIST ? &raw : &other);
    if (needs == DELETE)
        make_delete(&given, place, FIRST_INDEX);
    if (needs == ACKNOWLEDGEMENT)
        make_acknowledgement(&given, last);
    if (needs == INSERT)
        make_insert(&given, last + 1, value);
}

static void repeat(const struct call *call, size_t rounds)
{
    bool of_encoder = strstr(call->name, "encoder") != NULL;
    for (size_t i = 0; i < rounds; i++) {
        if (of_encoder)
            memcpy(encoder, saved_encoder, sizeof encoder);
        else
            memcpy(decoder, saved_decoder, sizeof decoder);
        expect(call->make(), call->answer, call->name);
    }
}

int main(int count, char **words)
{
    if (count != 8) {
        fprintf(stderr, "usage: see the head of bench/calls.c\n");
        return 1;
    }
    struct place place = {strtoul(words[1], NULL, 10), strtoul(words[2], NULL, 10), strtoul(words[3], NULL, 10),
                          strtoul(words[4], NULL, 10), strtoul(words[5], NULL, 10) != 0};
    for (size_t i = 0; i < sizeof calls / sizeof calls[0]; i++) {
        if (strcmp(words[6], calls[i].name) != 0)
            continue;
        start(&place);
        fill(&place);
        delete_last(&place);
        prepare(&place, calls[i].needs);
        repeat(&calls[i], strtoul(words[7], NULL, 10));
        return 0;
    }
    fprintf(stderr, "no call %s\n", words[6]);
    return 1;
}
