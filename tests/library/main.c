/*
 * Every exported call with each of its answers, in the order of its tests: packing, told numbers, output bytes; buffers unchanged on every
 * refusal, guards around every buffer, bytes past a table's length. Expected bytes are document 01's, by hand. With the argument
 * `exact` there are no guards, for valgrind.
 */
#include <stdio.h>
#include <stdlib.h>
#include <string.h>

#include "arrival.h"
#include "calls.h"
#include "full.h"
#include "interim.h"
#include "kolowrotan.h"
#include "lists.h"
#include "packed.h"
#include "padded.h"
#include "room.h"
#include "stack.h"

/* Bytes lent past what a table needs. */
#define BEYOND 100

static struct lent fresh_decoder(uint64_t limit)
{
    struct lent memory = lent_new(KOLOWROTAN_DECODER_LENGTH + BEYOND, 0xC3);
    decoder_start(AT, &memory, limit, KOLOWROTAN_DONE);
    return memory;
}

static struct lent fresh_encoder(uint64_t limit)
{
    struct lent memory = lent_new(KOLOWROTAN_ENCODER_LENGTH + BEYOND, 0xC3);
    encoder_start(AT, &memory, limit, KOLOWROTAN_DONE);
    return memory;
}

static void starts(void)
{
    struct lent decoder = lent_new(KOLOWROTAN_DECODER_LENGTH, 0xC3), encoder = lent_new(KOLOWROTAN_ENCODER_LENGTH, 0xC3);
    struct lent short_decoder = lent_new(KOLOWROTAN_DECODER_LENGTH - 1, 0);
    struct lent short_encoder = lent_new(KOLOWROTAN_ENCODER_LENGTH - 1, 0);
    check(AT, kolowrotan_decoder_length() == KOLOWROTAN_DECODER_LENGTH, "decoder length");
    check(AT, kolowrotan_encoder_length() == KOLOWROTAN_ENCODER_LENGTH, "encoder length");
    decoder_start(AT, &short_decoder, 4097, KOLOWROTAN_OVER_LIMIT);
    decoder_start(AT, &short_decoder, 4096, KOLOWROTAN_NO_ROOM);
    decoder_start(AT, &decoder, UINT64_MAX, KOLOWROTAN_OVER_LIMIT);
    decoder_start(AT, &decoder, 0, KOLOWROTAN_DONE);
    decoder_start(AT, &decoder, 4096, KOLOWROTAN_DONE);
    encoder_start(AT, &short_encoder, 4097, KOLOWROTAN_OVER_LIMIT);
    encoder_start(AT, &short_encoder, 4096, KOLOWROTAN_NO_ROOM);
    encoder_start(AT, &encoder, UINT64_MAX, KOLOWROTAN_OVER_LIMIT);
    encoder_start(AT, &encoder, 0, KOLOWROTAN_DONE);
    encoder_start(AT, &encoder, 4096, KOLOWROTAN_DONE);
    lent_free(&decoder);
    lent_free(&encoder);
    lent_free(&short_decoder);
    lent_free(&short_encoder);
}

/* Memory that nothing was written to, so that valgrind tells a byte that is read before a call has stored it: short texts, whose ends are compared first. */
static void nothing_unused_is_read(void)
{
    static const uint8_t list[] = {0, 1, 'a', 6, 'l', 'o', 'n', 'g', 'a', 'b'};
    uint8_t *memory = malloc(KOLOWROTAN_ENCODER_LENGTH), output[64];
    check(AT, memory != NULL, "no memory");
    check(AT, KOLOWROTAN_ANSWER(kolowrotan_encoder_start(memory, KOLOWROTAN_ENCODER_LENGTH, 4096)) == KOLOWROTAN_DONE, "start");
    for (const char *name = "abc"; *name != 0; name++) {
        uint64_t result = kolowrotan_encoder_insert(memory, KOLOWROTAN_ENCODER_LENGTH, (const uint8_t *)name, 1, (const uint8_t *)"", 0, output, sizeof output);
        check(AT, KOLOWROTAN_ANSWER(result) == KOLOWROTAN_DONE, "insert");
    }
    check(AT, KOLOWROTAN_ANSWER(kolowrotan_encoder_block(memory, KOLOWROTAN_ENCODER_LENGTH, 1, 0, list, sizeof list, output, sizeof output)) == KOLOWROTAN_DONE,
          "block");
    free(memory);
}

/* 17 comes first: before a bad stream, index, list, and before cut bytes. */
static void no_state_decoder(struct lent *memory)
{
    decoder_read(AT, memory, "", KOLOWROTAN_NO_STATE, 0);
    decoder_block(AT, memory, 4096, 2, "FF", 0, KOLOWROTAN_NO_STATE, 0, "");
    decoder_over(AT, memory, 4096, KOLOWROTAN_NO_STATE);
    decoder_over(AT, memory, 0, KOLOWROTAN_NO_STATE);
    decoder_ended(AT, memory, 4096, KOLOWROTAN_NO_STATE);
    decoder_collect(AT, memory, 0, KOLOWROTAN_NO_STATE, 0, "");
    decoder_hold(AT, memory, 0, KOLOWROTAN_NO_STATE, 0, 0);
}

static void no_state_encoder(struct lent *memory)
{
    encoder_insert(AT, memory, "", "", 0, KOLOWROTAN_NO_STATE, 0, 0, "");
    encoder_delete(AT, memory, 0, 0, KOLOWROTAN_NO_STATE, 0, "");
    encoder_block(AT, memory, 4096, 2, "02", 0, KOLOWROTAN_NO_STATE, 0, "");
    encoder_acknowledge(AT, memory, "", KOLOWROTAN_NO_STATE, 0);
}

static void no_state(void)
{
    struct lent zeros = lent_new(65536, 0), none = lent_new(0, 0);
    struct lent decoder = fresh_decoder(4096), encoder = fresh_encoder(4096);
    struct lent cut_decoder = lent_from(decoder.bytes, KOLOWROTAN_DECODER_LENGTH - 1);
    struct lent cut_encoder = lent_from(encoder.bytes, KOLOWROTAN_ENCODER_LENGTH - 1);
    no_state_decoder(&zeros);
    no_state_encoder(&zeros);
    no_state_decoder(&none);
    no_state_encoder(&none);
    no_state_decoder(&encoder);
    no_state_encoder(&decoder);
    no_state_decoder(&cut_decoder);
    no_state_encoder(&cut_encoder);
    lent_free(&zeros);
    lent_free(&none);
    lent_free(&decoder);
    lent_free(&encoder);
    lent_free(&cut_decoder);
    lent_free(&cut_encoder);
}

/*
 * What a start leaves, by hand from docs/STATE.md: head and marks, and of the rest the number 61 and the first text offset alone. Versions up to 1.5.0 left
 * head and marks alone, then rows of 16 bytes from 1,088 on, text from 3,136 on, and an encoder's horizons from 7,232 on. That is no state, neither with the
 * entry nor when it was freed, and its row still stands there.
 */
static void earlier_versions(void)
{
    static const uint8_t row[16] = {62, 0, 0, 0, 0, 0, 1, 0, 1, 0};
    for (uint8_t role = 1; role <= 2; role++) {
        const uint8_t head[64] = {role, 2, 0x00, 0x10};
        struct lent fresh = role == 1 ? fresh_decoder(4096) : fresh_encoder(4096), memory = lent_new(fresh.length, 0xC3);
        memcpy(memory.bytes, head, sizeof head);
        memset(memory.bytes + sizeof head, 0xFF, 1024);
        memcpy(memory.bytes + 1088, "\x3D\0\0", 4);
        memset(memory.bytes + 1604, 0, 2);
        check(AT, memcmp(memory.bytes, fresh.bytes, fresh.length) == 0, "a start writes other bytes");
        memcpy(memory.bytes + 1088, row, sizeof row);
        memcpy(memory.bytes + 3136, "nv", 2);
        memset(memory.bytes + 7232, 0, 76);
        for (int entries = 1; entries >= 0; entries--) {
            memory.bytes[4] = (uint8_t)(34 * entries);
            memory.bytes[6] = (uint8_t)entries;
            lent_remember(&memory);
            if (role == 1)
                no_state_decoder(&memory);
            else
                no_state_encoder(&memory);
        }
        lent_free(&fresh);
        lent_free(&memory);
    }
}

static void reads(void)
{
    struct lent memory = fresh_decoder(4096), small = fresh_decoder(67);
    decoder_read(AT, &memory, "", KOLOWROTAN_TRUNCATED, 0);
    decoder_read(AT, &memory, "BE 00 01 68 01", KOLOWROTAN_TRUNCATED, 0);
    decoder_read(AT, &memory, "FF 81 FF FF 3F", KOLOWROTAN_TOO_LARGE, 0);
    decoder_read(AT, &memory, "FF 80 80 80 80", KOLOWROTAN_TOO_LARGE, 0);
    decoder_read(AT, &memory, "BE 00 81 18 00", KOLOWROTAN_BAD_PACKING, 0);
    decoder_read(AT, &memory, "7F", KOLOWROTAN_NOT_ALLOWED, 0);
    decoder_read(AT, &memory, "BD 00 01 68 01 39", KOLOWROTAN_NOT_ALLOWED, 0);
    decoder_read(AT, &memory, "BE 00 7F 81 01", KOLOWROTAN_TOO_LONG, 0);
    decoder_read(AT, &memory, "3E FF 82 1E", KOLOWROTAN_BAD_STREAM_LIST, 0);
    decoder_read(AT, &memory, "BE 3F 01 39", KOLOWROTAN_VACANT, 0);
    decoder_read(AT, &memory, "BE 00 01 68 01 39 3E", KOLOWROTAN_DONE, 6);
    decoder_read(AT, &memory, "BE 00 01 68 01 39", KOLOWROTAN_HELD, 0);
    decoder_read(AT, &memory, "3F 00 00 00 00 00", KOLOWROTAN_VACANT, 0);
    decoder_read(AT, &memory, "3E 00 00 00 00", KOLOWROTAN_DONE, 5);
    decoder_read(AT, &memory, "3E 00 00 00 00", KOLOWROTAN_UNDER_DELETION, 0);
    decoder_read(AT, &memory, "FF 80 FF FF 3F 01 00", KOLOWROTAN_DONE, 7);
    decoder_read(AT, &small, "BE 00 01 68 01 39", KOLOWROTAN_DONE, 6);
    decoder_read(AT, &small, "BF 00 01 68 01 39", KOLOWROTAN_OVER_LIMIT, 0);
    lent_free(&memory);
    lent_free(&small);
}

static void decoder_blocks(void)
{
    struct lent memory = fresh_decoder(4096), longest = lent_new(16385, 0x82), most = lent_new(16384, 0x82);
    decoder_block(AT, &memory, 4096, 0, "FF", 99, KOLOWROTAN_OUT_OF_TURN, 0, "");
    decoder_block(AT, &memory, UINT64_MAX, 0, "82", 99, KOLOWROTAN_OUT_OF_TURN, 0, "");
    decoder_block(AT, &memory, (uint64_t)1 << 32, 0, "82", 99, KOLOWROTAN_OUT_OF_TURN, 0, "");
    decoder_block(AT, &memory, 0, 2, "82", 99, KOLOWROTAN_OUT_OF_TURN, 0, "");
    decoder_block_bytes(AT, &memory, 0, &longest, 0, KOLOWROTAN_TOO_LONG, 0);
    decoder_block(AT, &memory, 0, 0, "BE FF", 0, KOLOWROTAN_TRUNCATED, 0, "");
    decoder_block(AT, &memory, 0, 0, "BE FF 81 FF FF 3F", 0, KOLOWROTAN_TOO_LARGE, 0, "");
    decoder_block(AT, &memory, 0, 0, "BE 00 80 81 18", 0, KOLOWROTAN_BAD_PACKING, 0, "");
    decoder_block(AT, &memory, 0, 0, "BE 80", 0, KOLOWROTAN_NOT_ALLOWED, 0, "");
    decoder_block(AT, &memory, 0, 0, "BE 00 7F 81 01", 0, KOLOWROTAN_TOO_LONG, 0, "");
    decoder_block(AT, &memory, 0, 0, "82 BE BF", 0, KOLOWROTAN_WAITS, 62, "");
    decoder_read(AT, &memory, "BE 00 01 68 01 39", KOLOWROTAN_DONE, 6);
    decoder_block(AT, &memory, 0, 0, "82 7F 00 01 39", 99, KOLOWROTAN_WAITS, 63, "");
    decoder_block(AT, &memory, 0, 0, "BE 82", 17, KOLOWROTAN_NO_ROOM, 0, "");
    decoder_block(AT, &memory, 0, 0, "BE 82", 18, KOLOWROTAN_DONE, 18, "00 01 68 01 39 00 07 3A 6D 65 74 68 6F 64 03 47 45 54");
    decoder_block(AT, &memory, 0, 1, "7E 01 37", 99, KOLOWROTAN_DONE, 5, "01 01 68 01 37");
    decoder_block(AT, &memory, 0, 1, "", 99, KOLOWROTAN_OUT_OF_TURN, 0, "");
    decoder_block(AT, &memory, 0, 0, "BE 82", 18, KOLOWROTAN_OUT_OF_TURN, 0, "");
    decoder_block(AT, &memory, 4095, 0, "", 0, KOLOWROTAN_DONE, 0, "");
    decoder_block_bytes(AT, &memory, 1, &most, 16384 * 13 - 1, KOLOWROTAN_NO_ROOM, 0);
    decoder_block_bytes(AT, &memory, 1, &most, 16384 * 13, KOLOWROTAN_DONE, 16384 * 13);
    decoder_ended(AT, &memory, 4096, KOLOWROTAN_OUT_OF_TURN);
    decoder_ended(AT, &memory, 2, KOLOWROTAN_DONE);
    decoder_ended(AT, &memory, 2, KOLOWROTAN_DONE);
    decoder_block(AT, &memory, 2, 0, "82", 99, KOLOWROTAN_OUT_OF_TURN, 0, "");
    lent_free(&memory);
    lent_free(&longest);
    lent_free(&most);
}

static void collects(void)
{
    struct lent memory = fresh_decoder(4096);
    decoder_collect(AT, &memory, 0, KOLOWROTAN_DONE, 0, "");
    decoder_hold(AT, &memory, 61, KOLOWROTAN_NOT_ALLOWED, 0, 0);
    decoder_hold(AT, &memory, (uint64_t)1 << 27, KOLOWROTAN_NOT_ALLOWED, 0, 0);
    decoder_hold(AT, &memory, ((uint64_t)1 << 32) + 62, KOLOWROTAN_NOT_ALLOWED, 0, 0);
    decoder_hold(AT, &memory, 62, KOLOWROTAN_VACANT, 0, 0);
    decoder_read(AT, &memory, "BE 00 01 68 01 39", KOLOWROTAN_DONE, 6);
    decoder_hold(AT, &memory, 62, KOLOWROTAN_NOT_UNDER_DELETION, 0, 0);
    decoder_read(AT, &memory, "3E 03 02 01 03 01 00", KOLOWROTAN_DONE, 7);
    decoder_hold(AT, &memory, 62, KOLOWROTAN_DONE, 6, 0);
    for (uint64_t stream = 0; stream < 7; stream++)
        decoder_block(AT, &memory, stream, 0, "", 0, KOLOWROTAN_DONE, 0, "");
    decoder_hold(AT, &memory, 62, KOLOWROTAN_DONE, 6, 0);
    for (uint64_t stream = 0; stream < 7; stream++)
        decoder_over(AT, &memory, stream, KOLOWROTAN_DONE);
    decoder_hold(AT, &memory, 62, KOLOWROTAN_DONE, 2, 0);
    decoder_block(AT, &memory, 0, 1, "", 0, KOLOWROTAN_DONE, 0, "");
    decoder_hold(AT, &memory, 62, KOLOWROTAN_DONE, 1, 7);
    decoder_collect(AT, &memory, 9, KOLOWROTAN_DONE, 0, "");
    decoder_ended(AT, &memory, 7, KOLOWROTAN_DONE);
    decoder_hold(AT, &memory, 62, KOLOWROTAN_DONE, 0, 4096);
    decoder_collect(AT, &memory, 0, KOLOWROTAN_NO_ROOM, 0, "");
    decoder_collect(AT, &memory, 9, KOLOWROTAN_DONE, 1, "7E");
    decoder_collect(AT, &memory, 9, KOLOWROTAN_DONE, 0, "");
    decoder_read(AT, &memory, "FF 80 FF FF 3F 01 00", KOLOWROTAN_DONE, 7);
    decoder_read(AT, &memory, "3F C0 FF FF 3F 00 00 00 00", KOLOWROTAN_DONE, 9);
    decoder_collect(AT, &memory, KOLOWROTAN_COLLECT_ROOM - 1, KOLOWROTAN_NO_ROOM, 0, "");
    decoder_collect(AT, &memory, KOLOWROTAN_COLLECT_ROOM, KOLOWROTAN_DONE, 5, "7F C0 FF FF 3F");
    lent_free(&memory);
}

static void inserts(void)
{
    struct lent memory = fresh_encoder(4096), small = fresh_encoder(33);
    struct lent name = lent_new(256, 'n'), value = lent_new(2048, 'v');
    /* X has a code of eight bits: packed it is no shorter. */
    struct lent longest_name = lent_new(255, 'X'), longest_value = lent_new(2047, 'X'), none = lent_new(0, 0);
    encoder_insert_bytes(AT, &memory, &name, &none, 0, KOLOWROTAN_TOO_LONG, 0, 0, "");
    encoder_insert_bytes(AT, &memory, &none, &value, 0, KOLOWROTAN_TOO_LONG, 0, 0, "");
    encoder_insert(AT, &small, "68", "39", 0, KOLOWROTAN_OVER_LIMIT, 0, 0, "");
    encoder_insert(AT, &memory, "68", "39", 5, KOLOWROTAN_NO_ROOM, 0, 0, "");
    encoder_insert(AT, &memory, "68", "39", 6, KOLOWROTAN_DONE, 6, 62, "BE 00 01 68 01 39");
    encoder_insert(AT, &memory, "68", "37", 99, KOLOWROTAN_DONE, 4, 63, "BF 3E 01 37");
    encoder_insert(AT, &memory, "3A 70 61 74 68", "2F 78", 99, KOLOWROTAN_DONE, 5, 64, "C0 04 02 2F 78");
    encoder_insert_bytes(AT, &memory, &longest_name, &longest_value, KOLOWROTAN_INSERT_ROOM - 1, KOLOWROTAN_NO_ROOM, 0, 0, "");
    encoder_insert_bytes(AT, &memory, &longest_name, &longest_value, KOLOWROTAN_INSERT_ROOM, KOLOWROTAN_DONE,
                         KOLOWROTAN_INSERT_ROOM, 65, NULL);
    encoder_insert_bytes(AT, &memory, &longest_name, &longest_value, 9999, KOLOWROTAN_OVER_LIMIT, 0, 0, "");
    lent_free(&memory);
    lent_free(&small);
    lent_free(&name);
    lent_free(&value);
    lent_free(&longest_name);
    lent_free(&longest_value);
    lent_free(&none);
}

static void deletes(void)
{
    struct lent memory = fresh_encoder(4096);
    encoder_insert(AT, &memory, "68", "39", 99, KOLOWROTAN_DONE, 6, 62, "BE 00 01 68 01 39");
    encoder_delete(AT, &memory, 61, 0, KOLOWROTAN_NOT_ALLOWED, 0, "");
    encoder_delete(AT, &memory, (uint64_t)1 << 27, 0, KOLOWROTAN_NOT_ALLOWED, 0, "");
    encoder_delete(AT, &memory, ((uint64_t)1 << 32) + 62, 0, KOLOWROTAN_NOT_ALLOWED, 0, "");
    encoder_delete(AT, &memory, 63, 0, KOLOWROTAN_VACANT, 0, "");
    encoder_block(AT, &memory, 4095, 0, "00 01 68 01 39", 99, KOLOWROTAN_DONE, 1, "BE");
    encoder_block(AT, &memory, 4095, 1, "01 01 68 01 37", 99, KOLOWROTAN_DONE, 3, "7E 01 37");
    encoder_delete(AT, &memory, 62, 8, KOLOWROTAN_NO_ROOM, 0, "");
    encoder_delete(AT, &memory, 62, 9, KOLOWROTAN_DONE, 9, "3E FF 81 1E 00 FF 81 1E 00");
    encoder_delete(AT, &memory, 62, 0, KOLOWROTAN_UNDER_DELETION, 0, "");
    encoder_insert(AT, &memory, "68", "39", 99, KOLOWROTAN_DONE, 6, 63, "BF 00 01 68 01 39");
    encoder_block(AT, &memory, 4094, 0, "00 01 68 01 39", 99, KOLOWROTAN_DONE, 1, "BF");
    encoder_block(AT, &memory, 4094, 1, "00 01 68 01 39", 99, KOLOWROTAN_DONE, 1, "BF");
    encoder_delete(AT, &memory, 63, KOLOWROTAN_DELETE_ROOM, KOLOWROTAN_DONE, KOLOWROTAN_DELETE_ROOM, "3F 00 FF 80 1E 00 FF 80 1E 00");
    encoder_acknowledge(AT, &memory, "", KOLOWROTAN_TRUNCATED, 0);
    encoder_acknowledge(AT, &memory, "7F", KOLOWROTAN_TRUNCATED, 0);
    encoder_acknowledge(AT, &memory, "7F C1 FF FF 3F", KOLOWROTAN_TOO_LARGE, 0);
    encoder_acknowledge(AT, &memory, "FF", KOLOWROTAN_NOT_ALLOWED, 0);
    encoder_acknowledge(AT, &memory, "3E", KOLOWROTAN_NOT_ALLOWED, 0);
    encoder_acknowledge(AT, &memory, "7D", KOLOWROTAN_NOT_ALLOWED, 0);
    encoder_acknowledge(AT, &memory, "7F 01", KOLOWROTAN_NOT_UNDER_DELETION, 0);
    encoder_acknowledge(AT, &memory, "7E 7F 00", KOLOWROTAN_DONE, 1);
    encoder_acknowledge(AT, &memory, "7E", KOLOWROTAN_NOT_UNDER_DELETION, 0);
    encoder_insert(AT, &memory, "68", "36", 99, KOLOWROTAN_DONE, 6, 62, "BE 00 01 68 01 36");
    encoder_acknowledge(AT, &memory, "7F 00", KOLOWROTAN_DONE, 2);
    lent_free(&memory);
}

static void encoder_blocks(void)
{
    struct lent memory = fresh_encoder(4096), list = lent_new(17 * 1004, 'X');
    for (size_t at = 0; at < list.length; at += 1004)
        memcpy(list.bytes + at, "\0\0\xE8\7", 4); /* an empty name, a value of 1,000 bytes that stays plain: 1,005 on the wire */
    lent_remember(&list);
    struct lent fits = lent_from(list.bytes, 16 * 1004);
    encoder_block(AT, &memory, 4096, 0, "02", 99, KOLOWROTAN_OUT_OF_TURN, 0, "");
    encoder_block(AT, &memory, 0, 2, "", 99, KOLOWROTAN_OUT_OF_TURN, 0, "");
    encoder_block(AT, &memory, 0, 0, "02", 0, KOLOWROTAN_BAD_FIELD_LIST, 0, "");
    encoder_block(AT, &memory, 0, 0, "00 01 68 01", 0, KOLOWROTAN_BAD_FIELD_LIST, 0, "");
    encoder_block(AT, &memory, 0, 0, "00 81 00 68 01 39", 0, KOLOWROTAN_BAD_FIELD_LIST, 0, "");
    encoder_block(AT, &memory, 0, 0, "00 80 02", 0, KOLOWROTAN_TOO_LONG, 0, "");
    encoder_block_bytes(AT, &memory, 0, &list, 0, KOLOWROTAN_TOO_LONG, 0);
    encoder_block_bytes(AT, &memory, 1, &fits, 16 * 1005 - 1, KOLOWROTAN_NO_ROOM, 0);
    encoder_block_bytes(AT, &memory, 1, &fits, 16 * 1005, KOLOWROTAN_DONE, 16 * 1005);
    encoder_insert(AT, &memory, "68", "39", 99, KOLOWROTAN_DONE, 6, 62, "BE 00 01 68 01 39");
    encoder_block(AT, &memory, 0, 0, "00 01 68 01 39 00 07 3A 6D 65 74 68 6F 64 03 47 45 54", 1, KOLOWROTAN_NO_ROOM, 0, "");
    encoder_block(AT, &memory, 0, 0, "00 01 68 01 39 00 07 3A 6D 65 74 68 6F 64 03 47 45 54", 2, KOLOWROTAN_DONE, 2, "BE 82");
    encoder_block(AT, &memory, 0, 1, "01 01 68 01 37 00 01 78 00", 9, KOLOWROTAN_DONE, 7, "7E 01 37 00 01 78 00");
    encoder_block(AT, &memory, 0, 1, "", 2, KOLOWROTAN_OUT_OF_TURN, 0, "");
    encoder_block(AT, &memory, 0, 0, "", 2, KOLOWROTAN_OUT_OF_TURN, 0, "");
    encoder_block(AT, &memory, 4095, 0, "", 0, KOLOWROTAN_DONE, 0, "");
    lent_free(&memory);
    lent_free(&list);
    lent_free(&fits);
}

int main(int count, char **arguments)
{
    if (count == 2 && strcmp(arguments[1], "exact") == 0)
        guard = 0;
    starts();
    nothing_unused_is_read();
    no_state();
    earlier_versions();
    reads();
    decoder_blocks();
    collects();
    inserts();
    deletes();
    encoder_blocks();
    packed();
    padded();
    room();
    full();
    interim();
    arrival();
    lists();
    /* valgrind takes what a call left on its stack as undefined */
    if (guard != 0)
        stack();
    printf("library: %u checks, %u failures\n", checks, failures);
    return failures != 0;
}
