/*
 * How much room a block needs: the list's bytes and two for each field, and never more than 16,384. Expected numbers are document 02's, and
 * by hand: X has a code of eight bits, so that packed it is no shorter; 127 times a has 635 bits, which are 80 bytes.
 */
#include "room.h"

#include <string.h>

#include "calls.h"
#include "kolowrotan.h"

/* A field whose name and value have 127 bytes: 257 in the list, and 259 in a block where both are plain. */
#define TEXT 127
#define FIELD (3 + 2 * TEXT)
#define WRITTEN 259

/* Both macros are constant where they are given constants. */
static uint8_t closed[KOLOWROTAN_BLOCK_ROOM(FIELD, 1)], uncounted[KOLOWROTAN_BLOCK_ROOM_OF(FIELD)];
static uint8_t most[KOLOWROTAN_BLOCK_ROOM(SIZE_MAX, SIZE_MAX)], none[1 + KOLOWROTAN_BLOCK_ROOM(0, 0)];
static uint8_t most_uncounted[KOLOWROTAN_BLOCK_ROOM_OF(SIZE_MAX)];

static void sizes(void)
{
    check(AT, sizeof closed == WRITTEN, "room of 257 bytes and a field");
    check(AT, sizeof uncounted == 257 + 2 * 85, "room of 257 bytes");
    check(AT, sizeof most == 16384 && sizeof most_uncounted == 16384, "room of the longest");
    check(AT, sizeof none == 1, "room of an empty list");
}

static void counted(const char *file, int line, size_t length, size_t fields, size_t room)
{
    check(file, line, KOLOWROTAN_BLOCK_ROOM(length, fields) == room, "KOLOWROTAN_BLOCK_ROOM");
}

static void borders(void)
{
    static const size_t lengths[] = {0, 1, 2, 3, 16383, 16384, SIZE_MAX};
    for (size_t i = 0; i < sizeof lengths / sizeof lengths[0]; i++) {
        counted(AT, lengths[i], 0, lengths[i] < 16384 ? lengths[i] : 16384);
        counted(AT, lengths[i], 8192, 16384);
        counted(AT, lengths[i], 8193, 16384);
        counted(AT, lengths[i], 16384, 16384);
        counted(AT, lengths[i], 16385, 16384);
        counted(AT, lengths[i], SIZE_MAX, 16384);
        /* Twice these is 0, or 2, where the highest bit is lost. */
        counted(AT, lengths[i], SIZE_MAX / 2 + 1, 16384);
        counted(AT, lengths[i], SIZE_MAX / 2 + 2, 16384);
    }
    counted(AT, 0, 1, 2);
    counted(AT, 3, 1, 5);
    counted(AT, 0, 8191, 16382);
    counted(AT, 1, 8191, 16383);
    counted(AT, 2, 8191, 16384);
    counted(AT, 3, 8191, 16384);
    counted(AT, 16381, 1, 16383);
    counted(AT, 16382, 1, 16384);
    counted(AT, 16383, 1, 16384);
    counted(AT, 16384, 1, 16384);
    counted(AT, SIZE_MAX - 1, 1, 16384);
    counted(AT, SIZE_MAX, 1, 16384);
    counted(AT, SIZE_MAX, 8191, 16384);
}

static void uncounted_borders(void)
{
    static const size_t pairs[][2] = {{0, 0}, {1, 1}, {2, 2}, {3, 5}, {4, 6}, {5, 7}, {6, 10}, {257, 427}, {9828, 16380}, {9829, 16381},
                                      {9830, 16382}, {9831, 16384}, {9832, 16384}, {16383, 16384}, {16384, 16384}, {16385, 16384},
                                      {SIZE_MAX - 1, 16384}, {SIZE_MAX, 16384}};
    for (size_t i = 0; i < sizeof pairs / sizeof pairs[0]; i++)
        check(AT, KOLOWROTAN_BLOCK_ROOM_OF(pairs[i][0]) == pairs[i][1], "KOLOWROTAN_BLOCK_ROOM_OF");
    for (size_t length = 0; length <= 20000; length++) {
        size_t whole = length + 2 * (length / 3), room = whole < 16384 ? whole : 16384;
        check(AT, KOLOWROTAN_BLOCK_ROOM_OF(length) == room, "KOLOWROTAN_BLOCK_ROOM_OF");
        check(AT, KOLOWROTAN_BLOCK_ROOM(length, length / 3) == room, "both macros on fields of three bytes");
    }
}

/* An expression is an argument like any other. */
static void expressions(void)
{
    size_t length = 250, fields = 3;
    check(AT, KOLOWROTAN_BLOCK_ROOM(length + 7, fields - 2) == 259, "expressions");
    check(AT, KOLOWROTAN_BLOCK_ROOM(fields == 3 ? length : 0, fields & 1) == 252, "expressions of low rank");
    check(AT, KOLOWROTAN_BLOCK_ROOM_OF(length + 7) == 427, "an expression");
    check(AT, 2 * KOLOWROTAN_BLOCK_ROOM(257, 1) == 518 && 2 * KOLOWROTAN_BLOCK_ROOM_OF(257) == 854, "inside an expression");
    check(AT, KOLOWROTAN_BLOCK_ROOM((uint8_t)200, (uint8_t)200) == 600, "narrow numbers");
}

static struct lent fresh_encoder(void)
{
    struct lent memory = lent_new(KOLOWROTAN_ENCODER_LENGTH, 0xC3);
    encoder_start(AT, &memory, 4096, KOLOWROTAN_DONE);
    return memory;
}

/* A list of such fields, and behind them one with an empty name and so many X as its value, where there is one. */
static struct lent list_of(size_t count, uint8_t flag, uint8_t in_name, uint8_t in_value, size_t last)
{
    struct lent list = lent_new(count * FIELD + (last == 0 ? 0 : 3 + last), 'X');
    uint8_t *at = list.bytes;
    for (size_t field = 0; field < count; field++) {
        at[0] = flag;
        at[1] = TEXT;
        memset(at + 2, in_name, TEXT);
        at[2 + TEXT] = TEXT;
        memset(at + 3 + TEXT, in_value, TEXT);
        at += FIELD;
    }
    if (last != 0) {
        at[0] = flag;
        at[1] = 0;
        at[2] = (uint8_t)last;
    }
    lent_remember(&list);
    return list;
}

/* A list whose block has so many bytes: 12 with one less, done with just as much, with the bound and with the one that needs no count. */
static void takes(const char *file, int line, struct lent list, size_t fields, uint32_t written)
{
    struct lent memory = fresh_encoder();
    encoder_block_bytes(file, line, &memory, 0, &list, 0, KOLOWROTAN_NO_ROOM, 0);
    encoder_block_bytes(file, line, &memory, 0, &list, written - 1, KOLOWROTAN_NO_ROOM, 0);
    encoder_block_bytes(file, line, &memory, 0, &list, written, KOLOWROTAN_DONE, written);
    encoder_block_bytes(file, line, &memory, 1, &list, KOLOWROTAN_BLOCK_ROOM(list.length, fields), KOLOWROTAN_DONE, written);
    encoder_block_bytes(file, line, &memory, 2, &list, KOLOWROTAN_BLOCK_ROOM_OF(list.length), KOLOWROTAN_DONE, written);
    lent_free(&memory);
    lent_free(&list);
}

/* Document 02's field reaches the bound, and with it 63 of them do; 64 are no block. Packed strings stay below. */
static void reached(void)
{
    struct lent memory = fresh_encoder(), list = list_of(1, 0, 'X', 'X', 0), over = list_of(64, 0, 'X', 'X', 0);
    check(AT, list.length == 257 && KOLOWROTAN_BLOCK_ROOM(list.length, 1) == WRITTEN, "257 bytes of list, 259 of block");
    encoder_block_bytes(AT, &memory, 0, &list, 258, KOLOWROTAN_NO_ROOM, 0);
    encoder_block_bytes(AT, &memory, 0, &list, 259, KOLOWROTAN_DONE, 259);
    encoder_block_bytes(AT, &memory, 1, &over, KOLOWROTAN_BLOCK_ROOM(over.length, 64), KOLOWROTAN_TOO_LONG, 0);
    takes(AT, list_of(1, 0, 'X', 'X', 0), 1, 259);
    takes(AT, list_of(1, 1, 'X', 'X', 0), 1, 259);
    takes(AT, list_of(63, 0, 'X', 'X', 0), 63, 63 * WRITTEN);
    check(AT, KOLOWROTAN_BLOCK_ROOM(63 * FIELD, 63) == 63 * WRITTEN, "63 fields at the bound");
    takes(AT, list_of(1, 0, 'a', 'a', 0), 1, 163);
    takes(AT, list_of(1, 0, 'X', 'a', 0), 1, 211);
    takes(AT, list_of(1, 1, 'a', 'X', 0), 1, 211);
    lent_free(&memory);
    lent_free(&list);
    lent_free(&over);
}

/* 16,384 bytes of block from 16,258 of list and 64 fields, whose sum is cut; with a byte more there is no block. */
static void cut(void)
{
    struct lent memory = fresh_encoder(), over = list_of(63, 0, 'X', 'X', 65);
    check(AT, KOLOWROTAN_BLOCK_ROOM(63 * FIELD + 67, 64) == 16384, "the bound is cut");
    takes(AT, list_of(63, 0, 'X', 'X', 64), 64, 16384);
    takes(AT, list_of(63, 1, 'X', 'X', 63), 64, 16383);
    encoder_block_bytes(AT, &memory, 0, &over, 16384, KOLOWROTAN_TOO_LONG, 0);
    encoder_block_bytes(AT, &memory, 0, &over, 99999, KOLOWROTAN_TOO_LONG, 0);
    lent_free(&memory);
    lent_free(&over);
}

/* The same field once it is held, by index or for its name: the room is enough, and more than is needed. */
static void held(void)
{
    struct lent memory = fresh_encoder(), list = list_of(1, 0, 'X', 'X', 0), never = list_of(1, 1, 'X', 'X', 0);
    struct lent text = lent_new(TEXT, 'X');
    encoder_insert_bytes(AT, &memory, &text, &text, KOLOWROTAN_INSERT_ROOM, KOLOWROTAN_DONE, 1 + 1 + 2 * (2 + TEXT), 62, NULL);
    encoder_block_bytes(AT, &memory, 0, &list, KOLOWROTAN_BLOCK_ROOM(list.length, 1), KOLOWROTAN_DONE, 1);
    encoder_block_bytes(AT, &memory, 1, &never, KOLOWROTAN_BLOCK_ROOM(never.length, 1), KOLOWROTAN_DONE, 1 + 2 + TEXT);
    encoder_block(AT, &memory, 2, 0, "", KOLOWROTAN_BLOCK_ROOM(0, 0), KOLOWROTAN_DONE, 0, "");
    encoder_block(AT, &memory, 3, 0, "00 00 00", KOLOWROTAN_BLOCK_ROOM(3, 1), KOLOWROTAN_DONE, 3, "00 00 00");
    encoder_block(AT, &memory, 4, 0, "00 00 00", KOLOWROTAN_BLOCK_ROOM_OF(3), KOLOWROTAN_DONE, 3, "00 00 00");
    lent_free(&memory);
    lent_free(&list);
    lent_free(&never);
    lent_free(&text);
}

void room(void)
{
    sizes();
    borders();
    uncounted_borders();
    expressions();
    reached();
    cut();
    held();
}
