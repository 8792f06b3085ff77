/*
 * Padded integers: one whose last group is zero, and is not its only group, is 19, at its end, after 3 and before 5, 13 and 14. Expected
 * answers are document 02's, by hand. Every refusal is held to memory that has entries and a deletion: 127 is an insert's FF 00, a block's
 * FF 00 and an acknowledgement's 7F 40.
 */
#include "padded.h"

#include <stdio.h>
#include <string.h>

#include "calls.h"
#include "kolowrotan.h"

/* Entries at 62, 63, 127 and 255; the one at 63 is under deletion. */
static struct lent decoder_in_use(void)
{
    struct lent memory = lent_new(KOLOWROTAN_DECODER_LENGTH, 0xC3);
    decoder_start(AT, &memory, 4096, KOLOWROTAN_DONE);
    decoder_read(AT, &memory, "BE 00 01 68 01 39", KOLOWROTAN_DONE, 6);
    decoder_read(AT, &memory, "BF 3E 01 38", KOLOWROTAN_DONE, 4);
    decoder_read(AT, &memory, "FF 00 3E 01 37", KOLOWROTAN_DONE, 5);
    decoder_read(AT, &memory, "FF 80 01 3E 01 36", KOLOWROTAN_DONE, 6);
    decoder_read(AT, &memory, "3F 00 05 00 00 00", KOLOWROTAN_DONE, 6);
    return memory;
}

/* The bytes before, so many times the byte, and the bytes behind, as hexadecimal digits. They are there until the next call. */
static const char *filled(const char *before, const char *byte, size_t count, const char *behind)
{
    static char digits[5000];
    size_t length = (size_t)sprintf(digits, "%s", before);
    for (size_t i = 0; i < count; i++)
        length += (size_t)sprintf(digits + length, "%s", byte);
    sprintf(digits + length, "%s", behind);
    return digits;
}

/* One integer, the index of an insert, in all its forms; the rest of the insert is there where it is read. */
static void forms(void)
{
    struct lent memory = decoder_in_use();
    decoder_read(AT, &memory, "FF 80 00", KOLOWROTAN_PADDED, 0);
    decoder_read(AT, &memory, "FF FF 00", KOLOWROTAN_PADDED, 0);
    decoder_read(AT, &memory, "FF 80 80 00", KOLOWROTAN_PADDED, 0);
    decoder_read(AT, &memory, "FF 81 80 00", KOLOWROTAN_PADDED, 0);
    decoder_read(AT, &memory, "FF 80 81 00", KOLOWROTAN_PADDED, 0);
    decoder_read(AT, &memory, "FF 80 80 80 00", KOLOWROTAN_PADDED, 0);
    decoder_read(AT, &memory, "FF FF FF FF 00", KOLOWROTAN_PADDED, 0);
    /* Padded or not, bytes that run out are 2, and the fourth group that says another follows is 3. */
    decoder_read(AT, &memory, "FF", KOLOWROTAN_TRUNCATED, 0);
    decoder_read(AT, &memory, "FF 80", KOLOWROTAN_TRUNCATED, 0);
    decoder_read(AT, &memory, "FF 80 80", KOLOWROTAN_TRUNCATED, 0);
    decoder_read(AT, &memory, "FF 80 80 80", KOLOWROTAN_TRUNCATED, 0);
    decoder_read(AT, &memory, "FF 80 80 80 80", KOLOWROTAN_TOO_LARGE, 0);
    decoder_read(AT, &memory, "FF 80 80 80 80 00", KOLOWROTAN_TOO_LARGE, 0);
    decoder_read(AT, &memory, "FF 80 80 80 80 80 00", KOLOWROTAN_TOO_LARGE, 0);
    decoder_read(AT, &memory, "FF 80 80 80 7F", KOLOWROTAN_TOO_LARGE, 0);
    /* The only group may be zero, and so may any but the last; 127 is held. */
    decoder_read(AT, &memory, "FF 00 01 00", KOLOWROTAN_HELD, 0);
    decoder_read(AT, &memory, "FF 80 01 01 00", KOLOWROTAN_HELD, 0);
    decoder_read(AT, &memory, "FF 01 01 00", KOLOWROTAN_DONE, 4);
    decoder_read(AT, &memory, "FF 80 80 01 01 00", KOLOWROTAN_DONE, 6);
    decoder_read(AT, &memory, "FF 80 80 80 01 01 00", KOLOWROTAN_DONE, 7);
    decoder_read(AT, &memory, "FF 80 FF FF 3F 01 00", KOLOWROTAN_DONE, 7);
    lent_free(&memory);
}

/* An insert's index, name index and lengths, with all that follows there or not. 256, 1,021, 2,048 and 8,189 would be 13. */
static void inserts(void)
{
    struct lent memory = decoder_in_use();
    decoder_read(AT, &memory, "FF 81 00 01 00", KOLOWROTAN_PADDED, 0);
    decoder_read(AT, &memory, "C0 FF 80 00 01 39", KOLOWROTAN_PADDED, 0);
    decoder_read(AT, &memory, "BE FF 81 00 01 39", KOLOWROTAN_PADDED, 0); /* 256 is vacant, and 62 held: 8 and 6 come later */
    decoder_read(AT, &memory, "C0 FF 00 01 39", KOLOWROTAN_DONE, 5);
    decoder_read(AT, &memory, "C1 00 7F 80 00", KOLOWROTAN_PADDED, 0);
    decoder_read(AT, &memory, filled("C1 00 7F 80 00", "58", 127, "00"), KOLOWROTAN_PADDED, 0);
    decoder_read(AT, &memory, filled("C1 00 7F 00", "58", 127, "00"), KOLOWROTAN_DONE, 132);
    decoder_read(AT, &memory, "C2 00 7F 81 81 00", KOLOWROTAN_PADDED, 0);
    decoder_read(AT, &memory, "C2 00 7F 81 01", KOLOWROTAN_TOO_LONG, 0);
    decoder_read(AT, &memory, "C2 00 FF 80 00", KOLOWROTAN_PADDED, 0);
    decoder_read(AT, &memory, filled("C2 00 FF 80 00", "FC", 127, "00"), KOLOWROTAN_PADDED, 0);
    decoder_read(AT, &memory, filled("C2 00 FF 00", "FC", 127, "00"), KOLOWROTAN_DONE, 132);
    decoder_read(AT, &memory, "C3 00 FF FE 86 00", KOLOWROTAN_PADDED, 0);
    decoder_read(AT, &memory, "C3 00 FF FE 06", KOLOWROTAN_TOO_LONG, 0);
    decoder_read(AT, &memory, "C3 00 00 7F 80 00", KOLOWROTAN_PADDED, 0);
    decoder_read(AT, &memory, filled("C3 01 7F 80 00", "58", 127, ""), KOLOWROTAN_PADDED, 0);
    decoder_read(AT, &memory, filled("C3 01 7F 00", "58", 127, ""), KOLOWROTAN_DONE, 131);
    decoder_read(AT, &memory, "C4 01 7F 81 8F 00", KOLOWROTAN_PADDED, 0);
    decoder_read(AT, &memory, "C4 01 7F 81 0F", KOLOWROTAN_TOO_LONG, 0);
    decoder_read(AT, &memory, filled("C4 01 FF 80 80 00", "FC", 127, ""), KOLOWROTAN_PADDED, 0);
    decoder_read(AT, &memory, "C4 01 FF FE BE 00", KOLOWROTAN_PADDED, 0);
    decoder_read(AT, &memory, "C4 01 FF FE 3E", KOLOWROTAN_TOO_LONG, 0);
    /* What stands to the left decides first. */
    decoder_read(AT, &memory, "BD FF 80 00", KOLOWROTAN_NOT_ALLOWED, 0);
    decoder_read(AT, &memory, "C4 00 81 18 7F 80 00", KOLOWROTAN_BAD_PACKING, 0);
    decoder_read(AT, &memory, "C4 00 7F 80 00 81 18", KOLOWROTAN_PADDED, 0);
    lent_free(&memory);
}

/* A delete's index, and horizon, count and deltas of either list. 4,097 as horizon, 255 as count and stream 4,255 would be 14. */
static void deletes(void)
{
    struct lent memory = decoder_in_use();
    decoder_read(AT, &memory, "3F C0 00 00 00 00 00", KOLOWROTAN_PADDED, 0);
    decoder_read(AT, &memory, "3F 80 00 00 00 00 00", KOLOWROTAN_PADDED, 0); /* 63 is under deletion: 9 comes later */
    decoder_read(AT, &memory, "3F 00 00 00 00 00", KOLOWROTAN_UNDER_DELETION, 0);
    decoder_read(AT, &memory, "3E FF 80 00 00 00 00", KOLOWROTAN_PADDED, 0);
    decoder_read(AT, &memory, "3E FF 81 9E 00 00 00 00", KOLOWROTAN_PADDED, 0);
    decoder_read(AT, &memory, "3E FF 82 9E 00", KOLOWROTAN_PADDED, 0);
    decoder_read(AT, &memory, "3E FF 82 1E", KOLOWROTAN_BAD_STREAM_LIST, 0);
    decoder_read(AT, &memory, "3E 00 FF 80 00", KOLOWROTAN_PADDED, 0);
    decoder_read(AT, &memory, "3E 00 FF 00", KOLOWROTAN_BAD_STREAM_LIST, 0);
    decoder_read(AT, &memory, "3E 00 01 FF 80 00 00 00", KOLOWROTAN_PADDED, 0);
    decoder_read(AT, &memory, "3E 00 02 01 FF 80 80 00 00 00", KOLOWROTAN_PADDED, 0);
    decoder_read(AT, &memory, "3E FF A1 1D 01 FF 80 00", KOLOWROTAN_PADDED, 0); /* 4,000 and 255 */
    decoder_read(AT, &memory, "3E FF A1 1D 01 FF 00", KOLOWROTAN_BAD_STREAM_LIST, 0);
    decoder_read(AT, &memory, "3E 00 00 FF 80 00 00", KOLOWROTAN_PADDED, 0);
    decoder_read(AT, &memory, "3E 00 00 FF 82 9E 00", KOLOWROTAN_PADDED, 0);
    decoder_read(AT, &memory, "3E 00 00 00 FF 80 00", KOLOWROTAN_PADDED, 0);
    decoder_read(AT, &memory, "3E 00 00 00 01 FF 80 00", KOLOWROTAN_PADDED, 0);
    decoder_read(AT, &memory, "3E 00 00 FF A1 1D 01 FF 80 00", KOLOWROTAN_PADDED, 0);
    /* The same number 3 instead, and what stands to the left. */
    decoder_read(AT, &memory, "3E FF 80 80 80 80", KOLOWROTAN_TOO_LARGE, 0);
    decoder_read(AT, &memory, "3E 00 FF 80", KOLOWROTAN_TRUNCATED, 0);
    decoder_read(AT, &memory, "3D FF 80 00", KOLOWROTAN_NOT_ALLOWED, 0);
    decoder_read(AT, &memory, "3E FF 82 1E FF 80 00", KOLOWROTAN_BAD_STREAM_LIST, 0);
    decoder_read(AT, &memory, "3E 00 11 FF 80 00", KOLOWROTAN_BAD_STREAM_LIST, 0);
    decoder_read(AT, &memory, "3E 00 01 00 FF 80 00", KOLOWROTAN_BAD_STREAM_LIST, 0);
    /* An acknowledgement is refused from its first byte. */
    decoder_read(AT, &memory, "7F 80 00", KOLOWROTAN_NOT_ALLOWED, 0);
    decoder_read(AT, &memory, "3E FF 00 01 FF 00 FF 7F 00", KOLOWROTAN_DONE, 9);
    lent_free(&memory);
}

/* A block's indexes, name indexes and lengths; before 1 and 12, and behind 11 and the block's own length. */
static void blocks(void)
{
    struct lent memory = decoder_in_use(), longest = lent_new(16385, 0xFF);
    memcpy(longest.bytes, "\xFF\x80", 3);
    lent_remember(&longest);
    decoder_block(AT, &memory, 0, 0, "FF 80 00", 99, KOLOWROTAN_PADDED, 0, "");
    decoder_block(AT, &memory, 0, 0, "FF FF 00", 0, KOLOWROTAN_PADDED, 0, "");
    decoder_block(AT, &memory, 0, 0, "FF 80 80 80 00", 0, KOLOWROTAN_PADDED, 0, "");
    decoder_block(AT, &memory, 0, 0, "FF 80", 0, KOLOWROTAN_TRUNCATED, 0, "");
    decoder_block(AT, &memory, 0, 0, "FF 80 80 80 80", 0, KOLOWROTAN_TOO_LARGE, 0, "");
    decoder_block(AT, &memory, 0, 0, "BE 82 FF 80 00", 0, KOLOWROTAN_PADDED, 0, "");
    decoder_block(AT, &memory, 0, 0, "C0 FF 80 00", 0, KOLOWROTAN_PADDED, 0, ""); /* 64 is vacant: 1 comes later */
    decoder_block(AT, &memory, 0, 0, "80", 0, KOLOWROTAN_NOT_ALLOWED, 0, "");
    decoder_block(AT, &memory, 0, 0, "80 FF 80 00", 0, KOLOWROTAN_NOT_ALLOWED, 0, "");
    decoder_block(AT, &memory, 0, 0, "FF 80 00 80", 0, KOLOWROTAN_PADDED, 0, "");
    decoder_block(AT, &memory, 0, 0, "3F 80 00 01 39", 99, KOLOWROTAN_PADDED, 0, "");
    decoder_block(AT, &memory, 0, 0, "7F C0 00 01 39", 99, KOLOWROTAN_PADDED, 0, "");
    decoder_block(AT, &memory, 0, 0, "00 7F 80 00", 99, KOLOWROTAN_PADDED, 0, "");
    decoder_block(AT, &memory, 0, 0, filled("00 7F 80 00", "58", 127, "00"), 999, KOLOWROTAN_PADDED, 0, "");
    decoder_block(AT, &memory, 0, 0, "00 7F 81 81 00", 99, KOLOWROTAN_PADDED, 0, "");
    decoder_block(AT, &memory, 0, 0, filled("40 FF 80 00", "FC", 127, "00"), 999, KOLOWROTAN_PADDED, 0, "");
    decoder_block(AT, &memory, 0, 0, "00 FF FE 86 00", 99, KOLOWROTAN_PADDED, 0, "");
    decoder_block(AT, &memory, 0, 0, filled("01 7F 80 00", "58", 127, ""), 999, KOLOWROTAN_PADDED, 0, "");
    decoder_block(AT, &memory, 0, 0, filled("00 01 78 7F 80 00", "58", 127, ""), 999, KOLOWROTAN_PADDED, 0, "");
    decoder_block(AT, &memory, 0, 0, "01 7F 81 8F 00", 99, KOLOWROTAN_PADDED, 0, "");
    decoder_block(AT, &memory, 0, 0, filled("7E FF 80 80 80 00", "FC", 127, ""), 999, KOLOWROTAN_PADDED, 0, "");
    decoder_block(AT, &memory, 0, 0, "01 FF FE BE 00", 99, KOLOWROTAN_PADDED, 0, "");
    decoder_block(AT, &memory, 4096, 0, "FF 80 00", 99, KOLOWROTAN_OUT_OF_TURN, 0, "");
    decoder_block(AT, &memory, 0, 1, "FF 80 00", 99, KOLOWROTAN_PADDED, 0, "");
    decoder_ended(AT, &memory, 9, KOLOWROTAN_DONE);
    decoder_block(AT, &memory, 9, 1, "FF 80 00", 99, KOLOWROTAN_OUT_OF_TURN, 0, "");
    decoder_block_bytes(AT, &memory, 0, &longest, 0, KOLOWROTAN_TOO_LONG, 0);
    /* The shortest forms of the same. */
    decoder_block(AT, &memory, 0, 0, "FF 00 FF 80 01", 10, KOLOWROTAN_DONE, 10, "00 01 68 01 37 00 01 68 01 36");
    decoder_block(AT, &memory, 1, 0, "3F 00 01 39 7F 40 01 39", 10, KOLOWROTAN_DONE, 10, "00 01 68 01 39 01 01 68 01 39");
    decoder_block(AT, &memory, 2, 0, filled("00 7F 00", "58", 127, "00"), 130, KOLOWROTAN_DONE, 130, NULL);
    lent_free(&memory);
    lent_free(&longest);
}

static void acknowledgements(void)
{
    struct lent memory = lent_new(KOLOWROTAN_ENCODER_LENGTH, 0xC3);
    encoder_start(AT, &memory, 4096, KOLOWROTAN_DONE);
    encoder_insert(AT, &memory, "68", "39", 99, KOLOWROTAN_DONE, 6, 62, "BE 00 01 68 01 39");
    encoder_insert(AT, &memory, "68", "38", 99, KOLOWROTAN_DONE, 4, 63, "BF 3E 01 38");
    encoder_delete(AT, &memory, 63, 99, KOLOWROTAN_DONE, 6, "3F 00 00 00 00 00");
    encoder_acknowledge(AT, &memory, "7F 80 00", KOLOWROTAN_PADDED, 0);
    encoder_acknowledge(AT, &memory, "7F FF 00", KOLOWROTAN_PADDED, 0); /* 190 is vacant: 10 comes later */
    encoder_acknowledge(AT, &memory, "7F 80 80 80 00", KOLOWROTAN_PADDED, 0);
    encoder_acknowledge(AT, &memory, "7F 80", KOLOWROTAN_TRUNCATED, 0);
    encoder_acknowledge(AT, &memory, "7F 80 80 80", KOLOWROTAN_TRUNCATED, 0);
    encoder_acknowledge(AT, &memory, "7F 80 80 80 80", KOLOWROTAN_TOO_LARGE, 0);
    encoder_acknowledge(AT, &memory, "3F 80 00", KOLOWROTAN_NOT_ALLOWED, 0);
    encoder_acknowledge(AT, &memory, "FF 80 00", KOLOWROTAN_NOT_ALLOWED, 0);
    encoder_acknowledge(AT, &memory, "7F 80 01", KOLOWROTAN_NOT_UNDER_DELETION, 0);
    encoder_acknowledge(AT, &memory, "7F 00 80 00", KOLOWROTAN_DONE, 2);
    /* Lengths of the field list are no integers of the wire. */
    encoder_block(AT, &memory, 0, 0, "00 80 00 00", 99, KOLOWROTAN_BAD_FIELD_LIST, 0, "");
    encoder_block(AT, &memory, 0, 0, "00 01 68 FF 00", 99, KOLOWROTAN_BAD_FIELD_LIST, 0, "");
    lent_free(&memory);
}

/* 17 comes first. */
static void no_state(void)
{
    struct lent memory = lent_new(KOLOWROTAN_DECODER_LENGTH, 0);
    decoder_read(AT, &memory, "FF 80 00", KOLOWROTAN_NO_STATE, 0);
    decoder_block(AT, &memory, 0, 0, "FF 80 00", 0, KOLOWROTAN_NO_STATE, 0, "");
    encoder_acknowledge(AT, &memory, "7F 80 00", KOLOWROTAN_NO_STATE, 0);
    lent_free(&memory);
}

/* Every integer of two groups at each width: 19 exactly where the second is zero, else a vacant index is told, or 8 or 10 is given. */
static void two_groups(void)
{
    static const unsigned firsts[] = {0x80, 0x81, 0xC0, 0xFF};
    struct lent decoder = lent_new(KOLOWROTAN_DECODER_LENGTH, 0xC3), encoder = lent_new(KOLOWROTAN_ENCODER_LENGTH, 0xC3);
    decoder_start(AT, &decoder, 4096, KOLOWROTAN_DONE);
    encoder_start(AT, &encoder, 4096, KOLOWROTAN_DONE);
    for (unsigned place = 0; place < 4 * 128 + 128; place++) {
        unsigned low = place < 4 * 128 ? firsts[place / 128] : 0x80 + place % 128, high = place < 4 * 128 ? place % 128 : 0;
        unsigned value = low - 0x80 + 128 * high;
        int shortest = high != 0;
        char digits[40];
        sprintf(digits, "7F %02X %02X", low, high);
        encoder_acknowledge(AT, &encoder, digits, shortest ? KOLOWROTAN_NOT_UNDER_DELETION : KOLOWROTAN_PADDED, 0);
        sprintf(digits, "FF %02X %02X", low, high);
        decoder_block(AT, &decoder, 0, 0, digits, 0, shortest ? KOLOWROTAN_WAITS : KOLOWROTAN_PADDED, shortest ? 127 + value : 0, "");
        sprintf(digits, "3F %02X %02X 00", low, high);
        decoder_block(AT, &decoder, 0, 0, digits, 0, shortest ? KOLOWROTAN_WAITS : KOLOWROTAN_PADDED, shortest ? 63 + value : 0, "");
        sprintf(digits, "BE FF %02X %02X 00", low, high);
        decoder_read(AT, &decoder, digits, shortest ? KOLOWROTAN_VACANT : KOLOWROTAN_PADDED, 0);
    }
    lent_free(&decoder);
    lent_free(&encoder);
}

void padded(void)
{
    forms();
    inserts();
    deletes();
    blocks();
    acknowledgements();
    no_state();
    two_groups();
}
