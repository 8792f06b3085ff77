/*
 * Packed strings: RFC 7541, 5.2 and Appendix B, with the order of answers 2, 3, 13, 2, 13, 18 inside a string. Expected bytes are by hand:
 * a is 00011, t 01001, u 101101, r 101100, n 101010, s 01000, 0 00000, 1 00001, 4 011010, v 1110111, X 11111100; the end mark is 30 ones.
 */
#include "packed.h"

#include <string.h>

#include "calls.h"
#include "kolowrotan.h"

static struct lent decoder_of(uint64_t limit)
{
    struct lent memory = lent_new(KOLOWROTAN_DECODER_LENGTH, 0xC3);
    decoder_start(AT, &memory, limit, KOLOWROTAN_DONE);
    return memory;
}

static struct lent encoder_of(uint64_t limit)
{
    struct lent memory = lent_new(KOLOWROTAN_ENCODER_LENGTH, 0xC3);
    encoder_start(AT, &memory, limit, KOLOWROTAN_DONE);
    return memory;
}

/* The padding and the end mark, in a name, in a value and in an insert. */
static void forms(void)
{
    struct lent memory = decoder_of(4096);
    decoder_block(AT, &memory, 0, 0, "00 81 1F 00", 4, KOLOWROTAN_DONE, 4, "00 01 61 00");
    decoder_block(AT, &memory, 1, 0, "00 80 00", 3, KOLOWROTAN_DONE, 3, "00 00 00");
    decoder_block(AT, &memory, 2, 0, "00 00 80", 3, KOLOWROTAN_DONE, 3, "00 00 00");
    decoder_block(AT, &memory, 3, 0, "40 85 18 C6 31 8C 63 83 FC FC FC", 99, KOLOWROTAN_DONE, 14, "01 08 61 61 61 61 61 61 61 61 03 58 58 58");
    decoder_block(AT, &memory, 4, 0, "BE 00 81 1F 00", 99, KOLOWROTAN_WAITS, 62, "");
    decoder_block(AT, &memory, 4, 0, "00 81 1F 00", 3, KOLOWROTAN_NO_ROOM, 0, "");
    decoder_block(AT, &memory, 4, 0, "00 81 18 00", 0, KOLOWROTAN_BAD_PACKING, 0, "");
    decoder_block(AT, &memory, 4, 0, "00 81 1B 00", 0, KOLOWROTAN_BAD_PACKING, 0, "");
    decoder_block(AT, &memory, 4, 0, "00 81 1E 00", 0, KOLOWROTAN_BAD_PACKING, 0, "");
    decoder_block(AT, &memory, 4, 0, "00 81 FF 00", 0, KOLOWROTAN_BAD_PACKING, 0, "");
    decoder_block(AT, &memory, 4, 0, "00 82 1F FF 00", 0, KOLOWROTAN_BAD_PACKING, 0, "");
    decoder_block(AT, &memory, 4, 0, "00 82 FC FF 00", 0, KOLOWROTAN_BAD_PACKING, 0, "");
    decoder_block(AT, &memory, 4, 0, "00 84 FF FF FF FF 00", 0, KOLOWROTAN_BAD_PACKING, 0, "");
    decoder_block(AT, &memory, 4, 0, "00 85 FF FF FF FC 1F 00", 0, KOLOWROTAN_BAD_PACKING, 0, "");
    decoder_block(AT, &memory, 4, 0, "01 81 18", 0, KOLOWROTAN_BAD_PACKING, 0, "");
    decoder_block(AT, &memory, 4, 0, "BE 01 81 FF", 0, KOLOWROTAN_BAD_PACKING, 0, "");
    decoder_block(AT, &memory, 4, 0, "01 81 18 80", 0, KOLOWROTAN_BAD_PACKING, 0, "");
    decoder_read(AT, &memory, "BE 00 81 18 00", KOLOWROTAN_BAD_PACKING, 0);
    decoder_read(AT, &memory, "BE 3F 81 18", KOLOWROTAN_BAD_PACKING, 0);
    decoder_read(AT, &memory, "BE 00 81 1F 81 1F BE", KOLOWROTAN_DONE, 6);
    decoder_block(AT, &memory, 4, 0, "BE", 5, KOLOWROTAN_DONE, 5, "00 01 61 01 61");
    lent_free(&memory);
}

/* Bytes that run out, and lengths that are too large or too long: before anything is unpacked. */
static void lengths(void)
{
    struct lent memory = decoder_of(4096);
    decoder_read(AT, &memory, "BE 00 81", KOLOWROTAN_TRUNCATED, 0);
    decoder_read(AT, &memory, "BE 00 FF", KOLOWROTAN_TRUNCATED, 0);
    decoder_block(AT, &memory, 0, 0, "00 85 FF FF FF FF", 0, KOLOWROTAN_TRUNCATED, 0, "");
    decoder_block(AT, &memory, 0, 0, "00 82 18", 0, KOLOWROTAN_TRUNCATED, 0, "");
    decoder_block(AT, &memory, 0, 0, "00 81 1F", 0, KOLOWROTAN_TRUNCATED, 0, "");
    decoder_block(AT, &memory, 0, 0, "00 FF 80 80 80 80", 0, KOLOWROTAN_TOO_LARGE, 0, "");
    decoder_block(AT, &memory, 0, 0, "00 FF 81 FF FF 3F", 0, KOLOWROTAN_TOO_LARGE, 0, "");
    decoder_block(AT, &memory, 0, 0, "00 FF 80 FF FF 3F", 0, KOLOWROTAN_TOO_LONG, 0, "");
    decoder_block(AT, &memory, 0, 0, "00 FF FE 06", 0, KOLOWROTAN_TOO_LONG, 0, ""); /* 1,021 */
    decoder_block(AT, &memory, 0, 0, "00 FF FD 06", 0, KOLOWROTAN_TRUNCATED, 0, ""); /* 1,020 */
    decoder_block(AT, &memory, 0, 0, "01 FF FE 3E", 0, KOLOWROTAN_TOO_LONG, 0, ""); /* 8,189 */
    decoder_block(AT, &memory, 0, 0, "01 FF FD 3E", 0, KOLOWROTAN_TRUNCATED, 0, ""); /* 8,188 */
    decoder_read(AT, &memory, "BE 00 FF FE 06", KOLOWROTAN_TOO_LONG, 0);
    decoder_read(AT, &memory, "BE 00 FF FD 06", KOLOWROTAN_TRUNCATED, 0);
    decoder_read(AT, &memory, "BE 01 FF FE 3E", KOLOWROTAN_TOO_LONG, 0);
    decoder_read(AT, &memory, "BE 01 FF FD 3E", KOLOWROTAN_TRUNCATED, 0);
    lent_free(&memory);
}

/* A block on a stream of its own: the bytes before, so many times 'a' packed, so many ones and those up to a whole byte, the bytes behind. */
static void letters(const char *file, int line, const char *before, size_t count, size_t ones, const char *behind, int answer, uint32_t first)
{
    struct lent memory = decoder_of(4096), front = lent_hex(before), back = lent_hex(behind);
    size_t packed = (5 * count + ones + 7) / 8;
    struct lent block = lent_new(front.length + packed + back.length, 0xFF);
    memcpy(block.bytes, front.bytes, front.length);
    for (size_t bit = 0; bit < 5 * count; bit++)
        if (bit % 5 < 3)
            block.bytes[front.length + bit / 8] &= (uint8_t)~(0x80 >> bit % 8);
    memcpy(block.bytes + front.length + packed, back.bytes, back.length);
    lent_remember(&block);
    decoder_block_bytes(file, line, &memory, 0, &block, 4096, answer, first);
    lent_free(&memory);
    lent_free(&front);
    lent_free(&back);
    lent_free(&block);
}

/* The limits of unpacked bytes, before the form is judged, and not before the string is whole. 160 is FF 21, 164 FF 25, 1,280 FF 81 09. */
static void limits(void)
{
    letters(AT, "00 FF 21", 255, 0, "00", KOLOWROTAN_DONE, 1 + 2 + 255 + 1);
    letters(AT, "00 FF 21", 256, 0, "00", KOLOWROTAN_TOO_LONG, 0);
    letters(AT, "00 FF 25", 256, 30, "00", KOLOWROTAN_TOO_LONG, 0);
    letters(AT, "00 FF 25", 255, 30, "00", KOLOWROTAN_BAD_PACKING, 0);
    letters(AT, "00 FF 22", 256, 8, "00", KOLOWROTAN_TOO_LONG, 0);
    letters(AT, "00 FF 22", 255, 13, "00", KOLOWROTAN_BAD_PACKING, 0);
    letters(AT, "00 FF 22", 256, 0, "", KOLOWROTAN_TRUNCATED, 0);
    letters(AT, "00 FF 26", 256, 30, "", KOLOWROTAN_TRUNCATED, 0);
    /* 248 letters, the end mark, E and fifteen times 0: what follows the end mark does not count. 169 is FF 2A. */
    letters(AT, "00 FF 2A", 248, 30, "00 00 00 00 00 00 00 00 00 00 00", KOLOWROTAN_BAD_PACKING, 0);
    letters(AT, "01 FF 81 09", 2047, 0, "", KOLOWROTAN_DONE, 1 + 1 + 10 + 2 + 2047);
    letters(AT, "01 FF 81 09", 2048, 0, "", KOLOWROTAN_TOO_LONG, 0);
    letters(AT, "01 FF 85 09", 2048, 30, "", KOLOWROTAN_TOO_LONG, 0);
    letters(AT, "01 FF 85 09", 2047, 30, "", KOLOWROTAN_BAD_PACKING, 0);
    letters(AT, "01 FF 82 09", 2048, 0, "", KOLOWROTAN_TRUNCATED, 0);
}

/* Entry sizes count unpacked bytes: turns has 5, in 4 packed ones. */
static void sizes(void)
{
    struct lent fits = decoder_of(37), small = decoder_of(36), encoder = encoder_of(37), less = encoder_of(36);
    decoder_read(AT, &fits, "BE 00 84 4D B6 54 8F 00", KOLOWROTAN_DONE, 8);
    decoder_read(AT, &small, "BE 00 84 4D B6 54 8F 00", KOLOWROTAN_OVER_LIMIT, 0);
    encoder_insert(AT, &encoder, "74 75 72 6E 73", "", 8, KOLOWROTAN_DONE, 8, 62, "BE 00 84 4D B6 54 8F 00");
    encoder_insert(AT, &less, "74 75 72 6E 73", "", 8, KOLOWROTAN_OVER_LIMIT, 0, 0, "");
    lent_free(&fits);
    lent_free(&small);
    lent_free(&encoder);
    lent_free(&less);
}

/* Packed exactly where that is shorter; 12 and the block's length count the bytes written. */
static void writing(void)
{
    struct lent memory = encoder_of(4096), list = lent_new(17 * 1004, 'v');
    for (size_t at = 0; at < list.length; at += 1004)
        memcpy(list.bytes + at, "\0\0\xE8\7", 4); /* an empty name, a value of 1,000 bytes: 5 and 875 on the wire */
    lent_remember(&list);
    encoder_insert(AT, &memory, "74 75 72 6E 73", "32", 8, KOLOWROTAN_NO_ROOM, 0, 0, "");
    encoder_insert(AT, &memory, "74 75 72 6E 73", "32", 9, KOLOWROTAN_DONE, 9, 62, "BE 00 84 4D B6 54 8F 01 32");
    encoder_insert(AT, &memory, "58 58 58", "", 99, KOLOWROTAN_DONE, 7, 63, "BF 00 03 58 58 58 00");
    encoder_insert(AT, &memory, "74 75 72 6E 73", "34 31 30 30", 99, KOLOWROTAN_DONE, 6, 64, "C0 3E 83 68 20 07");
    encoder_block(AT, &memory, 0, 0, "01 05 74 75 72 6E 74 04 34 31 30 30", 9, KOLOWROTAN_NO_ROOM, 0, "");
    encoder_block(AT, &memory, 0, 0, "01 05 74 75 72 6E 74 04 34 31 30 30", 10, KOLOWROTAN_DONE, 10, "40 84 4D B6 54 9F 83 68 20 07");
    encoder_block(AT, &memory, 1, 0, "00 03 58 58 59 02 61 61 00 02 61 61 03 61 61 61", 99, KOLOWROTAN_DONE, 15,
                  "00 03 58 58 59 02 61 61 00 02 61 61 82 18 C7");
    encoder_block_bytes(AT, &memory, 2, &list, 17 * 880 - 1, KOLOWROTAN_NO_ROOM, 0);
    encoder_block_bytes(AT, &memory, 2, &list, 17 * 880, KOLOWROTAN_DONE, 17 * 880);
    lent_free(&memory);
    lent_free(&list);
}

void packed(void)
{
    forms();
    lengths();
    limits();
    sizes();
    writing();
}
