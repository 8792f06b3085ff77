/*
 * Document 02's interim answers. A non-trailer block finishes nothing; "over" finishes the non-trailer part, a trailer that is done both,
 * and at the encoder it closes both. Bytes are by hand: h = 9 stands at 62, BE refers to it, 82 is a field of the static table.
 */
#include "interim.h"

#include <string.h>

#include "calls.h"
#include "kolowrotan.h"

#define FIELD "00 01 68 01 39"
#define STATIC_FIELD "00 07 3A 6D 65 74 68 6F 64 03 47 45 54"

/* docs/STATE.md: the marks of the parts, a bit for each stream, set where the part takes blocks. */
#define NONTRAILER_MARKS 64
#define TRAILER_MARKS 576

static struct lent fresh_decoder(void)
{
    struct lent memory = lent_new(KOLOWROTAN_DECODER_LENGTH, 0xC3);
    decoder_start(AT, &memory, 4096, KOLOWROTAN_DONE);
    decoder_read(AT, &memory, "BE 00 01 68 01 39", KOLOWROTAN_DONE, 6);
    return memory;
}

static struct lent fresh_encoder(void)
{
    struct lent memory = lent_new(KOLOWROTAN_ENCODER_LENGTH, 0xC3);
    encoder_start(AT, &memory, 4096, KOLOWROTAN_DONE);
    encoder_insert(AT, &memory, "68", "39", 9, KOLOWROTAN_DONE, 6, 62, "BE 00 01 68 01 39");
    return memory;
}

/* Of memory that was so before, the marks of a stream at these places are cleared now, and nothing else changed. */
static void cleared(const char *file, int line, const struct lent *memory, struct lent *before, uint64_t stream, int nontrailer,
                    int trailer)
{
    if (nontrailer)
        before->bytes[NONTRAILER_MARKS + stream / 8] &= (uint8_t)~(1u << stream % 8);
    if (trailer)
        before->bytes[TRAILER_MARKS + stream / 8] &= (uint8_t)~(1u << stream % 8);
    check(file, line, memcmp(before->bytes, memory->bytes, memory->length) == 0, "marks cleared, and nothing else changed");
}

/* Which parts of a stream take a block: the non-trailer part an empty one, the trailer part bytes that are cut, which changes nothing. */
static void takes(const char *file, int line, struct lent *memory, uint64_t stream, int nontrailer, int trailer)
{
    decoder_block(file, line, memory, stream, 0, "", 0, nontrailer ? KOLOWROTAN_DONE : KOLOWROTAN_OUT_OF_TURN, 0, "");
    decoder_block(file, line, memory, stream, 1, "FF", 0, trailer ? KOLOWROTAN_TRUNCATED : KOLOWROTAN_OUT_OF_TURN, 0, "");
}

/* The same at the encoder: its trailer is tried with a list that is cut. */
static void writes(const char *file, int line, struct lent *memory, uint64_t stream, int nontrailer, int trailer)
{
    encoder_block(file, line, memory, stream, 0, "", 0, nontrailer ? KOLOWROTAN_DONE : KOLOWROTAN_OUT_OF_TURN, 0, "");
    encoder_block(file, line, memory, stream, 1, "00", 0, trailer ? KOLOWROTAN_BAD_FIELD_LIST : KOLOWROTAN_OUT_OF_TURN, 0, "");
}

/* "Over" with each of its answers (17 is in main.c), on streams at the edges of the marks' bytes and words. */
static void overs(void)
{
    static const uint64_t streams[] = {0, 1, 7, 8, 63, 64, 65, 2047, 4094, 4095};
    static const uint64_t none[] = {4096, 4097, 65536, (uint64_t)1 << 32, ((uint64_t)1 << 32) + 5, (uint64_t)1 << 63, UINT64_MAX};
    struct lent memory = fresh_decoder();
    for (size_t i = 0; i < sizeof none / sizeof none[0]; i++)
        decoder_over(AT, &memory, none[i], KOLOWROTAN_OUT_OF_TURN);
    for (size_t i = 0; i < sizeof streams / sizeof streams[0]; i++) {
        struct lent before = lent_from(memory.bytes, memory.length);
        takes(AT, &memory, streams[i], 1, 1);
        decoder_over(AT, &memory, streams[i], KOLOWROTAN_DONE);
        cleared(AT, &memory, &before, streams[i], 1, 0);
        takes(AT, &memory, streams[i], 0, 1);
        /* said again it changes nothing */
        decoder_over(AT, &memory, streams[i], KOLOWROTAN_DONE);
        cleared(AT, &memory, &before, streams[i], 0, 0);
        /* the trailer is taken, and "over" may be said after it */
        decoder_block(AT, &memory, streams[i], 1, "BE", 5, KOLOWROTAN_DONE, 5, FIELD);
        cleared(AT, &memory, &before, streams[i], 0, 1);
        takes(AT, &memory, streams[i], 0, 0);
        decoder_over(AT, &memory, streams[i], KOLOWROTAN_DONE);
        decoder_ended(AT, &memory, streams[i], KOLOWROTAN_DONE);
        decoder_over(AT, &memory, streams[i], KOLOWROTAN_DONE);
        cleared(AT, &memory, &before, streams[i], 0, 0);
        lent_free(&before);
    }
    takes(AT, &memory, 2, 1, 1);
    takes(AT, &memory, 62, 1, 1);
    takes(AT, &memory, 4093, 1, 1);
    lent_free(&memory);
}

/* What finishes both parts of a stream: a trailer, with blocks before it or none, and its end, before "over" or after it. */
static void finished(void)
{
    struct lent memory = fresh_decoder(), longest = lent_new(KOLOWROTAN_BLOCK_LENGTH + 1, 0x82);
    struct lent before = lent_from(memory.bytes, memory.length);
    /* any number of non-trailer blocks, equal ones too: they change nothing, nor do those between that wait, lack room or are faulty */
    for (int times = 0; times < 3; times++) {
        decoder_block(AT, &memory, 0, 0, "BE 82", 18, KOLOWROTAN_DONE, 18, FIELD " " STATIC_FIELD);
        decoder_block(AT, &memory, 0, 0, "BF", 99, KOLOWROTAN_WAITS, 63, "");
        decoder_block(AT, &memory, 0, 0, "BE", 5, KOLOWROTAN_DONE, 5, FIELD);
        decoder_block(AT, &memory, 0, 0, "BE", 4, KOLOWROTAN_NO_ROOM, 0, "");
        decoder_block(AT, &memory, 0, 0, "80", 99, KOLOWROTAN_NOT_ALLOWED, 0, "");
    }
    cleared(AT, &memory, &before, 0, 0, 0);
    decoder_block(AT, &memory, 0, 1, "82", 13, KOLOWROTAN_DONE, 13, STATIC_FIELD);
    cleared(AT, &memory, &before, 0, 1, 1);
    takes(AT, &memory, 0, 0, 0);
    /* a trailer with no block before it */
    decoder_block(AT, &memory, 4095, 1, "", 0, KOLOWROTAN_DONE, 0, "");
    cleared(AT, &memory, &before, 4095, 1, 1);
    takes(AT, &memory, 4095, 0, 0);
    /* 11 comes before the block's length, its bytes and a vacant index */
    decoder_block_bytes(AT, &memory, 0, &longest, 0, KOLOWROTAN_OUT_OF_TURN, 0);
    decoder_trailer_bytes(AT, &memory, 0, &longest, 0, KOLOWROTAN_OUT_OF_TURN, 0);
    decoder_block(AT, &memory, 0, 0, "80", 0, KOLOWROTAN_OUT_OF_TURN, 0, "");
    decoder_block(AT, &memory, 0, 0, "BF", 0, KOLOWROTAN_OUT_OF_TURN, 0, "");
    /* the end of a stream */
    decoder_over(AT, &memory, 9, KOLOWROTAN_DONE);
    decoder_ended(AT, &memory, 9, KOLOWROTAN_DONE);
    cleared(AT, &memory, &before, 9, 1, 1);
    takes(AT, &memory, 9, 0, 0);
    decoder_ended(AT, &memory, 10, KOLOWROTAN_DONE);
    cleared(AT, &memory, &before, 10, 1, 1);
    decoder_over(AT, &memory, 10, KOLOWROTAN_DONE);
    takes(AT, &memory, 10, 0, 0);
    takes(AT, &memory, 1, 1, 1);
    takes(AT, &memory, 4094, 1, 1);
    lent_free(&memory);
    lent_free(&longest);
    lent_free(&before);
}

/* A trailer that is not done finishes nothing. */
static void not_finished(void)
{
    struct lent memory = fresh_decoder(), longest = lent_new(KOLOWROTAN_BLOCK_LENGTH + 1, 0x82);
    decoder_block(AT, &memory, 3, 1, "BF", 99, KOLOWROTAN_WAITS, 63, "");
    takes(AT, &memory, 3, 1, 1);
    decoder_block(AT, &memory, 3, 1, "BE", 4, KOLOWROTAN_NO_ROOM, 0, "");
    takes(AT, &memory, 3, 1, 1);
    decoder_trailer_bytes(AT, &memory, 3, &longest, 99, KOLOWROTAN_TOO_LONG, 0);
    decoder_block(AT, &memory, 3, 1, "00 7F 81 01", 0, KOLOWROTAN_TOO_LONG, 0, "");
    takes(AT, &memory, 3, 1, 1);
    decoder_block(AT, &memory, 3, 2, "", 0, KOLOWROTAN_OUT_OF_TURN, 0, "");
    takes(AT, &memory, 3, 1, 1);
    decoder_block(AT, &memory, 3, 1, "BE", 5, KOLOWROTAN_DONE, 5, FIELD);
    takes(AT, &memory, 3, 0, 0);
    lent_free(&memory);
    lent_free(&longest);
}

/* The encoder: blocks before a trailer, none after it, and a trailer that is not done closes nothing. */
static void closed(void)
{
    struct lent memory = fresh_encoder(), list = lent_new(17 * 1004, 'X');
    for (size_t at = 0; at < list.length; at += 1004)
        memcpy(list.bytes + at, "\0\0\xE8\7", 4); /* 1,005 bytes on the wire for each of 17 fields: too long for a block */
    lent_remember(&list);
    for (int times = 0; times < 3; times++) {
        struct lent before = lent_from(memory.bytes, memory.length);
        encoder_block(AT, &memory, 0, 0, STATIC_FIELD, 1, KOLOWROTAN_DONE, 1, "82");
        encoder_block(AT, &memory, 0, 0, "", 0, KOLOWROTAN_DONE, 0, "");
        cleared(AT, &memory, &before, 0, 0, 0);
        lent_free(&before);
    }
    encoder_block(AT, &memory, 0, 1, STATIC_FIELD, 0, KOLOWROTAN_NO_ROOM, 0, "");
    writes(AT, &memory, 0, 1, 1);
    encoder_block(AT, &memory, 0, 1, "00 80 02", 99, KOLOWROTAN_TOO_LONG, 0, "");
    writes(AT, &memory, 0, 1, 1);
    encoder_trailer_bytes(AT, &memory, 0, &list, KOLOWROTAN_BLOCK_LENGTH, KOLOWROTAN_TOO_LONG, 0);
    writes(AT, &memory, 0, 1, 1);
    for (uint64_t stream = 0; stream < 4096; stream += 4095) {
        struct lent before = lent_from(memory.bytes, memory.length);
        /* on stream 4,095 there is no block before it */
        encoder_block(AT, &memory, stream, 1, STATIC_FIELD, 1, KOLOWROTAN_DONE, 1, "82");
        cleared(AT, &memory, &before, stream, 1, 1);
        writes(AT, &memory, stream, 0, 0);
        lent_free(&before);
    }
    /* 11 comes before the list */
    encoder_block(AT, &memory, 0, 0, "02", 0, KOLOWROTAN_OUT_OF_TURN, 0, "");
    encoder_block_bytes(AT, &memory, 0, &list, 0, KOLOWROTAN_OUT_OF_TURN, 0);
    writes(AT, &memory, 1, 1, 1);
    writes(AT, &memory, 4094, 1, 1);
    lent_free(&memory);
    lent_free(&list);
}

/* A horizon counts every block of a stream, and a trailer's references beside those of the blocks before it. */
static void horizons(void)
{
    struct lent memory = fresh_encoder();
    encoder_insert(AT, &memory, "68", "38", 9, KOLOWROTAN_DONE, 4, 63, "BF 3E 01 38");
    encoder_block(AT, &memory, 4, 0, STATIC_FIELD, 9, KOLOWROTAN_DONE, 1, "82");
    encoder_block(AT, &memory, 4, 0, FIELD, 9, KOLOWROTAN_DONE, 1, "BE");
    encoder_block(AT, &memory, 4, 0, FIELD, 9, KOLOWROTAN_DONE, 1, "BE");
    encoder_block(AT, &memory, 2, 0, FIELD, 9, KOLOWROTAN_DONE, 1, "BE");
    encoder_block(AT, &memory, 4, 0, "", 9, KOLOWROTAN_DONE, 0, "");
    encoder_block(AT, &memory, 6, 1, "00 01 68 01 38", 9, KOLOWROTAN_DONE, 1, "BF");
    encoder_delete(AT, &memory, 62, 9, KOLOWROTAN_DONE, 5, "3E 05 00 00 00");
    encoder_delete(AT, &memory, 63, 9, KOLOWROTAN_DONE, 6, "3F 00 00 00 07 00");
    lent_free(&memory);
}

/* How the non-trailer part of the message ends. */
enum end { BY_OVER, BY_TRAILER, BY_END };

/* The accident that the old rule allowed: the slot must not be freed after the first of three blocks, nor after the last. */
static void accident(enum end end)
{
    struct lent encoder = fresh_encoder(), decoder = fresh_decoder();
    encoder_block(AT, &encoder, 0, 0, FIELD, 9, KOLOWROTAN_DONE, 1, "BE");
    encoder_block(AT, &encoder, 0, 0, FIELD, 9, KOLOWROTAN_DONE, 1, "BE");
    encoder_block(AT, &encoder, 0, 0, FIELD " " STATIC_FIELD, 9, KOLOWROTAN_DONE, 2, "BE 82");
    encoder_delete(AT, &encoder, 62, 9, KOLOWROTAN_DONE, 5, "3E 01 00 00 00");
    decoder_block(AT, &decoder, 0, 0, "BE", 5, KOLOWROTAN_DONE, 5, FIELD);
    decoder_read(AT, &decoder, "3E 01 00 00 00", KOLOWROTAN_DONE, 5);
    decoder_hold(AT, &decoder, 62, KOLOWROTAN_DONE, 1, 0);
    decoder_collect(AT, &decoder, 9, KOLOWROTAN_DONE, 0, "");
    decoder_block(AT, &decoder, 0, 0, "BE 82", 18, KOLOWROTAN_DONE, 18, FIELD " " STATIC_FIELD);
    decoder_collect(AT, &decoder, 9, KOLOWROTAN_DONE, 0, "");
    decoder_block(AT, &decoder, 0, 0, "BE", 5, KOLOWROTAN_DONE, 5, FIELD);
    decoder_collect(AT, &decoder, 9, KOLOWROTAN_DONE, 0, "");
    decoder_hold(AT, &decoder, 62, KOLOWROTAN_DONE, 1, 0);
    if (end == BY_OVER)
        decoder_over(AT, &decoder, 0, KOLOWROTAN_DONE);
    else if (end == BY_TRAILER)
        decoder_block(AT, &decoder, 0, 1, "", 0, KOLOWROTAN_DONE, 0, "");
    else
        decoder_ended(AT, &decoder, 0, KOLOWROTAN_DONE);
    decoder_hold(AT, &decoder, 62, KOLOWROTAN_DONE, 0, 4096);
    decoder_collect(AT, &decoder, 9, KOLOWROTAN_DONE, 1, "7E");
    decoder_collect(AT, &decoder, 9, KOLOWROTAN_DONE, 0, "");
    encoder_acknowledge(AT, &encoder, "7E", KOLOWROTAN_DONE, 1);
    lent_free(&encoder);
    lent_free(&decoder);
}

/* A slot that a trailer names is held past "over", up to the trailer. */
static void held_for_trailer(void)
{
    struct lent memory = fresh_decoder();
    decoder_read(AT, &memory, "3E 01 00 01 00", KOLOWROTAN_DONE, 5);
    decoder_hold(AT, &memory, 62, KOLOWROTAN_DONE, 2, 0);
    decoder_over(AT, &memory, 0, KOLOWROTAN_DONE);
    decoder_hold(AT, &memory, 62, KOLOWROTAN_DONE, 1, 0);
    decoder_collect(AT, &memory, 9, KOLOWROTAN_DONE, 0, "");
    decoder_block(AT, &memory, 0, 1, "BE", 5, KOLOWROTAN_DONE, 5, FIELD);
    decoder_collect(AT, &memory, 9, KOLOWROTAN_DONE, 1, "7E");
    lent_free(&memory);
}

void interim(void)
{
    overs();
    finished();
    not_finished();
    closed();
    horizons();
    accident(BY_OVER);
    accident(BY_TRAILER);
    accident(BY_END);
    held_for_trailer();
}
