/*
 * Document 02's "no deletion forgotten": a collect frees the ready entry whose delete arrived first, whatever its index is, so that an entry
 * which is ready is acknowledged within 128 collects answered done. Bytes are by hand: with a prefix of six bits an index takes one byte up
 * to 62, two up to 190, three up to 16,446, and 134,217,727 takes five.
 */
#include "arrival.h"

#include <stdio.h>

#include "calls.h"
#include "kolowrotan.h"

#define FIRST 62
#define LARGEST_INSERT "FF 80 FF FF 3F 00 00 00"
#define LARGEST_DELETE "3F C0 FF FF 3F 00 00 00 00"
#define LARGEST_ACKNOWLEDGEMENT "7F C0 FF FF 3F"

static struct lent fresh_decoder(void)
{
    struct lent memory = lent_new(KOLOWROTAN_DECODER_LENGTH, 0xC3);
    decoder_start(AT, &memory, 4096, KOLOWROTAN_DONE);
    return memory;
}

/* An integer of at most three bytes behind a pattern of the bits above its prefix, as hexadecimal digits; how many bytes it takes. */
static uint32_t integer(char *digits, unsigned pattern, unsigned ones, unsigned value)
{
    if (value < ones)
        return (uint32_t)sprintf(digits, "%02X", pattern + value) / 2;
    if (value - ones < 128)
        return (uint32_t)sprintf(digits, "%02X%02X", pattern + ones, value - ones) / 2;
    return (uint32_t)sprintf(digits, "%02X%02X%02X", pattern + ones, 128 + (value - ones) % 128, (value - ones) / 128) / 2;
}

/* An insert of the empty field at this index. */
static void insert(const char *file, int line, struct lent *decoder, unsigned index)
{
    char digits[20];
    uint32_t length = integer(digits, 0x80, 0x7F, index);
    sprintf(digits + 2 * length, "000000");
    decoder_read(file, line, decoder, digits, KOLOWROTAN_DONE, length + 3);
}

/* A delete of this index that names the non-trailer parts below the horizon. */
static void delete(const char *file, int line, struct lent *decoder, unsigned index, unsigned horizon)
{
    char digits[20];
    uint32_t length = integer(digits, 0x00, 0x3F, index);
    sprintf(digits + 2 * length, "%02X000000", horizon);
    decoder_read(file, line, decoder, digits, KOLOWROTAN_DONE, length + 4);
}

/* A collect with just enough room frees the entry at this index. */
static void frees(const char *file, int line, struct lent *decoder, unsigned index)
{
    char digits[20];
    uint32_t length = integer(digits, 0x40, 0x3F, index);
    decoder_hold(file, line, decoder, index, KOLOWROTAN_DONE, 0, 4096);
    decoder_collect(file, line, decoder, length - 1, KOLOWROTAN_NO_ROOM, 0, "");
    decoder_collect(file, line, decoder, length, KOLOWROTAN_DONE, length, digits);
    decoder_hold(file, line, decoder, index, KOLOWROTAN_VACANT, 0, 0);
}

static void frees_none(const char *file, int line, struct lent *decoder)
{
    decoder_collect(file, line, decoder, 0, KOLOWROTAN_DONE, 0, "");
    decoder_collect(file, line, decoder, KOLOWROTAN_COLLECT_ROOM, KOLOWROTAN_DONE, 0, "");
}

/* Two entries, whose deletes arrive in either order. */
static void two(unsigned earlier, unsigned later)
{
    struct lent decoder = fresh_decoder();
    insert(AT, &decoder, 62);
    insert(AT, &decoder, 63);
    frees_none(AT, &decoder);
    delete(AT, &decoder, earlier, 0);
    delete(AT, &decoder, later, 0);
    frees(AT, &decoder, earlier);
    frees(AT, &decoder, later);
    frees_none(AT, &decoder);
    lent_free(&decoder);
}

/* The bytes that a host sees: the delete of 63 is read before that of 62, and 7F 00 comes back before 7E. */
static void higher_first(void)
{
    struct lent decoder = fresh_decoder();
    decoder_read(AT, &decoder, "BE 00 01 68 01 39", KOLOWROTAN_DONE, 6);
    decoder_read(AT, &decoder, "BF 00 01 68 01 37", KOLOWROTAN_DONE, 6);
    decoder_read(AT, &decoder, "3F 00 00 00 00 00", KOLOWROTAN_DONE, 6);
    decoder_read(AT, &decoder, "3E 00 00 00 00", KOLOWROTAN_DONE, 5);
    decoder_collect(AT, &decoder, 9, KOLOWROTAN_DONE, 2, "7F 00");
    decoder_block(AT, &decoder, 0, 0, "BE", 9, KOLOWROTAN_DONE, 5, "00 01 68 01 39");
    decoder_block(AT, &decoder, 0, 0, "BF", 9, KOLOWROTAN_WAITS, 63, "");
    decoder_collect(AT, &decoder, 9, KOLOWROTAN_DONE, 1, "7E");
    decoder_collect(AT, &decoder, 9, KOLOWROTAN_DONE, 0, "");
    lent_free(&decoder);
}

/* Among those that are ready: a delete that arrived first waits for its streams, lets the others by, and is the first again afterwards. */
static void ready_alone(void)
{
    struct lent decoder = fresh_decoder();
    for (unsigned index = 62; index <= 66; index++)
        insert(AT, &decoder, index);
    delete(AT, &decoder, 64, 2);
    delete(AT, &decoder, 66, 0);
    delete(AT, &decoder, 62, 1);
    delete(AT, &decoder, 65, 0);
    delete(AT, &decoder, 63, 0);
    frees(AT, &decoder, 66);
    /* 64 and 62 stand before 65 as they did: what was dropped from between leaves the others in their order */
    decoder_over(AT, &decoder, 0, KOLOWROTAN_DONE);
    frees(AT, &decoder, 62);
    decoder_over(AT, &decoder, 1, KOLOWROTAN_DONE);
    frees(AT, &decoder, 64);
    frees(AT, &decoder, 65);
    frees(AT, &decoder, 63);
    frees_none(AT, &decoder);
    lent_free(&decoder);
}

/* 12 where the first acknowledgement has no room, even if those behind it would have: each is shorter than the one before it. */
static void no_room(void)
{
    struct lent decoder = fresh_decoder();
    insert(AT, &decoder, 62);
    insert(AT, &decoder, 63);
    insert(AT, &decoder, 190);
    insert(AT, &decoder, 191);
    decoder_read(AT, &decoder, LARGEST_INSERT, KOLOWROTAN_DONE, 8);
    decoder_read(AT, &decoder, LARGEST_DELETE, KOLOWROTAN_DONE, 9);
    delete(AT, &decoder, 191, 0);
    delete(AT, &decoder, 190, 0);
    delete(AT, &decoder, 63, 0);
    delete(AT, &decoder, 62, 0);
    for (size_t room = 0; room < 5; room++)
        decoder_collect(AT, &decoder, room, KOLOWROTAN_NO_ROOM, 0, "");
    decoder_collect(AT, &decoder, 5, KOLOWROTAN_DONE, 5, LARGEST_ACKNOWLEDGEMENT);
    for (size_t room = 0; room < 3; room++)
        decoder_collect(AT, &decoder, room, KOLOWROTAN_NO_ROOM, 0, "");
    decoder_collect(AT, &decoder, 3, KOLOWROTAN_DONE, 3, "7F 80 01");
    decoder_collect(AT, &decoder, 1, KOLOWROTAN_NO_ROOM, 0, "");
    decoder_collect(AT, &decoder, 2, KOLOWROTAN_DONE, 2, "7F 7F");
    decoder_collect(AT, &decoder, 1, KOLOWROTAN_NO_ROOM, 0, "");
    decoder_collect(AT, &decoder, 2, KOLOWROTAN_DONE, 2, "7F 00");
    decoder_collect(AT, &decoder, 0, KOLOWROTAN_NO_ROOM, 0, "");
    decoder_collect(AT, &decoder, 1, KOLOWROTAN_DONE, 1, "7E");
    frees_none(AT, &decoder);
    lent_free(&decoder);
}

/* The index whose delete arrives at a place: each of the 128 has one, and their order is far from that of the indexes. */
static unsigned scattered(unsigned place)
{
    return FIRST + (place * 37 + 5) % KOLOWROTAN_ENTRIES;
}

/* 128 entries are ready at once: each is acknowledged in its turn, and the last by the 128th collect and not before. */
static void all_ready(void)
{
    struct lent decoder = fresh_decoder();
    for (unsigned place = 0; place < KOLOWROTAN_ENTRIES; place++)
        insert(AT, &decoder, FIRST + place);
    for (unsigned place = 0; place < KOLOWROTAN_ENTRIES; place++)
        delete(AT, &decoder, scattered(place), 1);
    frees_none(AT, &decoder);
    decoder_ended(AT, &decoder, 0, KOLOWROTAN_DONE);
    unsigned last = scattered(KOLOWROTAN_ENTRIES - 1);
    for (unsigned place = 0; place < KOLOWROTAN_ENTRIES; place++) {
        decoder_hold(AT, &decoder, last, KOLOWROTAN_DONE, 0, 4096);
        frees(AT, &decoder, scattered(place));
    }
    decoder_hold(AT, &decoder, last, KOLOWROTAN_VACANT, 0, 0);
    frees_none(AT, &decoder);
    lent_free(&decoder);
}

/* The same while each entry that is freed comes back at once and is deleted again: what is new stands behind what was there. */
static void all_busy(void)
{
    struct lent decoder = fresh_decoder();
    for (unsigned place = 0; place < KOLOWROTAN_ENTRIES; place++)
        insert(AT, &decoder, FIRST + place);
    for (unsigned place = 0; place < KOLOWROTAN_ENTRIES; place++)
        delete(AT, &decoder, scattered(place), 0);
    for (unsigned collect = 0; collect < 3 * KOLOWROTAN_ENTRIES; collect++) {
        unsigned index = scattered(collect % KOLOWROTAN_ENTRIES);
        frees(AT, &decoder, index);
        insert(AT, &decoder, index);
        delete(AT, &decoder, index, 0);
    }
    lent_free(&decoder);
}

/* The request's own story, at both ends: 62 is busy, and each time that a collect comes it is ready again. 63 does not wait for it. */
static void busy_low_slot(void)
{
    struct lent encoder = lent_new(KOLOWROTAN_ENCODER_LENGTH, 0xC3), decoder = fresh_decoder();
    encoder_start(AT, &encoder, 4096, KOLOWROTAN_DONE);
    encoder_insert(AT, &encoder, "68", "39", 9, KOLOWROTAN_DONE, 6, 62, "BE 00 01 68 01 39");
    decoder_read(AT, &decoder, "BE 00 01 68 01 39", KOLOWROTAN_DONE, 6);
    for (int times = 0; times < 4; times++) {
        /* the high one comes, and both are deleted, the low one first */
        encoder_insert(AT, &encoder, "74", "32", 9, KOLOWROTAN_DONE, 6, 63, "BF 00 01 74 01 32");
        decoder_read(AT, &decoder, "BF 00 01 74 01 32", KOLOWROTAN_DONE, 6);
        encoder_delete(AT, &encoder, 62, 9, KOLOWROTAN_DONE, 5, "3E 00 00 00 00");
        decoder_read(AT, &decoder, "3E 00 00 00 00", KOLOWROTAN_DONE, 5);
        encoder_delete(AT, &encoder, 63, 9, KOLOWROTAN_DONE, 6, "3F 00 00 00 00 00");
        decoder_read(AT, &decoder, "3F 00 00 00 00 00", KOLOWROTAN_DONE, 6);
        decoder_collect(AT, &decoder, 9, KOLOWROTAN_DONE, 1, "7E");
        encoder_acknowledge(AT, &encoder, "7E", KOLOWROTAN_DONE, 1);
        /* the low one comes back and is deleted before the next collect: it is the high one's turn */
        encoder_insert(AT, &encoder, "68", "39", 9, KOLOWROTAN_DONE, 6, 62, "BE 00 01 68 01 39");
        decoder_read(AT, &decoder, "BE 00 01 68 01 39", KOLOWROTAN_DONE, 6);
        encoder_delete(AT, &encoder, 62, 9, KOLOWROTAN_DONE, 5, "3E 00 00 00 00");
        decoder_read(AT, &decoder, "3E 00 00 00 00", KOLOWROTAN_DONE, 5);
        decoder_collect(AT, &decoder, 9, KOLOWROTAN_DONE, 2, "7F 00");
        encoder_acknowledge(AT, &encoder, "7F 00", KOLOWROTAN_DONE, 2);
        decoder_collect(AT, &decoder, 9, KOLOWROTAN_DONE, 1, "7E");
        encoder_acknowledge(AT, &encoder, "7E", KOLOWROTAN_DONE, 1);
        encoder_insert(AT, &encoder, "68", "39", 9, KOLOWROTAN_DONE, 6, 62, "BE 00 01 68 01 39");
        decoder_read(AT, &decoder, "BE 00 01 68 01 39", KOLOWROTAN_DONE, 6);
    }
    lent_free(&encoder);
    lent_free(&decoder);
}

void arrival(void)
{
    two(62, 63);
    two(63, 62);
    higher_first();
    ready_alone();
    no_room();
    all_ready();
    all_busy();
    busy_low_slot();
}
