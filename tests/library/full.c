/*
 * All 128 places: an entry takes 32 bytes at least and the limit is at most 4,096, so the next insert passes the limit at either end, and is 7.
 * No call gives 15. Entries have an empty name and an empty value, which is named by the lowest entry that has it; bytes are by hand.
 */
#include "full.h"

#include <stdio.h>

#include "calls.h"
#include "kolowrotan.h"

#define FIRST 62
#define LAST 189

/* An index behind the bit of an insert, as hexadecimal digits. */
static int index_digits(char *digits, unsigned index)
{
    return index < 127 ? sprintf(digits, "%02X", 0x80 + index) : sprintf(digits, "FF %02X", index - 127);
}

/* An insert of the empty field at the lowest index that is not held, here this one, read by the decoder. Its name is at an index, or a string (0). */
static void insert(const char *file, int line, struct lent *encoder, struct lent *decoder, unsigned index, unsigned name)
{
    char digits[40];
    int length = index_digits(digits, index);
    uint32_t bytes = (index < 127 ? 1 : 2) + (name == 0 ? 3 : 2);
    sprintf(digits + length, name == 0 ? " %02X 00 00" : " %02X 00", name);
    encoder_insert(file, line, encoder, "", "", bytes - 1, KOLOWROTAN_NO_ROOM, 0, 0, "");
    encoder_insert(file, line, encoder, "", "", bytes, KOLOWROTAN_DONE, bytes, index, digits);
    decoder_read(file, line, decoder, digits, KOLOWROTAN_DONE, bytes);
}

/* No insert is taken at the encoder: 7 behind 13 and before 12. */
static void refused_at_encoder(const char *file, int line, struct lent *encoder)
{
    struct lent name = lent_new(256, 'X'), none = lent_new(0, 0);
    encoder_insert(file, line, encoder, "", "", KOLOWROTAN_INSERT_ROOM, KOLOWROTAN_OVER_LIMIT, 0, 0, "");
    encoder_insert(file, line, encoder, "", "", 0, KOLOWROTAN_OVER_LIMIT, 0, 0, "");
    encoder_insert(file, line, encoder, "68", "39", 99, KOLOWROTAN_OVER_LIMIT, 0, 0, "");
    encoder_insert_bytes(file, line, encoder, &name, &none, 0, KOLOWROTAN_TOO_LONG, 0, 0, "");
    lent_free(&name);
    lent_free(&none);
}

/* Nor at the decoder, which holds 63 and not 190: 7 behind 8 and 6. The name is a string, a static one, or at 63. */
static void refused_at_decoder(const char *file, int line, struct lent *decoder)
{
    decoder_read(file, line, decoder, "FF 3F 00 00 00", KOLOWROTAN_OVER_LIMIT, 0);
    decoder_read(file, line, decoder, "FF 3F 01 00", KOLOWROTAN_OVER_LIMIT, 0);
    decoder_read(file, line, decoder, "FF 3F 3F 00", KOLOWROTAN_OVER_LIMIT, 0);
    decoder_read(file, line, decoder, "FF 80 FF FF 3F 00 00 00", KOLOWROTAN_OVER_LIMIT, 0);
    decoder_read(file, line, decoder, "BF 00 00 00", KOLOWROTAN_HELD, 0);
    decoder_read(file, line, decoder, "FF 3F FF 00 00", KOLOWROTAN_VACANT, 0);
    decoder_read(file, line, decoder, "BF FF 00 00", KOLOWROTAN_VACANT, 0);
}

/* Both ends with entries from the first index to this one. */
static void fill(struct lent *encoder, struct lent *decoder, uint64_t limit, unsigned last)
{
    *encoder = lent_new(KOLOWROTAN_ENCODER_LENGTH, 0xC3);
    *decoder = lent_new(KOLOWROTAN_DECODER_LENGTH, 0xC3);
    encoder_start(AT, encoder, limit, KOLOWROTAN_DONE);
    decoder_start(AT, decoder, limit, KOLOWROTAN_DONE);
    for (unsigned index = FIRST; index <= last; index++)
        insert(AT, encoder, decoder, index, index == FIRST ? 0 : FIRST);
}

/* A delete makes place for one more when its acknowledgement is read, and not before: at each end what is under deletion is held. */
static void deleted(struct lent *encoder, struct lent *decoder)
{
    encoder_delete(AT, encoder, FIRST, KOLOWROTAN_DELETE_ROOM, KOLOWROTAN_DONE, 5, "3E 00 00 00 00");
    refused_at_encoder(AT, encoder);
    refused_at_decoder(AT, decoder);
    decoder_read(AT, decoder, "3E 00 00 00 00", KOLOWROTAN_DONE, 5);
    refused_at_decoder(AT, decoder);
    decoder_read(AT, decoder, "BE 00 00 00", KOLOWROTAN_HELD, 0);
    decoder_collect(AT, decoder, KOLOWROTAN_COLLECT_ROOM, KOLOWROTAN_DONE, 1, "7E");
    refused_at_encoder(AT, encoder);
    encoder_acknowledge(AT, encoder, "7E", KOLOWROTAN_DONE, 1);
    /* A byte more than was freed does not fit; an empty field does, and its name is at 63 now. */
    encoder_insert(AT, encoder, "", "39", 99, KOLOWROTAN_OVER_LIMIT, 0, 0, "");
    decoder_read(AT, decoder, "BE 3F 01 39", KOLOWROTAN_OVER_LIMIT, 0);
    insert(AT, encoder, decoder, FIRST, FIRST + 1);
}

static void all_places(void)
{
    struct lent encoder, decoder;
    fill(&encoder, &decoder, KOLOWROTAN_LIMIT, LAST);
    check(AT, LAST - FIRST + 1 == KOLOWROTAN_ENTRIES, "128 places");
    refused_at_encoder(AT, &encoder);
    refused_at_decoder(AT, &decoder);
    deleted(&encoder, &decoder);
    refused_at_encoder(AT, &encoder);
    refused_at_decoder(AT, &decoder);
    /* All are there: the last and the new one in a block. */
    encoder_block(AT, &encoder, 0, 0, "00 00 00", 99, KOLOWROTAN_DONE, 1, "BE");
    decoder_block(AT, &decoder, 0, 0, "BE FF 3E", 99, KOLOWROTAN_DONE, 6, "00 00 00 00 00 00");
    decoder_block(AT, &decoder, 1, 0, "FF 3F", 99, KOLOWROTAN_WAITS, 190, "");
    lent_free(&encoder);
    lent_free(&decoder);
}

/* With a limit of one byte less there are 127. */
static void one_byte_less(void)
{
    struct lent encoder, decoder;
    fill(&encoder, &decoder, KOLOWROTAN_LIMIT - 1, LAST - 1);
    refused_at_encoder(AT, &encoder);
    refused_at_decoder(AT, &decoder);
    lent_free(&encoder);
    lent_free(&decoder);
}

void full(void)
{
    all_places();
    one_byte_less();
}
