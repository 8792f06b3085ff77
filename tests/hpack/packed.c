/*
 * Packed strings as libnghttp2 reads them: every one of one or two bytes, and random ones of 3 to 40, each as the value of a literal. Both
 * give the same value, or both refuse the string, and then the library's answer is 18. Texts that the library packs come back from both.
 */
#include <nghttp2/nghttp2.h>
#include <stdio.h>
#include <string.h>

#include "kolowrotan.h"

#define RANDOM_STRINGS 20000
#define TEXTS 5000
/* A literal named by static index 1 begins alike in HPACK and in the draft. */
#define NAME ":authority"

static uint8_t decoder[KOLOWROTAN_DECODER_LENGTH], encoder[KOLOWROTAN_ENCODER_LENGTH];
static unsigned read_alike, refused, texts, failures;

static uint64_t random_number(void)
{
    static uint64_t state = 7541;
    state ^= state << 13;
    state ^= state >> 7;
    state ^= state << 17;
    return state;
}

/* The length of the value that libnghttp2 reads from a block of one field, or -1 where it refuses the block. */
static int theirs(const uint8_t *block, size_t length, uint8_t *value)
{
    nghttp2_hd_inflater *inflater;
    nghttp2_nv field;
    int flags = 0, found = -1;
    if (nghttp2_hd_inflate_new(&inflater) != 0)
        return -1;
    while (!(flags & NGHTTP2_HD_INFLATE_FINAL)) {
        flags = 0;
        ssize_t used = nghttp2_hd_inflate_hd2(inflater, &field, &flags, block, length, 1);
        if (used < 0) {
            found = -1;
            break;
        }
        if (flags & NGHTTP2_HD_INFLATE_EMIT) {
            found = (int)field.valuelen;
            memcpy(value, field.value, field.valuelen);
        }
        block += used;
        length -= (size_t)used;
    }
    nghttp2_hd_inflate_del(inflater);
    return found;
}

/* The same of the library; -1 for its answer 18 alone, -2 for another. */
static int ours(const uint8_t *block, size_t length, uint8_t *value)
{
    static uint64_t stream = KOLOWROTAN_STREAMS;
    uint8_t list[256];
    size_t front = 3 + strlen(NAME);
    if (stream == KOLOWROTAN_STREAMS) {
        kolowrotan_decoder_start(decoder, sizeof decoder, 0);
        stream = 0;
    }
    uint64_t result = kolowrotan_decoder_block(decoder, sizeof decoder, stream, KOLOWROTAN_NONTRAILER, block, length, list, sizeof list);
    if (KOLOWROTAN_ANSWER(result) != KOLOWROTAN_DONE)
        return KOLOWROTAN_ANSWER(result) == KOLOWROTAN_BAD_PACKING ? -1 : -2;
    stream++;
    size_t count = KOLOWROTAN_FIRST(result) - front;
    memcpy(value, list + front, count);
    return list[front - 1] == count ? (int)count : -2;
}

static void compare(const uint8_t *packed, size_t length)
{
    uint8_t block[64] = {0x01, (uint8_t)(0x80 | length)}, one[256], other[256];
    memcpy(block + 2, packed, length);
    int count = ours(block, 2 + length, one), wanted = theirs(block, 2 + length, other);
    if (count != wanted || (count > 0 && memcmp(one, other, (size_t)count) != 0)) {
        failures++;
        printf("hpack: of the packed string");
        for (size_t at = 0; at < length; at++)
            printf(" %02X", packed[at]);
        printf(" the library makes %d bytes, libnghttp2 %d, or other ones\n", count, wanted);
    }
    if (count < 0)
        refused++;
    else
        read_alike++;
}

/* A text of any bytes, or of letters and digits, which get shorter: through the library's encoder and both decoders. */
static void compare_text(uint64_t stream)
{
    uint8_t list[64] = {0, sizeof NAME - 1}, block[64], one[256], other[256];
    uint8_t *text = list + 2 + sizeof NAME;
    size_t length = 1 + random_number() % 30;
    int any = random_number() % 2 == 0;
    memcpy(list + 2, NAME, sizeof NAME - 1);
    text[-1] = (uint8_t)length;
    for (size_t at = 0; at < length; at++)
        text[at] = any ? (uint8_t)(random_number() >> 20) : (uint8_t)"abcdefghijklmnopqrstuvwxyz0123456789"[random_number() % 36];
    if (stream % KOLOWROTAN_STREAMS == 0)
        kolowrotan_encoder_start(encoder, sizeof encoder, 0);
    uint64_t result = kolowrotan_encoder_block(encoder, sizeof encoder, stream % KOLOWROTAN_STREAMS, KOLOWROTAN_NONTRAILER, list,
                                               2 + sizeof NAME + length, block, sizeof block);
    size_t written = KOLOWROTAN_FIRST(result);
    int count = ours(block, written, one), wanted = theirs(block, written, other);
    if (KOLOWROTAN_ANSWER(result) != KOLOWROTAN_DONE || count != (int)length || wanted != count || memcmp(one, text, length) != 0 ||
        memcmp(other, text, length) != 0) {
        failures++;
        printf("hpack: a text of %zu bytes does not come back\n", length);
    }
    texts++;
}

int main(void)
{
    uint8_t packed[40] = {0};
    compare(packed, 0);
    for (unsigned number = 0; number < 0x100; number++) {
        packed[0] = (uint8_t)number;
        compare(packed, 1);
    }
    for (unsigned number = 0; number < 0x10000; number++) {
        packed[0] = (uint8_t)(number >> 8);
        packed[1] = (uint8_t)number;
        compare(packed, 2);
    }
    for (unsigned number = 0; number < RANDOM_STRINGS; number++) {
        size_t length = 3 + random_number() % 38;
        for (size_t at = 0; at < length; at++)
            packed[at] = random_number() % 8 == 0 ? 0xFF : (uint8_t)(random_number() >> 20);
        compare(packed, length);
    }
    for (uint64_t stream = 0; stream < TEXTS; stream++)
        compare_text(stream);
    printf("hpack: libnghttp2 reads %u packed strings alike and refuses the same %u; %u texts come back from both\n", read_alike, refused, texts);
    return failures != 0 || read_alike == 0 || refused == 0;
}
