#include "huffman.h"
#include "wire.h"

enum { LONGEST = 30, SYMBOLS = 256 };

/* Bits of each byte's code. Codes of equal length count up in the order of the bytes; shorter ones come before longer ones. */
static const uint8_t bits[SYMBOLS] = {
    13, 23, 28, 28, 28, 28, 28, 28, 28, 24, 30, 28, 28, 30, 28, 28,
    28, 28, 28, 28, 28, 28, 30, 28, 28, 28, 28, 28, 28, 28, 28, 28,
    6,  10, 10, 12, 13, 6,  8,  11, 10, 10, 8,  11, 8,  6,  6,  6,
    5,  5,  5,  6,  6,  6,  6,  6,  6,  6,  7,  8,  15, 6,  12, 10,
    13, 6,  7,  7,  7,  7,  7,  7,  7,  7,  7,  7,  7,  7,  7,  7,
    7,  7,  7,  7,  7,  7,  7,  7,  8,  7,  8,  13, 19, 13, 14, 6,
    15, 5,  6,  5,  6,  5,  6,  6,  6,  5,  7,  7,  6,  6,  6,  5,
    6,  7,  6,  5,  5,  6,  7,  7,  7,  7,  7,  15, 11, 14, 13, 28,
    20, 22, 20, 20, 22, 22, 22, 23, 22, 23, 23, 23, 23, 23, 24, 23,
    24, 24, 22, 23, 24, 23, 23, 23, 23, 21, 22, 23, 22, 23, 23, 24,
    22, 21, 20, 22, 22, 23, 23, 21, 23, 22, 22, 24, 21, 22, 23, 23,
    21, 21, 22, 21, 23, 22, 23, 23, 20, 22, 22, 22, 23, 22, 22, 23,
    26, 26, 20, 19, 22, 23, 22, 25, 26, 26, 26, 27, 27, 26, 24, 25,
    19, 21, 26, 27, 27, 26, 27, 24, 21, 21, 26, 26, 28, 27, 27, 27,
    20, 24, 20, 21, 22, 21, 21, 23, 22, 22, 25, 25, 24, 24, 26, 23,
    26, 27, 26, 26, 27, 27, 27, 27, 27, 28, 27, 27, 27, 27, 27, 26,
};

static uint32_t codes[SYMBOLS];

static void make_codes(void)
{
    uint32_t next = 0;
    for (unsigned length = 1; length <= LONGEST; length++, next <<= 1)
        for (size_t symbol = 0; symbol < SYMBOLS; symbol++)
            if (bits[symbol] == length)
                codes[symbol] = next++;
}

size_t packed_length(struct text text)
{
    size_t sum = 0;
    for (size_t i = 0; i < text.length; i++)
        sum += bits[text.at[i]];
    return (sum + 7) / 8;
}

static uint8_t *put_codes(uint8_t *at, struct text text)
{
    uint64_t waiting = 0; /* bits that are not written yet, the last `count` of it */
    unsigned count = 0;
    if (codes['1'] == 0)
        make_codes();
    for (size_t i = 0; i < text.length; i++) {
        waiting = waiting << bits[text.at[i]] | codes[text.at[i]];
        for (count += bits[text.at[i]]; count >= 8; count -= 8)
            *at++ = (uint8_t)(waiting >> (count - 8));
    }
    if (count > 0)
        *at++ = (uint8_t)(waiting << (8 - count) | ((1u << (8 - count)) - 1));
    return at;
}

uint8_t *put_packed(uint8_t *at, unsigned pattern, unsigned prefix, struct text text)
{
    size_t length = packed_length(text);
    if (length >= text.length)
        return put_string(at, pattern, prefix, text);
    return put_codes(put_integer(at, pattern | 1u << prefix, prefix, length), text);
}
