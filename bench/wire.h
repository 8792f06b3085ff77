/* Integers and strings of RFC 7541, 5.1 and 5.2, written with plain strings. */
#ifndef BENCH_WIRE_H
#define BENCH_WIRE_H

#include "lists.h"

#include <string.h>

static inline uint8_t *put_integer(uint8_t *at, unsigned pattern, unsigned prefix, size_t value)
{
    size_t largest = (1u << prefix) - 1;
    if (value < largest) {
        *at++ = (uint8_t)(pattern | value);
        return at;
    }
    *at++ = (uint8_t)(pattern | largest);
    for (value -= largest; value >= 128; value >>= 7)
        *at++ = (uint8_t)(value | 128);
    *at++ = (uint8_t)value;
    return at;
}

static inline uint8_t *put_string(uint8_t *at, unsigned pattern, unsigned prefix, struct text text)
{
    at = put_integer(at, pattern, prefix, text.length);
    memcpy(at, text.at, text.length);
    return at + text.length;
}

#endif
