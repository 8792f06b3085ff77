#include "lent.h"

#include <stdio.h>
#include <stdlib.h>
#include <string.h>

#define GUARD_BYTE 0xA5

size_t guard = 64;

static void *allocate(size_t length)
{
    void *block = malloc(length != 0 ? length : 1);
    if (block == NULL) {
        fprintf(stderr, "no memory\n");
        exit(2);
    }
    return block;
}

struct lent lent_new(size_t length, uint8_t fill)
{
    struct lent lent;
    lent.block = allocate(length + 2 * guard);
    lent.before = allocate(length);
    lent.bytes = lent.block + guard;
    lent.length = length;
    memset(lent.block, GUARD_BYTE, length + 2 * guard);
    memset(lent.bytes, fill, length);
    lent_remember(&lent);
    return lent;
}

struct lent lent_from(const uint8_t *bytes, size_t length)
{
    struct lent lent = lent_new(length, 0);
    memcpy(lent.bytes, bytes, length);
    lent_remember(&lent);
    return lent;
}

static int digit(char c)
{
    if ('0' <= c && c <= '9')
        return c - '0';
    if ('A' <= c && c <= 'F')
        return c - 'A' + 10;
    fprintf(stderr, "no digit: %c\n", c);
    exit(2);
}

struct lent lent_hex(const char *digits)
{
    uint8_t bytes[1024];
    size_t length = 0;
    while (*digits != 0) {
        if (*digits == ' ') {
            digits++;
            continue;
        }
        if (length == sizeof bytes || digits[1] == 0) {
            fprintf(stderr, "bad bytes: %s\n", digits);
            exit(2);
        }
        bytes[length++] = (uint8_t)(digit(digits[0]) * 16 + digit(digits[1]));
        digits += 2;
    }
    return lent_from(bytes, length);
}

void lent_free(struct lent *lent)
{
    free(lent->block);
    free(lent->before);
}

void lent_remember(struct lent *lent)
{
    memcpy(lent->before, lent->bytes, lent->length);
}

int lent_kept(const struct lent *lent, size_t from)
{
    for (size_t i = 0; i < guard; i++)
        if (lent->block[i] != GUARD_BYTE || lent->bytes[lent->length + i] != GUARD_BYTE)
            return 0;
    return lent->length <= from || memcmp(lent->bytes + from, lent->before + from, lent->length - from) == 0;
}
