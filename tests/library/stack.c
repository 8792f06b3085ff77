/*
 * docs/HOST.md's bound on the stack: each call is made on a stack of its own that was filled with one byte, and the bytes that are still that one
 * were not used. What starts a context and the C function around the call are counted with it.
 */
#define _GNU_SOURCE
#include "stack.h"

#include <stdlib.h>
#include <string.h>
#include <ucontext.h>

#include "calls.h"
#include "kolowrotan.h"

#define BOUND 4096
#define WHOLE 65536
#define FILL 0xA5

static uint8_t decoder[KOLOWROTAN_DECODER_LENGTH], encoder[KOLOWROTAN_ENCODER_LENGTH], output[65536];
static const uint8_t *bytes;
static size_t length;
static int answered;
static ucontext_t here, there;

static void starts(void)
{
    answered = KOLOWROTAN_ANSWER(kolowrotan_decoder_start(decoder, sizeof decoder, 4096))
               + KOLOWROTAN_ANSWER(kolowrotan_encoder_start(encoder, sizeof encoder, 4096));
}

static void read_one(void)
{
    answered = KOLOWROTAN_ANSWER(kolowrotan_decoder_read(decoder, sizeof decoder, bytes, length));
}

static void decode(void)
{
    static uint64_t stream;
    answered = KOLOWROTAN_ANSWER(kolowrotan_decoder_block(decoder, sizeof decoder, stream++, 0, bytes, length, output, sizeof output));
}

static void over(void)
{
    answered = KOLOWROTAN_ANSWER(kolowrotan_decoder_over(decoder, sizeof decoder, 4095));
}

static void trailer(void)
{
    static uint64_t stream = 100;
    answered = KOLOWROTAN_ANSWER(kolowrotan_decoder_block(decoder, sizeof decoder, stream++, 1, bytes, length, output, sizeof output));
}

static void end(void)
{
    answered = KOLOWROTAN_ANSWER(kolowrotan_decoder_ended(decoder, sizeof decoder, 4095));
}

static void hold(void)
{
    answered = KOLOWROTAN_ANSWER(kolowrotan_decoder_hold(decoder, sizeof decoder, 62));
}

static void collect(void)
{
    answered = KOLOWROTAN_ANSWER(kolowrotan_decoder_collect(decoder, sizeof decoder, output, sizeof output));
}

static void insert(void)
{
    answered = KOLOWROTAN_ANSWER(kolowrotan_encoder_insert(encoder, sizeof encoder, bytes, length, bytes, length, output, sizeof output));
}

static void encode(void)
{
    static uint64_t stream;
    answered = KOLOWROTAN_ANSWER(kolowrotan_encoder_block(encoder, sizeof encoder, stream++, 0, bytes, length, output, sizeof output));
}

static void drop(void)
{
    answered = KOLOWROTAN_ANSWER(kolowrotan_encoder_delete(encoder, sizeof encoder, 62, output, sizeof output));
}

static void acknowledge(void)
{
    answered = KOLOWROTAN_ANSWER(kolowrotan_encoder_acknowledge(encoder, sizeof encoder, bytes, length));
}

static size_t used(const uint8_t *below)
{
    size_t unused = 0;
    while (unused < WHOLE && below[unused] == FILL)
        unused++;
    return WHOLE - unused;
}

/* A call with these bytes, which answers 0. */
static void shallow(const char *file, int line, void (*call)(void), const uint8_t *given, size_t count)
{
    uint8_t *below = malloc(WHOLE);
    memset(below, FILL, WHOLE);
    bytes = given;
    length = count;
    getcontext(&there);
    there.uc_stack.ss_sp = below;
    there.uc_stack.ss_size = WHOLE;
    there.uc_link = &here;
    makecontext(&there, call, 0);
    swapcontext(&here, &there);
    check(file, line, answered == KOLOWROTAN_DONE, "a call on its own stack is done");
    check(file, line, used(below) < BOUND, "less than 4 KiB of stack");
    free(below);
}

/* Indexes and names of static entries, of an entry and by strings, plain and packed; the second is too long for one pass. */
static void blocks(void)
{
    static const uint8_t fields[] = {0x82, 0x90, 0xBE, 0x3A, 0x81, 0x1F, 0x7E, 0x01, 0x39, 0x00, 0x81, 0x1F, 0x81, 0x1F, 0x00, 0x01, 'X', 0x00};
    uint8_t many[40 * sizeof fields];
    for (size_t at = 0; at < sizeof many; at += sizeof fields)
        memcpy(many + at, fields, sizeof fields);
    shallow(AT, decode, fields, sizeof fields);
    shallow(AT, decode, many, sizeof many);
    shallow(AT, decode, many, 0);
    shallow(AT, trailer, many, sizeof many);
}

/* A field of each representation, with a static name of more than 16 bytes among the names; the second list is measured before it is written. */
static void lists_of_fields(void)
{
    static const char list[] = "\0" "\7:method" "\3GET"
                               "\0" "\33access-control-allow-origin" "\5tools"
                               "\0" "\31strict-transport-security" "\31strict-transport-security"
                               "\1" "\4date" "\3XXX"
                               "\0" "\5turns" "\0012";
    uint8_t many[100 * (sizeof list - 1)];
    for (size_t at = 0; at < sizeof many; at += sizeof list - 1)
        memcpy(many + at, list, sizeof list - 1);
    shallow(AT, encode, (const uint8_t *)list, sizeof list - 1);
    shallow(AT, encode, many, sizeof many);
}

void stack(void)
{
    static const uint8_t insert_text[] = {0xBE, 0x00, 0x81, 0x1F, 0x81, 0x1F}, insert_static[] = {0xBF, 0x39, 0x81, 0x1F};
    static const uint8_t insert_named[] = {0xC0, 0x3E, 0x81, 0x1F}, deleted[] = {0x3E, 0x01, 0x02, 0x01, 0x03, 0x01, 0x00};
    static const uint8_t name[] = "strict-transport-security";
    shallow(AT, starts, NULL, 0);
    shallow(AT, read_one, insert_text, sizeof insert_text);
    shallow(AT, read_one, insert_static, sizeof insert_static);
    shallow(AT, read_one, insert_named, sizeof insert_named);
    blocks();
    shallow(AT, read_one, deleted, sizeof deleted);
    shallow(AT, hold, NULL, 0);
    shallow(AT, over, NULL, 0);
    shallow(AT, end, NULL, 0);
    shallow(AT, collect, NULL, 0);
    shallow(AT, insert, name, sizeof name - 1);
    shallow(AT, insert, name, 3);
    lists_of_fields();
    shallow(AT, drop, NULL, 0);
    shallow(AT, acknowledge, (const uint8_t *)"\x7E", 1);
}
