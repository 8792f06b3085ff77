#include "calls.h"

#include <stdio.h>
#include <string.h>

#include "kolowrotan.h"

unsigned checks, failures;

void check(const char *file, int line, int holds, const char *what)
{
    checks++;
    if (!holds) {
        printf("%s:%d: %s\n", file, line, what);
        failures++;
    }
}

/* What a call answered and told, joined as the header says. */
static void told(const char *file, int line, uint64_t result, int answer, uint32_t first, uint32_t second)
{
    uint64_t joined = (uint64_t)answer + ((uint64_t)first << 8) + ((uint64_t)second << 40);
    check(file, line, result == joined, "answer or told numbers");
    check(file, line, KOLOWROTAN_ANSWER(result) == answer, "KOLOWROTAN_ANSWER");
    check(file, line, KOLOWROTAN_FIRST(result) == first, "KOLOWROTAN_FIRST");
    check(file, line, KOLOWROTAN_SECOND(result) == second, "KOLOWROTAN_SECOND");
}

/* Memory after a call: unchanged on a refusal; never changed past the end's length. */
static void kept(const char *file, int line, struct lent *memory, size_t length, int answer)
{
    check(file, line, lent_kept(memory, answer == KOLOWROTAN_DONE ? length : 0), "memory changed");
    lent_remember(memory);
}

/* Output after a call: unchanged on a refusal, and past the told count; before it, these bytes. */
static void written(const char *file, int line, struct lent *output, int answer, size_t count, const char *bytes)
{
    size_t from = answer == KOLOWROTAN_DONE ? count : 0;
    check(file, line, lent_kept(output, from), "output changed");
    if (bytes != NULL) {
        struct lent expected = lent_hex(bytes);
        check(file, line, expected.length == from && memcmp(expected.bytes, output->bytes, from) == 0, "output bytes");
        lent_free(&expected);
    }
    lent_free(output);
}

/* Bytes given are never changed. */
static void given(const char *file, int line, struct lent *bytes)
{
    check(file, line, lent_kept(bytes, 0), "given bytes changed");
}

void decoder_start(const char *file, int line, struct lent *memory, uint64_t limit, int answer)
{
    told(file, line, kolowrotan_decoder_start(memory->bytes, memory->length, limit), answer, 0, 0);
    kept(file, line, memory, KOLOWROTAN_DECODER_LENGTH, answer);
}

/* A block call: decoding and encoding have the same parameters. */
typedef uint64_t block_call(uint8_t *memory, size_t memory_length, uint64_t stream, uint64_t part, const uint8_t *bytes,
                            size_t bytes_length, uint8_t *output, size_t output_length);

static void block(const char *file, int line, block_call *call, size_t length, struct lent *memory, uint64_t stream,
                  uint64_t part, struct lent *bytes, size_t room, int answer, uint32_t first, const char *expected)
{
    struct lent output = lent_new(room, 0xEE);
    uint64_t result = call(memory->bytes, memory->length, stream, part, bytes->bytes, bytes->length, output.bytes, output.length);
    told(file, line, result, answer, first, 0);
    /* a decoder's non-trailer block changes nothing in the memory, done or not */
    int keeps = call == kolowrotan_decoder_block && part == KOLOWROTAN_NONTRAILER;
    kept(file, line, memory, length, keeps ? KOLOWROTAN_NO_ROOM : answer);
    given(file, line, bytes);
    written(file, line, &output, answer, first, expected);
}

/* A read call: the decoder's and the encoder's have the same parameters. */
typedef uint64_t read_call(uint8_t *memory, size_t memory_length, const uint8_t *bytes, size_t bytes_length);

static void read(const char *file, int line, read_call *call, size_t length, struct lent *memory, const char *bytes,
                 int answer, uint32_t first)
{
    struct lent given_bytes = lent_hex(bytes);
    told(file, line, call(memory->bytes, memory->length, given_bytes.bytes, given_bytes.length), answer, first, 0);
    kept(file, line, memory, length, answer);
    given(file, line, &given_bytes);
    lent_free(&given_bytes);
}

void decoder_read(const char *file, int line, struct lent *memory, const char *bytes, int answer, uint32_t first)
{
    read(file, line, kolowrotan_decoder_read, KOLOWROTAN_DECODER_LENGTH, memory, bytes, answer, first);
}

void decoder_block(const char *file, int line, struct lent *memory, uint64_t stream, uint64_t part, const char *bytes,
                   size_t room, int answer, uint32_t first, const char *output)
{
    struct lent given_bytes = lent_hex(bytes);
    block(file, line, kolowrotan_decoder_block, KOLOWROTAN_DECODER_LENGTH, memory, stream, part, &given_bytes, room, answer, first, output);
    lent_free(&given_bytes);
}

void decoder_block_bytes(const char *file, int line, struct lent *memory, uint64_t stream, struct lent *bytes, size_t room,
                         int answer, uint32_t first)
{
    block(file, line, kolowrotan_decoder_block, KOLOWROTAN_DECODER_LENGTH, memory, stream, KOLOWROTAN_NONTRAILER, bytes, room,
          answer, first, NULL);
}

void decoder_trailer_bytes(const char *file, int line, struct lent *memory, uint64_t stream, struct lent *bytes, size_t room,
                           int answer, uint32_t first)
{
    block(file, line, kolowrotan_decoder_block, KOLOWROTAN_DECODER_LENGTH, memory, stream, KOLOWROTAN_TRAILER, bytes, room, answer,
          first, NULL);
}

void decoder_over(const char *file, int line, struct lent *memory, uint64_t stream, int answer)
{
    told(file, line, kolowrotan_decoder_over(memory->bytes, memory->length, stream), answer, 0, 0);
    kept(file, line, memory, KOLOWROTAN_DECODER_LENGTH, answer);
}

void decoder_ended(const char *file, int line, struct lent *memory, uint64_t stream, int answer)
{
    told(file, line, kolowrotan_decoder_ended(memory->bytes, memory->length, stream), answer, 0, 0);
    kept(file, line, memory, KOLOWROTAN_DECODER_LENGTH, answer);
}

void decoder_collect(const char *file, int line, struct lent *memory, size_t room, int answer, uint32_t first,
                     const char *expected)
{
    struct lent output = lent_new(room, 0xEE);
    uint64_t result = kolowrotan_decoder_collect(memory->bytes, memory->length, output.bytes, output.length);
    told(file, line, result, answer, first, 0);
    kept(file, line, memory, KOLOWROTAN_DECODER_LENGTH, first == 0 ? KOLOWROTAN_NO_ROOM : answer);
    written(file, line, &output, answer, first, expected);
}

void decoder_hold(const char *file, int line, struct lent *memory, uint64_t index, int answer, uint32_t first,
                  uint32_t second)
{
    told(file, line, kolowrotan_decoder_hold(memory->bytes, memory->length, index), answer, first, second);
    given(file, line, memory);
}

void encoder_start(const char *file, int line, struct lent *memory, uint64_t limit, int answer)
{
    told(file, line, kolowrotan_encoder_start(memory->bytes, memory->length, limit), answer, 0, 0);
    kept(file, line, memory, KOLOWROTAN_ENCODER_LENGTH, answer);
}

void encoder_insert_bytes(const char *file, int line, struct lent *memory, struct lent *name, struct lent *value,
                          size_t room, int answer, uint32_t first, uint32_t second, const char *expected)
{
    struct lent output = lent_new(room, 0xEE);
    uint64_t result = kolowrotan_encoder_insert(memory->bytes, memory->length, name->bytes, name->length, value->bytes,
                                                value->length, output.bytes, output.length);
    told(file, line, result, answer, first, second);
    kept(file, line, memory, KOLOWROTAN_ENCODER_LENGTH, answer);
    given(file, line, name);
    given(file, line, value);
    written(file, line, &output, answer, first, expected);
}

void encoder_insert(const char *file, int line, struct lent *memory, const char *name, const char *value, size_t room,
                    int answer, uint32_t first, uint32_t second, const char *output)
{
    struct lent given_name = lent_hex(name), given_value = lent_hex(value);
    encoder_insert_bytes(file, line, memory, &given_name, &given_value, room, answer, first, second, output);
    lent_free(&given_name);
    lent_free(&given_value);
}

void encoder_delete(const char *file, int line, struct lent *memory, uint64_t index, size_t room, int answer,
                    uint32_t first, const char *expected)
{
    struct lent output = lent_new(room, 0xEE);
    uint64_t result = kolowrotan_encoder_delete(memory->bytes, memory->length, index, output.bytes, output.length);
    told(file, line, result, answer, first, 0);
    kept(file, line, memory, KOLOWROTAN_ENCODER_LENGTH, answer);
    written(file, line, &output, answer, first, expected);
}

void encoder_block(const char *file, int line, struct lent *memory, uint64_t stream, uint64_t part, const char *list,
                   size_t room, int answer, uint32_t first, const char *output)
{
    struct lent given_list = lent_hex(list);
    block(file, line, kolowrotan_encoder_block, KOLOWROTAN_ENCODER_LENGTH, memory, stream, part, &given_list, room, answer, first, output);
    lent_free(&given_list);
}

void encoder_block_bytes(const char *file, int line, struct lent *memory, uint64_t stream, struct lent *list, size_t room,
                         int answer, uint32_t first)
{
    block(file, line, kolowrotan_encoder_block, KOLOWROTAN_ENCODER_LENGTH, memory, stream, KOLOWROTAN_NONTRAILER, list, room,
          answer, first, NULL);
}

void encoder_trailer_bytes(const char *file, int line, struct lent *memory, uint64_t stream, struct lent *list, size_t room,
                           int answer, uint32_t first)
{
    block(file, line, kolowrotan_encoder_block, KOLOWROTAN_ENCODER_LENGTH, memory, stream, KOLOWROTAN_TRAILER, list, room, answer,
          first, NULL);
}

void encoder_acknowledge(const char *file, int line, struct lent *memory, const char *bytes, int answer, uint32_t first)
{
    read(file, line, kolowrotan_encoder_acknowledge, KOLOWROTAN_ENCODER_LENGTH, memory, bytes, answer, first);
}
