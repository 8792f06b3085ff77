/* Bytes on their way in one direction of one table, in order, and how they are read. */
#ifndef BYTES_H
#define BYTES_H

#include <stddef.h>
#include <stdint.h>

struct bytes {
    uint64_t before; /* how many bytes of the same table and direction stood before these and were taken away */
    size_t length;
    uint8_t data[65536];
};

/* No bytes yet: the table is fresh. */
void bytes_start(struct bytes *bytes);

void bytes_append(struct bytes *bytes, const uint8_t *data, size_t length);

/* Takes the first `count` bytes away. */
void bytes_take(struct bytes *bytes, size_t count);

/* A call that reads one instruction from the front of bytes: kolowrotan_decoder_read or kolowrotan_encoder_acknowledge. */
typedef uint64_t read_call(uint8_t *memory, size_t memory_length, const uint8_t *bytes, size_t bytes_length);

/*
 * Reads all whole instructions; the beginning of one that is cut is kept. Answers KOLOWROTAN_DONE, or the answer of an instruction that
 * is refused. That is fatal for the link: what stands behind it must not be read either.
 */
int bytes_read(struct bytes *bytes, read_call *read, uint8_t *memory, size_t memory_length);

/* An answer that a correct host never gets: says so and ends the program. */
void unexpected(const char *call, uint64_t result);

#endif
