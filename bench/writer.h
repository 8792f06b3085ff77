/*
 * Writers of HPACK, QPACK and the February 2017 draft, with all strings plain or with each packed that gets shorter. An encoder
 * packs as it likes; decoders are given what these write, so that all of them get the same strings in the same form. Not measured
 * themselves.
 */
#ifndef BENCH_WRITER_H
#define BENCH_WRITER_H

#include "implementation.h"

/* HPACK and QPACK: the table of either end, whose oldest entries are pushed out. */
void *writer_new(size_t limit, bool packed);
void writer_free(void *writer);
void hpack_write(void *writer, const struct message *message, struct packet *out);
void qpack_write(void *writer, const struct message *message, struct packet *out);

/* The draft: entries are given back, at once by the decoder that reads the delete. Writes what Kolowrotan's encoder would. */
void *draft_new(size_t limit, bool packed);
void draft_free(void *writer);
void draft_write(void *writer, const struct message *message, struct packet *out);

/* Where the bytes go, how strings are written, and how many bytes these have before they are packed. */
struct output {
    uint8_t *at;
    bool packed;
    size_t strings;
};

void write_integer(struct output *out, unsigned pattern, unsigned prefix, size_t value);
void write_string(struct output *out, unsigned pattern, unsigned prefix, struct text text);

#endif
