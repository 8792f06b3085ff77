/* What the driver asks of every implementation that is measured. */
#ifndef BENCH_IMPLEMENTATION_H
#define BENCH_IMPLEMENTATION_H

#include "lists.h"

enum how {
    LOAD,    /* put the fields into the table */
    REFER,   /* a block whose fields are all in the table */
    LITERAL, /* a block of literals, nothing is stored */
    CHURN    /* put the fields into the table, refer to them, give as many of the oldest entries back */
};

struct message {
    struct list list;
    enum how how;
};

/* What an encoder writes for a message: bytes for the decoder's table, the block, and bytes for the table after it. */
struct packet {
    uint8_t *bytes;
    size_t before, block, after;
    size_t strings; /* bytes of its strings before they are packed; only writers say it */
};

enum { PACKET_ROOM = 1 << 17, ACKNOWLEDGEMENT_ROOM = 1 << 12 };

/*
 * Takes the decoded fields. In a checking run each is compared with the list that was put in; in a measured run only lengths are
 * added up, so that nothing is left out as unused.
 */
struct sink {
    const struct list *expected;
    size_t next;
    size_t total;
};

void sink_check(struct sink *sink, const uint8_t *name, size_t name_length, const uint8_t *value, size_t value_length);

static inline void sink_take(struct sink *sink, const uint8_t *name, size_t name_length, const uint8_t *value,
                             size_t value_length)
{
    sink->total += name_length + value_length;
    if (sink->expected != NULL)
        sink_check(sink, name, name_length, value, value_length);
}

struct implementation {
    const char *name;
    const char *(*version)(void);

    /* The message in the form that the encoder takes, made before anything is measured. */
    void *(*convert)(const struct message *message);
    void (*unconvert)(void *input);

    void *(*encoder_new)(size_t limit);
    void (*encoder_free)(void *encoder);
    void (*encode)(void *encoder, const void *input, struct packet *out);
    void (*acknowledge)(void *encoder, const uint8_t *bytes, size_t length);

    void *(*decoder_new)(size_t limit);
    void (*decoder_free)(void *decoder);
    /* Writes the bytes that go back to the encoder, and returns how many. */
    size_t (*decode)(void *decoder, const struct packet *in, struct sink *sink, uint8_t *acknowledgement);

    /* Writes what the decoder is given, with plain or with packed strings; see writer.h. */
    void *(*writer_new)(size_t limit, bool packed);
    void (*writer_free)(void *writer);
    void (*write)(void *writer, const struct message *message, struct packet *out);

    size_t fixed_limit;    /* the largest limit, 0: any */
    bool given_back;       /* entries leave the table by deletes and acknowledgements, not by being pushed out */
    bool known_names_only; /* the encoder stores only names that it knows */
};

extern const struct implementation kolowrotan;
extern const struct implementation nghttp2;
extern const struct implementation nghttp3;
extern const struct implementation lshpack;

_Noreturn void fail(const char *format, ...);

/* Ends the program with a status of its own: the implementation does not read packed strings. */
enum { REFUSED = 2 };
_Noreturn void refuse(const char *what);

#endif
