/* What is measured, and the messages that it takes. */
#ifndef BENCH_MESSAGES_H
#define BENCH_MESSAGES_H

#include "implementation.h"

enum mode {
    WARM,     /* every field is in the table */
    LITERALS, /* no field is in the table, and none is put there */
    CHURNING  /* every value is new and is put into the table */
};

enum side {
    ENCODE,
    DECODE,       /* plain strings */
    DECODE_PACKED /* the same, packed where that is shorter */
};

struct task {
    enum kind kind;
    bool raw; /* bytes that no encoder packs */
    enum mode mode;
    enum side side;
    size_t entries; /* in the table */
    size_t fields;  /* of a block */
    size_t rounds;  /* blocks, at most as many as Kolowrotan has streams */
};

/* Messages in order, those that fill the table first. Rounds may share one. */
struct messages {
    size_t loads, count;
    size_t *order; /* which of the distinct ones each is */
    size_t made;
    struct message *distinct;
};

struct messages messages_make(const struct implementation *by, const struct task *task);
void messages_free(struct messages *messages);

/* The limit of the tables. */
size_t messages_limit(const struct messages *messages, const struct implementation *by, const struct task *task);

/* Zeroed room, never null. */
void *room_for(size_t count, size_t size);

#endif
