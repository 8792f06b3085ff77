/* What single calls of the library are given. */
#ifndef BENCH_GIVEN_H
#define BENCH_GIVEN_H

#include "lists.h"

enum { FIRST_INDEX = 62, FIELDS = 8 };

/* The memory that a call is made on; calls.c says what each number means. */
struct place {
    size_t entries, deletes, listed, horizon;
    bool ready;
};

struct bytes {
    uint8_t at[4096];
    size_t length;
};

/* A delete whose lists are those of the place. */
void make_delete(struct bytes *bytes, const struct place *place, size_t index);

/* The host's form of a list. */
void make_list(struct bytes *bytes, const struct list *list);

/* A block of indexes from the first on. */
void make_indexes(struct bytes *bytes);

/* A block of a list's fields as literals with names as strings, plain or packed where that is shorter. */
void make_literals(struct bytes *bytes, const struct list *list, bool packed);

/* An insert with the name of the first entry. */
void make_insert(struct bytes *bytes, size_t index, struct text value);

void make_acknowledgement(struct bytes *bytes, size_t index);

#endif
