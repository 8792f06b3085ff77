/* Buffers lent to the library: guarded on both sides, and compared with a copy made before the call. */
#ifndef LENT_H
#define LENT_H

#include <stddef.h>
#include <stdint.h>

struct lent {
    uint8_t *block;  /* what was allocated: guard, bytes, guard */
    uint8_t *bytes;
    size_t length;
    uint8_t *before; /* the bytes before the call */
};

/* With no guards the bytes are all that is allocated, so that valgrind sees every access outside them. */
extern size_t guard;

struct lent lent_new(size_t length, uint8_t fill);
struct lent lent_from(const uint8_t *bytes, size_t length);

/* From hexadecimal digits; spaces are passed over. */
struct lent lent_hex(const char *digits);

void lent_free(struct lent *lent);

/* Remembers the bytes as they are. */
void lent_remember(struct lent *lent);

/* Are the guards whole, and the bytes from `from` on as they were? */
int lent_kept(const struct lent *lent, size_t from);

#endif
