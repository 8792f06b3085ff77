/* The exported calls on guarded buffers. Each checks what every call keeps, and what this one must answer, tell and write. */
#ifndef CALLS_H
#define CALLS_H

#include "lent.h"

extern unsigned checks, failures;

/* Says where a check stands, for the message of one that fails. */
#define AT __FILE__, __LINE__

void check(const char *file, int line, int holds, const char *what);

/* A decoder call or an encoder call, the answer and the told numbers that it must give. Output is compared as hexadecimal digits. */
void decoder_start(const char *file, int line, struct lent *memory, uint64_t limit, int answer);
void decoder_read(const char *file, int line, struct lent *memory, const char *bytes, int answer, uint32_t first);
void decoder_block(const char *file, int line, struct lent *memory, uint64_t stream, uint64_t part, const char *bytes,
                   size_t room, int answer, uint32_t first, const char *output);
void decoder_over(const char *file, int line, struct lent *memory, uint64_t stream, int answer);
void decoder_ended(const char *file, int line, struct lent *memory, uint64_t stream, int answer);
void decoder_collect(const char *file, int line, struct lent *memory, size_t room, int answer, uint32_t first,
                     const char *output);
void decoder_hold(const char *file, int line, struct lent *memory, uint64_t index, int answer, uint32_t first,
                  uint32_t second);

void encoder_start(const char *file, int line, struct lent *memory, uint64_t limit, int answer);
void encoder_insert(const char *file, int line, struct lent *memory, const char *name, const char *value, size_t room,
                    int answer, uint32_t first, uint32_t second, const char *output);
void encoder_delete(const char *file, int line, struct lent *memory, uint64_t index, size_t room, int answer,
                    uint32_t first, const char *output);
void encoder_block(const char *file, int line, struct lent *memory, uint64_t stream, uint64_t part, const char *list,
                   size_t room, int answer, uint32_t first, const char *output);
void encoder_acknowledge(const char *file, int line, struct lent *memory, const char *bytes, int answer, uint32_t first);

/* The same with given buffers: for long ones. The blocks are of the non-trailer part, but for the trailers. */
void decoder_block_bytes(const char *file, int line, struct lent *memory, uint64_t stream, struct lent *bytes, size_t room,
                         int answer, uint32_t first);
void decoder_trailer_bytes(const char *file, int line, struct lent *memory, uint64_t stream, struct lent *bytes, size_t room,
                           int answer, uint32_t first);
void encoder_insert_bytes(const char *file, int line, struct lent *memory, struct lent *name, struct lent *value,
                          size_t room, int answer, uint32_t first, uint32_t second, const char *output);
void encoder_block_bytes(const char *file, int line, struct lent *memory, uint64_t stream, struct lent *list, size_t room,
                         int answer, uint32_t first);
void encoder_trailer_bytes(const char *file, int line, struct lent *memory, uint64_t stream, struct lent *list, size_t room,
                           int answer, uint32_t first);

#endif
