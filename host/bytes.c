#include "bytes.h"

#include <stdio.h>
#include <stdlib.h>
#include <string.h>

#include "kolowrotan_list.h"

void unexpected(const char *call, uint64_t result)
{
    int answer = KOLOWROTAN_ANSWER(result);
    fprintf(stderr, "%s: answer %d: %s\n", call, answer, kolowrotan_answer_name(answer));
    exit(2);
}

void bytes_start(struct bytes *bytes)
{
    bytes->before = 0;
    bytes->length = 0;
}

void bytes_append(struct bytes *bytes, const uint8_t *data, size_t length)
{
    if (sizeof bytes->data - bytes->length < length) {
        fprintf(stderr, "too many bytes on their way\n");
        exit(2);
    }
    memcpy(bytes->data + bytes->length, data, length);
    bytes->length += length;
}

void bytes_take(struct bytes *bytes, size_t count)
{
    bytes->before += count;
    bytes->length -= count;
    memmove(bytes->data, bytes->data + count, bytes->length);
}

int bytes_read(struct bytes *bytes, read_call *read, uint8_t *memory, size_t memory_length)
{
    while (bytes->length != 0) {
        uint64_t result = read(memory, memory_length, bytes->data, bytes->length);
        if (KOLOWROTAN_ANSWER(result) == KOLOWROTAN_TRUNCATED)
            break; /* the rest of it comes later */
        if (KOLOWROTAN_ANSWER(result) != KOLOWROTAN_DONE)
            return KOLOWROTAN_ANSWER(result);
        bytes_take(bytes, KOLOWROTAN_FIRST(result));
    }
    return KOLOWROTAN_DONE;
}
