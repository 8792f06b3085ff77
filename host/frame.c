#include "frame.h"

#include <string.h>

void frame_cut(struct frame *frame, enum frame_kind kind, uint32_t table, struct bytes *bytes, size_t most)
{
    size_t length = bytes->length < most ? bytes->length : most;
    if (sizeof frame->bytes < length)
        length = sizeof frame->bytes;
    frame->kind = kind;
    frame->table = table;
    frame->at = bytes->before;
    frame->length = length;
    memcpy(frame->bytes, bytes->data, length);
    bytes_take(bytes, length);
}

enum fate frame_append(const struct frame *frame, struct bytes *bytes)
{
    uint64_t end = bytes->before + bytes->length; /* as many bytes have come */
    if (end < frame->at)
        return FATE_BREAKS;
    if (frame->length <= end - frame->at)
        return FATE_REPEATED;
    size_t old = (size_t)(end - frame->at);
    bytes_append(bytes, frame->bytes + old, frame->length - old);
    return FATE_READ;
}
