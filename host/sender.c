#include "sender.h"

#include <string.h>

#include "kolowrotan_list.h"

_Static_assert(KOLOWROTAN_BLOCK_ROOM_OF(REPORT_LIST_ROOM) <= FRAME_ROOM, "the block of every report fits a frame");

static void break_link(struct sender *sender, const char *what, int answer)
{
    sender->fault.what = what;
    sender->fault.answer = answer;
}

int sender_start(struct sender *sender, uint64_t limit)
{
    /* before the call: a number that was tried is never used again, whatever becomes of it */
    sender->number++;
    bytes_start(&sender->management);
    bytes_start(&sender->acknowledgements);
    memset(sender->used, 0, sizeof sender->used);
    uint64_t result = kolowrotan_encoder_start(sender->table, sizeof sender->table, limit);
    if (KOLOWROTAN_ANSWER(result) != KOLOWROTAN_DONE) {
        break_link(sender, "encoder start", KOLOWROTAN_ANSWER(result));
        return 0;
    }
    sender->fault.what = NULL;
    return 1;
}

uint32_t sender_insert(struct sender *sender, const char *name, const char *value)
{
    uint8_t output[KOLOWROTAN_INSERT_ROOM];
    if (sender->fault.what != NULL)
        return 0;
    uint64_t result = kolowrotan_encoder_insert(sender->table, sizeof sender->table, (const uint8_t *)name, strlen(name),
                                                (const uint8_t *)value, strlen(value), output, sizeof output);
    switch (KOLOWROTAN_ANSWER(result)) {
    case KOLOWROTAN_DONE:
        bytes_append(&sender->management, output, KOLOWROTAN_FIRST(result));
        return KOLOWROTAN_SECOND(result);
    case KOLOWROTAN_OVER_LIMIT:
        return 0;
    default:
        unexpected("encoder insert", result);
        return 0;
    }
}

void sender_delete(struct sender *sender, uint32_t index)
{
    uint8_t output[KOLOWROTAN_DELETE_ROOM];
    if (sender->fault.what != NULL)
        return;
    uint64_t result = kolowrotan_encoder_delete(sender->table, sizeof sender->table, index, output, sizeof output);
    if (KOLOWROTAN_ANSWER(result) != KOLOWROTAN_DONE)
        unexpected("encoder delete", result);
    bytes_append(&sender->management, output, KOLOWROTAN_FIRST(result));
}

int sender_report(struct sender *sender, const struct report *report, uint32_t stream, struct frame *frame)
{
    uint8_t lent[REPORT_LIST_ROOM], block[KOLOWROTAN_BLOCK_ROOM_OF(REPORT_LIST_ROOM)];
    struct kolowrotan_list list = kolowrotan_empty_list(lent, sizeof lent);
    if (sender->fault.what != NULL || KOLOWROTAN_STREAMS <= stream || sender->used[stream])
        return 0;
    sender->used[stream] = 1;
    report_to_list(report, &list);
    uint64_t result = kolowrotan_encoder_block(sender->table, sizeof sender->table, stream, KOLOWROTAN_NONTRAILER,
                                               list.bytes, list.length, block, sizeof block);
    if (KOLOWROTAN_ANSWER(result) != KOLOWROTAN_DONE)
        unexpected("encoder block", result);
    frame->kind = FRAME_BLOCK;
    frame->table = sender->number;
    frame->at = stream;
    frame->length = KOLOWROTAN_FIRST(result);
    memcpy(frame->bytes, block, frame->length);
    return 1;
}

void sender_manage(struct sender *sender, struct frame *frame, size_t most)
{
    frame_cut(frame, FRAME_MANAGEMENT, sender->number, &sender->management, sender->fault.what == NULL ? most : 0);
}

/* Acknowledgement bytes of this table. */
static enum fate acknowledge(struct sender *sender, const struct frame *frame)
{
    enum fate fate = frame_append(frame, &sender->acknowledgements);
    if (fate == FATE_BREAKS)
        break_link(sender, "acknowledgement bytes are missing", KOLOWROTAN_DONE);
    if (fate != FATE_READ)
        return fate;
    int answer = bytes_read(&sender->acknowledgements, kolowrotan_encoder_acknowledge, sender->table, sizeof sender->table);
    if (answer != KOLOWROTAN_DONE) {
        break_link(sender, "acknowledgement", answer);
        return FATE_BREAKS;
    }
    return FATE_READ;
}

enum fate sender_frame(struct sender *sender, const struct frame *frame)
{
    if (frame->table < sender->number)
        return FATE_OLDER;
    if (sender->fault.what != NULL)
        return FATE_BROKEN;
    /* nothing can be acknowledged of a table that this end, which starts each table first, has not started */
    if (sender->number < frame->table || frame->kind != FRAME_ACKNOWLEDGEMENT) {
        break_link(sender, "no acknowledgement of a table that was started", KOLOWROTAN_DONE);
        return FATE_BREAKS;
    }
    return acknowledge(sender, frame);
}
