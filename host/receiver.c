#include "receiver.h"

#include <string.h>

static void tell(struct receiver *receiver, const struct frame *frame, enum fate fate)
{
    struct outcome outcome;
    memset(&outcome, 0, sizeof outcome);
    outcome.fate = fate;
    receiver->tell(frame, &outcome);
}

/* No block that waits can be served any more: its message was not delivered. */
static void drop_all_waiting(struct receiver *receiver, enum fate fate)
{
    for (unsigned i = 0; i < receiver->waiting_count; i++)
        tell(receiver, &receiver->waiting[i], fate);
    receiver->waiting_count = 0;
}

/* The frame breaks the link: nothing more of its table is read or decoded. */
static void break_link(struct receiver *receiver, const struct frame *frame, const char *what, int answer)
{
    receiver->fault.what = what;
    receiver->fault.answer = answer;
    tell(receiver, frame, FATE_BREAKS);
    drop_all_waiting(receiver, FATE_BROKEN);
}

/* Nothing more of the stream is offered: both of its parts are finished. */
static void end_stream(struct receiver *receiver, uint64_t stream)
{
    uint64_t result = kolowrotan_decoder_ended(receiver->table, sizeof receiver->table, stream);
    if (KOLOWROTAN_ANSWER(result) != KOLOWROTAN_DONE)
        unexpected("decoder ended", result);
    receiver->over[stream] = 1;
}

/* Offers a block. Answers 1 where it waits. */
static int offer(struct receiver *receiver, const struct frame *frame)
{
    uint8_t list[LIST_ROOM];
    struct outcome outcome;
    uint64_t result = kolowrotan_decoder_block(receiver->table, sizeof receiver->table, frame->at, KOLOWROTAN_NONTRAILER,
                                               frame->bytes, frame->length, list, sizeof list);
    outcome.index = 0;
    outcome.fields = kolowrotan_fields(result, list, sizeof list);
    switch (KOLOWROTAN_ANSWER(result)) {
    case KOLOWROTAN_DONE:
        /* a message of this host is one block, without a trailer: it is whole, and the entries that it refers to need not be kept for it */
        end_stream(receiver, frame->at);
        outcome.fate = FATE_DONE;
        receiver->tell(frame, &outcome);
        return 0;
    case KOLOWROTAN_WAITS:
        outcome.fate = FATE_WAITS;
        outcome.index = KOLOWROTAN_FIRST(result);
        receiver->tell(frame, &outcome);
        return 1;
    default:
        break_link(receiver, frame, "block", KOLOWROTAN_ANSWER(result));
        return 0;
    }
}

static void add_waiting(struct receiver *receiver, const struct frame *frame)
{
    if (receiver->waiting_count == WAITING_ROOM)
        break_link(receiver, frame, "too many blocks wait", KOLOWROTAN_DONE);
    else
        receiver->waiting[receiver->waiting_count++] = *frame;
}

static void drop_waiting(struct receiver *receiver, unsigned place)
{
    receiver->waiting_count--;
    memmove(&receiver->waiting[place], &receiver->waiting[place + 1],
            (receiver->waiting_count - place) * sizeof receiver->waiting[0]);
}

/* The place of a stream's block among those that wait, or their number where it is not there. */
static unsigned find_waiting(const struct receiver *receiver, uint64_t stream)
{
    unsigned place = 0;
    while (place < receiver->waiting_count && receiver->waiting[place].at != stream)
        place++;
    return place;
}

static void offer_waiting(struct receiver *receiver)
{
    unsigned place = 0;
    while (place < receiver->waiting_count) {
        struct frame frame = receiver->waiting[place];
        if (offer(receiver, &frame))
            place++;
        else if (place < receiver->waiting_count) /* a block that breaks the link leaves none */
            drop_waiting(receiver, place);
    }
}

static void take_management(struct receiver *receiver, const struct frame *frame)
{
    enum fate fate = frame_append(frame, &receiver->management);
    if (fate == FATE_BREAKS) {
        break_link(receiver, frame, "management bytes are missing", KOLOWROTAN_DONE);
        return;
    }
    if (fate == FATE_READ) {
        int answer = bytes_read(&receiver->management, kolowrotan_decoder_read, receiver->table, sizeof receiver->table);
        if (answer != KOLOWROTAN_DONE) {
            break_link(receiver, frame, "management", answer);
            return;
        }
    }
    tell(receiver, frame, fate);
    if (fate == FATE_READ)
        offer_waiting(receiver);
}

static void take_block(struct receiver *receiver, const struct frame *frame)
{
    if (receiver->over[frame->at])
        tell(receiver, frame, FATE_OVER);
    else if (find_waiting(receiver, frame->at) < receiver->waiting_count)
        tell(receiver, frame, FATE_REPEATED);
    else if (offer(receiver, frame))
        add_waiting(receiver, frame);
}

/* The stream was reset: nothing more of it is offered, and a waiting block of it is dropped. */
static void take_reset(struct receiver *receiver, const struct frame *frame)
{
    unsigned place = find_waiting(receiver, frame->at);
    if (place < receiver->waiting_count)
        drop_waiting(receiver, place);
    end_stream(receiver, frame->at);
    tell(receiver, frame, FATE_RESET);
}

/*
 * Keeps a frame of a newer table. Where there is no room, that table lacks a frame and can never be served: this end gives it up as if
 * it had started it, so that only a newer one mends the link.
 */
static void keep(struct receiver *receiver, const struct frame *frame)
{
    if (receiver->kept_count < KEPT_ROOM) {
        receiver->kept[receiver->kept_count++] = *frame;
        tell(receiver, frame, FATE_KEPT);
        return;
    }
    receiver->number = frame->table;
    for (unsigned i = 0; i < receiver->kept_count; i++)
        if (receiver->number < receiver->kept[i].table)
            receiver->number = receiver->kept[i].table;
    receiver->kept_count = 0;
    break_link(receiver, frame, "too many frames of a table that is not started", KOLOWROTAN_DONE);
}

void receiver_frame(struct receiver *receiver, const struct frame *frame)
{
    if (frame->table < receiver->number)
        tell(receiver, frame, FATE_OLDER);
    else if (receiver->number < frame->table)
        keep(receiver, frame);
    else if (receiver->fault.what != NULL)
        tell(receiver, frame, FATE_BROKEN);
    else if (frame->kind == FRAME_MANAGEMENT)
        take_management(receiver, frame);
    else if (frame->kind == FRAME_ACKNOWLEDGEMENT || KOLOWROTAN_STREAMS <= frame->at)
        break_link(receiver, frame, "no frame of a sender", KOLOWROTAN_DONE);
    else if (frame->kind == FRAME_BLOCK)
        take_block(receiver, frame);
    else
        take_reset(receiver, frame);
}

/* What was kept is judged again, as if it came now: what is of a still newer table is kept again. */
static void take_kept(struct receiver *receiver)
{
    struct frame kept[KEPT_ROOM];
    unsigned count = receiver->kept_count;
    memcpy(kept, receiver->kept, count * sizeof kept[0]);
    receiver->kept_count = 0;
    for (unsigned i = 0; i < count; i++)
        receiver_frame(receiver, &kept[i]);
}

int receiver_start(struct receiver *receiver, uint32_t number, uint64_t limit)
{
    if (number <= receiver->number)
        return 0;
    /* before the call: what comes for the old table is dropped from here on, whatever the answer */
    receiver->number = number;
    drop_all_waiting(receiver, FATE_OLDER);
    memset(receiver->over, 0, sizeof receiver->over);
    bytes_start(&receiver->management);
    bytes_start(&receiver->acknowledgements);
    uint64_t result = kolowrotan_decoder_start(receiver->table, sizeof receiver->table, limit);
    if (KOLOWROTAN_ANSWER(result) != KOLOWROTAN_DONE) {
        receiver->fault.what = "decoder start";
        receiver->fault.answer = KOLOWROTAN_ANSWER(result);
    } else {
        receiver->fault.what = NULL;
    }
    take_kept(receiver);
    return receiver->fault.what == NULL;
}

unsigned receiver_collect(struct receiver *receiver)
{
    unsigned freed = 0;
    if (receiver->fault.what != NULL)
        return 0;
    for (;;) {
        uint8_t acknowledgement[KOLOWROTAN_COLLECT_ROOM];
        uint64_t result = kolowrotan_decoder_collect(receiver->table, sizeof receiver->table, acknowledgement,
                                                     sizeof acknowledgement);
        if (KOLOWROTAN_ANSWER(result) != KOLOWROTAN_DONE)
            unexpected("decoder collect", result);
        if (KOLOWROTAN_FIRST(result) == 0)
            return freed;
        bytes_append(&receiver->acknowledgements, acknowledgement, KOLOWROTAN_FIRST(result));
        freed++;
    }
}

void receiver_acknowledge(struct receiver *receiver, struct frame *frame)
{
    frame_cut(frame, FRAME_ACKNOWLEDGEMENT, receiver->number, &receiver->acknowledgements,
              receiver->fault.what == NULL ? FRAME_ROOM : 0);
}

void receiver_hold(const struct receiver *receiver, uint32_t index, uint32_t *parts, uint32_t *stream)
{
    uint64_t result = kolowrotan_decoder_hold(receiver->table, sizeof receiver->table, index);
    if (KOLOWROTAN_ANSWER(result) != KOLOWROTAN_DONE)
        unexpected("decoder hold", result);
    *parts = KOLOWROTAN_FIRST(result);
    *stream = KOLOWROTAN_SECOND(result);
}
