#include "work.h"

#include <stdlib.h>
#include <string.h>
#include <time.h>

struct work {
    const struct implementation *by;
    struct task task;
    struct messages messages;
    size_t limit;
    void **converted; /* of each distinct message */
    void **inputs;    /* the same in the order of the messages */
    struct packet *packets;
    struct text *acknowledgements;
};

/* ---- recording and checking ---- */

static struct packet keep_packet(const struct packet *live)
{
    struct packet kept = *live;
    size_t length = live->before + live->block + live->after;
    kept.bytes = room_for(length, 1);
    memcpy(kept.bytes, live->bytes, length);
    return kept;
}

static struct text keep_text(const uint8_t *bytes, size_t length)
{
    uint8_t *kept = room_for(length, 1);
    memcpy(kept, bytes, length);
    return (struct text){kept, length};
}

static const struct message *message_at(const struct work *work, size_t i)
{
    return &work->messages.distinct[work->messages.order[i]];
}

/* Decodes message i's packet and compares the fields with those put in. */
static void check_packet(struct work *work, void *decoder, size_t i)
{
    static uint8_t acknowledgement[ACKNOWLEDGEMENT_ROOM];
    const struct message *message = message_at(work, i);
    struct sink sink = {&message->list, 0, 0};
    size_t length = work->by->decode(decoder, &work->packets[i], &sink, acknowledgement);
    bool no_block = work->by->given_back && message->how == LOAD;
    if (sink.next != (no_block ? 0 : message->list.count))
        fail("%s: %zu fields of %zu decoded", work->by->name, sink.next, message->list.count);
    work->acknowledgements[i] = keep_text(acknowledgement, length);
}

static void record(struct work *work)
{
    static uint8_t bytes[PACKET_ROOM];
    struct packet live = {.bytes = bytes};
    const struct implementation *by = work->by;
    bool encoding = work->task.side == ENCODE;
    void *from = encoding ? by->encoder_new(work->limit) : by->writer_new(work->limit, work->task.side == DECODE_PACKED);
    void *decoder = by->decoder_new(work->limit);
    for (size_t i = 0; i < work->messages.count; i++) {
        if (encoding)
            by->encode(from, work->inputs[i], &live);
        else
            by->write(from, message_at(work, i), &live);
        work->packets[i] = keep_packet(&live);
        check_packet(work, decoder, i);
        if (encoding && by->acknowledge != NULL)
            by->acknowledge(from, work->acknowledgements[i].at, work->acknowledgements[i].length);
    }
    (encoding ? by->encoder_free : by->writer_free)(from);
    by->decoder_free(decoder);
}

struct work *work_new(const struct implementation *by, const struct task *task)
{
    struct work *work = room_for(1, sizeof *work);
    *work = (struct work){.by = by, .task = *task, .messages = messages_make(by, task)};
    const struct messages *messages = &work->messages;
    work->limit = messages_limit(messages, by, task);
    work->converted = room_for(messages->made, sizeof *work->converted);
    work->inputs = room_for(messages->count, sizeof *work->inputs);
    work->packets = room_for(messages->count, sizeof *work->packets);
    work->acknowledgements = room_for(messages->count, sizeof *work->acknowledgements);
    for (size_t i = 0; i < messages->made; i++)
        work->converted[i] = by->convert(&messages->distinct[i]);
    for (size_t i = 0; i < messages->count; i++)
        work->inputs[i] = work->converted[messages->order[i]];
    record(work);
    return work;
}

void work_free(struct work *work)
{
    for (size_t i = 0; i < work->messages.made; i++)
        work->by->unconvert(work->converted[i]);
    for (size_t i = 0; i < work->messages.count; i++) {
        free(work->packets[i].bytes);
        free((void *)work->acknowledgements[i].at);
    }
    messages_free(&work->messages);
    free(work->converted);
    free(work->inputs);
    free(work->packets);
    free(work->acknowledgements);
    free(work);
}

/* ---- the measured run ---- */

static uint64_t now(void)
{
    struct timespec time;
    clock_gettime(CLOCK_THREAD_CPUTIME_ID, &time);
    return (uint64_t)time.tv_sec * 1000000000u + (uint64_t)time.tv_nsec;
}

static void encode_range(const struct work *work, void *encoder, size_t from, size_t to)
{
    static uint8_t bytes[PACKET_ROOM];
    struct packet live = {.bytes = bytes};
    const struct implementation *by = work->by;
    for (size_t i = from; i < to; i++) {
        by->encode(encoder, work->inputs[i], &live);
        if (work->acknowledgements[i].length != 0)
            by->acknowledge(encoder, work->acknowledgements[i].at, work->acknowledgements[i].length);
    }
}

static void decode_range(const struct work *work, void *decoder, size_t from, size_t to)
{
    static uint8_t acknowledgement[ACKNOWLEDGEMENT_ROOM];
    struct sink sink = {NULL, 0, 0};
    for (size_t i = from; i < to; i++)
        work->by->decode(decoder, &work->packets[i], &sink, acknowledgement);
}

uint64_t work_run(const struct work *work, size_t rounds)
{
    const struct implementation *by = work->by;
    size_t loads = work->messages.loads;
    bool encoding = work->task.side == ENCODE;
    void *end = encoding ? by->encoder_new(work->limit) : by->decoder_new(work->limit);
    void (*range)(const struct work *, void *, size_t, size_t) = encoding ? encode_range : decode_range;
    range(work, end, 0, loads);
    uint64_t start = now();
    range(work, end, loads, loads + rounds);
    uint64_t time = now() - start;
    (encoding ? by->encoder_free : by->decoder_free)(end);
    return time;
}

struct lengths work_bytes(const struct work *work)
{
    size_t packet = 0, strings = 0, rounds = work->messages.count - work->messages.loads;
    for (size_t i = work->messages.loads; i < work->messages.count; i++) {
        packet += work->packets[i].before + work->packets[i].block + work->packets[i].after;
        strings += work->packets[i].strings;
    }
    return (struct lengths){(double)packet / (double)rounds, (double)strings / (double)rounds};
}
