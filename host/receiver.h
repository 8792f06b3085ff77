/* The receiving end: one decoder, the blocks that wait for entries, and the frames of tables that are not started yet. */
#ifndef RECEIVER_H
#define RECEIVER_H

#include "frame.h"
#include "kolowrotan_list.h"

#define WAITING_ROOM 64
#define KEPT_ROOM 8

/* The longest list that this host takes. The rules of the link ask for as much as the longest that is put in. */
#define LIST_ROOM 128

/* What became of a frame, and what it brought. */
struct outcome {
    enum fate fate;
    uint32_t index;                  /* FATE_WAITS: the index that its block waits for */
    struct kolowrotan_cursor fields; /* FATE_DONE: its fields. They are gone when the call that tells them has returned */
};

/* Called with each frame that comes or is kept or waiting, whenever something becomes of it. */
typedef void receiver_tell(const struct frame *frame, const struct outcome *outcome);

struct receiver {
    uint8_t table[KOLOWROTAN_DECODER_LENGTH];
    uint32_t number; /* the table's, as the sender numbers it; 0 before the first start of the link. It must survive a reboot, too; the table must not */
    struct fault fault;
    receiver_tell *tell;
    struct bytes management;            /* received and not read yet */
    struct bytes acknowledgements;      /* written and not sent yet */
    uint8_t over[KOLOWROTAN_STREAMS];   /* 1: the stream's block was decoded, or the stream was reset */
    struct frame waiting[WAITING_ROOM]; /* blocks of this table */
    unsigned waiting_count;
    struct frame kept[KEPT_ROOM];       /* of newer tables, in the order in which they came */
    unsigned kept_count;
};

/*
 * Starts the table of this number, and takes what was kept of it. Answers 0 where the link is broken afterwards: the start is refused,
 * or what was kept breaks it. It also answers 0 for a number that is not above the last, and then nothing changes: a table is started
 * once, and never after a newer one.
 */
int receiver_start(struct receiver *receiver, uint32_t number, uint64_t limit);

/* A frame has come. What becomes of it, and of blocks that waited for it, is told. */
void receiver_frame(struct receiver *receiver, const struct frame *frame);

/* Frees what is ready and writes the acknowledgements. Answers how many entries were freed. */
unsigned receiver_collect(struct receiver *receiver);

/* Cuts a frame of the acknowledgement bytes that are to be sent. */
void receiver_acknowledge(struct receiver *receiver, struct frame *frame);

/* What holds the entry under deletion at this index: how many parts are unfinished, and the lowest stream having one. */
void receiver_hold(const struct receiver *receiver, uint32_t index, uint32_t *parts, uint32_t *stream);

#endif
