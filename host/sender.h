/* The sending end: the readers of all machines share one encoder. */
#ifndef SENDER_H
#define SENDER_H

#include "frame.h"
#include "kolowrotan.h"
#include "report.h"

struct sender {
    uint8_t table[KOLOWROTAN_ENCODER_LENGTH];
    /*
     * The table's number, 0 before the first start of the link. It goes up at every start and never down. A device that reboots loses
     * the table and must not lose this: it stands in memory that survives, or comes from a clock that never goes back.
     */
    uint32_t number;
    struct fault fault;
    struct bytes management;       /* written and not sent yet */
    struct bytes acknowledgements; /* received and not read yet */
    uint8_t used[KOLOWROTAN_STREAMS]; /* 1: a report was written on the stream in this table */
};

/*
 * Starts anew, with the next number. Answers 0 where the start is refused: the link is broken. On a broken link nothing below does
 * anything.
 */
int sender_start(struct sender *sender, uint64_t limit);

/* Puts an entry into the table. Answers its index, or 0 where the table has no room for it now: fields are then sent as literals. */
uint32_t sender_insert(struct sender *sender, const char *name, const char *value);

/* Puts an entry under deletion. */
void sender_delete(struct sender *sender, uint32_t index);

/*
 * Writes a report as the block of a stream. Answers 0 where the link is broken, or where the stream was used before: there is no frame
 * then. The library would take a second report as one more block of the first message.
 */
int sender_report(struct sender *sender, const struct report *report, uint32_t stream, struct frame *frame);

/* Cuts a frame of at most `most` management bytes. It has no bytes where there are none to send. */
void sender_manage(struct sender *sender, struct frame *frame, size_t most);

/* A frame of acknowledgement bytes has come. */
enum fate sender_frame(struct sender *sender, const struct frame *frame);

#endif
