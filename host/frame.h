/*
 * Frames: what goes around everything that is sent, so that nothing of one table reaches another and no byte is read twice. They are
 * the host's, not the library's (docs/HOST.md, "Starting anew"). A real radio would also write them as bytes and guard these by a
 * checksum.
 */
#ifndef FRAME_H
#define FRAME_H

#include "bytes.h"

#define FRAME_ROOM 256

enum frame_kind {
    FRAME_MANAGEMENT,      /* sender to receiver */
    FRAME_ACKNOWLEDGEMENT, /* receiver to sender */
    FRAME_BLOCK,           /* the block of a stream's message */
    FRAME_RESET            /* the stream brings nothing more */
};

struct frame {
    enum frame_kind kind;
    uint32_t table; /* the number of the table that it was written for */
    uint64_t at;    /* management and acknowledgement bytes: how many of that table went before; else the stream */
    size_t length;
    uint8_t bytes[FRAME_ROOM];
};

/* What became of a frame at the end that it came to. */
enum fate {
    FATE_READ,     /* its bytes, or those that are new, were read */
    FATE_DONE,     /* its block was decoded */
    FATE_WAITS,    /* its block waits for an entry */
    FATE_RESET,    /* its stream was reset */
    FATE_REPEATED, /* dropped: all of it came before */
    FATE_OVER,     /* dropped: its stream's block was decoded, or the stream was reset */
    FATE_OLDER,    /* dropped: it was written for an older table */
    FATE_KEPT,     /* it was written for a newer table, and is kept until that is started */
    FATE_BREAKS,   /* it broke the link */
    FATE_BROKEN    /* dropped: the link is broken */
};

/* Why a link is broken. Nothing more is read or decoded on it until both ends have started anew. */
struct fault {
    const char *what; /* null while it is not broken */
    int answer;       /* of the call that was refused; KOLOWROTAN_DONE where none was */
};

/* Cuts at most `most` bytes from the front of what is to be sent. */
void frame_cut(struct frame *frame, enum frame_kind kind, uint32_t table, struct bytes *bytes, size_t most);

/*
 * Appends to `bytes` those of the frame that did not come before. Answers FATE_READ, FATE_REPEATED where there are none, or FATE_BREAKS
 * where bytes before the frame's are missing. The frame is one of the table that the bytes are of.
 */
enum fate frame_append(const struct frame *frame, struct bytes *bytes);

#endif
