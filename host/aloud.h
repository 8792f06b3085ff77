/* The steps of a schedule, each printed with what came of it. */
#ifndef ALOUD_H
#define ALOUD_H

#include "schedules.h"

/* Prints what became of a frame at the receiver, and compares the report where its block was decoded. */
void tell_aloud(const struct frame *frame, const struct outcome *outcome);

uint32_t insert_aloud(const char *name, const char *value);
void delete_aloud(uint32_t index);
void report_aloud(const char *machine, uint32_t turns, uint32_t counter, uint32_t stream, struct frame *frame);

/* All management bytes written so far, in one frame that reaches the receiver. */
void manage_aloud(struct frame *frame);

/* The receiver collects; its acknowledgements are put into one frame. */
void collect_aloud(struct frame *frame);

/* A frame of acknowledgements reaches the sender. */
void acknowledge_aloud(const struct frame *frame);

#endif
