/* What the example runs, and the comparison of what arrives with what was sent. */
#ifndef SCHEDULES_H
#define SCHEDULES_H

#include "receiver.h"
#include "report.h"
#include "sender.h"
#include "show.h"

/* Both ends of the one link. */
extern struct sender sender;
extern struct receiver receiver;

/* Tables that one schedule can start. */
#define TABLES 8

/* What was sent, by table and stream. */
extern struct report sent[TABLES][KOLOWROTAN_STREAMS];

/* Reports that were decoded, and how often something was not as it must be. */
extern unsigned decoded, wrong;

/* A new link, and both ends started on it: table 1. */
void start(uint64_t limit, receiver_tell *tell);

/* Compares a decoded report with what was sent on its table and stream. */
void compare(const struct frame *frame, struct kolowrotan_cursor fields);

/* A report of the machine is written on a stream, and remembered as sent. */
void send_report(const struct report *report, uint32_t stream, struct frame *frame);

/* A report comes late, after its entry was deleted and another loader's was put in. */
void accident(void);

/* Many reports over a radio that delays, reorders and loses messages. */
void long_run(void);

/* Both ends start anew, at different times, while reports are late and frames are repeated and overtake each other. */
void anew(void);

#endif
