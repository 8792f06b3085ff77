/* One implementation at one task: what was recorded of its messages, and the measured run. */
#ifndef BENCH_WORK_H
#define BENCH_WORK_H

#include "messages.h"

struct work;

/* Records and checks every round: what was encoded is decoded and compared with the list that was put in. */
struct work *work_new(const struct implementation *by, const struct task *task);
void work_free(struct work *work);

/* Runs the first `rounds` rounds on a fresh table and returns the nanoseconds of processor time that they took. */
uint64_t work_run(const struct work *work, size_t rounds);

/* The bytes that a round's packet has, and its strings before they are packed if a writer wrote it, on average. */
struct lengths {
    double packet, strings;
};
struct lengths work_bytes(const struct work *work);

#endif
