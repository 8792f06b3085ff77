/* A machine's report, as fields of a list. */
#ifndef REPORT_H
#define REPORT_H

#include "kolowrotan_list.h"

/* The counter has 16 bits and counts tenths of an hour; `turns` says how often it went from 65,535 to 0. */
struct report {
    char machine[16];
    uint32_t turns;
    uint32_t counter;
};

/* Enough for the list of a report. */
#define REPORT_LIST_ROOM 64

/* Puts the report's three fields into the list. Answers 0 where they do not fit. */
int report_to_list(const struct report *report, struct kolowrotan_list *list);

/*
 * Takes a report from the fields of a decoded block. Answers null, or why the hours are unclear; then the report is not to be used. It
 * is clear only where each of its three fields stands exactly once and says something that it can mean (docs/RECORDINGS.md, "Hours"):
 * of two fields neither is taken, since nobody knows which is meant.
 */
const char *report_from_fields(struct kolowrotan_cursor fields, struct report *report);

/* The running hours in tenths: turns x 65,536 + counter. */
uint64_t report_tenths(const struct report *report);

#endif
