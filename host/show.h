/*
 * What is printed of frames, fields and hours. Fields come from a sender that nobody vouches for: every byte that could be taken for
 * the host's own words, or by a terminal for a command, is shown as \x and two digits (docs/RECORDINGS.md, "As the calls are made").
 */
#ifndef SHOW_H
#define SHOW_H

#include "frame.h"
#include "report.h"

/* The machine and its hours. */
void show_hours(const struct report *report);

/* The hours that the fields tell, or the fields and why the hours are unclear. */
void show_report(struct kolowrotan_cursor fields);

/* What a frame is: its kind, its table and its place in that. */
void show_frame(const struct frame *frame);

/* What became of a frame that was neither decoded nor waits, and of the link where the frame broke it. */
void show_fate(enum fate fate, const struct fault *fault);

#endif
