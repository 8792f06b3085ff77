#include "aloud.h"

#include <stdio.h>
#include <stdlib.h>

void tell_aloud(const struct frame *frame, const struct outcome *outcome)
{
    printf("receiver: ");
    show_frame(frame);
    printf(": ");
    if (outcome->fate == FATE_WAITS)
        printf("waits for %u", (unsigned)outcome->index);
    else if (outcome->fate == FATE_DONE)
        show_report(outcome->fields);
    else
        show_fate(outcome->fate, &receiver.fault);
    printf("\n");
    if (outcome->fate == FATE_DONE)
        compare(frame, outcome->fields);
}

uint32_t insert_aloud(const char *name, const char *value)
{
    uint32_t index = sender_insert(&sender, name, value);
    printf("sender: \"%s: %s\" inserted at %u\n", name, value, (unsigned)index);
    return index;
}

void delete_aloud(uint32_t index)
{
    sender_delete(&sender, index);
    printf("sender: %u deleted\n", (unsigned)index);
}

void report_aloud(const char *machine, uint32_t turns, uint32_t counter, uint32_t stream, struct frame *frame)
{
    struct report report = {"", turns, counter};
    /* a name that is cut here would be another machine's */
    if (sizeof report.machine <= (size_t)snprintf(report.machine, sizeof report.machine, "%s", machine)) {
        fprintf(stderr, "host: the machine's name is too long: %s\n", machine);
        exit(2);
    }
    send_report(&report, stream, frame);
    printf("sender: ");
    show_frame(frame);
    printf(": report of %s written, %u bytes\n", machine, (unsigned)frame->length);
}

void manage_aloud(struct frame *frame)
{
    sender_manage(&sender, frame, FRAME_ROOM);
    receiver_frame(&receiver, frame);
}

void collect_aloud(struct frame *frame)
{
    printf("receiver: collect frees %u", receiver_collect(&receiver));
    receiver_acknowledge(&receiver, frame);
    for (size_t i = 0; i < frame->length; i++)
        printf(" %02X", frame->bytes[i]);
    printf("\n");
}

void acknowledge_aloud(const struct frame *frame)
{
    enum fate fate = sender_frame(&sender, frame);
    printf("sender: ");
    show_frame(frame);
    printf(": ");
    show_fate(fate, &sender.fault);
    printf("\n");
}
