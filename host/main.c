/*
 * An example radio host: the readers of two loaders on one link. First the schedule of an accident, then a long run over a radio that
 * delays, reorders and loses messages, then a link that starts anew. Every report that arrives is compared with what was sent. The exit
 * status is 0 where all agree.
 */
#include "schedules.h"

#include <stdio.h>
#include <string.h>

struct sender sender;
struct receiver receiver;
struct report sent[TABLES][KOLOWROTAN_STREAMS];
unsigned decoded, wrong;

void start(uint64_t limit, receiver_tell *tell)
{
    memset(&sender, 0, sizeof sender);
    memset(&receiver, 0, sizeof receiver);
    receiver.tell = tell;
    if (!sender_start(&sender, limit) || !receiver_start(&receiver, sender.number, limit))
        wrong++;
}

static int same(const struct report *a, const struct report *b)
{
    return strcmp(a->machine, b->machine) == 0 && a->turns == b->turns && a->counter == b->counter;
}

void compare(const struct frame *frame, struct kolowrotan_cursor fields)
{
    struct report report;
    decoded++;
    if (report_from_fields(fields, &report) == NULL && same(&sent[frame->table][frame->at], &report))
        return;
    printf("WRONG on ");
    show_frame(frame);
    printf(": ");
    show_report(fields);
    printf("\n");
    wrong++;
}

void send_report(const struct report *report, uint32_t stream, struct frame *frame)
{
    if (!sender_report(&sender, report, stream, frame))
        wrong++;
    sent[sender.number][stream] = *report;
}

int main(void)
{
    if (kolowrotan_decoder_length() != KOLOWROTAN_DECODER_LENGTH || kolowrotan_encoder_length() != KOLOWROTAN_ENCODER_LENGTH) {
        fprintf(stderr, "header and library differ\n");
        return 2;
    }
    accident();
    long_run();
    anew();
    printf("%s\n", wrong == 0 ? "every report as it was sent" : "SOME REPORTS ARE WRONG");
    return wrong != 0;
}
