#include "parts.h"

#include <stdio.h>
#include <string.h>

#include "receiver.h"
#include "sender.h"
#include "show.h"

static struct sender sender;
static struct receiver receiver;

static const struct report l17 = {"L-17", 2, 4100}, l42 = {"L-42", 0, 4100};

static void tell(const struct frame *frame, const struct outcome *outcome)
{
    printf("receiver: ");
    show_frame(frame);
    printf(": ");
    if (outcome->fate == FATE_WAITS)
        printf("waits for %u", (unsigned)outcome->index);
    else if (outcome->fate == FATE_DONE)
        show_report(outcome->fields);
    else
        show_fate(outcome->fate, &receiver.fault);
    printf("\n");
}

static void tell_breaks(const struct frame *frame, const struct outcome *outcome)
{
    if (outcome->fate == FATE_BREAKS)
        tell(frame, outcome);
}

/* A new link. Both ends have "turns: 0" at 62. */
static void begin(const char *what)
{
    struct frame frame;
    printf("-- %s\n", what);
    memset(&sender, 0, sizeof sender);
    memset(&receiver, 0, sizeof receiver);
    receiver.tell = tell;
    printf("starts: %d", sender_start(&sender, KOLOWROTAN_LIMIT));
    printf(" %d\n", receiver_start(&receiver, sender.number, KOLOWROTAN_LIMIT));
    sender_insert(&sender, "turns", "0");
    sender_manage(&sender, &frame, FRAME_ROOM);
    receiver_frame(&receiver, &frame);
}

static void report(const struct report *what, uint32_t stream)
{
    struct frame frame;
    if (sender_report(&sender, what, stream, &frame))
        receiver_frame(&receiver, &frame);
    else
        printf("sender: no frame, the link is broken\n");
}

static void manage(void)
{
    struct frame frame;
    sender_manage(&sender, &frame, FRAME_ROOM);
    receiver_frame(&receiver, &frame);
}

static void acknowledge(uint32_t table, uint64_t at, const char *bytes, size_t length)
{
    struct frame frame;
    frame.kind = FRAME_ACKNOWLEDGEMENT;
    frame.table = table;
    frame.at = at;
    frame.length = length;
    memcpy(frame.bytes, bytes, length);
    printf("sender: ");
    show_frame(&frame);
    printf(": ");
    show_fate(sender_frame(&sender, &frame), &sender.fault);
    printf("\n");
}

/* The old table stays in the memory when a start is refused. L-17's block would find "turns: 0" there. */
static void refused_starts(void)
{
    begin("a start of the receiver is refused");
    sender_start(&sender, KOLOWROTAN_LIMIT);
    sender_insert(&sender, "turns", "2");
    printf("receiver starts: %d\n", receiver_start(&receiver, sender.number, KOLOWROTAN_LIMIT + 1));
    report(&l17, 0);
    manage();
    printf("receiver starts the same again: %d\n", receiver_start(&receiver, sender.number, KOLOWROTAN_LIMIT));
    sender_start(&sender, KOLOWROTAN_LIMIT);
    printf("receiver starts: %d\n", receiver_start(&receiver, sender.number, KOLOWROTAN_LIMIT));
    report(&l17, 0);

    begin("a start of the sender is refused");
    printf("sender starts: %d\n", sender_start(&sender, KOLOWROTAN_LIMIT + 1));
    printf("index %u\n", (unsigned)sender_insert(&sender, "turns", "2"));
    report(&l17, 0);
    sender_start(&sender, KOLOWROTAN_LIMIT);
    receiver_start(&receiver, sender.number, KOLOWROTAN_LIMIT);
    report(&l17, 0);
}

static void refused_reads(void)
{
    struct frame frame, whole;
    begin("management bytes are refused");
    sender_delete(&sender, 62);
    sender_insert(&sender, "turns", "0");
    sender_delete(&sender, 63);
    manage();
    printf("freed %u\n", receiver_collect(&receiver));
    sender_insert(&sender, "turns", "2");
    report(&l17, 0);
    sender_manage(&sender, &whole, FRAME_ROOM);
    frame = whole;
    frame.bytes[1] = 0x3F; /* the name is that of a vacant index */
    receiver_frame(&receiver, &frame);
    receiver_frame(&receiver, &whole);
    report(&l42, 1);
    receiver_acknowledge(&receiver, &frame);
    printf("waiting %u, acknowledgements %u bytes\n", receiver.waiting_count, (unsigned)frame.length);

    begin("a block is refused");
    sender_report(&sender, &l42, 0, &frame);
    frame.bytes[frame.length - 1] = 0x80;
    sender_insert(&sender, "turns", "3");
    sender_delete(&sender, 63);
    manage();
    receiver_frame(&receiver, &frame);
    report(&l42, 1);
    printf("freed %u\n", receiver_collect(&receiver));

    begin("a number of management bytes is padded");
    sender_insert(&sender, "turns", "2");
    sender_manage(&sender, &frame, FRAME_ROOM);
    memcpy(frame.bytes, "\xFF\x80", 3);
    receiver_frame(&receiver, &frame);
    report(&l42, 0);

    begin("a number of a block is padded");
    sender_report(&sender, &l42, 0, &frame);
    memcpy(frame.bytes, "\xFF\x80", 3);
    receiver_frame(&receiver, &frame);
    report(&l42, 1);

    begin("a number of an acknowledgement is padded, by a byte that comes later");
    acknowledge(1, 0, "\x7F\x80", 2);
    acknowledge(1, 2, "\0", 1);
    report(&l42, 0);

    begin("an acknowledgement is refused");
    sender_insert(&sender, "turns", "2"); /* is never sent */
    acknowledge(1, 0, "\x7E", 1);
    acknowledge(1, 1, "\x7E", 1);
    sender_delete(&sender, 62);
    sender_manage(&sender, &frame, FRAME_ROOM);
    printf("management: %u bytes\n", (unsigned)frame.length);
    report(&l42, 0);
    sender_start(&sender, KOLOWROTAN_LIMIT);
    acknowledge(1, 0, "\x7E", 1);
    receiver_start(&receiver, sender.number, KOLOWROTAN_LIMIT);
    report(&l42, 0);
}

static void acknowledgements(void)
{
    begin("acknowledgements are missing, or of no table that was started");
    acknowledge(1, 1, "\x7E", 1);
    begin("the same, newer");
    acknowledge(2, 0, "\x7E", 1);
    begin("an acknowledgement is cut");
    for (int i = 0; i < 2; i++)
        sender_insert(&sender, "turns", "1");
    sender_delete(&sender, 63);
    acknowledge(1, 0, "\x7F", 1);
    acknowledge(1, 0, "\x7F", 1);
    printf("index %u\n", (unsigned)sender_insert(&sender, "turns", "3"));
    acknowledge(1, 0, "\x7F\0", 2);
    printf("index %u\n", (unsigned)sender_insert(&sender, "turns", "3"));
}

/* Bytes that come again in frames that are cut elsewhere: only those that are new are read. */
static void overlaps(void)
{
    struct frame frame, first, second;
    begin("frames overlap");
    sender_insert(&sender, "turns", "2");
    sender_insert(&sender, "turns", "3");
    sender_manage(&sender, &frame, FRAME_ROOM);
    first = frame;
    first.length = 6;
    second = frame;
    second.at = frame.at + 3;
    second.length = frame.length - 3;
    memmove(second.bytes, second.bytes + 3, second.length);
    receiver_frame(&receiver, &first);
    receiver_frame(&receiver, &second);
    receiver_frame(&receiver, &frame);
    report(&l17, 0);
}

/* As many frames of a newer table as are kept, and then one of another. No table up to the newest of them can be started any more. */
static void too_many(const char *what, uint32_t table, uint32_t last)
{
    struct frame frame;
    begin(what);
    sender_report(&sender, &l42, 0, &frame);
    receiver.tell = tell_breaks;
    for (unsigned i = 0; i < KEPT_ROOM; i++) {
        frame.table = table;
        receiver_frame(&receiver, &frame);
    }
    frame.table = last;
    receiver_frame(&receiver, &frame);
    receiver.tell = tell;
    for (uint32_t number = 2; number <= 4; number++)
        printf("receiver starts table %u: %d\n", (unsigned)number, receiver_start(&receiver, number, KOLOWROTAN_LIMIT));
}

/* Frames of two newer tables, and more of them than are kept. */
static void kept(void)
{
    begin("two newer tables");
    sender_start(&sender, KOLOWROTAN_LIMIT);
    report(&l17, 0);
    sender_start(&sender, KOLOWROTAN_LIMIT);
    report(&l42, 0);
    printf("receiver starts: %d\n", receiver_start(&receiver, 2, KOLOWROTAN_LIMIT));
    printf("receiver starts: %d\n", receiver_start(&receiver, 3, KOLOWROTAN_LIMIT));
    printf("kept %u\n", receiver.kept_count);

    begin("too many frames of a newer table");
    sender_start(&sender, KOLOWROTAN_LIMIT);
    for (uint32_t stream = 0; stream <= KEPT_ROOM; stream++)
        report(&l42, stream);
    report(&l42, KEPT_ROOM + 1);
    printf("receiver starts: %d\n", receiver_start(&receiver, sender.number, KOLOWROTAN_LIMIT));
    sender_start(&sender, KOLOWROTAN_LIMIT);
    printf("receiver starts: %d\n", receiver_start(&receiver, sender.number, KOLOWROTAN_LIMIT));
    report(&l42, 0);

    too_many("too many frames of newer tables, the newest last", 2, 3);
    too_many("too many frames of newer tables, the newest first", 3, 2);
}

static void reset(uint32_t table, uint64_t stream)
{
    struct frame frame;
    frame.kind = FRAME_RESET;
    frame.table = table;
    frame.at = stream;
    frame.length = 0;
    receiver_frame(&receiver, &frame);
}

/* A reset belongs to a table as a block does. After it nothing of its stream is offered, a waiting block neither. */
static void resets(void)
{
    begin("resets");
    sender_start(&sender, KOLOWROTAN_LIMIT);
    sender_insert(&sender, "turns", "0");
    reset(2, 1);
    receiver_start(&receiver, sender.number, KOLOWROTAN_LIMIT);
    reset(1, 0);
    report(&l42, 0);
    report(&l42, 1);
    reset(2, 0);
    manage();
    report(&l42, 2);
    reset(2, KOLOWROTAN_STREAMS);

    begin("a frame of the other direction");
    struct frame frame;
    frame.kind = FRAME_ACKNOWLEDGEMENT;
    frame.table = 1;
    frame.at = 0;
    frame.length = 0;
    receiver_frame(&receiver, &frame);
}

/* A block that waits is not kept twice, and not more than WAITING_ROOM of them. */
static void waiting(void)
{
    struct frame frame;
    begin("a waiting block is repeated");
    sender_insert(&sender, "turns", "2");
    sender_report(&sender, &l17, 0, &frame);
    receiver_frame(&receiver, &frame);
    receiver_frame(&receiver, &frame);
    manage();
    receiver_frame(&receiver, &frame);

    begin("too many blocks wait");
    sender_insert(&sender, "turns", "2");
    receiver.tell = tell_breaks;
    for (uint32_t stream = 0; stream <= WAITING_ROOM; stream++)
        report(&l17, stream);
    receiver.tell = tell;
    manage();
}

/* A start that comes again, or for an older table, changes nothing. */
static void starts_again(void)
{
    begin("the receiver is to start a table again");
    printf("receiver starts: %d\n", receiver_start(&receiver, 1, KOLOWROTAN_LIMIT));
    printf("receiver starts: %d\n", receiver_start(&receiver, 0, KOLOWROTAN_LIMIT));
    report(&l42, 0);
}

/* A stream number serves one message of a table: the library would take a second report as one more block of the first. */
static void used_again(void)
{
    struct frame frame;
    begin("a stream number is used again");
    report(&l17, 5);
    printf("sender: %d\n", sender_report(&sender, &l42, 5, &frame));
    printf("sender: %d\n", sender_report(&sender, &l42, KOLOWROTAN_STREAMS, &frame));
    sender_start(&sender, KOLOWROTAN_LIMIT);
    printf("sender, in a new table: %d\n", sender_report(&sender, &l42, 5, &frame));
}

void links(void)
{
    refused_starts();
    refused_reads();
    acknowledgements();
    overlaps();
    kept();
    resets();
    waiting();
    starts_again();
    used_again();
}
