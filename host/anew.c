/*
 * L-17 has 13,517.2 hours, turns 2 and counter 4,100; L-42 has 410.0, turns 0 and the same counter. Each part
 * below has a frame that must not be read where it comes: it is of another table, or came before. Were it read, one of the two machines
 * would show with the hours of the other.
 */
#include "aloud.h"

#include <stdio.h>

static void start_sender(void)
{
    if (!sender_start(&sender, KOLOWROTAN_LIMIT))
        wrong++;
    printf("sender: starts table %u\n", (unsigned)sender.number);
}

static void start_receiver(void)
{
    printf("receiver: starts table %u\n", (unsigned)sender.number);
    if (!receiver_start(&receiver, sender.number, KOLOWROTAN_LIMIT))
        wrong++;
}

/* What is repeated or comes late after the receiver's start: frames of table 1. */
static struct frame late, later, old_management, old_acknowledgement;

/*
 * Table 1. Index 62 has been freed once, and the radio repeats that acknowledgement while 62 is under deletion again. Were it read
 * twice, "turns: 0" would get index 62, where the receiver still has "turns: 2" for L-17's late reports; L-42's report, which overtakes
 * its insert, would show 13,517.2 hours.
 */
static void repeated_acknowledgement(void)
{
    struct frame management, report;
    uint32_t one = insert_aloud("turns", "1");
    delete_aloud(one);
    manage_aloud(&old_management);
    collect_aloud(&old_acknowledgement);
    acknowledge_aloud(&old_acknowledgement);

    uint32_t two = insert_aloud("turns", "2");
    report_aloud("L-17", 2, 4100, 0, &late);
    report_aloud("L-17", 2, 4100, 1, &later);
    manage_aloud(&management);
    receiver_frame(&receiver, &management);
    receiver_frame(&receiver, &old_management);
    delete_aloud(two);
    manage_aloud(&management);
    acknowledge_aloud(&old_acknowledgement);

    insert_aloud("turns", "0");
    report_aloud("L-42", 0, 4100, 2, &report);
    receiver_frame(&receiver, &report);
    manage_aloud(&management);
    receiver_frame(&receiver, &report);
}

/*
 * Table 2. The sender starts it, and what it writes arrives while the receiver still takes late reports of table 1. The receiver starts
 * it later. Were a late report decoded then, L-17 would show 410.0 hours, since index 62 is now "turns: 0".
 */
static void one_end_then_the_other(void)
{
    struct frame management, report;
    start_sender();
    insert_aloud("turns", "0");
    report_aloud("L-42", 0, 4100, 0, &report);
    receiver_frame(&receiver, &report);
    manage_aloud(&management);
    receiver_frame(&receiver, &late);

    start_receiver();
    receiver_frame(&receiver, &later);
    receiver_frame(&receiver, &old_management);
    receiver_frame(&receiver, &management);
}

/*
 * Still table 2. Index 62 is under deletion in it when the radio repeats the acknowledgement of table 1. Were that read, "turns: 2"
 * would get index 62, and L-17's report, which overtakes its insert, would show 410.0 hours.
 */
static void old_acknowledgement_again(void)
{
    struct frame management, report, other, acknowledgement;
    report_aloud("L-42", 0, 4100, 1, &other);
    delete_aloud(62);
    manage_aloud(&management);
    acknowledge_aloud(&old_acknowledgement);
    insert_aloud("turns", "2");
    report_aloud("L-17", 2, 4100, 2, &report);
    receiver_frame(&receiver, &report);
    manage_aloud(&management);
    receiver_frame(&receiver, &other);
    collect_aloud(&acknowledgement);
    acknowledge_aloud(&acknowledgement);
}

/*
 * Table 3. The sender's device reboots and starts anew alone; management bytes that it has not sent are lost. Its report overtakes its
 * insert, and the receiver has not started the table: were it decoded, L-42 would show 13,517.2 hours, since index 63 of table 2 is
 * "turns: 2". So it would if the block that waits for index 62 of table 2 were still offered when the receiver has started table 3.
 */
static void only_the_sender(void)
{
    struct frame management, report, other, waiting;
    insert_aloud("turns", "0");
    report_aloud("L-42", 0, 4100, 3, &waiting);
    receiver_frame(&receiver, &waiting);
    start_sender();
    insert_aloud("turns", "2");
    insert_aloud("turns", "0");
    report_aloud("L-42", 0, 4100, 0, &report);
    report_aloud("L-17", 2, 4100, 1, &other);
    receiver_frame(&receiver, &report);

    start_receiver();
    manage_aloud(&management);
    receiver_frame(&receiver, &other);
    receiver_frame(&receiver, &report);
}

/*
 * Table 4. Management bytes are cut anywhere, and the frame in the middle is lost. Were the last one read behind the first, its byte
 * would end the first insert as "turns: 0", and L-17's report would show 410.0 hours. The gap breaks the link: nothing more is read or
 * decoded, not even the frame that was lost, until both ends have started anew.
 */
static void lost_frame(void)
{
    struct frame first, lost, last, report, again;
    start_sender();
    start_receiver();
    insert_aloud("turns", "2");
    insert_aloud("turns", "0");
    sender_manage(&sender, &first, 9);
    sender_manage(&sender, &lost, 4);
    sender_manage(&sender, &last, 1);
    report_aloud("L-17", 2, 4100, 0, &report);
    receiver_frame(&receiver, &first);
    receiver_frame(&receiver, &last);
    receiver_frame(&receiver, &report);
    receiver_frame(&receiver, &lost);

    start_sender();
    start_receiver();
    receiver_frame(&receiver, &report);
    report_aloud("L-17", 2, 4100, 0, &again);
    receiver_frame(&receiver, &again);
}

void anew(void)
{
    printf("-- both ends start anew, over a radio that delays and repeats frames\n");
    start(KOLOWROTAN_LIMIT, tell_aloud);
    repeated_acknowledgement();
    one_end_then_the_other();
    old_acknowledgement_again();
    only_the_sender();
    lost_frame();
}
