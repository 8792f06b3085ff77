#include "aloud.h"

#include <stdio.h>

void accident(void)
{
    struct frame late, early, other, again, management, acknowledgement;
    uint32_t parts, stream;
    printf("-- the schedule of the accident\n");
    start(KOLOWROTAN_LIMIT, tell_aloud);

    /* L-17 has 13,517.2 hours: turns 2, counter 4,100. Its report refers to "turns: 2", and is late. */
    uint32_t two = insert_aloud("turns", "2");
    report_aloud("L-17", 2, 4100, 0, &late);

    /* A second report arrives before the insert does: it waits, and is decoded when the insert has been read. */
    report_aloud("L-17", 2, 4101, 1, &early);
    receiver_frame(&receiver, &early);
    manage_aloud(&management);

    /* "turns: 2" is deleted and "turns: 0" of L-42 put in, while the first report is still on its way. */
    delete_aloud(two);
    uint32_t zero = insert_aloud("turns", "0");
    report_aloud("L-42", 0, 4100, 2, &other);
    manage_aloud(&management);
    receiver_hold(&receiver, two, &parts, &stream);
    printf("receiver: %u is held by %u part, lowest stream %u\n", (unsigned)two, (unsigned)parts, (unsigned)stream);
    collect_aloud(&acknowledgement);
    receiver_frame(&receiver, &other);
    if (zero == two)
        wrong++;

    /* The late report: 13,517.2 hours, never 410.0. Only now is the entry freed, and its index used again. */
    receiver_frame(&receiver, &late);
    collect_aloud(&acknowledgement);
    acknowledge_aloud(&acknowledgement);
    uint32_t three = insert_aloud("turns", "3");
    report_aloud("L-17", 3, 9, 3, &again);
    manage_aloud(&management);
    receiver_frame(&receiver, &again);
    if (three != two)
        wrong++;
}
