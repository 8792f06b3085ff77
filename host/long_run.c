#include "schedules.h"

#include <stdio.h>
#include <stdlib.h>

static unsigned inserts, refused, freed, lost, waited;

static void tell_quietly(const struct frame *frame, const struct outcome *outcome)
{
    if (outcome->fate == FATE_WAITS)
        waited++;
    if (outcome->fate == FATE_DONE)
        compare(frame, outcome->fields);
}

/* A small generator, so that every run is the same. */
static uint32_t chance(uint32_t below)
{
    static uint32_t state = 20170217;
    state = state * 1664525u + 1013904223u;
    return (uint32_t)(((uint64_t)(state >> 8) * below) >> 24);
}

#define REPORTS 2000
#define FLIGHTS 64
#define LONGEST_FLIGHT 24

/* Messages on their way, each with the tick at which it arrives or is given up. */
static struct flight {
    int used, lost;
    unsigned arrives;
    struct frame frame;
} flights[FLIGHTS];

static struct flight *free_flight(void)
{
    for (unsigned i = 0; i < FLIGHTS; i++)
        if (!flights[i].used)
            return &flights[i];
    fprintf(stderr, "too many messages on their way\n");
    exit(2);
}

/* The state of one loader's reader. */
struct loader {
    struct report report;
    uint32_t turns_index, machine_index; /* 0: no entry */
};

static void keep(uint32_t *index, const char *name, const char *value)
{
    if (*index != 0)
        return;
    *index = sender_insert(&sender, name, value);
    if (*index != 0)
        inserts++;
    else
        refused++;
}

static void forget(uint32_t *index)
{
    if (*index != 0)
        sender_delete(&sender, *index);
    *index = 0;
}

/* The loader runs on, and its reader sends a report. */
static void send(struct loader *loader, uint32_t stream, unsigned now)
{
    char turns[16];
    loader->report.counter += chance(9000);
    if (65535 < loader->report.counter) {
        loader->report.counter -= 65536;
        loader->report.turns++;
        forget(&loader->turns_index);
    }
    if (chance(6) == 0)
        forget(&loader->machine_index);
    snprintf(turns, sizeof turns, "%u", (unsigned)loader->report.turns);
    keep(&loader->turns_index, "turns", turns);
    keep(&loader->machine_index, "machine", loader->report.machine);

    struct flight *flight = free_flight();
    send_report(&loader->report, stream, &flight->frame);
    flight->used = 1;
    flight->lost = chance(16) == 0;
    flight->arrives = now + (flight->lost ? LONGEST_FLIGHT : chance(LONGEST_FLIGHT));
}

/* What arrives at this tick. A lost message is given up: its stream is reset. */
static void arrive(unsigned now)
{
    for (unsigned i = 0; i < FLIGHTS; i++) {
        struct flight *flight = &flights[i];
        if (!flight->used || flight->arrives != now)
            continue;
        flight->used = 0;
        if (flight->lost) {
            lost++;
            flight->frame.kind = FRAME_RESET;
        }
        receiver_frame(&receiver, &flight->frame);
    }
}

/* Management bytes come slowly and cut anywhere, acknowledgements likewise. */
static void trickle(size_t most)
{
    struct frame frame;
    sender_manage(&sender, &frame, most);
    receiver_frame(&receiver, &frame);
    freed += receiver_collect(&receiver);
    if (receiver.acknowledgements.length != 0 && chance(3) == 0) {
        receiver_acknowledge(&receiver, &frame);
        sender_frame(&sender, &frame);
    }
}

void long_run(void)
{
    struct loader loaders[2] = {{{"L-17", 2, 4100}, 0, 0}, {{"L-42", 0, 4100}, 0, 0}};
    printf("-- %u reports over a radio that delays, reorders and loses them\n", (unsigned)REPORTS);
    start(320, tell_quietly);
    decoded = 0;
    for (unsigned now = 0; now < REPORTS + 4 * LONGEST_FLIGHT; now++) {
        if (now < REPORTS)
            send(&loaders[chance(2)], now, now);
        arrive(now);
        trickle(now < REPORTS ? chance(16) : 16);
    }
    for (unsigned i = 0; i < 2; i++) {
        forget(&loaders[i].turns_index);
        forget(&loaders[i].machine_index);
    }
    while (sender.management.length != 0)
        trickle(16);
    for (unsigned i = 0; i < 2; i++) {
        printf("sender: ");
        show_hours(&loaders[i].report);
        printf("\n");
    }
    printf("receiver: %u reports decoded, %u given up, %u offers told to wait, %u still waiting\n", decoded, lost,
           waited, receiver.waiting_count);
    printf("tables: %u entries inserted, %u freed, %u inserts refused for the limit\n", inserts, freed, refused);
    if (decoded + lost != REPORTS || receiver.waiting_count != 0 || inserts != freed)
        wrong++;
}
