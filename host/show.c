#include "show.h"

#include <stdio.h>
#include <string.h>

/* Bytes that separate what the host prints, wherever they stand, and those that separate only at an edge. */
static int separates(uint8_t byte)
{
    return byte == '\\' || byte == ',' || byte == '=';
}

static int separates_at_edge(uint8_t byte)
{
    return byte == ':' || byte == ' ';
}

static void show_byte(uint8_t byte, int edge)
{
    if (byte < 0x20 || 0x7E < byte || separates(byte) || (edge && separates_at_edge(byte)))
        printf("\\x%02x", byte);
    else
        putchar(byte);
}

/* A name has no place for ':' and spaces, so that the first ": " is always the end of it. */
static void show_name(const uint8_t *name, size_t length)
{
    for (size_t i = 0; i < length; i++)
        show_byte(name[i], 1);
}

static void show_value(const uint8_t *value, size_t length)
{
    for (size_t i = 0; i < length; i++)
        show_byte(value[i], i == 0 || i == length - 1);
}

static void show_fields(struct kolowrotan_cursor fields)
{
    struct kolowrotan_field field;
    const char *between = "";
    while (kolowrotan_next_field(&fields, &field)) {
        printf("%s", between);
        show_name(field.name, field.name_length);
        printf(": ");
        show_value(field.value, field.value_length);
        if (field.never_store)
            printf(" = never store");
        between = ", ";
    }
    if (*between == 0)
        printf("no fields");
}

void show_hours(const struct report *report)
{
    uint64_t tenths = report_tenths(report);
    /* as a name: the first space ends it, and no machine can be called "L-42 13517.2" */
    show_name((const uint8_t *)report->machine, strlen(report->machine));
    printf(" %llu.%llu hours", (unsigned long long)(tenths / 10), (unsigned long long)(tenths % 10));
}

void show_report(struct kolowrotan_cursor fields)
{
    struct report report;
    const char *unclear = report_from_fields(fields, &report);
    if (unclear == NULL) {
        show_hours(&report);
        return;
    }
    show_fields(fields);
    printf(" = hours unclear: %s", unclear);
}

void show_frame(const struct frame *frame)
{
    unsigned table = (unsigned)frame->table;
    unsigned long long at = (unsigned long long)frame->at;
    switch (frame->kind) {
    case FRAME_MANAGEMENT:
        printf("management of table %u from byte %llu", table, at);
        break;
    case FRAME_ACKNOWLEDGEMENT:
        printf("acknowledgements of table %u from byte %llu", table, at);
        break;
    case FRAME_BLOCK:
        printf("table %u stream %llu", table, at);
        break;
    case FRAME_RESET:
        printf("reset of table %u stream %llu", table, at);
        break;
    }
}

static void show_fault(const struct fault *fault)
{
    printf("breaks the link: %s", fault->what);
    if (fault->answer != KOLOWROTAN_DONE)
        printf(" refused %d: %s", fault->answer, kolowrotan_answer_name(fault->answer));
}

void show_fate(enum fate fate, const struct fault *fault)
{
    switch (fate) {
    case FATE_READ:
        printf("read");
        break;
    case FATE_RESET:
        printf("done");
        break;
    case FATE_REPEATED:
        printf("dropped, came before");
        break;
    case FATE_OVER:
        printf("dropped, its stream is over");
        break;
    case FATE_OLDER:
        printf("dropped, an older table");
        break;
    case FATE_KEPT:
        printf("kept, a newer table");
        break;
    case FATE_BREAKS:
        show_fault(fault);
        break;
    case FATE_BROKEN:
        printf("dropped, the link is broken");
        break;
    case FATE_DONE:
    case FATE_WAITS:
        break;
    }
}
