#include "report.h"

#include <stdio.h>
#include <string.h>

static int put_number(struct kolowrotan_list *list, const char *name, uint32_t number)
{
    char digits[16];
    snprintf(digits, sizeof digits, "%u", (unsigned)number);
    return kolowrotan_put_text(list, 0, name, digits);
}

int report_to_list(const struct report *report, struct kolowrotan_list *list)
{
    return kolowrotan_put_text(list, 0, "machine", report->machine) && put_number(list, "hours", report->counter)
        && put_number(list, "turns", report->turns);
}

/* A field that a report has, and the words for what can be wrong with it. */
struct wanted {
    const char *name, *missing, *twice, *wrong;
};

static const struct wanted machine = {"machine", "machine missing", "machine more than once",
                                      "machine not 1 to 15 printable characters"};
static const struct wanted hours = {"hours", "hours missing", "hours more than once", "hours not a number of 0 to 65535"};
static const struct wanted turns = {"turns", "turns missing", "turns more than once", "turns not a number of 0 to 65535"};

/* The one field of this name. Answers null, or that there is not exactly one. */
static const char *find(struct kolowrotan_cursor fields, const struct wanted *wanted, struct kolowrotan_field *found)
{
    struct kolowrotan_field field;
    unsigned count = 0;
    while (kolowrotan_next_field(&fields, &field)) {
        if (kolowrotan_named(&field, wanted->name)) {
            *found = field;
            count++;
        }
    }
    if (count == 0)
        return wanted->missing;
    return count == 1 ? NULL : wanted->twice;
}

static const char *take_machine(struct kolowrotan_cursor fields, struct report *report)
{
    struct kolowrotan_field field;
    const char *unclear = find(fields, &machine, &field);
    if (unclear != NULL)
        return unclear;
    if (field.value_length == 0 || sizeof report->machine <= field.value_length)
        return machine.wrong;
    for (size_t i = 0; i < field.value_length; i++)
        if (field.value[i] < 0x20 || 0x7E < field.value[i])
            return machine.wrong;
    memcpy(report->machine, field.value, field.value_length);
    report->machine[field.value_length] = 0;
    return NULL;
}

static const char *take_number(struct kolowrotan_cursor fields, const struct wanted *wanted, uint32_t *number)
{
    struct kolowrotan_field field;
    const char *unclear = find(fields, wanted, &field);
    if (unclear != NULL)
        return unclear;
    if (field.value_length == 0)
        return wanted->wrong;
    *number = 0;
    for (size_t i = 0; i < field.value_length; i++) {
        if (field.value[i] < '0' || '9' < field.value[i])
            return wanted->wrong;
        *number = *number * 10 + (uint32_t)(field.value[i] - '0');
        if (65535 < *number)
            return wanted->wrong;
    }
    return NULL;
}

const char *report_from_fields(struct kolowrotan_cursor fields, struct report *report)
{
    const char *unclear = take_machine(fields, report);
    if (unclear == NULL)
        unclear = take_number(fields, &hours, &report->counter);
    if (unclear == NULL)
        unclear = take_number(fields, &turns, &report->turns);
    return unclear;
}

uint64_t report_tenths(const struct report *report)
{
    return (uint64_t)report->turns * 65536 + report->counter;
}
