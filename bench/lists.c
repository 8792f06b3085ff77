#include "lists.h"

#include <stdio.h>
#include <stdlib.h>
#include <string.h>

/* A field before its number is put in: `%05u` stands where the number goes, fields without it are the same in every list. */
struct pattern {
    const char *name;
    const char *value;
    unsigned hpack_name, hpack_whole, qpack_name, qpack_whole;
};

/* In no static table. */
#define UNKNOWN 0, 0, 0, 0

static const struct pattern machine[] = {
    {"machine-id", "L-%05u", UNKNOWN}, {"turns", "%05u", UNKNOWN},          {"counter", "%05u", UNKNOWN},
    {"engine-temp", "%05uC", UNKNOWN}, {"oil-pressure", "%05uPa", UNKNOWN}, {"fuel", "%05ul", UNKNOWN},
    {"site", "yard-%05u", UNKNOWN},    {"report-time", "T%05u", UNKNOWN},
};

static const struct pattern known[] = {
    {"user-agent", "L-%05u", 58, 0, 96, 0}, {"range", "%05u", 50, 0, 56, 0},          {"referer", "%05u", 51, 0, 14, 0},
    {"early-data", "%05uC", 0, 0, 87, 0},   {"content-type", "%05uPa", 31, 0, 45, 0}, {"vary", "%05ul", 59, 0, 60, 0},
    {"link", "yard-%05u", 45, 0, 12, 0},    {"forwarded", "T%05u", 0, 0, 89, 0},
};

static const struct pattern other[] = {
    {"driver-key", "D-%05u", UNKNOWN}, {"brake", "%05u", UNKNOWN},          {"voltage", "%05u", UNKNOWN},
    {"coolant-low", "%05uC", UNKNOWN}, {"belt-tension", "%05uNm", UNKNOWN}, {"horn", "%05ul", UNKNOWN},
    {"tyre", "left-%05u", UNKNOWN},    {"service-due", "T%05u", UNKNOWN},
};

static const struct pattern brief[] = {
    {"fuel", "%05u", UNKNOWN}, {"site", "%05u", UNKNOWN}, {"load", "%05u", UNKNOWN}, {"tilt", "%05u", UNKNOWN},
    {"grip", "%05u", UNKNOWN}, {"mast", "%05u", UNKNOWN}, {"lamp", "%05u", UNKNOWN}, {"gear", "%05u", UNKNOWN},
};

#define MORE "/loaders/report?site=yard&shift=night-2&driver=ann.kowal&unit=kg" /* 64 bytes */

static const struct pattern lengthy[] = {
    {"fuel", "%05u" MORE, UNKNOWN}, {"site", "%05u" MORE, UNKNOWN}, {"load", "%05u" MORE, UNKNOWN},
    {"tilt", "%05u" MORE, UNKNOWN}, {"grip", "%05u" MORE, UNKNOWN}, {"mast", "%05u" MORE, UNKNOWN},
    {"lamp", "%05u" MORE, UNKNOWN}, {"gear", "%05u" MORE, UNKNOWN},
};

static const struct pattern empty[] = {{"", "", UNKNOWN}};

static const struct pattern browser[] = {
    {":method", "GET", 2, 2, 16, 18},
    {":scheme", "https", 6, 7, 23, 24},
    {":authority", "yard-%05u.example.com", 1, 0, 1, 0},
    {":path", "/", 4, 4, 2, 2},
    {"user-agent", "Mozilla/5.0 (X11; Linux x86_64; rv:115.0) Gecko/20100101 Firefox/115.%05u", 58, 0, 96, 0},
    {"accept", "text/html,application/xhtml+xml,application/xml;q=0.9,*/*;q=0.8;v=%05u", 19, 0, 30, 0},
    {"accept-language", "en-GB,en;q=0.7,de;q=0.%05u", 17, 0, 73, 0},
    {"accept-encoding", "gzip, deflate, br;q=0.%05u", 16, 0, 32, 0},
    {"referer", "https://www.example.com/loaders/%05u", 51, 0, 14, 0},
    {"cookie", "session=8f2c0d5be1a94c67b3f0%05u", 32, 0, 6, 0},
    {"cache-control", "max-age=%05u", 24, 0, 37, 0},
    {"upgrade-insecure-requests", "%05u", 0, 0, 95, 0},
    {"origin", "https://origin-%05u.example.com", 0, 0, 91, 0},
    {"range", "bytes=%05u-", 50, 0, 56, 0},
    {"if-range", "\"%05u-5f3e\"", 42, 0, 90, 0},
    {"x-forwarded-for", "10.20.30.40, 10.0.%05u", 0, 0, 97, 0},
};

#define COUNTED(array) array, sizeof(array) / sizeof((array)[0])

static const struct {
    const struct pattern *patterns;
    size_t count;
} kinds[] = {
    [MACHINE] = {COUNTED(machine)}, [BROWSER] = {COUNTED(browser)}, [SHORT] = {COUNTED(brief)}, [LONG] = {COUNTED(lengthy)},
    [OTHER] = {COUNTED(other)},     [KNOWN] = {COUNTED(known)},     [EMPTY] = {COUNTED(empty)},
};

size_t kind_fields(enum kind kind)
{
    return kinds[kind].count;
}

size_t kind_stored(enum kind kind)
{
    size_t stored = 0;
    for (size_t i = 0; i < kinds[kind].count; i++)
        stored += kinds[kind].patterns[i].hpack_whole == 0;
    return stored;
}

static struct text copy_text(const char *from, bool raw)
{
    static const char long_codes[] = "!#$'+^`|~("; /* 10 to 15 bits each; different digits stay different */
    size_t length = strlen(from);
    uint8_t *text = malloc(length + 1);
    if (text == NULL)
        abort();
    for (size_t i = 0; i < length; i++)
        text[i] = (uint8_t)(raw ? long_codes[(uint8_t)from[i] % 10] : from[i]);
    return (struct text){text, length};
}

struct list list_make(enum kind kind, bool raw, size_t fields, unsigned unit)
{
    struct list list = {calloc(fields, sizeof(struct field)), fields};
    if (list.fields == NULL)
        abort();
    for (size_t i = 0; i < fields; i++) {
        const struct pattern *p = &kinds[kind].patterns[i % kinds[kind].count];
        const char *number = strstr(p->value, "%05u");
        char value[128];
        if (number == NULL)
            snprintf(value, sizeof value, "%s", p->value);
        else
            snprintf(value, sizeof value, "%.*s%05u%s", (int)(number - p->value), p->value, 10000 + 13 * unit, number + 4);
        bool named = p->hpack_name != 0 || p->qpack_name != 0, whole = p->hpack_whole != 0;
        list.fields[i] = (struct field){copy_text(p->name, raw && !named),
                                        copy_text(value, raw && !whole),
                                        p->hpack_name,
                                        p->hpack_whole,
                                        p->qpack_name,
                                        p->qpack_whole};
    }
    return list;
}

void list_free(struct list *list)
{
    for (size_t i = 0; i < list->count; i++) {
        free((void *)list->fields[i].name.at);
        free((void *)list->fields[i].value.at);
    }
    free(list->fields);
    list->fields = NULL;
}

size_t list_size(const struct list *list)
{
    size_t size = 0;
    for (size_t i = 0; i < list->count; i++)
        if (field_stored(&list->fields[i]))
            size += list->fields[i].name.length + list->fields[i].value.length + 32;
    return size;
}

bool text_equal(struct text a, struct text b)
{
    return a.length == b.length && memcmp(a.at, b.at, a.length) == 0;
}
