/* The header lists that are measured. */
#ifndef BENCH_LISTS_H
#define BENCH_LISTS_H

#include <stdbool.h>
#include <stddef.h>
#include <stdint.h>

struct text {
    const uint8_t *at;
    size_t length;
};

/*
 * A field, and where the static tables have it: the index of a name and of a name with this value, counted from 1, 0 where there
 * is none. `hpack` is the table of RFC 7541, which Kolowrotan has too, `qpack` that of RFC 9204 (whose own count starts at 0).
 */
struct field {
    struct text name;
    struct text value;
    unsigned hpack_name, hpack_whole;
    unsigned qpack_name, qpack_whole;
};

struct list {
    struct field *fields;
    size_t count;
};

enum kind {
    MACHINE, /* a machine's report: 8 short fields, names unknown to the static tables */
    BROWSER, /* a browser's request: 16 fields, names that every implementation stores */
    SHORT,   /* 8 fields of nine bytes, so that a block of 1,000 literals fits 16,384 bytes */
    LONG,    /* SHORT with 64 bytes more in each value: what a byte costs */
    OTHER,   /* fields that no list above has, of the lengths of MACHINE: what else stands in a table */
    KNOWN,   /* MACHINE under names of RFC 9204's static table, for an encoder that stores no others */
    EMPTY    /* fields with no name and no value: of these alone a table of 4,096 bytes holds 128 */
};

/* How many fields a list of this kind has, and how many of them no static table has whole. */
size_t kind_fields(enum kind kind);
size_t kind_stored(enum kind kind);

/*
 * The list of `fields` fields whose values have the number `unit` in them. Lists of different units below 6,900 share no value. A
 * raw list has other bytes in their place, which the packing of RFC 7541, 5.2 makes longer, so that every encoder writes plain
 * strings: in all values, and in the names that no static table has.
 */
struct list list_make(enum kind kind, bool raw, size_t fields, unsigned unit);
void list_free(struct list *list);

/* The sum of the entry sizes of the fields that are stored, RFC 7541, 4.1. */
size_t list_size(const struct list *list);

/* Whether the static tables lack this field, so that an encoder puts it into its own. */
static inline bool field_stored(const struct field *field)
{
    return field->hpack_whole == 0;
}

bool text_equal(struct text a, struct text b);

#endif
