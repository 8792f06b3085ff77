#include "writer.h"
#include "huffman.h"
#include "wire.h"

#include <stdlib.h>

enum { HPACK_STATIC = 61, DEFAULT_LIMIT = 4096 };

/* The entries from `first` on, numbered in the order in which they were put in. */
struct writer {
    size_t limit, size;
    size_t first, total, room;
    struct field *entries;
    bool begun, packed;
};

void write_integer(struct output *out, unsigned pattern, unsigned prefix, size_t value)
{
    out->at = put_integer(out->at, pattern, prefix, value);
}

void write_string(struct output *out, unsigned pattern, unsigned prefix, struct text text)
{
    out->at = (out->packed ? put_packed : put_string)(out->at, pattern, prefix, text);
    out->strings += text.length;
}

/* ---- the table ---- */

void *writer_new(size_t limit, bool packed)
{
    struct writer *table = calloc(1, sizeof *table);
    if (table == NULL)
        fail("no memory");
    table->limit = limit;
    table->packed = packed;
    return table;
}

void writer_free(void *writer)
{
    struct writer *table = writer;
    free(table->entries);
    free(table);
}

static size_t entry_size(const struct field *field)
{
    return field->name.length + field->value.length + 32;
}

static void table_put(struct writer *table, const struct field *field)
{
    while (table->size + entry_size(field) > table->limit)
        table->size -= entry_size(&table->entries[table->first++]);
    if (table->total == table->room) {
        table->room = 2 * table->room + 64;
        table->entries = realloc(table->entries, table->room * sizeof *table->entries);
        if (table->entries == NULL)
            fail("no memory");
    }
    table->entries[table->total++] = *field;
    table->size += entry_size(field);
}

/* The newest entry with this name, and value where `whole`; its number and one, 0 if there is none. */
static size_t table_find(const struct writer *table, const struct field *field, bool whole)
{
    for (size_t i = table->total; i > table->first; i--) {
        const struct field *entry = &table->entries[i - 1];
        if (text_equal(entry->name, field->name) && (!whole || text_equal(entry->value, field->value)))
            return i;
    }
    return 0;
}

/* ---- HPACK ---- */

/* The index of a name, 0 if neither table has it. */
static size_t hpack_name(const struct writer *table, const struct field *field)
{
    size_t found = table_find(table, field, false);
    if (field->hpack_name != 0)
        return field->hpack_name;
    return found == 0 ? 0 : HPACK_STATIC + 1 + table->total - found;
}

static void hpack_field(struct writer *table, const struct field *field, bool stored, struct output *out)
{
    size_t found = table_find(table, field, true);
    if (field->hpack_whole != 0 || found != 0) {
        write_integer(out, 0x80, 7, field->hpack_whole != 0 ? field->hpack_whole : HPACK_STATIC + 1 + table->total - found);
        return;
    }
    size_t name = hpack_name(table, field);
    write_integer(out, stored ? 0x40 : 0, stored ? 6 : 4, name);
    if (name == 0)
        write_string(out, 0, 7, field->name);
    write_string(out, 0, 7, field->value);
    if (stored)
        table_put(table, field);
}

void hpack_write(void *writer, const struct message *message, struct packet *packet)
{
    struct writer *table = writer;
    struct output out = {packet->bytes, table->packed, 0};
    if (!table->begun && table->limit != DEFAULT_LIMIT)
        write_integer(&out, 0x20, 5, table->limit);
    table->begun = true;
    for (size_t i = 0; i < message->list.count; i++)
        hpack_field(table, &message->list.fields[i], message->how != LITERAL, &out);
    packet->before = packet->after = 0;
    packet->block = (size_t)(out.at - packet->bytes);
    packet->strings = out.strings;
}

/* ---- QPACK ---- */

static void qpack_insert(struct writer *table, const struct field *field, struct output *out)
{
    size_t found = table_find(table, field, false);
    if (field->qpack_name != 0)
        write_integer(out, 0xC0, 6, field->qpack_name - 1);
    else if (found != 0)
        write_integer(out, 0x80, 6, table->total - found);
    else
        write_string(out, 0x40, 5, field->name);
    write_string(out, 0, 7, field->value);
    table_put(table, field);
}

/* The base is the required insert count, so that every reference counts down from it. */
static void qpack_field(const struct writer *table, const struct field *field, size_t base, struct output *out)
{
    size_t found = table_find(table, field, true);
    if (field->qpack_whole != 0) {
        write_integer(out, 0xC0, 6, field->qpack_whole - 1);
        return;
    }
    if (found != 0) {
        write_integer(out, 0x80, 6, base - found);
        return;
    }
    if (field->qpack_name != 0)
        write_integer(out, 0x50, 4, field->qpack_name - 1);
    else
        write_string(out, 0x20, 3, field->name);
    write_string(out, 0, 7, field->value);
}

static size_t qpack_required(const struct writer *table, const struct list *list)
{
    size_t required = 0;
    for (size_t i = 0; i < list->count; i++) {
        size_t found = list->fields[i].qpack_whole != 0 ? 0 : table_find(table, &list->fields[i], true);
        required = found > required ? found : required;
    }
    return required;
}

void qpack_write(void *writer, const struct message *message, struct packet *packet)
{
    struct writer *table = writer;
    const struct list *list = &message->list;
    struct output out = {packet->bytes, table->packed, 0};
    if (!table->begun)
        write_integer(&out, 0x20, 5, table->limit);
    table->begun = true;
    for (size_t i = 0; i < list->count; i++) {
        const struct field *field = &list->fields[i];
        if (message->how != LITERAL && field->qpack_whole == 0 && table_find(table, field, true) == 0)
            qpack_insert(table, field, &out);
    }
    packet->before = (size_t)(out.at - packet->bytes);

    size_t required = qpack_required(table, list);
    write_integer(&out, 0, 8, required == 0 ? 0 : required % (2 * (table->limit / 32)) + 1);
    write_integer(&out, 0, 7, 0);
    for (size_t i = 0; i < list->count; i++)
        qpack_field(table, &list->fields[i], required, &out);
    packet->block = (size_t)(out.at - packet->bytes) - packet->before;
    packet->after = 0;
    packet->strings = out.strings;
}
