/* The February 2017 draft's writer. */
#include "writer.h"

#include <stdlib.h>

enum { FIRST_INDEX = 62, PLACES = 128 };

/* An entry's place is its index less the first. */
struct draft {
    struct {
        struct field field;
        bool held;
        size_t horizon; /* one more than the last stream whose block refers to it */
    } entries[PLACES];
    size_t oldest, newest;
    uint8_t places[1 << 17]; /* of the entries, in the order of their inserts */
    size_t stream;
    bool packed;
};

/* The limit is never reached: what is inserted was inserted by the encoder too. */
void *draft_new(size_t limit, bool packed)
{
    (void)limit;
    struct draft *table = calloc(1, sizeof *table);
    if (table == NULL)
        fail("no memory");
    table->packed = packed;
    return table;
}

void draft_free(void *writer)
{
    free(writer);
}

/* The lowest place with this name, and value where `whole`; PLACES if there is none. */
static size_t find(const struct draft *table, const struct field *field, bool whole)
{
    size_t i = 0;
    while (i < PLACES && !(table->entries[i].held && text_equal(table->entries[i].field.name, field->name) &&
                           (!whole || text_equal(table->entries[i].field.value, field->value))))
        i++;
    return i;
}

/* The index of a name, 0 if neither table has it; a block that takes it refers to the entry. */
static size_t name_index(struct draft *table, const struct field *field, size_t horizon)
{
    if (field->hpack_name != 0)
        return field->hpack_name;
    size_t place = find(table, field, false);
    if (place == PLACES)
        return 0;
    if (horizon != 0)
        table->entries[place].horizon = horizon;
    return FIRST_INDEX + place;
}

static void insert(struct draft *table, const struct field *field, struct output *out)
{
    size_t place = 0, name = name_index(table, field, 0);
    while (place < PLACES && table->entries[place].held)
        place++;
    if (place == PLACES)
        fail("no place in the draft's table");
    write_integer(out, 0x80, 7, FIRST_INDEX + place);
    write_integer(out, 0, 8, name);
    if (name == 0)
        write_string(out, 0, 7, field->name);
    write_string(out, 0, 7, field->value);
    table->entries[place].field = *field;
    table->entries[place].held = true;
    table->entries[place].horizon = 0;
    table->places[table->newest++] = (uint8_t)place;
}

static void block_field(struct draft *table, const struct field *field, struct output *out)
{
    size_t place = find(table, field, true);
    if (field->hpack_whole != 0) {
        write_integer(out, 0x80, 7, field->hpack_whole);
        return;
    }
    if (place < PLACES) {
        write_integer(out, 0x80, 7, FIRST_INDEX + place);
        table->entries[place].horizon = table->stream + 1;
        return;
    }
    size_t name = name_index(table, field, table->stream + 1);
    write_integer(out, 0, 6, name);
    if (name == 0)
        write_string(out, 0, 7, field->name);
    write_string(out, 0, 7, field->value);
}

/* Both lists are empty, and no trailer was written. */
static void delete_oldest(struct draft *table, struct output *out)
{
    size_t place = table->places[table->oldest++];
    write_integer(out, 0, 6, FIRST_INDEX + place);
    write_integer(out, 0, 8, table->entries[place].horizon);
    for (size_t i = 0; i < 3; i++)
        write_integer(out, 0, 8, 0);
    table->entries[place].held = false;
}

void draft_write(void *writer, const struct message *message, struct packet *packet)
{
    struct draft *table = writer;
    const struct list *list = &message->list;
    struct output out = {packet->bytes, table->packed, 0};
    bool inserted = message->how == LOAD || message->how == CHURN;
    for (size_t i = 0; inserted && i < list->count; i++)
        if (field_stored(&list->fields[i]))
            insert(table, &list->fields[i], &out);
    packet->before = (size_t)(out.at - packet->bytes);
    for (size_t i = 0; message->how != LOAD && i < list->count; i++)
        block_field(table, &list->fields[i], &out);
    table->stream += message->how != LOAD;
    packet->block = (size_t)(out.at - packet->bytes) - packet->before;
    for (size_t i = 0; message->how == CHURN && i < list->count; i++)
        if (field_stored(&list->fields[i]))
            delete_oldest(table, &out);
    packet->after = (size_t)(out.at - packet->bytes) - packet->before - packet->block;
    packet->strings = out.strings;
}
