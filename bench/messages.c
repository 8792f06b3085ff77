#include "messages.h"

#include <stdlib.h>

enum {
    COMMON_LIMIT = 4096,
    WIDE_LIMIT = 8192,
    COMMON_ENTRIES = 80, /* more fields of machine reports do not fit the common limit */
    MOST_ENTRIES = 128,
    LITERAL_UNITS = 8,
    OTHER_UNIT = 5000
};

void *room_for(size_t count, size_t size)
{
    void *room = calloc(count + 1, size);
    if (room == NULL)
        fail("no memory");
    return room;
}

static enum kind kind_of_rounds(const struct implementation *by, const struct task *task)
{
    if (by->fixed_limit != 0 && task->entries > COMMON_ENTRIES && task->mode != LITERALS)
        return EMPTY;
    if (by->known_names_only && task->side == ENCODE && task->mode != LITERALS && task->kind != BROWSER)
        return KNOWN;
    return task->kind;
}

static enum kind kind_of_loads(const struct implementation *by, const struct task *task)
{
    if (by->fixed_limit != 0 && task->entries > COMMON_ENTRIES)
        return EMPTY;
    if (task->mode != LITERALS)
        return kind_of_rounds(by, task);
    return by->known_names_only && task->side == ENCODE ? KNOWN : OTHER;
}

/* How many fields a list of this kind has when it fills the table, and how many entries they become. */
static size_t fields_of(enum kind kind)
{
    return kind == EMPTY ? 8 : kind_fields(kind);
}

static size_t entries_of(enum kind kind)
{
    return kind == EMPTY ? 8 : kind_stored(kind);
}

static void make(struct messages *messages, const struct task *task, enum kind kind, size_t fields, unsigned unit, enum how how)
{
    messages->distinct[messages->made++] = (struct message){list_make(kind, task->raw, fields, unit), how};
}

/* Where entries are given back, a churning table holds one list more until the oldest are given back. */
static void make_loads(struct messages *messages, const struct implementation *by, const struct task *task)
{
    enum kind kind = kind_of_loads(by, task);
    size_t each = entries_of(kind), left = task->entries;
    unsigned unit = task->mode == LITERALS ? OTHER_UNIT : 0;
    if (task->mode == CHURNING && by->given_back && left + each > MOST_ENTRIES)
        left -= each;
    while (left > 0) {
        size_t more = left < each ? left : each;
        messages->order[messages->count++] = messages->made;
        make(messages, task, kind, more < each ? more : fields_of(kind), unit++, LOAD);
        left -= more;
    }
    messages->loads = messages->count;
}

/* Warm rounds take the lists that are in the table in turn, so that the cost is the average over its entries. */
static void make_rounds(struct messages *messages, const struct implementation *by, const struct task *task)
{
    static const enum how hows[] = {[WARM] = REFER, [LITERALS] = LITERAL, [CHURNING] = CHURN};
    enum kind kind = kind_of_rounds(by, task);
    size_t units = task->mode == WARM ? task->entries / entries_of(kind) : task->mode == LITERALS ? LITERAL_UNITS : task->rounds;
    unsigned first_unit = task->mode == CHURNING ? (unsigned)messages->loads : 0;
    size_t first = messages->made;
    for (size_t i = 0; i < units; i++)
        make(messages, task, kind, task->fields, first_unit + (unsigned)i, hows[task->mode]);
    for (size_t i = 0; i < task->rounds; i++)
        messages->order[messages->count++] = first + i % units;
}

struct messages messages_make(const struct implementation *by, const struct task *task)
{
    size_t most = task->rounds + task->entries + LITERAL_UNITS;
    struct messages messages = {.order = room_for(most, sizeof *messages.order),
                                .distinct = room_for(most, sizeof *messages.distinct)};
    make_loads(&messages, by, task);
    make_rounds(&messages, by, task);
    return messages;
}

void messages_free(struct messages *messages)
{
    for (size_t i = 0; i < messages->made; i++)
        list_free(&messages->distinct[i].list);
    free(messages->distinct);
    free(messages->order);
}

/* A churning table of a peer has room for the entries that fill it, so that each insert pushes one out. */
size_t messages_limit(const struct messages *messages, const struct implementation *by, const struct task *task)
{
    if (by->fixed_limit != 0)
        return by->fixed_limit;
    if (task->mode != CHURNING)
        return task->entries > COMMON_ENTRIES ? WIDE_LIMIT : COMMON_LIMIT;
    size_t limit = 0;
    for (size_t i = 0; i < messages->loads; i++)
        limit += list_size(&messages->distinct[messages->order[i]].list);
    return limit;
}
