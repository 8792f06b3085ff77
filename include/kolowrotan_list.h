/*
 * Field lists of Kolowrotan, for hosts in C: put together with bounds, taken apart, and words for the answers.
 *
 * kolowrotan.h has the form of a list (FIELD LISTS). A host need not know it: what stands here writes and reads it, in C alone, with no
 * part of the library. A list that failed, an answer that nobody looked at, an index taken for a length: each loses a report and never
 * shows another. What the host owes: a result goes with the output of its own call; fields and cursor are used before that output is lent
 * again; a list that is being put together is not copied, since both copies would write into the same memory.
 */
#ifndef KOLOWROTAN_LIST_H
#define KOLOWROTAN_LIST_H

#include <string.h>

#include "kolowrotan.h"

#ifdef __cplusplus
extern "C" {
#endif

/* An answer in a few words, for a message to a person: those that the gateway prints. */
static inline const char *kolowrotan_answer_name(int answer)
{
    static const char *const names[] = {
        "done",
        "block waits for an index",
        "bytes end too early",
        "integer too large or too long",
        "H set",
        "index or instruction not allowed",
        "index held",
        "limit passed",
        "index vacant",
        "entry already under deletion",
        "entry not under deletion",
        "stream, part or turn not allowed",
        "lent output or memory too small",
        "string or block too long",
        "bad stream list",
        "all places held",
        "field list not in its form",
        "memory forms no state",
        "packed string not in its form",
        "integer not in its shortest form"
    };
    if (answer < KOLOWROTAN_DONE || KOLOWROTAN_PADDED < answer)
        return "no answer of this library";
    return names[answer];
}

/* ---- a decoded list, taken apart ---- */

/*
 * A field of a decoded list. Name and value point into the output that was lent to the decoder: use them before it is lent again. No
 * zero byte ends them, and they may hold any bytes, zeros and terminal escapes too.
 */
struct kolowrotan_field {
    const uint8_t *name;
    size_t name_length;
    const uint8_t *value;
    size_t value_length;
    int never_store; /* 1: the sender asks that the field is never stored in a table */
};

/* A place in a decoded list. Make it by kolowrotan_fields. */
struct kolowrotan_cursor {
    const uint8_t *at;
    size_t left; /* bytes of the list from there on */
    int bad;     /* 1: the bytes are no list that a decoder wrote; no field is given */
};

/* Takes a length of at most `most` from the front. Answers 0 where there is none in the form that the library reads. */
static inline int kolowrotan_take_length(struct kolowrotan_cursor *cursor, size_t most, size_t *length)
{
    size_t groups = 1;
    if (cursor->left == 0)
        return 0;
    *length = cursor->at[0];
    if (*length >= 128) {
        /* a second byte 0 would not be the shortest form; one that says that a third follows gives a length above every limit */
        if (cursor->left == 1 || cursor->at[1] == 0)
            return 0;
        *length = *length - 128 + 128 * (size_t)cursor->at[1];
        groups = 2;
    }
    cursor->at += groups;
    cursor->left -= groups;
    return *length <= most;
}

/* Takes a name or a value of at most `most` bytes from the front. */
static inline int kolowrotan_take_text(struct kolowrotan_cursor *cursor, size_t most, const uint8_t **text, size_t *length)
{
    if (!kolowrotan_take_length(cursor, most, length) || cursor->left < *length)
        return 0;
    *text = cursor->at;
    cursor->at += *length;
    cursor->left -= *length;
    return 1;
}

/* Takes a field from the front of bytes that are not empty. */
static inline int kolowrotan_take_field(struct kolowrotan_cursor *cursor, struct kolowrotan_field *field)
{
    if (cursor->at[0] > 1)
        return 0;
    field->never_store = cursor->at[0];
    cursor->at += 1;
    cursor->left -= 1;
    return kolowrotan_take_text(cursor, KOLOWROTAN_NAME_LENGTH, &field->name, &field->name_length)
        && kolowrotan_take_text(cursor, KOLOWROTAN_VALUE_LENGTH, &field->value, &field->value_length);
}

/*
 * The next field. Answers 1 and fills it, or 0 at the end; then the field is not to be used. Nothing outside the list is ever read,
 * whatever the bytes are.
 */
static inline int kolowrotan_next_field(struct kolowrotan_cursor *cursor, struct kolowrotan_field *field)
{
    if (cursor->bad || cursor->left == 0)
        return 0;
    if (kolowrotan_take_field(cursor, field))
        return 1;
    cursor->bad = 1;
    return 0;
}

/*
 * The list that kolowrotan_decoder_block wrote: its result, and the output that was lent to it. It gives no field unless the answer was
 * KOLOWROTAN_DONE. KOLOWROTAN_FIRST(result) is a length on that answer alone: on KOLOWROTAN_WAITS it is an index, and the output still
 * holds whatever stood there before, which may be the report of another machine.
 *
 * The whole list is read through first, so that of bytes that somebody wrote over no field is given: then `bad` is 1. It is also 1
 * where the list is told as longer than the output: then this is not the output that the result is of.
 */
static inline struct kolowrotan_cursor kolowrotan_fields(uint64_t result, const uint8_t *output, size_t output_length)
{
    struct kolowrotan_cursor cursor, ahead;
    struct kolowrotan_field field;
    cursor.at = output;
    cursor.left = 0;
    cursor.bad = 0;
    if (KOLOWROTAN_ANSWER(result) != KOLOWROTAN_DONE)
        return cursor;
    cursor.left = KOLOWROTAN_FIRST(result);
    cursor.bad = output_length < cursor.left;
    ahead = cursor;
    while (kolowrotan_next_field(&ahead, &field))
        ;
    cursor.bad = ahead.bad;
    return cursor;
}

/* Is this the field's name? All of it is compared: "turn" is not "turns". */
static inline int kolowrotan_named(const struct kolowrotan_field *field, const char *name)
{
    return field->name_length == strlen(name) && memcmp(field->name, name, field->name_length) == 0;
}

/* ---- a list put together ---- */

/*
 * A list to send: give `bytes` and `length` to kolowrotan_encoder_block. Make it by kolowrotan_empty_list over memory that is lent to
 * it as long as it is used.
 *
 * Once a field could not be put in, the list has failed for good: further fields are not put in either, and `bytes` is a list that the
 * encoder refuses with 16. A host that looks at no answer sends nothing then, and never a report that lacks a field. The lent memory,
 * sent in place of `bytes` with this length, 1, is refused too.
 */
struct kolowrotan_list {
    const uint8_t *bytes;
    size_t length;
    uint8_t *lent;
    size_t room;
    int failed;
};

/* KOLOWROTAN_BLOCK_ROOM and KOLOWROTAN_BLOCK_ROOM_OF, for lengths and counts that are no constants. */
static inline size_t kolowrotan_block_room(size_t list_length, size_t fields)
{
    return KOLOWROTAN_BLOCK_ROOM(list_length, fields);
}

static inline size_t kolowrotan_block_room_of(size_t list_length)
{
    return KOLOWROTAN_BLOCK_ROOM_OF(list_length);
}

static inline struct kolowrotan_list kolowrotan_empty_list(uint8_t *lent, size_t room)
{
    struct kolowrotan_list list;
    list.bytes = lent;
    list.length = 0;
    list.lent = lent;
    list.room = room;
    list.failed = 0;
    return list;
}

/* How many bytes a name or a value takes with its length. */
static inline size_t kolowrotan_text_size(size_t length)
{
    return length < 128 ? 1 + length : 2 + length;
}

/* Puts a name or a value behind the list. There is room. */
static inline void kolowrotan_put_bytes(struct kolowrotan_list *list, const uint8_t *bytes, size_t length)
{
    if (length < 128) {
        list->lent[list->length++] = (uint8_t)length;
    } else {
        list->lent[list->length++] = (uint8_t)(128 + length % 128);
        list->lent[list->length++] = (uint8_t)(length / 128);
    }
    if (length != 0)
        memcpy(list->lent + list->length, bytes, length);
    list->length += length;
}

/* Would the field be taken by the encoder, and is there room for it? The lengths are compared first, so that no sum overflows. */
static inline int kolowrotan_field_fits(const struct kolowrotan_list *list, size_t name_length, size_t value_length)
{
    return name_length <= KOLOWROTAN_NAME_LENGTH && value_length <= KOLOWROTAN_VALUE_LENGTH
        && 1 + kolowrotan_text_size(name_length) + kolowrotan_text_size(value_length) <= list->room - list->length;
}

/*
 * Puts a field behind the list; never_store other than 0 asks that no table stores it. Answers 1, or 0 where the name is above 255
 * bytes, the value above 2,047, the room is not enough, or a field before it was not put in. Name and value lie outside the lent
 * memory.
 */
static inline int kolowrotan_put_field(struct kolowrotan_list *list, int never_store, const uint8_t *name, size_t name_length,
                                       const uint8_t *value, size_t value_length)
{
    static const uint8_t refused[1] = {2};
    if (list->failed || !kolowrotan_field_fits(list, name_length, value_length)) {
        list->failed = 1;
        list->bytes = refused;
        list->length = sizeof refused;
        return 0;
    }
    list->lent[list->length++] = never_store != 0;
    kolowrotan_put_bytes(list, name, name_length);
    kolowrotan_put_bytes(list, value, value_length);
    return 1;
}

/* The same with texts of C, up to the zero byte that ends each. */
static inline int kolowrotan_put_text(struct kolowrotan_list *list, int never_store, const char *name, const char *value)
{
    return kolowrotan_put_field(list, never_store, (const uint8_t *)name, strlen(name), (const uint8_t *)value, strlen(value));
}

#ifdef __cplusplus
}
#endif

#endif
