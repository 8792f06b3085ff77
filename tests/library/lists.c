/*
 * kolowrotan_list.h on guarded buffers that are as long as needed, or one byte short, and against the library's own reading of field
 * lists: what is put together goes through encoder and decoder and comes back as the same fields, and what is no list for the encoder
 * is none for the cursor.
 */
#include "lists.h"

#include <string.h>

#include "calls.h"
#include "kolowrotan_list.h"

/* A result as a decoder gives it. */
static uint64_t told(int answer, size_t first)
{
    return (uint64_t)answer + ((uint64_t)first << 8);
}

static void answer_names(void)
{
    for (int answer = 0; answer < KOLOWROTAN_ANSWERS; answer++) {
        check(AT, kolowrotan_answer_name(answer)[0] != 0, "an answer has no name");
        for (int other = 0; other < answer; other++)
            check(AT, strcmp(kolowrotan_answer_name(answer), kolowrotan_answer_name(other)) != 0, "two answers have one name");
        check(AT, strcmp(kolowrotan_answer_name(answer), kolowrotan_answer_name(KOLOWROTAN_ANSWERS)) != 0, "an answer has the name of none");
    }
    check(AT, strcmp(kolowrotan_answer_name(KOLOWROTAN_DONE), "done") == 0, "name of 0");
    check(AT, strcmp(kolowrotan_answer_name(KOLOWROTAN_HELD), "index held") == 0, "name of 6");
    check(AT, strcmp(kolowrotan_answer_name(KOLOWROTAN_NO_STATE), "memory forms no state") == 0, "name of 17");
    check(AT, strcmp(kolowrotan_answer_name(KOLOWROTAN_BAD_PACKING), "packed string not in its form") == 0, "name of 18");
    check(AT, strcmp(kolowrotan_answer_name(KOLOWROTAN_PADDED), "integer not in its shortest form") == 0, "name of 19");
    check(AT, strcmp(kolowrotan_answer_name(-1), "no answer of this library") == 0, "name of -1");
    check(AT, strcmp(kolowrotan_answer_name(20), "no answer of this library") == 0, "name of 20");
    check(AT, strcmp(kolowrotan_answer_name(255), "no answer of this library") == 0, "name of 255");
}

static struct lent encoder, decoder, judging;

/*
 * What the library's encoder says of a list. There is no room for a block, so a good list is answered 12 and nothing changes; but the
 * empty list is answered 0, and then the stream is used up.
 */
static int judge(const uint8_t *list, size_t length)
{
    uint8_t none[1];
    int answer = KOLOWROTAN_ANSWER(kolowrotan_encoder_block(judging.bytes, judging.length, 0, KOLOWROTAN_NONTRAILER, list, length,
                                                            none, 0));
    if (answer == KOLOWROTAN_DONE)
        kolowrotan_encoder_start(judging.bytes, judging.length, 4096);
    return answer;
}

/* A list that failed: nothing of it can be sent, neither by its pointer nor from the memory that was lent to it. */
static void refused(struct kolowrotan_list *list, struct lent *lent)
{
    check(AT, list->failed, "a list does not say that it failed");
    check(AT, list->length == 1, "length of a failed list");
    check(AT, list->bytes != lent->bytes, "a failed list is in the memory, which may have no room for it");
    check(AT, judge(list->bytes, list->length) == KOLOWROTAN_BAD_FIELD_LIST, "a failed list can be sent");
    if (lent->length != 0)
        check(AT, judge(lent->bytes, list->length) == KOLOWROTAN_BAD_FIELD_LIST, "the memory of a failed list can be sent");
    check(AT, !kolowrotan_put_text(list, 0, "", ""), "a field is put into a failed list");
    check(AT, list->length == 1 && judge(list->bytes, list->length) == KOLOWROTAN_BAD_FIELD_LIST, "a failed list is mended");
}

/* A field, in buffers of its own. */
struct text {
    struct lent name, value;
    int never_store;
};

static int put(struct kolowrotan_list *list, const struct text *text)
{
    return kolowrotan_put_field(list, text->never_store, text->name.bytes, text->name.length, text->value.bytes,
                                text->value.length);
}

static int same_text(const uint8_t *bytes, size_t length, const struct lent *text)
{
    return length == text->length && memcmp(bytes, text->bytes, length) == 0;
}

/* The cursor gives this field and no other. */
static void gives(struct kolowrotan_cursor cursor, const struct text *text)
{
    struct kolowrotan_field field;
    check(AT, kolowrotan_next_field(&cursor, &field), "no field");
    check(AT, same_text(field.name, field.name_length, &text->name), "name");
    check(AT, same_text(field.value, field.value_length, &text->value), "value");
    check(AT, field.never_store == (text->never_store != 0), "never store");
    check(AT, !kolowrotan_next_field(&cursor, &field) && !kolowrotan_next_field(&cursor, &field), "more than one field");
    check(AT, !cursor.bad, "a list of the decoder is bad");
}

/* Through encoder and decoder, on a stream of its own: the list comes back byte for byte, and as the same field. */
static void round_trip(const struct kolowrotan_list *list, const struct text *text)
{
    static uint64_t stream;
    uint8_t block[4096];
    struct lent output = lent_new(list->length, 0xEE);
    uint64_t written = kolowrotan_encoder_block(encoder.bytes, encoder.length, stream, KOLOWROTAN_NONTRAILER, list->bytes,
                                                list->length, block, sizeof block);
    check(AT, KOLOWROTAN_ANSWER(written) == KOLOWROTAN_DONE, "the encoder refuses a list");
    uint64_t result = kolowrotan_decoder_block(decoder.bytes, decoder.length, stream, KOLOWROTAN_NONTRAILER, block,
                                               KOLOWROTAN_FIRST(written), output.bytes, output.length);
    check(AT, result == told(KOLOWROTAN_DONE, list->length), "the decoder's list has another length");
    check(AT, memcmp(output.bytes, list->bytes, list->length) == 0, "the decoder's list differs");
    gives(kolowrotan_fields(result, output.bytes, output.length), text);
    check(AT, lent_kept(&output, output.length), "guards of the output");
    lent_free(&output);
    stream++;
}

/* How many bytes a field takes, by the form in the header. */
static size_t size_of(const struct text *text)
{
    return 1 + (text->name.length < 128 ? 1 : 2) + text->name.length + (text->value.length < 128 ? 1 : 2) + text->value.length;
}

static void one_length(const struct text *text)
{
    int fine = text->name.length <= 255 && text->value.length <= 2047;
    struct lent exact = lent_new(size_of(text), 0xEE), less = lent_new(size_of(text) - 1, 0xEE);
    struct kolowrotan_list list = kolowrotan_empty_list(exact.bytes, exact.length);
    check(AT, put(&list, text) == fine, "put where there is just enough room");
    if (fine) {
        check(AT, !list.failed && list.bytes == exact.bytes && list.length == exact.length, "length of a list");
        round_trip(&list, text);
        check(AT, !put(&list, text), "put where there is no room left");
    }
    check(AT, lent_kept(&exact, fine ? exact.length : 0), "memory of a list");
    refused(&list, &exact);

    list = kolowrotan_empty_list(less.bytes, less.length);
    check(AT, !put(&list, text), "put where a byte is missing");
    check(AT, lent_kept(&less, 0), "memory changed by a field that was not put in");
    refused(&list, &less);
    lent_free(&exact);
    lent_free(&less);
}

static void lengths(void)
{
    static const size_t edges[] = {0, 1, 126, 127, 128, 254, 255, 256, 2046, 2047, 2048};
    size_t count = sizeof edges / sizeof edges[0];
    for (size_t name = 0; name < count; name++) {
        for (size_t value = 0; value < count; value++) {
            struct text text = {lent_new(edges[name], 'n'), lent_new(edges[value], 'v'), (int)((name + value) % 3)};
            one_length(&text);
            check(AT, lent_kept(&text.name, 0) && lent_kept(&text.value, 0), "a name or a value changed");
            lent_free(&text.name);
            lent_free(&text.value);
        }
    }
}

/* No length overflows, nothing is read of a field that is too long, and lists of no room at all fail as others do. */
static void no_room(void)
{
    struct lent none = lent_new(0, 0), some = lent_new(64, 0xEE);
    struct kolowrotan_list list = kolowrotan_empty_list(none.bytes, 0);
    check(AT, judge(list.bytes, list.length) == KOLOWROTAN_DONE, "the empty list");
    check(AT, !kolowrotan_put_text(&list, 0, "", ""), "put where there is no room at all");
    refused(&list, &none);
    static const size_t huge[] = {SIZE_MAX, SIZE_MAX - 1, SIZE_MAX - 2, SIZE_MAX / 2 + 1};
    for (size_t i = 0; i < sizeof huge / sizeof huge[0]; i++) {
        list = kolowrotan_empty_list(some.bytes, some.length);
        check(AT, !kolowrotan_put_field(&list, 0, none.bytes, huge[i], none.bytes, 0), "a huge name");
        refused(&list, &some);
        list = kolowrotan_empty_list(some.bytes, some.length);
        check(AT, !kolowrotan_put_field(&list, 0, none.bytes, 0, none.bytes, huge[i]), "a huge value");
        refused(&list, &some);
    }
    check(AT, lent_kept(&some, 0), "memory changed by a field that was not put in");
    lent_free(&none);
    lent_free(&some);
}

/* A report whose third field does not fit is not sent without it. */
static void third_field(void)
{
    static const char whole[] = "\0\7machine\4L-17\0\5hours\4" "4100\0\5turns\1" "2";
    for (size_t room = 0; room < sizeof whole; room++) {
        struct lent lent = lent_new(room, 0xEE);
        struct kolowrotan_list list = kolowrotan_empty_list(lent.bytes, lent.length);
        kolowrotan_put_text(&list, 0, "machine", "L-17");
        kolowrotan_put_text(&list, 0, "hours", "4100");
        if (kolowrotan_put_text(&list, 0, "turns", "2"))
            check(AT, list.length == sizeof whole - 1 && memcmp(list.bytes, whole, list.length) == 0, "three fields");
        else
            refused(&list, &lent);
        check(AT, list.failed == (room < sizeof whole - 1), "room for three fields");
        check(AT, lent_kept(&lent, room), "guards of a list");
        lent_free(&lent);
    }
}

/* Reads to the end, and puts the fields together again: of bytes that are a list the same bytes come, since a list has one form. */
static int reads(struct kolowrotan_cursor *cursor, const struct lent *bytes)
{
    struct lent again = lent_new(bytes->length, 0xEE);
    struct kolowrotan_list list = kolowrotan_empty_list(again.bytes, again.length);
    struct kolowrotan_field field;
    while (kolowrotan_next_field(cursor, &field)) {
        check(AT, bytes->bytes < field.name && field.value + field.value_length <= bytes->bytes + bytes->length, "a field outside");
        kolowrotan_put_field(&list, field.never_store, field.name, field.name_length, field.value, field.value_length);
    }
    check(AT, cursor->bad || (list.length == bytes->length && memcmp(list.bytes, bytes->bytes, list.length) == 0), "fields read");
    check(AT, lent_kept(&again, again.length), "guards of a list");
    lent_free(&again);
    return !cursor->bad;
}

static unsigned good, bad;

/* Bytes as a list, judged by the encoder and by a cursor that was made over them, and by one that was made before they were changed. */
static void judged_alike(struct lent *bytes, struct kolowrotan_cursor *before)
{
    int answer = judge(bytes->bytes, bytes->length);
    int fine = answer == KOLOWROTAN_DONE || answer == KOLOWROTAN_NO_ROOM;
    struct kolowrotan_cursor cursor = kolowrotan_fields(told(KOLOWROTAN_DONE, bytes->length), bytes->bytes, bytes->length);
    struct kolowrotan_field field;
    check(AT, fine || answer == KOLOWROTAN_BAD_FIELD_LIST || answer == KOLOWROTAN_TOO_LONG, "the encoder's answer");
    check(AT, cursor.bad == !fine, "cursor and encoder differ");
    check(AT, fine || !kolowrotan_next_field(&cursor, &field), "a field of a bad list");
    check(AT, reads(&cursor, bytes) == fine, "cursor and encoder differ at the end");
    if (before != NULL)
        check(AT, reads(before, bytes) == fine, "a cursor made before the change and the encoder differ");
    lent_remember(bytes);
    check(AT, lent_kept(bytes, 0), "guards of the list");
    if (fine)
        good++;
    else
        bad++;
}

/* Every byte of a list changed to several values, and the list cut at every place. */
static void mutations(const struct lent *list)
{
    static const uint8_t values[] = {0, 1, 2, 3, 4, 5, 0x7E, 0x7F, 0x80, 0x81, 0x82, 0x8F, 0x90, 0xFE, 0xFF};
    for (size_t at = 0; at < list->length; at++) {
        for (size_t i = 0; i < sizeof values; i++) {
            struct lent bytes = lent_from(list->bytes, list->length);
            struct kolowrotan_cursor before = kolowrotan_fields(told(KOLOWROTAN_DONE, bytes.length), bytes.bytes, bytes.length);
            check(AT, !before.bad, "a list is bad");
            bytes.bytes[at] = values[i];
            judged_alike(&bytes, &before);
            lent_free(&bytes);
        }
        struct lent cut = lent_from(list->bytes, at);
        judged_alike(&cut, NULL);
        lent_free(&cut);
    }
}

/* Lists with a field of these lengths between two short ones. */
static void mutated_lists(void)
{
    static const size_t edges[][2] = {{1, 1}, {0, 0}, {127, 0}, {128, 1}, {255, 0}, {1, 128}};
    for (size_t i = 0; i < sizeof edges / sizeof edges[0]; i++) {
        struct lent lent = lent_new(400, 0xEE), name = lent_new(edges[i][0], 1), value = lent_new(edges[i][1], 1);
        struct kolowrotan_list list = kolowrotan_empty_list(lent.bytes, lent.length);
        kolowrotan_put_text(&list, 0, "h", "9");
        kolowrotan_put_field(&list, 1, name.bytes, name.length, value.bytes, value.length);
        check(AT, kolowrotan_put_text(&list, 0, "", "7"), "a list to change");
        struct lent exact = lent_from(list.bytes, list.length);
        mutations(&exact);
        lent_free(&lent);
        lent_free(&name);
        lent_free(&value);
        lent_free(&exact);
    }
}

/* Bytes of the values that lengths and flags turn on, in many orders. The lengths' own limits need the longer lists. */
static void made_up_lists(void)
{
    static const uint8_t values[] = {0, 0, 0, 1, 1, 2, 3, 0x7F, 0x80, 0x81, 0xFF};
    uint32_t state = 20170217;
    for (unsigned run = 0; run < 4000; run++) {
        struct lent bytes = lent_new(run % 12, 0);
        for (size_t i = 0; i < bytes.length; i++) {
            state = state * 1664525u + 1013904223u;
            bytes.bytes[i] = values[(state >> 16) % sizeof values];
        }
        judged_alike(&bytes, NULL);
        lent_free(&bytes);
    }
    struct lent longest = lent_new(5000, 0);
    for (size_t high = 0; high < 256; high++) {
        for (size_t low = 126; low < 130; low++) {
            const uint8_t value[] = {0, 0, (uint8_t)low, (uint8_t)high}, name[] = {1, (uint8_t)low, (uint8_t)high};
            memset(longest.bytes, 0, longest.length);
            memcpy(longest.bytes, value, sizeof value);
            judged_alike(&longest, NULL);
            memset(longest.bytes, 0, longest.length);
            memcpy(longest.bytes, name, sizeof name);
            judged_alike(&longest, NULL);
        }
    }
    lent_free(&longest);
}

/* Lists that are whole but for a name or a value that may be too long. */
static void limits(void)
{
    for (size_t length = 128; length < 2200; length++) {
        const uint8_t groups[] = {(uint8_t)(128 + length % 128), (uint8_t)(length / 128)};
        struct lent name = lent_new(length + 4, 0), value = lent_new(length + 4, 0);
        memcpy(name.bytes + 1, groups, 2);
        memcpy(value.bytes + 2, groups, 2);
        judged_alike(&name, NULL);
        judged_alike(&value, NULL);
        lent_free(&name);
        lent_free(&value);
    }
}

/* A cursor gives fields for a list that was written to this output, and for nothing else. */
static void other_results(void)
{
    struct lent list = lent_hex("00 01 68 01 39 00 01 68 01 37"), first = lent_from(list.bytes, 5);
    struct kolowrotan_field field;
    for (int answer = 1; answer < 256; answer++) {
        struct kolowrotan_cursor cursor = kolowrotan_fields(told(answer, list.length), list.bytes, list.length);
        check(AT, !kolowrotan_next_field(&cursor, &field) && !cursor.bad, "a field of a block that was not decoded");
    }
    struct kolowrotan_cursor cursor = kolowrotan_fields(told(KOLOWROTAN_DONE, list.length), first.bytes, first.length);
    check(AT, !kolowrotan_next_field(&cursor, &field) && cursor.bad, "a field of an output that is too short");
    cursor = kolowrotan_fields(told(KOLOWROTAN_DONE, 5), list.bytes, list.length);
    check(AT, kolowrotan_next_field(&cursor, &field) && field.value[0] == '9', "the first field");
    check(AT, !kolowrotan_next_field(&cursor, &field) && !cursor.bad, "a field behind the told length");
    lent_free(&list);
    lent_free(&first);
}

static void names_of_fields(void)
{
    struct lent list = lent_hex("00 05 74 75 72 6E 73 01 32 00 00 00");
    struct kolowrotan_cursor cursor = kolowrotan_fields(told(KOLOWROTAN_DONE, list.length), list.bytes, list.length);
    struct kolowrotan_field field;
    check(AT, kolowrotan_next_field(&cursor, &field) && kolowrotan_named(&field, "turns"), "a name");
    check(AT, !kolowrotan_named(&field, "turn") && !kolowrotan_named(&field, "turns2") && !kolowrotan_named(&field, "Turns")
          && !kolowrotan_named(&field, ""), "another name");
    check(AT, kolowrotan_next_field(&cursor, &field) && kolowrotan_named(&field, ""), "the empty name");
    check(AT, !kolowrotan_named(&field, "turns"), "another name than the empty one");
    lent_free(&list);
}

static size_t report(struct lent *lent, const char *machine, const char *turns)
{
    struct kolowrotan_list list = kolowrotan_empty_list(lent->bytes, lent->length);
    kolowrotan_put_text(&list, 0, "machine", machine);
    kolowrotan_put_text(&list, 0, "hours", "4100");
    check(AT, kolowrotan_put_text(&list, 0, "turns", turns), "a report");
    return list.length;
}

/*
 * L-42's report is in the output when L-17's block is told to wait for index 62. Taken for a length, 62 would cover all of L-42's list:
 * the cursor gives no field of it.
 */
static void stale_output(void)
{
    struct lent lent = lent_new(64, 0), output = lent_new(128, 0);
    uint8_t management[KOLOWROTAN_INSERT_ROOM], block[64];
    struct kolowrotan_field field;
    kolowrotan_encoder_start(encoder.bytes, encoder.length, 4096);
    kolowrotan_decoder_start(decoder.bytes, decoder.length, 4096);
    size_t length = report(&lent, "L-42", "0");
    uint64_t written = kolowrotan_encoder_block(encoder.bytes, encoder.length, 0, 0, lent.bytes, length, block, sizeof block);
    uint64_t result = kolowrotan_decoder_block(decoder.bytes, decoder.length, 0, 0, block, KOLOWROTAN_FIRST(written),
                                               output.bytes, output.length);
    struct kolowrotan_cursor cursor = kolowrotan_fields(result, output.bytes, output.length);
    check(AT, kolowrotan_next_field(&cursor, &field) && memcmp(field.value, "L-42", 4) == 0, "L-42's report");

    kolowrotan_encoder_insert(encoder.bytes, encoder.length, (const uint8_t *)"turns", 5, (const uint8_t *)"2", 1, management,
                              sizeof management);
    length = report(&lent, "L-17", "2");
    written = kolowrotan_encoder_block(encoder.bytes, encoder.length, 1, 0, lent.bytes, length, block, sizeof block);
    result = kolowrotan_decoder_block(decoder.bytes, decoder.length, 1, 0, block, KOLOWROTAN_FIRST(written), output.bytes,
                                      output.length);
    check(AT, result == told(KOLOWROTAN_WAITS, 62) && length < 62, "L-17's block waits for 62");
    check(AT, memcmp(output.bytes, "\0\7machine\4L-42", 14) == 0, "L-42's list still stands in the output");
    cursor = kolowrotan_fields(result, output.bytes, output.length);
    check(AT, !kolowrotan_next_field(&cursor, &field), "a field of a block that waits");
    lent_free(&lent);
    lent_free(&output);
}

void lists(void)
{
    encoder = lent_new(KOLOWROTAN_ENCODER_LENGTH, 0);
    decoder = lent_new(KOLOWROTAN_DECODER_LENGTH, 0);
    judging = lent_new(KOLOWROTAN_ENCODER_LENGTH, 0);
    kolowrotan_encoder_start(encoder.bytes, encoder.length, 4096);
    kolowrotan_decoder_start(decoder.bytes, decoder.length, 4096);
    kolowrotan_encoder_start(judging.bytes, judging.length, 4096);
    answer_names();
    lengths();
    no_room();
    third_field();
    mutated_lists();
    made_up_lists();
    limits();
    check(AT, 1000 < good && 1000 < bad, "too few lists of one kind were judged");
    other_results();
    names_of_fields();
    stale_output();
    lent_free(&encoder);
    lent_free(&decoder);
    lent_free(&judging);
}
