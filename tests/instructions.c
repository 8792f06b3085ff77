/*
 * The calls whose instructions tests/test_instructions counts, in the life of a link: what one end writes the other reads. Each is made between
 * call_begins and call_ended, of which callgrind is told, and its name is printed. Built without optimization, so that these two stay functions.
 */
#include <stdio.h>
#include <stdlib.h>

#include <kolowrotan_list.h>

enum { FIRST_INDEX = 62, NO_INDEX = 0, FIELDS = 8, STREAM = 63 };

/* Fields of a report, and the form of their values, which have the number of the report where the form has a place for it. */
struct kind {
    const char *names[FIELDS];
    const char *value;
};

static const struct kind held = {{"machine-id", "turns", "counter", "engine-temp", "oil-pressure", "fuel", "site", "report-time"}, "%05zu"};
static const struct kind packed = {{"driver-key", "brake", "voltage", "coolant-low", "belt-tension", "horn", "tyre", "service-due"}, "%05zu"};
/* Packing makes these no shorter. */
static const struct kind plain = {{"XXXXXXXXXX", "XXXXX", "XXXXXXX", "XXXXXXXXXXX", "XXXXXXXXXXXX", "XXXX", "XXXX", "XXXXXXXXXXX"}, "XXXXX"};
/* Of these alone a table holds 128. */
static const struct kind empty = {{"", "", "", "", "", "", "", ""}, ""};

static uint8_t encoder[KOLOWROTAN_ENCODER_LENGTH], decoder[KOLOWROTAN_DECODER_LENGTH];
static uint8_t sent[KOLOWROTAN_INSERT_ROOM], output[512]; /* what an end writes for the other, and a decoded list */
static size_t entries;

/* ---- counting ---- */

static void call_begins(void)
{
}

static uint64_t call_ended(uint64_t result)
{
    return result;
}

static uint32_t answered(int answer, uint64_t result, const char *name)
{
    if (KOLOWROTAN_ANSWER(result) != answer) {
        fprintf(stderr, "%s, %zu entries: the answer is %d\n", name, entries, KOLOWROTAN_ANSWER(result));
        exit(1);
    }
    return KOLOWROTAN_FIRST(result);
}

static uint32_t counted(int answer, uint64_t result, const char *name)
{
    printf("%s, %zu entries\n", name, entries);
    return answered(answer, result, name);
}

/* A call that is not counted, and one that is; both give the first told number. */
#define DONE(call) answered(KOLOWROTAN_DONE, call, #call)
#define COUNT_ANSWER(name, answer, call) (call_begins(), counted(answer, call_ended(call), name))
#define COUNT(name, call) COUNT_ANSWER(name, KOLOWROTAN_DONE, call)

/* ---- the calls ---- */

static const char *value_of(const struct kind *kind, size_t report)
{
    static char value[16];
    snprintf(value, sizeof value, kind->value, 10000 + 13 * report);
    return value;
}

static uint64_t insert(const struct kind *kind, size_t at)
{
    const char *name = kind->names[at % FIELDS], *value = value_of(kind, at / FIELDS);
    return kolowrotan_encoder_insert(encoder, sizeof encoder, (const uint8_t *)name, strlen(name), (const uint8_t *)value, strlen(value), sent,
                                     sizeof sent);
}

static uint64_t delete_entry(uint64_t index)
{
    return kolowrotan_encoder_delete(encoder, sizeof encoder, index, sent, sizeof sent);
}

static uint64_t read_sent(size_t length)
{
    return kolowrotan_decoder_read(decoder, sizeof decoder, sent, length);
}

static uint64_t hold(uint64_t index)
{
    return kolowrotan_decoder_hold(decoder, sizeof decoder, index);
}

static uint64_t ended(uint64_t stream)
{
    return kolowrotan_decoder_ended(decoder, sizeof decoder, stream);
}

static uint64_t encode(const struct kolowrotan_list *list)
{
    return kolowrotan_encoder_block(encoder, sizeof encoder, STREAM, KOLOWROTAN_NONTRAILER, list->bytes, list->length, sent, sizeof sent);
}

static uint64_t decode(size_t length)
{
    return kolowrotan_decoder_block(decoder, sizeof decoder, STREAM, KOLOWROTAN_NONTRAILER, sent, length, output, sizeof output);
}

/* ---- the life of a link ---- */

static void fill(const struct kind *kind, size_t count)
{
    entries = count;
    DONE(kolowrotan_encoder_start(encoder, sizeof encoder, KOLOWROTAN_LIMIT));
    DONE(kolowrotan_decoder_start(decoder, sizeof decoder, KOLOWROTAN_LIMIT));
    for (size_t at = 0; at < count; at++)
        DONE(read_sent(DONE(insert(kind, at))));
}

/* An index that is not allowed is refused right after the test whether memory forms a state, with which every call begins. */
static void test(void)
{
    COUNT_ANSWER("decoder test", KOLOWROTAN_NOT_ALLOWED, hold(NO_INDEX));
    COUNT_ANSWER("encoder test", KOLOWROTAN_NOT_ALLOWED, delete_entry(NO_INDEX));
}

static void block(const char *encoder_name, const char *decoder_name, const struct kind *kind, size_t report)
{
    uint8_t lent[sizeof output];
    struct kolowrotan_list list = kolowrotan_empty_list(lent, sizeof lent);
    for (size_t i = 0; i < FIELDS; i++)
        kolowrotan_put_field(&list, 0, (const uint8_t *)kind->names[i], strlen(kind->names[i]), (const uint8_t *)value_of(kind, report),
                             strlen(value_of(kind, report)));
    uint32_t written = COUNT(encoder_name, encode(&list));
    uint32_t length = COUNT(decoder_name, decode(written));
    if (length != list.length || memcmp(output, lent, length) != 0) {
        fprintf(stderr, "%s: another list\n", decoder_name);
        exit(1);
    }
}

/* The report in the middle of the table: searches go over half of it. */
static size_t middle(void)
{
    return entries / FIELDS / 2;
}

static void warm_block(void)
{
    block("encoder block, warm", "decoder block, warm", &held, middle());
}

/* Of an entry that a block refers to: its delete names every stream up to that block's. */
static void deletion(void)
{
    uint64_t index = FIRST_INDEX + FIELDS * middle();
    uint32_t written = COUNT("encoder delete", delete_entry(index));
    COUNT("decoder read, delete", read_sent(written));
    COUNT("decoder hold", hold(index));
    for (uint64_t stream = 0; stream < STREAM; stream++)
        DONE(ended(stream));
    COUNT("decoder ended", ended(STREAM));
    written = COUNT("decoder collect", kolowrotan_decoder_collect(decoder, sizeof decoder, sent, sizeof sent));
    COUNT("encoder acknowledge", kolowrotan_encoder_acknowledge(encoder, sizeof encoder, sent, written));
}

static void insertion(void)
{
    uint32_t written = COUNT("encoder insert", insert(&held, entries));
    COUNT("decoder read, insert", read_sent(written));
}

static void all_under_deletion(void)
{
    for (size_t at = 0; at < entries; at++)
        DONE(read_sent(DONE(delete_entry(FIRST_INDEX + at))));
    COUNT_ANSWER("decoder test, all under deletion", KOLOWROTAN_NOT_ALLOWED, hold(NO_INDEX));
}

int main(void)
{
    fill(&held, 0);
    test();
    fill(&held, 8);
    test();
    warm_block();
    fill(&held, 68);
    test();
    warm_block();
    block("encoder block, packed literal", "decoder block, packed literal", &packed, 0);
    block("encoder block, plain literal", "decoder block, plain literal", &plain, 0);
    deletion();
    fill(&held, 68);
    insertion();
    fill(&empty, KOLOWROTAN_ENTRIES);
    test();
    all_under_deletion();
    return 0;
}
