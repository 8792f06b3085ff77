#include "parts.h"

#include <stdio.h>
#include <stdlib.h>

#include "show.h"

/* A field of a case. The value's length is its own, since a value may hold zeros. */
struct given {
    const char *name, *value;
    size_t value_length;
    int never_store;
};

#define FIELD(name, value) {name, value, sizeof value - 1, 0}
#define NEVER_STORED(name, value) {name, value, sizeof value - 1, 1}
#define MACHINE FIELD("machine", "L-17")
#define HOURS FIELD("hours", "4100")
#define TURNS FIELD("turns", "2")

#define FIELDS 6

static const struct given cases[][FIELDS] = {
    /* clear: in any order, among others, with zeros in front, at the edges of the numbers and of the machine's length */
    {MACHINE, HOURS, TURNS},
    {TURNS, FIELD("driver", "Ada"), HOURS, MACHINE},
    {NEVER_STORED("machine", "L-17"), HOURS, TURNS},
    {MACHINE, FIELD("hours", "0004100"), FIELD("turns", "0000000002")},
    {MACHINE, FIELD("hours", "0"), FIELD("turns", "0")},
    {MACHINE, FIELD("hours", "65535"), FIELD("turns", "65535")},
    {FIELD("machine", "L"), HOURS, TURNS},
    {FIELD("machine", "123456789012345"), HOURS, TURNS},
    {FIELD("machine", " a, b=c\\ :"), HOURS, TURNS},
    {FIELD("machine", "a: b ~"), HOURS, TURNS},
    {FIELD("machine", "L-42 410.0 hour"), HOURS, TURNS},
    /* a field is missing: the first of the three is told */
    {{NULL, NULL, 0, 0}},
    {HOURS, TURNS},
    {MACHINE, TURNS},
    {MACHINE, HOURS},
    {FIELD("Machine", "L-17"), HOURS, TURNS},
    {FIELD("machin", "L-17"), HOURS, TURNS},
    {FIELD("machines", "L-17"), HOURS, TURNS},
    {FIELD("", "L-17"), HOURS, TURNS},
    {FIELD("machine: L-42", "L-17"), HOURS, TURNS},
    /* more than once: neither is taken, even where both say the same */
    {MACHINE, HOURS, TURNS, FIELD("turns", "0")},
    {MACHINE, FIELD("turns", "0"), HOURS, TURNS},
    {MACHINE, HOURS, HOURS, TURNS},
    {MACHINE, HOURS, TURNS, FIELD("machine", "L-42")},
    {MACHINE, MACHINE, HOURS, HOURS, TURNS, TURNS},
    /* a machine that cannot be read for certain, or would write over the screen */
    {FIELD("machine", ""), HOURS, TURNS},
    {FIELD("machine", "1234567890123456"), HOURS, TURNS},
    {FIELD("machine", "L-17\0"), HOURS, TURNS},
    {FIELD("machine", "L-4\0" "2"), HOURS, TURNS},
    {FIELD("machine", "\33[2JL-42"), HOURS, TURNS},
    {FIELD("machine", "L\177"), HOURS, TURNS},
    {FIELD("machine", "L\200"), HOURS, TURNS},
    {FIELD("machine", "L\n17"), HOURS, TURNS},
    /* no number of 0 to 65,535 in digits alone; 4294971396 is 4,100 in 32 bits */
    {MACHINE, FIELD("hours", "65536"), TURNS},
    {MACHINE, FIELD("hours", "4294971396"), TURNS},
    {MACHINE, FIELD("hours", ""), TURNS},
    {MACHINE, FIELD("hours", "-1"), TURNS},
    {MACHINE, FIELD("hours", "+1"), TURNS},
    {MACHINE, FIELD("hours", " 1"), TURNS},
    {MACHINE, FIELD("hours", "1 "), TURNS},
    {MACHINE, FIELD("hours", "0x10"), TURNS},
    {MACHINE, FIELD("hours", "1.5"), TURNS},
    {MACHINE, FIELD("hours", "1/"), TURNS},
    {MACHINE, FIELD("hours", "1:0"), TURNS},
    {MACHINE, FIELD("hours", "1\0"), TURNS},
    {MACHINE, HOURS, FIELD("turns", "65536")},
    {MACHINE, HOURS, FIELD("turns", "two")},
    /* what a sender writes cannot be taken for what the host writes */
    {MACHINE, HOURS, FIELD("x", "2, turns: 2 = 13517.2 hours")},
    {MACHINE, HOURS, FIELD("turns: 2", " : ")},
    {MACHINE, HOURS, NEVER_STORED("note", "a:b c\t")},
};

static uint8_t encoder[KOLOWROTAN_ENCODER_LENGTH], decoder[KOLOWROTAN_DECODER_LENGTH];

static void refuse(const char *what)
{
    printf("%s\n", what);
    exit(1);
}

static void send_and_show(const struct given *given, uint64_t stream)
{
    uint8_t lent[512], block[512], output[512];
    struct kolowrotan_list list = kolowrotan_empty_list(lent, sizeof lent);
    for (size_t i = 0; i < FIELDS && given[i].name != NULL; i++)
        kolowrotan_put_field(&list, given[i].never_store, (const uint8_t *)given[i].name, strlen(given[i].name),
                             (const uint8_t *)given[i].value, given[i].value_length);
    uint64_t written = kolowrotan_encoder_block(encoder, sizeof encoder, stream, KOLOWROTAN_NONTRAILER, list.bytes, list.length,
                                                block, sizeof block);
    if (KOLOWROTAN_ANSWER(written) != KOLOWROTAN_DONE)
        refuse("encoder block");
    uint64_t result = kolowrotan_decoder_block(decoder, sizeof decoder, stream, KOLOWROTAN_NONTRAILER, block,
                                               KOLOWROTAN_FIRST(written), output, sizeof output);
    if (KOLOWROTAN_ANSWER(result) != KOLOWROTAN_DONE)
        refuse("decoder block");
    show_report(kolowrotan_fields(result, output, sizeof output));
    printf("\n");
}

void reports(void)
{
    kolowrotan_encoder_start(encoder, sizeof encoder, KOLOWROTAN_LIMIT);
    kolowrotan_decoder_start(decoder, sizeof decoder, KOLOWROTAN_LIMIT);
    for (size_t i = 0; i < sizeof cases / sizeof cases[0]; i++)
        send_and_show(cases[i], i);
}
