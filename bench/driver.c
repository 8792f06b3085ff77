/*
 * The common driver.
 *
 *   driver names
 *       prints each implementation that was built in, with its version
 *   driver count NAME KIND MODE SIDE ENTRIES FIELDS ROUNDS RUN
 *       records and checks ROUNDS rounds, then runs the first RUN of them: to be run under callgrind with two values of RUN, so
 *       that all else cancels; prints the bytes of a round, and of its strings before they are packed
 *   driver time KIND MODE SIDE ENTRIES FIELDS ROUNDS PASSES
 *       runs all implementations in turn, PASSES times, and prints nanoseconds per field
 *
 * The status is 2 where an implementation refuses packed strings.
 */
#include "work.h"

#include <stdarg.h>
#include <stdio.h>
#include <stdlib.h>
#include <string.h>

static const struct implementation *const implementations[] = {
    &kolowrotan,
#ifdef HAVE_NGHTTP2
    &nghttp2,
#endif
#ifdef HAVE_NGHTTP3
    &nghttp3,
#endif
#ifdef HAVE_LSHPACK
    &lshpack,
#endif
};

enum { IMPLEMENTATIONS = sizeof implementations / sizeof implementations[0], MOST_PASSES = 101 };

_Noreturn void fail(const char *format, ...)
{
    va_list arguments;
    va_start(arguments, format);
    vfprintf(stderr, format, arguments);
    va_end(arguments);
    fputc('\n', stderr);
    exit(1);
}

_Noreturn void refuse(const char *what)
{
    fprintf(stderr, "%s\n", what);
    exit(REFUSED);
}

void sink_check(struct sink *sink, const uint8_t *name, size_t name_length, const uint8_t *value, size_t value_length)
{
    if (sink->next >= sink->expected->count)
        fail("more fields decoded than put in");
    const struct field *field = &sink->expected->fields[sink->next++];
    if (!text_equal(field->name, (struct text){name, name_length}) ||
        !text_equal(field->value, (struct text){value, value_length}))
        fail("decoded %.*s: %.*s in place of %.*s: %.*s", (int)name_length, (const char *)name, (int)value_length,
             (const char *)value, (int)field->name.length, (const char *)field->name.at, (int)field->value.length,
             (const char *)field->value.at);
}

static size_t choice(const char *word, const char *const words[], size_t count)
{
    for (size_t i = 0; i < count; i++)
        if (strcmp(word, words[i]) == 0)
            return i;
    fail("%s is not known here", word);
}

/* KIND MODE SIDE ENTRIES FIELDS ROUNDS */
static struct task read_task(char **words)
{
    static const char *const kinds[] = {"machine",     "browser",     "short",     "long",
                                        "machine-raw", "browser-raw", "short-raw", "long-raw"};
    static const enum kind of[] = {MACHINE, BROWSER, SHORT, LONG, MACHINE, BROWSER, SHORT, LONG};
    static const char *const modes[] = {"warm", "literal", "churn"};
    static const char *const sides[] = {"encode", "decode", "decode-packed"};
    size_t kind = choice(words[0], kinds, 8);
    struct task task = {
        .kind = of[kind],
        .raw = kind > 3,
        .mode = (enum mode)choice(words[1], modes, 3),
        .side = (enum side)choice(words[2], sides, 3),
        .entries = strtoul(words[3], NULL, 10),
        .fields = strtoul(words[4], NULL, 10),
        .rounds = strtoul(words[5], NULL, 10),
    };
    if (task.fields == 0 || task.rounds == 0 || task.rounds > 4096 || task.entries < 8)
        fail("a task has at least 8 entries, 1 field and 1 to 4,096 rounds");
    return task;
}

static int names(void)
{
    for (size_t i = 0; i < IMPLEMENTATIONS; i++)
        printf("%s %s\n", implementations[i]->name, implementations[i]->version());
    return 0;
}

static int count(char **words)
{
    struct task task = read_task(words + 1);
    size_t run = strtoul(words[7], NULL, 10);
    for (size_t i = 0; i < IMPLEMENTATIONS; i++) {
        if (strcmp(words[0], implementations[i]->name) != 0)
            continue;
        struct work *work = work_new(implementations[i], &task);
        work_run(work, run < task.rounds ? run : task.rounds);
        struct lengths bytes = work_bytes(work);
        printf("%.4f %.4f\n", bytes.packet, bytes.strings);
        work_free(work);
        return 0;
    }
    fail("%s was not built in", words[0]);
}

static int compare(const void *a, const void *b)
{
    double x = *(const double *)a, y = *(const double *)b;
    return (x > y) - (x < y);
}

static double median(const double *values, size_t count)
{
    double sorted[MOST_PASSES];
    memcpy(sorted, values, count * sizeof *values);
    qsort(sorted, count, sizeof *sorted, compare);
    return sorted[count / 2];
}

/* NAME, median of nanoseconds per field, median of the time as a multiple of Kolowrotan's in the same pass. */
static int times(char **words)
{
    static double time[IMPLEMENTATIONS][MOST_PASSES], share[IMPLEMENTATIONS][MOST_PASSES];
    struct task task = read_task(words);
    size_t passes = strtoul(words[6], NULL, 10);
    struct work *work[IMPLEMENTATIONS];
    passes = passes < MOST_PASSES ? passes : MOST_PASSES;
    for (size_t i = 0; i < IMPLEMENTATIONS; i++)
        work[i] = work_new(implementations[i], &task);
    for (size_t pass = 0; pass < passes; pass++) {
        for (size_t i = 0; i < IMPLEMENTATIONS; i++) {
            time[i][pass] = (double)work_run(work[i], task.rounds) / (double)(task.rounds * task.fields);
            share[i][pass] = time[i][pass] / time[0][pass];
        }
    }
    for (size_t i = 0; i < IMPLEMENTATIONS; i++) {
        printf("%s %.2f %.4f\n", implementations[i]->name, median(time[i], passes), median(share[i], passes));
        work_free(work[i]);
    }
    return 0;
}

int main(int count_of_words, char **words)
{
    if (count_of_words == 2 && strcmp(words[1], "names") == 0)
        return names();
    if (count_of_words == 10 && strcmp(words[1], "count") == 0)
        return count(words + 2);
    if (count_of_words == 9 && strcmp(words[1], "time") == 0)
        return times(words + 2);
    fail("usage: see the head of bench/driver.c");
}
