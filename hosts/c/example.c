/*
 * A sheet from file to answers, through the C interface: READ, CHECK, COVER, APPLY, RUNS, INDEX, and a question for each word.
 *
 *     example SHEET [WORD ..]
 */
#include "corrivume.h"

#include <inttypes.h>
#include <stdio.h>
#include <stdlib.h>
#include <string.h>

/* A collection and the tables that are made from it. */
struct dictionary {
    size_t k, p, letters_count, ends_count, weights_count, runs, stretches, starts;
    uint8_t *letters;
    uint32_t *ends, *weights, *run_weights, *run_firsts;
    uint32_t *firsts, *positions, *numbers, *before;
};

static void *lend(size_t entries, size_t size)
{
    void *table = calloc(entries ? entries : 1, size);
    if (!table) {
        fputs("no memory\n", stderr);
        exit(2);
    }
    return table;
}

static uint32_t *lend_numbers(size_t entries) { return lend(entries, sizeof(uint32_t)); }

/* A refused call ends the program. */
static void accept(const char *call, uint32_t number, const uint64_t *answer)
{
    if (number) {
        fprintf(stderr, "%s refused\t%" PRIu32 "\t%" PRIu64 "\n", call, number, answer[0]);
        exit(1);
    }
}

static uint8_t *file_bytes(const char *name, size_t *count)
{
    FILE *file = fopen(name, "rb");
    size_t room = 1 << 16;
    uint8_t *bytes = malloc(room);
    if (!file || !bytes) {
        perror(name);
        exit(2);
    }
    *count = 0;
    for (size_t got; (got = fread(bytes + *count, 1, room - *count, file)) > 0;) {
        *count += got;
        if (*count == room) {
            uint8_t *wider = realloc(bytes, room * 2);
            if (!wider) {
                perror(name);
                exit(2);
            }
            bytes = wider;
            room *= 2;
        }
    }
    if (ferror(file)) {
        perror(name);
        exit(2);
    }
    fclose(file);
    return bytes;
}

static struct dictionary read_sheet(const uint8_t *sheet, size_t count)
{
    struct dictionary d = {0};
    uint64_t answer[CORRIVUME_ANSWER] = {0};
    d.letters = lend(count, 1);
    d.ends = lend_numbers(count);
    d.weights = lend_numbers(count);
    accept("read", corrivume_read(sheet, count, d.letters, count, d.ends, count, d.weights, count, answer, CORRIVUME_ANSWER), answer);
    d.k = answer[0];
    d.letters_count = answer[1];
    d.ends_count = answer[2];
    d.weights_count = answer[3];
    return d;
}

static void check(const struct dictionary *d)
{
    uint64_t answer[CORRIVUME_ANSWER] = {0};
    size_t room = 4 * d->weights_count;
    uint32_t *work = lend_numbers(room);
    accept("check", corrivume_check(d->k, d->letters, d->letters_count, d->ends, d->ends_count, d->weights, d->weights_count, work, room, answer, CORRIVUME_ANSWER), answer);
    printf("strings\t%zu\nkmers\t%" PRIu64 "\n", d->ends_count, answer[0]);
    free(work);
}

/* The strings in an order, and turned, with the fewest runs. */
static void reorder(struct dictionary *d)
{
    uint64_t answer[CORRIVUME_ANSWER] = {0};
    size_t m = d->ends_count, room = 16 * m;
    int32_t *places = lend(m, sizeof *places);
    uint32_t *work = lend_numbers(room), *ends = lend_numbers(m), *weights = lend_numbers(d->weights_count);
    uint8_t *letters = lend(d->letters_count, 1);
    accept("cover", corrivume_cover(d->k, d->letters, d->letters_count, d->ends, m, d->weights, d->weights_count, places, m, work, room, answer, CORRIVUME_ANSWER), answer);
    printf("paths\t%" PRIu64 "\n", answer[0]);
    accept("apply", corrivume_apply(d->k, d->letters, d->letters_count, d->ends, m, d->weights, d->weights_count, places, m, letters, d->letters_count, ends, m, weights, d->weights_count, work, m, answer, CORRIVUME_ANSWER), answer);
    free(d->letters);
    free(d->ends);
    free(d->weights);
    d->letters = letters;
    d->ends = ends;
    d->weights = weights;
    free(places);
    free(work);
}

static void list_runs(struct dictionary *d)
{
    uint64_t answer[CORRIVUME_ANSWER] = {0};
    size_t n = d->weights_count;
    d->run_weights = lend_numbers(n);
    d->run_firsts = lend_numbers(n);
    accept("runs", corrivume_runs(d->k, d->letters, d->letters_count, d->ends, d->ends_count, d->weights, n, d->run_weights, n, d->run_firsts, n, answer, CORRIVUME_ANSWER), answer);
    d->runs = answer[0];
    printf("runs\t%zu\n", d->runs);
}

static void index_stretches(struct dictionary *d)
{
    uint64_t answer[CORRIVUME_ANSWER] = {0};
    size_t n = d->weights_count, room = 4 * n;
    uint32_t *work = lend_numbers(room);
    d->p = d->k < 16 ? (d->k + 1) / 2 : 8;
    size_t starts = ((size_t)1 << (2 * d->p)) + 1;
    d->firsts = lend_numbers(n);
    d->positions = lend_numbers(n);
    d->numbers = lend_numbers(n);
    d->before = lend_numbers(starts);
    accept("index", corrivume_index(d->k, d->p, d->letters, d->letters_count, d->ends, d->ends_count, d->weights, n, d->firsts, n, d->positions, n, d->numbers, n, d->before, starts, work, room, answer, CORRIVUME_ANSWER), answer);
    d->stretches = answer[0];
    d->starts = answer[1];
    printf("stretches\t%zu\n", d->stretches);
    free(work);
}

/* QUICK, then WEIGHT and ACCESS of the handle found. */
static void ask(const struct dictionary *d, const char *word)
{
    uint64_t found[CORRIVUME_ANSWER] = {0}, answer[CORRIVUME_ANSWER] = {0};
    uint32_t number = corrivume_quick(d->k, d->p, (const uint8_t *)word, strlen(word), d->letters, d->letters_count, d->firsts, d->stretches, d->positions, d->stretches, d->numbers, d->stretches, d->before, d->starts, found, CORRIVUME_ANSWER);
    if (number) {
        printf("%s\trefused\t%" PRIu32 "\t%" PRIu64 "\n", word, number, found[0]);
        return;
    }
    if (!found[0]) {
        printf("%s\tabsent\tcompared\t%" PRIu64 "\n", word, found[2]);
        return;
    }
    accept("weight", corrivume_weight(d->run_weights, d->runs, d->run_firsts, d->runs, d->weights_count, found[0], answer, CORRIVUME_ANSWER), answer);
    uint64_t weight = answer[0];
    accept("access", corrivume_access(d->k, d->letters, d->letters_count, d->ends, d->ends_count, found[0], answer, CORRIVUME_ANSWER), answer);
    printf("%s\thandle\t%" PRIu64 "\tside\t%c\tweight\t%" PRIu64 "\tcompared\t%" PRIu64 "\tstands\t%.*s\n", word, found[0], found[1] ? '-' : '+', weight, found[2], (int)answer[1], (const char *)(d->letters + answer[0]));
}

int main(int argc, char **argv)
{
    if (argc < 2) {
        fprintf(stderr, "usage: %s SHEET [WORD ..]\n", argv[0]);
        return 2;
    }
    size_t count;
    uint8_t *sheet = file_bytes(argv[1], &count);
    struct dictionary d = read_sheet(sheet, count);
    check(&d);
    reorder(&d);
    list_runs(&d);
    index_stretches(&d);
    for (int i = 2; i < argc; i++)
        ask(&d, argv[i]);
    free(sheet);
    free(d.letters);
    free(d.ends);
    free(d.weights);
    free(d.run_weights);
    free(d.run_firsts);
    free(d.firsts);
    free(d.positions);
    free(d.numbers);
    free(d.before);
    return 0;
}
