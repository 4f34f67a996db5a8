/*
 * Seeded inputs, most of them bad, through the C interface, held to a judge of its own that is written from the numbers of refusal.
 *
 *     cases [COUNT [SEED]]
 *
 * For every case: the number returned and the place; a refused call leaves all outputs as they were; a call that is done leaves the
 * entries beyond what it filled; work is zero where it says so and else as it was; nothing is written behind a table.
 */
#include "corrivume.h"

#include <inttypes.h>
#include <stdbool.h>
#include <stdio.h>
#include <stdlib.h>
#include <string.h>

enum { CALLS = 12, LETTERS = 800, STRINGS = 40, BEHIND = 8, LARGE_LETTERS = 1048577, LARGE_STRINGS = 65537, HIGHEST = 16777215 };

static const char *const call_names[CALLS] = {"read", "write", "check", "cover", "apply", "runs", "weight", "access", "plain", "index", "quick", "weigh"};
enum call { READ, WRITE, CHECK, COVER, APPLY, RUNS, WEIGHT, ACCESS, PLAIN, INDEX, QUICK, WEIGH };

/* How often each call gave each number. */
static uint64_t met[CALLS][13];
static uint64_t case_number, short_answers;

static void fail(enum call call, const char *what)
{
    fprintf(stderr, "case %" PRIu64 ", %s: %s\n", case_number, call_names[call], what);
    exit(1);
}

/* ---- chance ---------------------------------------------------------- */

static uint64_t state;

static uint64_t chance(void)
{
    state ^= state << 13;
    state ^= state >> 7;
    state ^= state << 17;
    return state * UINT64_C(2685821657736338717) >> 11;
}

static size_t below(size_t n) { return (size_t)(chance() % n); }

static bool one_in(size_t n) { return below(n) == 0; }

/* ---- lent tables ----------------------------------------------------- */

/* A table with entries behind it that no call may touch, and its content before the call. */
struct table {
    uint8_t *bytes, *copy;
    size_t count, size;
    size_t fills;        /* entries that are filled when the call is done */
    const void *content; /* what they then hold, where it is known */
    bool work;
};

static struct table lend(size_t count, size_t size)
{
    struct table t = {.count = count, .size = size};
    size_t bytes = (count + BEHIND) * size;
    t.bytes = malloc(bytes);
    t.copy = malloc(bytes);
    if (!t.bytes || !t.copy)
        abort();
    uint8_t first = (uint8_t)chance();
    for (size_t i = 0; i < bytes; i++)
        t.bytes[i] = (uint8_t)(first + i * 37);
    memcpy(t.copy, t.bytes, bytes);
    return t;
}

/* Sometimes one entry too few, sometimes none, sometimes some to spare. */
static size_t room_for(size_t need)
{
    switch (below(12)) {
    case 0:
        return need ? need - 1 : 0;
    case 1:
        return below(need + 1);
    case 2:
    case 3:
    case 4:
        return need + below(9);
    default:
        return need;
    }
}

/* An empty table has a null pointer or one that points somewhere. */
static void *lent(const struct table *t) { return t->count || one_in(2) ? t->bytes : NULL; }

static bool same_from(const struct table *t, size_t first)
{
    return memcmp(t->bytes + first * t->size, t->copy + first * t->size, (t->count + BEHIND - first) * t->size) == 0;
}

static bool zero_to(const struct table *t, size_t end)
{
    for (size_t i = 0; i < end * t->size; i++)
        if (t->bytes[i])
            return false;
    return true;
}

static void give_back(struct table *t)
{
    free(t->bytes);
    free(t->copy);
}

/* ---- a collection ---------------------------------------------------- */

struct collection {
    size_t k, letters_count, ends_count, weights_count;
    const uint8_t *letters;
    const uint32_t *ends, *weights;
    uint8_t letter_table[LETTERS];
    uint32_t end_table[STRINGS], weight_table[LETTERS];
};

static uint8_t large_letters[LARGE_LETTERS];
static uint32_t large_ends[LARGE_STRINGS];

static void good(struct collection *c)
{
    size_t m = one_in(8) ? 0 : 1 + below(6), letters = 1 + below(4), weights = 1 + below(5);
    *c = (struct collection){.k = one_in(3) ? 3 + below(29) : 3 + below(6)};
    for (size_t i = 0; i < m; i++) {
        size_t length = c->k + below(10);
        for (size_t j = 0; j < length; j++)
            c->letter_table[c->letters_count++] = (uint8_t)"ACGT"[one_in(5) ? below(letters) : below(4)];
        c->end_table[c->ends_count++] = (uint32_t)c->letters_count;
        for (size_t j = 0; j + c->k <= length; j++)
            c->weight_table[c->weights_count++] = one_in(40) ? (one_in(2) ? 1 : HIGHEST) : 1 + (uint32_t)below(weights);
    }
    c->letters = c->letter_table;
    c->ends = c->end_table;
    c->weights = c->weight_table;
}

static void random_tables(struct collection *c)
{
    c->k = 3 + below(8);
    c->letters_count = below(60);
    c->ends_count = below(6);
    c->weights_count = below(60);
    for (size_t i = 0; i < c->letters_count; i++)
        c->letter_table[i] = (uint8_t)(one_in(2) ? chance() : (uint8_t)"ACGT"[below(4)]);
    for (size_t i = 0; i < c->ends_count; i++)
        c->end_table[i] = (uint32_t)(one_in(2) ? chance() : below(c->letters_count + 2));
    for (size_t i = 0; i < c->weights_count; i++)
        c->weight_table[i] = (uint32_t)chance();
}

static void damage(struct collection *c)
{
    static const size_t ks[] = {0, 1, 2, 32, 33, 1000, SIZE_MAX};
    static const uint32_t heavy[] = {0, HIGHEST + 1, UINT32_MAX, UINT32_C(1) << 31};
    size_t i;
    if (c->letters != c->letter_table || c->ends != c->end_table)
        return;
    switch (below(13)) {
    case 0:
        c->k = ks[below(7)];
        break;
    case 1:
    case 2:
        if (c->ends_count) {
            i = below(c->ends_count);
            c->end_table[i] = one_in(3) ? (uint32_t)chance() : c->end_table[i] + (uint32_t)below(7) - 3;
        }
        break;
    case 3:
        c->ends_count += one_in(2) || !c->ends_count ? 1 : -(size_t)1;
        break;
    case 4:
    case 5:
        if (c->letters_count)
            c->letter_table[below(c->letters_count)] = (uint8_t)chance();
        break;
    case 6:
        c->weights_count += one_in(2) || !c->weights_count ? 1 : -(size_t)1;
        break;
    case 7:
    case 8:
        if (c->weights_count)
            c->weight_table[below(c->weights_count)] = heavy[below(4)];
        break;
    case 9:
        c->letters_count += one_in(2) || !c->letters_count ? 1 : -(size_t)1;
        break;
    case 10:
        random_tables(c);
        break;
    case 11:
        if (one_in(3)) {
            c->letters = large_letters;
            c->letters_count = LARGE_LETTERS;
        } else if (one_in(2)) {
            c->ends = large_ends;
            c->ends_count = LARGE_STRINGS;
        } else if (one_in(2))
            c->k++;
        break;
    default:
        c->letters_count = c->ends_count = 0;
        c->letters = NULL;
        c->ends = NULL;
        if (one_in(2)) {
            c->weights_count = 0;
            c->weights = NULL;
        }
    }
}

static void some_collection(struct collection *c)
{
    good(c);
    for (size_t i = below(3); i > 0; i--)
        damage(c);
}

/* ---- the judge ------------------------------------------------------- */

struct expected {
    uint32_t number;
    uint64_t place;
    size_t values;
    uint64_t value[CORRIVUME_ANSWER];
    bool open; /* what is answered is not judged here */
};

static struct expected refuse(uint32_t number, uint64_t place) { return (struct expected){.number = number, .place = place}; }

static struct expected pass(void) { return refuse(0, 0); }

static bool is_letter(uint8_t b) { return b == 'A' || b == 'C' || b == 'G' || b == 'T'; }

static struct expected judge_shape(const struct collection *c)
{
    if (c->k < 3 || c->k > 31)
        return refuse(2, 0);
    if (c->letters_count > 1048576 || c->ends_count > 65536)
        return refuse(3, 0);
    int64_t before = 0;
    for (size_t i = 0; i < c->ends_count; i++) {
        if ((int64_t)c->ends[i] - before < (int64_t)c->k)
            return refuse(4, i + 1);
        before = c->ends[i];
    }
    return before == (int64_t)c->letters_count ? pass() : refuse(4, c->ends_count + 1);
}

static size_t kmers(const struct collection *c) { return c->letters_count - c->ends_count * (c->k - 1); }

static struct expected judge(const struct collection *c)
{
    struct expected e = judge_shape(c);
    if (e.number)
        return e;
    for (size_t i = 0; i < c->letters_count; i++)
        if (!is_letter(c->letters[i]))
            return refuse(5, i + 1);
    if (c->weights_count != kmers(c))
        return refuse(6, 0);
    for (size_t i = 0; i < c->weights_count; i++)
        if (c->weights[i] < 1 || c->weights[i] > HIGHEST)
            return refuse(6, i + 1);
    return pass();
}

/* The position of a handle, from 1. */
static size_t position(const struct collection *c, size_t handle)
{
    size_t start = 0;
    for (size_t i = 0; i < c->ends_count; i++) {
        size_t here = c->ends[i] - start - c->k + 1;
        if (handle <= here)
            return start + handle - 1;
        handle -= here;
        start = c->ends[i];
    }
    return 0;
}

static uint8_t other(uint8_t b) { return b == 'A' ? 'T' : b == 'T' ? 'A' : b == 'C' ? 'G' : 'C'; }

static void turn(const uint8_t *word, size_t k, uint8_t *turned)
{
    for (size_t i = 0; i < k; i++)
        turned[i] = other(word[k - 1 - i]);
}

/* The lowest handle, below an end, of an equal word; 0 where none is. */
static size_t lowest(const struct collection *c, const uint8_t *word, size_t end)
{
    for (size_t h = 1; h < end; h++)
        if (memcmp(c->letters + position(c, h), word, c->k) == 0)
            return h;
    return 0;
}

static size_t first_repeat(const struct collection *c)
{
    uint8_t turned[31];
    for (size_t h = 1; h <= kmers(c); h++) {
        const uint8_t *word = c->letters + position(c, h);
        turn(word, c->k, turned);
        if (lowest(c, word, h) || lowest(c, turned, h))
            return h;
    }
    return 0;
}

static size_t code(const uint8_t *word, size_t count)
{
    size_t sum = 0;
    for (size_t i = 0; i < count; i++)
        sum = 4 * sum + (word[i] == 'A' ? 0 : word[i] == 'C' ? 1 : word[i] == 'G' ? 2 : 3);
    return sum;
}

static size_t minimizer(const uint8_t *word, size_t k, size_t p)
{
    size_t least = SIZE_MAX;
    for (size_t i = 0; i + p <= k; i++) {
        size_t here = code(word + i, p);
        least = here < least ? here : least;
    }
    return least;
}

static size_t stretches(const struct collection *c, size_t p)
{
    size_t count = 0, start = 0;
    for (size_t i = 0; i < c->ends_count; i++) {
        size_t last = SIZE_MAX;
        for (size_t a = start; a + c->k <= c->ends[i]; a++) {
            size_t here = minimizer(c->letters + a, c->k, p);
            count += here != last;
            last = here;
        }
        start = c->ends[i];
    }
    return count;
}

/* ---- what is held to it ---------------------------------------------- */

static void hold_table(enum call call, const struct table *t, uint32_t number)
{
    if (t->work) {
        size_t zeroed = number == 0 || number == 7 || number == 8 ? t->fills : 0;
        if (!zero_to(t, zeroed) || !same_from(t, zeroed))
            fail(call, "work");
    } else {
        if (!same_from(t, number ? 0 : t->fills))
            fail(call, number ? "a refused call changed an output" : "an output was changed beyond what is filled");
        if (!number && t->content && memcmp(t->bytes, t->content, t->fills * t->size) != 0)
            fail(call, "an output holds something else");
    }
}

static void hold(enum call call, uint32_t number, struct expected e, struct table *answer, struct table *tables, size_t count)
{
    uint64_t value[CORRIVUME_ANSWER];
    if (answer->count < CORRIVUME_ANSWER) {
        bool same = same_from(answer, 0);
        for (size_t i = 0; i < count; i++)
            same = same && same_from(&tables[i], 0);
        if (number != 1 || !same)
            fail(call, "the answer table is too short");
        short_answers++;
    } else {
        if (e.open && !e.number)
            e.number = number;
        memcpy(value, answer->bytes, sizeof value);
        if (number != e.number || (number && value[0] != e.place)) {
            fprintf(stderr, "returned %" PRIu32 " at %" PRIu64 ", the judge says %" PRIu32 " at %" PRIu64 "\n", number, value[0], e.number, e.place);
            fail(call, "the refusal");
        }
        if (!same_from(answer, number ? 1 : e.values))
            fail(call, "the answer table was changed beyond what is told");
        if (!number && !e.open && memcmp(value, e.value, e.values * sizeof *value) != 0)
            fail(call, "what is answered");
        for (size_t i = 0; i < count; i++)
            hold_table(call, &tables[i], number);
        met[call][number]++;
    }
    for (size_t i = 0; i < count; i++)
        give_back(&tables[i]);
    give_back(answer);
}

static struct table lend_answer(void) { return lend(one_in(25) ? below(CORRIVUME_ANSWER) : CORRIVUME_ANSWER + below(3), sizeof(uint64_t)); }

static struct table lend_output(size_t count, size_t size, size_t fills, const void *content)
{
    struct table t = lend(count, size);
    t.fills = fills;
    t.content = content;
    return t;
}

static struct table lend_work(size_t count, size_t need)
{
    struct table t = lend(count, sizeof(uint32_t));
    t.fills = need;
    t.work = true;
    return t;
}

#define TABLE(t) lent(&(t)), (t).count
#define COLLECTION(c) (c).letters, (c).letters_count, (c).ends, (c).ends_count, (c).weights, (c).weights_count

/* ---- the sheet ------------------------------------------------------- */

static size_t print_sheet(const struct collection *c, uint8_t *sheet)
{
    size_t at = (size_t)sprintf((char *)sheet, "K\t%zu\n", c->k), start = 0, w = 0;
    for (size_t i = 0; i < c->ends_count; i++) {
        at += (size_t)sprintf((char *)sheet + at, "S\t%.*s", (int)(c->ends[i] - start), (const char *)c->letters + start);
        for (size_t j = start; j + c->k <= c->ends[i]; j++)
            at += (size_t)sprintf((char *)sheet + at, "\t%" PRIu32, c->weights[w++]);
        sheet[at++] = '\n';
        start = c->ends[i];
    }
    return at;
}

/* A number with no leading zero, up to a limit; 0 where it is none or too large, or 0. */
static uint64_t number_in(const uint8_t *field, size_t count, uint64_t limit)
{
    uint64_t value = 0;
    if (!count || (count > 1 && field[0] == '0'))
        return 0;
    for (size_t i = 0; i < count; i++) {
        if (field[i] < '0' || field[i] > '9')
            return 0;
        value = value * 10 + (field[i] - '0');
        if (value > limit)
            return 0;
    }
    return value;
}

static size_t field_length(const uint8_t *at, const uint8_t *end)
{
    const uint8_t *tab = memchr(at, '\t', (size_t)(end - at));
    return tab ? (size_t)(tab - at) : (size_t)(end - at);
}

/* Adds a string line, without its line feed, to a collection; false where it is wrong. */
static bool add_line(struct collection *c, const uint8_t *at, const uint8_t *end)
{
    if (end - at < 2 || at[0] != 'S' || at[1] != '\t')
        return false;
    at += 2;
    size_t length = field_length(at, end), count = 0;
    if (length < c->k)
        return false;
    for (size_t i = 0; i < length; i++) {
        if (!is_letter(at[i]))
            return false;
        c->letter_table[c->letters_count + i] = at[i];
    }
    for (at += length; at < end; count++) {
        size_t digits = field_length(++at, end);
        uint64_t weight = number_in(at, digits, HIGHEST);
        if (!weight || count + c->k > length)
            return false;
        c->weight_table[c->weights_count + count] = (uint32_t)weight;
        at += digits;
    }
    if (count + c->k != length + 1)
        return false;
    c->letters_count += length;
    c->weights_count += count;
    c->end_table[c->ends_count++] = (uint32_t)c->letters_count;
    return true;
}

static struct expected judge_sheet(const uint8_t *sheet, size_t count, struct collection *c)
{
    *c = (struct collection){0};
    const uint8_t *end = sheet + count, *feed = count ? memchr(sheet, '\n', count) : NULL;
    size_t digits = feed ? (size_t)(feed - sheet) - 2 : 0;
    if (!feed || feed - sheet < 3 || digits > 2 || sheet[0] != 'K' || sheet[1] != '\t')
        return refuse(11, 1);
    c->k = number_in(sheet + 2, digits, 99);
    if (!c->k && !(digits == 1 && sheet[2] == '0'))
        return refuse(11, 1);
    if (c->k < 3 || c->k > 31)
        return refuse(2, 0);
    size_t line = 2;
    for (const uint8_t *at = feed + 1; at < end; at = feed + 1, line++) {
        feed = memchr(at, '\n', (size_t)(end - at));
        if (!feed || !add_line(c, at, feed))
            return refuse(11, line);
    }
    return pass();
}

static size_t damage_sheet(uint8_t *sheet, size_t count)
{
    static const char *const bytes = "\t\n\rACGTNKS0123456789 -";
    size_t at = below(count + 1);
    switch (below(6)) {
    case 0:
        return at;
    case 1:
        memmove(sheet + at + 1, sheet + at, count - at);
        sheet[at] = (uint8_t)bytes[below(22)];
        return count + 1;
    case 2:
        if (at == count)
            return count;
        memmove(sheet + at, sheet + at + 1, count - at - 1);
        return count - 1;
    case 3:
        for (size_t i = 0; i < count; i++)
            sheet[i] = (uint8_t)chance();
        return count;
    default:
        if (at < count)
            sheet[at] = (uint8_t)(one_in(4) ? chance() : (uint8_t)bytes[below(22)]);
        return count;
    }
}

static uint8_t sheet_bytes[16 * LETTERS];

static void read_case(void)
{
    static struct collection c, held;
    good(&c);
    size_t count = print_sheet(&c, sheet_bytes);
    for (size_t i = below(3); i > 0; i--)
        count = damage_sheet(sheet_bytes, count);
    struct expected e = judge_sheet(sheet_bytes, count, &held);
    struct table t[] = {
        lend_output(room_for(held.letters_count), 1, held.letters_count, held.letter_table),
        lend_output(room_for(held.ends_count), sizeof(uint32_t), held.ends_count, held.end_table),
        lend_output(room_for(held.weights_count), sizeof(uint32_t), held.weights_count, held.weight_table)};
    if (!e.number && (t[0].count < t[0].fills || t[1].count < t[1].fills || t[2].count < t[2].fills))
        e = refuse(1, 0);
    if (!e.number)
        e = (struct expected){.values = 4, .value = {held.k, held.letters_count, held.ends_count, held.weights_count}};
    struct table answer = lend_answer();
    uint32_t number = corrivume_read(count || one_in(2) ? sheet_bytes : NULL, count, TABLE(t[0]), TABLE(t[1]), TABLE(t[2]), TABLE(answer));
    hold(READ, number, e, &answer, t, 3);
}

/* A sheet of a string too many; with a wrong last line that is what is refused. */
static void large_sheet_case(bool wrong)
{
    static const char line[] = "S\tAAA\t1\n";
    size_t count = 4 + LARGE_STRINGS * (sizeof line - 1);
    uint8_t *sheet = malloc(count);
    if (!sheet)
        abort();
    memcpy(sheet, "K\t3\n", 4);
    for (size_t i = 0; i < LARGE_STRINGS; i++)
        memcpy(sheet + 4 + i * (sizeof line - 1), line, sizeof line - 1);
    if (wrong)
        sheet[count - 2] = '0';
    struct table t[] = {lend(3 * LARGE_STRINGS, 1), lend(LARGE_STRINGS, sizeof(uint32_t)), lend(LARGE_STRINGS, sizeof(uint32_t))}, answer = lend_answer();
    uint32_t number = corrivume_read(sheet, count, TABLE(t[0]), TABLE(t[1]), TABLE(t[2]), TABLE(answer));
    hold(READ, number, wrong ? refuse(11, LARGE_STRINGS + 1) : refuse(3, 0), &answer, t, 3);
    free(sheet);
}

static void write_case(void)
{
    static struct collection c;
    some_collection(&c);
    struct expected e = judge(&c);
    size_t need = e.number ? below(200) : print_sheet(&c, sheet_bytes);
    struct table t[] = {lend_output(room_for(need), 1, need, sheet_bytes)}, answer = lend_answer();
    if (!e.number && t[0].count < need)
        e = refuse(1, 0);
    if (!e.number)
        e = (struct expected){.values = 1, .value = {need}};
    uint32_t number = corrivume_write(c.k, COLLECTION(c), TABLE(t[0]), TABLE(answer));
    hold(WRITE, number, e, &answer, t, 1);
}

/* ---- the calls on a collection --------------------------------------- */

static void check_case(void)
{
    static struct collection c;
    some_collection(&c);
    struct expected e = judge(&c);
    size_t n = e.number ? below(20) : kmers(&c), repeat = e.number ? 0 : first_repeat(&c);
    struct table t[] = {lend_work(room_for(4 * n), 4 * n)}, answer = lend_answer();
    if (!e.number && t[0].count < 4 * n)
        e = refuse(1, 0);
    else if (!e.number)
        e = repeat ? refuse(7, repeat) : (struct expected){.values = 1, .value = {n}};
    uint32_t number = corrivume_check(c.k, COLLECTION(c), TABLE(t[0]), TABLE(answer));
    hold(CHECK, number, e, &answer, t, 1);
}

/* Where each string of an order comes from, turned where negative; whether the places are each of 1 to m once. */
static bool order_of(const int32_t *places, size_t m, int32_t *from)
{
    memset(from, 0, m * sizeof *from);
    for (size_t i = 0; i < m; i++) {
        int64_t place = places[i], at = place < 0 ? -place : place;
        if (at < 1 || at > (int64_t)m || from[at - 1])
            return false;
        from[at - 1] = (int32_t)(place < 0 ? -(int64_t)(i + 1) : (int64_t)(i + 1));
    }
    return true;
}

/* The collection in an order, weights turned with their strings. */
static void reorder(const struct collection *c, const int32_t *from, struct collection *out)
{
    *out = (struct collection){.k = c->k, .letters = out->letter_table, .ends = out->end_table, .weights = out->weight_table};
    for (size_t j = 0; j < c->ends_count; j++) {
        size_t i = (size_t)(from[j] < 0 ? -from[j] : from[j]) - 1, start = i ? c->ends[i - 1] : 0, length = c->ends[i] - start;
        size_t first = start - i * (c->k - 1), count = length - c->k + 1;
        for (size_t x = 0; x < length; x++)
            out->letter_table[out->letters_count + x] = from[j] < 0 ? other(c->letters[start + length - 1 - x]) : c->letters[start + x];
        for (size_t x = 0; x < count; x++)
            out->weight_table[out->weights_count + x] = c->weights[first + (from[j] < 0 ? count - 1 - x : x)];
        out->letters_count += length;
        out->weights_count += count;
        out->end_table[out->ends_count++] = (uint32_t)out->letters_count;
    }
}

static size_t list_runs(const struct collection *c, uint32_t *weights, uint32_t *firsts)
{
    size_t count = 0;
    for (size_t i = 0; i < c->weights_count; i++)
        if (i == 0 || c->weights[i] != c->weights[i - 1]) {
            weights[count] = c->weights[i];
            firsts[count++] = (uint32_t)(i + 1);
        }
    return count;
}

/* The runs inside each string, summed. */
static size_t inner_runs(const struct collection *c)
{
    size_t sum = 0, start = 0, w = 0;
    for (size_t i = 0; i < c->ends_count; i++) {
        size_t count = c->ends[i] - start - c->k + 1;
        for (size_t j = 0; j < count; j++, w++)
            sum += j == 0 || c->weights[w] != c->weights[w - 1];
        start = c->ends[i];
    }
    return sum;
}

static uint32_t list_weights[LETTERS], list_firsts[LETTERS];

static void cover_case(void)
{
    static struct collection c, placed;
    int32_t from[STRINGS], places[STRINGS];
    some_collection(&c);
    struct expected e = judge(&c);
    size_t m = e.number ? below(7) : c.ends_count;
    struct table t[] = {lend_output(room_for(m), sizeof(int32_t), m, NULL), lend_work(room_for(16 * m), 16 * m)}, answer = lend_answer();
    if (!e.number && (t[0].count < m || t[1].count < 16 * m))
        e = refuse(1, 0);
    if (!e.number)
        e = (struct expected){.values = 2, .open = true};
    uint32_t number = corrivume_cover(c.k, COLLECTION(c), TABLE(t[0]), TABLE(t[1]), TABLE(answer));
    if (!number) {
        uint64_t value[2];
        memcpy(value, answer.bytes, sizeof value);
        memcpy(places, t[0].bytes, m * sizeof *places);
        if (value[1] != m || !order_of(places, m, from))
            fail(COVER, "the places");
        reorder(&c, from, &placed);
        if (list_runs(&placed, list_weights, list_firsts) + m != inner_runs(&c) + value[0])
            fail(COVER, "the paths");
    }
    if (answer.count >= CORRIVUME_ANSWER && e.open && number)
        fail(COVER, "refused");
    hold(COVER, number, e, &answer, t, 2);
}

static struct expected judge_places(const int32_t *places, size_t count, size_t m)
{
    bool used[STRINGS] = {false};
    if (count != m)
        return refuse(8, 0);
    for (size_t i = 0; i < m; i++) {
        int64_t at = places[i] < 0 ? -(int64_t)places[i] : places[i];
        if (at < 1 || at > (int64_t)m || used[at - 1])
            return refuse(8, i + 1);
        used[at - 1] = true;
    }
    return pass();
}

/* A signed order, sometimes damaged. */
static size_t some_places(int32_t *places, size_t m)
{
    static const int32_t wrong[] = {0, INT32_MIN, INT32_MAX, 1, -1};
    for (size_t i = 0; i < m; i++) {
        size_t j = below(i + 1);
        places[i] = places[j];
        places[j] = (int32_t)(i + 1);
    }
    for (size_t i = 0; i < m; i++)
        places[i] = one_in(2) ? -places[i] : places[i];
    if (m && one_in(3))
        places[below(m)] = one_in(4) ? (int32_t)chance() : wrong[below(5)];
    if (m && one_in(3))
        places[below(m)] = (int32_t)m + 1;
    return one_in(12) ? below(m + 2) : m;
}

static void apply_case(void)
{
    static struct collection c, placed;
    int32_t places[STRINGS] = {0}, from[STRINGS];
    some_collection(&c);
    struct expected e = judge(&c);
    size_t m = e.number ? below(7) : c.ends_count, N = e.number ? below(50) : c.letters_count, n = e.number ? below(50) : c.weights_count;
    size_t count = some_places(places, m);
    struct table t[] = {
        lend_output(room_for(N), 1, N, placed.letter_table), lend_output(room_for(m), sizeof(uint32_t), m, placed.end_table),
        lend_output(room_for(n), sizeof(uint32_t), n, placed.weight_table), lend_work(room_for(m), m)};
    struct table answer = lend_answer();
    if (!e.number && (t[0].count < N || t[1].count < m || t[2].count < n || t[3].count < m))
        e = refuse(1, 0);
    if (!e.number)
        e = judge_places(places, count, m);
    if (!e.number && order_of(places, m, from)) {
        reorder(&c, from, &placed);
        e = (struct expected){.values = 3, .value = {N, m, n}};
    }
    uint32_t number = corrivume_apply(c.k, COLLECTION(c), count || one_in(2) ? places : NULL, count, TABLE(t[0]), TABLE(t[1]), TABLE(t[2]), TABLE(t[3]), TABLE(answer));
    hold(APPLY, number, e, &answer, t, 4);
}

static void runs_case(void)
{
    static struct collection c;
    some_collection(&c);
    struct expected e = judge(&c);
    size_t runs = e.number ? below(30) : list_runs(&c, list_weights, list_firsts);
    struct table t[] = {lend_output(room_for(runs), sizeof(uint32_t), runs, list_weights), lend_output(room_for(runs), sizeof(uint32_t), runs, list_firsts)};
    struct table answer = lend_answer();
    if (!e.number && (t[0].count < runs || t[1].count < runs))
        e = refuse(1, 0);
    if (!e.number)
        e = (struct expected){.values = 1, .value = {runs}};
    uint32_t number = corrivume_runs(c.k, COLLECTION(c), TABLE(t[0]), TABLE(t[1]), TABLE(answer));
    hold(RUNS, number, e, &answer, t, 2);
}

/* ---- lookups --------------------------------------------------------- */

struct run_list {
    uint32_t weights[LETTERS], firsts[LETTERS];
    size_t weights_count, firsts_count, n;
};

static void some_run_list(const struct collection *c, struct run_list *l)
{
    l->weights_count = l->firsts_count = list_runs(c, l->weights, l->firsts);
    l->n = c->weights_count;
    size_t at = l->weights_count ? below(l->weights_count) : 0;
    switch (below(10)) {
    case 0:
        l->firsts[at] = (uint32_t)(one_in(2) ? chance() : below(l->n + 2));
        break;
    case 1:
        l->weights[at] = one_in(2) ? HIGHEST + 1 : (uint32_t)chance();
        break;
    case 2:
        l->weights[at] = at ? l->weights[at - 1] : 0;
        break;
    case 3:
        l->firsts_count = below(l->firsts_count + 1);
        break;
    case 4:
        l->n = one_in(3) ? 1048577 : one_in(2) ? SIZE_MAX : below(l->n + 1);
        break;
    }
}

static bool is_run_list(const struct run_list *l)
{
    if (l->weights_count != l->firsts_count || l->n > 1048576 || (l->n == 0) != (l->weights_count == 0))
        return false;
    for (size_t i = 0; i < l->weights_count; i++) {
        if (l->weights[i] < 1 || l->weights[i] > HIGHEST || l->firsts[i] > l->n)
            return false;
        if (i == 0 ? l->firsts[0] != 1 : l->firsts[i] <= l->firsts[i - 1] || l->weights[i] == l->weights[i - 1])
            return false;
    }
    return true;
}

static struct expected judge_weight(const struct run_list *l, size_t handle)
{
    struct expected e = {.values = 1};
    if (!is_run_list(l))
        return refuse(12, 0);
    if (handle < 1 || handle > l->n)
        return refuse(9, 0);
    for (size_t i = 0; i < l->weights_count; i++)
        if (l->firsts[i] <= handle)
            e.value[0] = l->weights[i];
    return e;
}

static size_t some_handle(size_t n) { return one_in(20) ? (size_t)chance() : one_in(20) ? SIZE_MAX : below(n + 2); }

static void weight_case(void)
{
    static struct collection c;
    static struct run_list l;
    good(&c);
    some_run_list(&c, &l);
    size_t handle = some_handle(c.weights_count);
    struct table answer = lend_answer();
    uint32_t number = corrivume_weight(l.weights, l.weights_count, l.firsts, l.firsts_count, l.n, handle, TABLE(answer));
    hold(WEIGHT, number, judge_weight(&l, handle), &answer, NULL, 0);
}

static void access_case(void)
{
    static struct collection c;
    some_collection(&c);
    struct expected e = judge_shape(&c);
    size_t n = e.number ? below(50) : kmers(&c), handle = some_handle(n);
    if (!e.number)
        e = handle < 1 || handle > n ? refuse(9, 0) : (struct expected){.values = 2, .value = {position(&c, handle), c.k}};
    struct table answer = lend_answer();
    uint32_t number = corrivume_access(c.k, c.letters, c.letters_count, c.ends, c.ends_count, handle, TABLE(answer));
    hold(ACCESS, number, e, &answer, NULL, 0);
}

/* A word of the collection, perhaps turned, or another; its length. */
static size_t some_word(const struct collection *c, uint8_t *word)
{
    size_t k = c->k >= 3 && c->k <= 31 ? c->k : 3;
    for (size_t i = 0; i < 33; i++)
        word[i] = (uint8_t)"ACGT"[below(4)];
    if (!one_in(3) && c->letters == c->letter_table && c->letters_count >= k) {
        const uint8_t *there = c->letters + below(c->letters_count - k + 1);
        if (one_in(2))
            turn(there, k, word);
        else
            memcpy(word, there, k);
    }
    if (one_in(8))
        word[below(k)] = (uint8_t)chance();
    return one_in(10) ? below(33) : k;
}

static bool is_word(const struct collection *c, const uint8_t *word, size_t count)
{
    for (size_t i = 0; i < count; i++)
        if (!is_letter(word[i]))
            return false;
    return count == c->k;
}

static struct expected judge_plain(const struct collection *c, const uint8_t *word, size_t count)
{
    struct expected e = judge(c);
    uint8_t turned[31];
    if (e.number)
        return e;
    if (!is_word(c, word, count))
        return refuse(9, 0);
    turn(word, count, turned);
    size_t asked = lowest(c, word, kmers(c) + 1), back = lowest(c, turned, kmers(c) + 1);
    return (struct expected){.values = 2, .value = {asked ? asked : back, !asked && back}};
}

static void plain_case(void)
{
    static struct collection c;
    uint8_t word[33];
    some_collection(&c);
    size_t count = some_word(&c, word);
    struct table answer = lend_answer();
    uint32_t number = corrivume_plain(c.k, COLLECTION(c), count || one_in(2) ? word : NULL, count, TABLE(answer));
    hold(PLAIN, number, judge_plain(&c, word, count), &answer, NULL, 0);
}

/* ---- the index ------------------------------------------------------- */

struct index {
    size_t p, firsts_count, positions_count, numbers_count, before_count;
    uint32_t firsts[LETTERS], positions[LETTERS], numbers[LETTERS], before[65537];
};

static size_t some_p(size_t k)
{
    static const size_t wrong[] = {0, 9, 10, SIZE_MAX};
    return one_in(20) ? wrong[below(4)] : one_in(20) ? 1 + below(8) : 1 + below(k < 4 ? 3 : 4);
}

static bool is_p(size_t p, size_t k) { return p >= 1 && p <= 8 && p <= k; }

/* The index of a collection, row by row. */
static void build_index(const struct collection *c, size_t p, struct index *x)
{
    size_t rows = (size_t)1 << (2 * p), count = 0;
    x->p = p;
    for (size_t row = 0; row < rows; row++) {
        size_t start = 0, handle = 0;
        x->before[row] = (uint32_t)count;
        for (size_t i = 0; i < c->ends_count; i++) {
            bool open = false;
            for (size_t a = start; a + c->k <= c->ends[i]; a++) {
                handle++;
                bool here = minimizer(c->letters + a, c->k, p) == row;
                if (here && open)
                    x->numbers[count - 1]++;
                else if (here) {
                    x->firsts[count] = (uint32_t)handle;
                    x->positions[count] = (uint32_t)a;
                    x->numbers[count++] = 1;
                }
                open = here;
            }
            start = c->ends[i];
        }
    }
    x->before[rows] = (uint32_t)count;
    x->firsts_count = x->positions_count = x->numbers_count = count;
    x->before_count = rows + 1;
}

static struct index built;

static void index_case(void)
{
    static struct collection c;
    some_collection(&c);
    size_t p = some_p(c.k);
    struct expected e = c.k < 3 || c.k > 31 || !is_p(p, c.k) ? refuse(2, 0) : judge(&c);
    size_t n = e.number ? below(20) : kmers(&c), count = e.number ? below(20) : stretches(&c, p), starts = e.number ? below(70) : ((size_t)1 << (2 * p)) + 1;
    struct table t[] = {
        lend_output(room_for(count), sizeof(uint32_t), count, NULL), lend_output(room_for(count), sizeof(uint32_t), count, NULL),
        lend_output(room_for(count), sizeof(uint32_t), count, NULL), lend_output(room_for(starts), sizeof(uint32_t), starts, NULL), lend_work(room_for(4 * n), 4 * n)};
    struct table answer = lend_answer();
    if (!e.number && (t[0].count < count || t[1].count < count || t[2].count < count || t[3].count < starts || t[4].count < 4 * n))
        e = refuse(1, 0);
    if (!e.number) {
        size_t repeat = first_repeat(&c);
        e = repeat ? refuse(7, repeat) : (struct expected){.values = 2, .value = {count, starts}};
    }
    if (!e.number && p <= 2) {
        build_index(&c, p, &built);
        t[0].content = built.firsts;
        t[1].content = built.positions;
        t[2].content = built.numbers;
        t[3].content = built.before;
    }
    uint32_t number = corrivume_index(c.k, p, COLLECTION(c), TABLE(t[0]), TABLE(t[1]), TABLE(t[2]), TABLE(t[3]), TABLE(t[4]), TABLE(answer));
    hold(INDEX, number, e, &answer, t, 5);
}

static void damage_index(struct index *x)
{
    uint32_t *tables[] = {x->firsts, x->positions, x->numbers};
    size_t *counts[] = {&x->firsts_count, &x->positions_count, &x->numbers_count, &x->before_count};
    size_t i = below(3), at = x->firsts_count ? below(x->firsts_count) : 0;
    switch (below(6)) {
    case 0:
        *counts[below(4)] = below(x->firsts_count + 1);
        break;
    case 1:
        tables[i][at] = (uint32_t)(one_in(2) ? chance() : 0);
        break;
    case 2:
        tables[i][at] += (uint32_t)below(60);
        break;
    case 3:
        if (x->before_count)
            x->before[below(x->before_count)] += (uint32_t)below(5) - 2;
        break;
    case 4:
        for (size_t j = 0; j < x->firsts_count; j++)
            tables[i][j] = (uint32_t)below(40);
        break;
    default:
        for (size_t j = 0; j < x->before_count; j++)
            x->before[j] = (uint32_t)(one_in(9) ? chance() : below(x->firsts_count + 1));
    }
}

static bool row_fits(const struct index *x, size_t row, size_t k, size_t letters)
{
    uint64_t start = x->before[row], end = x->before[row + 1];
    if (start > end || end > x->firsts_count)
        return false;
    for (uint64_t i = start; i < end; i++) {
        uint64_t first = x->firsts[i], number = x->numbers[i], at = x->positions[i];
        if (!first || !number || first + number - 1 > 1048576 || at + number + k - 1 > letters)
            return false;
    }
    return true;
}

static struct expected judge_quick(const struct collection *c, const struct index *x, size_t p, const uint8_t *word, size_t count)
{
    uint8_t turned[31];
    struct expected e = {.values = 3, .open = true};
    if (c->k < 3 || c->k > 31 || !is_p(p, c->k))
        return refuse(2, 0);
    if (c->letters_count > 1048576)
        return refuse(3, 0);
    if (!is_word(c, word, count))
        return refuse(9, 0);
    turn(word, count, turned);
    bool fits = x->before_count == ((size_t)1 << (2 * p)) + 1 && x->firsts_count == x->positions_count && x->firsts_count == x->numbers_count;
    if (!fits || !row_fits(x, minimizer(word, c->k, p), c->k, c->letters_count) || !row_fits(x, minimizer(turned, c->k, p), c->k, c->letters_count))
        return refuse(10, 0);
    return e;
}

/* A question: a collection, its index and a word, each perhaps damaged; whether none was. */
static bool some_question(struct collection *c, size_t *p, uint8_t *word, size_t *count)
{
    good(c);
    *p = 1 + below(3);
    build_index(c, *p, &built);
    bool whole = one_in(2);
    if (!whole && one_in(3)) {
        damage(c);
        *p = some_p(c->k);
    }
    for (size_t i = whole ? 0 : below(3); i > 0; i--)
        damage_index(&built);
    *count = some_word(c, word);
    return whole;
}

#define INDEX_TABLES(x) (x).firsts, (x).firsts_count, (x).positions, (x).positions_count, (x).numbers, (x).numbers_count, (x).before, (x).before_count

static void quick_case(void)
{
    static struct collection c;
    uint8_t word[33];
    size_t p, count;
    bool whole = some_question(&c, &p, word, &count);
    struct expected e = judge_quick(&c, &built, p, word, count);
    struct table answer = lend_answer();
    uint32_t number = corrivume_quick(c.k, p, count || one_in(2) ? word : NULL, count, c.letters, c.letters_count, INDEX_TABLES(built), TABLE(answer));
    if (answer.count >= CORRIVUME_ANSWER && e.open && number)
        fail(QUICK, "refused");
    if (!number && whole) {
        struct expected plain = judge_plain(&c, word, count);
        if (memcmp(answer.bytes, plain.value, 2 * sizeof(uint64_t)) != 0)
            fail(QUICK, "handle and side");
    }
    hold(QUICK, number, e, &answer, NULL, 0);
}

static void weigh_case(void)
{
    static struct collection c;
    static struct run_list l;
    uint8_t word[33];
    size_t p, count;
    bool whole = some_question(&c, &p, word, &count);
    some_run_list(&c, &l);
    struct expected e = judge_quick(&c, &built, p, word, count);
    e.values = 2;
    if (!e.number && whole) {
        struct expected plain = judge_plain(&c, word, count), weight = judge_weight(&l, plain.value[0]);
        e = !plain.value[0] ? (struct expected){.values = 2} : weight.number ? weight : (struct expected){.values = 2, .value = {1, weight.value[0]}};
    }
    struct table answer = lend_answer();
    uint32_t number = corrivume_weigh(c.k, p, count || one_in(2) ? word : NULL, count, c.letters, c.letters_count, INDEX_TABLES(built), l.weights, l.weights_count, l.firsts, l.firsts_count, l.n, TABLE(answer));
    if (answer.count >= CORRIVUME_ANSWER && e.open && number && number != 9 && number != 12)
        fail(WEIGH, "refused");
    hold(WEIGH, number, e, &answer, NULL, 0);
}

/* ---- all of them ----------------------------------------------------- */

/* The numbers that each call must have given, 0 among them. */
static const uint32_t numbers_of[CALLS] = {
    [READ] = 1 << 0 | 1 << 1 | 1 << 2 | 1 << 3 | 1 << 11,
    [WRITE] = 0x7f,
    [CHECK] = 0xff,
    [COVER] = 0x7f,
    [APPLY] = 0x17f,
    [RUNS] = 0x7f,
    [WEIGHT] = 1 << 0 | 1 << 9 | 1 << 12,
    [ACCESS] = 0x1d | 1 << 9,
    [PLAIN] = 0x7d | 1 << 9,
    [INDEX] = 0xff,
    [QUICK] = 1 << 0 | 1 << 2 | 1 << 3 | 1 << 9 | 1 << 10,
    [WEIGH] = 1 << 0 | 1 << 2 | 1 << 3 | 1 << 9 | 1 << 10 | 1 << 12,
};

int main(int argc, char **argv)
{
    static void (*const cases[CALLS])(void) = {read_case, write_case, check_case, cover_case, apply_case, runs_case, weight_case, access_case, plain_case, index_case, quick_case, weigh_case};
    uint64_t count = argc > 1 ? strtoull(argv[1], NULL, 10) : 480000, refused = 0;
    state = (argc > 2 ? strtoull(argv[2], NULL, 10) : 0) * 2 + UINT64_C(88172645463325253);
    memset(large_letters, 'A', sizeof large_letters);
    for (case_number = 1; case_number <= count; case_number++)
        cases[case_number % CALLS]();
    for (size_t i = 0; i < 16; i++)
        large_sheet_case(one_in(2));
    for (size_t call = 0; call < CALLS; call++) {
        printf("%s", call_names[call]);
        for (size_t number = 0; number < 13; number++) {
            if (met[call][number])
                printf("\t%zu: %" PRIu64, number, met[call][number]);
            if (!met[call][number] != !(numbers_of[call] >> number & 1))
                fail((enum call)call, "a number that it must give is missing, or one that it must not give is there");
            refused += number ? met[call][number] : 0;
        }
        puts("");
    }
    printf("%" PRIu64 " cases, %" PRIu64 " refused, %" PRIu64 " with too short an answer table\n", count, refused, short_answers);
    return 0;
}
