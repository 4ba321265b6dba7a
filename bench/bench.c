/*
 * Times the calls of the library, and the same calls written by hand in C (native.c), on the same random traces. Before
 * that, it compares all answers and all lent memory of the two.
 *
 *     bench                          compares, then times; exit code 1 if there is a difference
 *     bench --compare                only compares
 *     bench --pass FAMILY P TRACES   each call once per trace, n = 1,024, for bench/instructions to count
 */
#define _POSIX_C_SOURCE 200809L

#include <stdio.h>
#include <stdlib.h>
#include <string.h>
#include <time.h>

#include "mersohki.h"
#include "native.h"

#ifndef BENCH_FLAGS
#define BENCH_FLAGS "not said"
#endif

#ifdef __clang__
#define COMPILER __VERSION__
#else
#define COMPILER "gcc " __VERSION__
#endif

enum {
    POST = 1, WAIT = 2, READ = 3, WRITE = 4,
    RECORDS = 65536,       /* of all traces of a cell: so there are RECORDS / n of them */
    MOST_TRACES = 1024,
    DAMAGED = 6000,        /* files of each sort that are only compared */
    SMALL = 48,            /* operations that these have at most */
    MORE = 8,              /* bytes that they may be too long by */
    GUARD = 16,            /* elements behind lent memory that must stay as they were */
    LIST = MERSOHKI_MAX_OPERATIONS + GUARD, /* numbers that a list of the beginning has at most */
    VISITS = 3,
    FEWEST_ROUNDS = 3,     /* of a visit */
    MOST_PASSES = 1000     /* of all visits */
};

static const double VISIT_SECONDS = 0.1, SLOW_SECONDS = 0.5;
static const uint32_t sizes[] = {64, 128, 256, 512, 1024};
static const uint32_t worker_counts[] = {16, 4};
enum { SIZES = 5, WORKER_COUNTS = 2 };

/* Random numbers: splitmix64 */

struct random {
    uint64_t state;
};

static uint64_t next(struct random *r)
{
    uint64_t z = r->state += 0x9e3779b97f4a7c15;
    z = (z ^ z >> 30) * 0xbf58476d1ce4e5b9;
    z = (z ^ z >> 27) * 0x94d049bb133111eb;
    return z ^ z >> 31;
}

/* A number below `count` */
static uint32_t below(struct random *r, uint32_t count)
{
    return (uint32_t)((next(r) >> 32) * count >> 32);
}

static int chance(struct random *r, uint32_t percent)
{
    return below(r, 100) < percent;
}

/* Traces */

struct list {
    const uint16_t *numbers;
    size_t length;
};

struct input {
    size_t length;
    uint32_t a, b;             /* the pair whose order is asked */
    uint32_t left, right;      /* an unordered pair, for the two runs */
    uint32_t chosen, other;    /* what the beginning is asked of, */
    struct list first, second; /* and in which lists: those two runs */
    uint32_t races;
    uint8_t *file;
};

enum family { DENSE, SPARSE, ORDERED, FAMILIES };
static const char *const family_names[FAMILIES] = {"dense", "sparse", "ordered"};

static void put(struct input *in, uint32_t worker, uint32_t kind, uint32_t number, uint32_t length)
{
    uint8_t *to = in->file + in->length;
    const uint8_t record[10] = {0x50, 0x57, (uint8_t)worker, (uint8_t)kind,
                                (uint8_t)number, (uint8_t)(number >> 8), (uint8_t)(number >> 16),
                                (uint8_t)(number >> 24), (uint8_t)length, (uint8_t)(length >> 8)};
    memcpy(to, record, sizeof record);
    in->length += sizeof record;
}

static void put_access(struct random *r, struct input *in, uint32_t worker, uint32_t writes, uint32_t cells,
                       uint32_t longest)
{
    put(in, worker, chance(r, writes) ? WRITE : READ, below(r, cells), 1 + below(r, longest));
}

/* Events of a trace in the making: the posted ones, so that a Wait can follow its Post in the file. */
struct events {
    uint32_t count;
    uint8_t posted[MERSOHKI_MAX_OPERATIONS];
};

static void put_sync(struct random *r, struct input *in, uint32_t worker, uint32_t events, struct events *e)
{
    if (e->count == 0 || chance(r, 50)) {
        uint8_t event = (uint8_t)below(r, events);
        e->posted[e->count++] = event;
        put(in, worker, POST, event, 0);
    } else {
        put(in, worker, WAIT, e->posted[below(r, e->count)], 0);
    }
}

/* Random workers take turns. dense: 2 percent Posts and Waits of 4 events, the accesses on 9 cells, mostly Writes.
 * sparse: 30 percent Posts and Waits of 128 events, short accesses on a million cells. */
static void make_mixed(struct random *r, struct input *in, uint32_t n, uint32_t p, enum family family)
{
    struct events e = {0};
    for (uint32_t k = 0; k < n; k++) {
        uint32_t worker = below(r, p);
        if (chance(r, family == DENSE ? 2 : 30))
            put_sync(r, in, worker, family == DENSE ? 4 : 128, &e);
        else if (family == DENSE)
            put_access(r, in, worker, 85, 4, 6);
        else
            put_access(r, in, worker, 50, 1u << 20, 256);
    }
}

/* One worker at a time has the floor: it waits for its turn, accesses cells, and posts the next turn; all turns are
 * different events. One access in twenty is another worker's, out of turn. */
static void make_ordered(struct random *r, struct input *in, uint32_t n, uint32_t p)
{
    uint32_t worker = below(r, p), turn = 0, left = 1 + below(r, 4), waits = 0;
    for (uint32_t k = 0; k < n; k++) {
        if (waits) {
            put(in, worker, WAIT, turn++, 0);
            waits = 0;
        } else if (left == 0 && turn < 256) {
            put(in, worker, POST, turn, 0);
            worker = (worker + 1 + below(r, p - 1)) % p;
            left = 1 + below(r, 4);
            waits = 1;
        } else {
            put_access(r, in, chance(r, 5) ? below(r, p) : worker, 50, 16, 4);
            left -= left != 0;
        }
    }
}

static void make_trace(struct random *r, struct input *in, enum family family, uint32_t n, uint32_t p)
{
    in->length = 0;
    put(in, p, 0, n, 0);
    if (family == ORDERED && p > 1)
        make_ordered(r, in, n, p);
    else
        make_mixed(r, in, n, p, family);
}

/* Chooses a random pair, and an unordered one; answers 0 if none of many is unordered. */
static int choose_pairs(struct random *r, struct input *in, uint32_t n)
{
    in->a = below(r, n);
    in->b = (in->a + 1 + below(r, n - 1)) % n;
    for (int i = 0; i < 10000; i++) {
        in->left = below(r, n);
        in->right = below(r, n);
        struct mersohki_order_result order = native_pair_order(in->file, in->length, in->left, in->right);
        if (order.number == 0 && order.sign == 0)
            return 1;
    }
    return 0;
}

static struct input inputs[MOST_TRACES], racing[MOST_TRACES]; /* racing: those that have a race */
static uint32_t input_count, racing_count;
static uint8_t files[10 * (RECORDS + MOST_TRACES)];
static uint16_t runs[2 * RECORDS];

/* Writes the two runs of the unordered pair, as the lists of the beginning; answers 0 if there are none. If `left` is
 * chosen, the first list has its beginning; otherwise only the second has it, and the first is looked at in vain. */
static int write_runs(struct input *in, uint16_t *first, uint16_t *second, size_t space, int choose_left)
{
    struct mersohki_runs_result r =
        native_two_runs(in->file, in->length, in->left, in->right, first, space, second, space);
    if (r.number != 0)
        return 0;
    in->first = (struct list){first, r.operations};
    in->second = (struct list){second, r.operations};
    in->chosen = choose_left ? in->left : in->right;
    in->other = choose_left ? in->right : in->left;
    return 1;
}

static uint32_t count_races(const struct input *in);

/* Makes the traces of a cell, one behind the other: the same ones whenever it is asked for. */
static void make_inputs(enum family family, uint32_t n, uint32_t p, uint32_t count)
{
    struct random r = {1000003 * (uint64_t)n + 101 * p + family};
    input_count = count;
    racing_count = 0;
    for (uint32_t i = 0; i < count; i++) {
        inputs[i].file = files + (size_t)i * 10 * (n + 1);
        do
            make_trace(&r, &inputs[i], family, n, p);
        while (!choose_pairs(&r, &inputs[i], n));
        write_runs(&inputs[i], runs + (size_t)n * 2 * i, runs + (size_t)n * (2 * i + 1), n, i % 2 == 0);
        inputs[i].races = count_races(&inputs[i]);
        if (inputs[i].races != 0)
            racing[racing_count++] = inputs[i];
    }
}

/* The calls, all of one type */

struct memory {
    size_t table_length, first_length, second_length, output_length;
    uint16_t table[MERSOHKI_MAX_TABLE + GUARD];
    uint16_t first[MERSOHKI_MAX_RACES + GUARD], second[MERSOHKI_MAX_RACES + GUARD];
    uint8_t output[MERSOHKI_MAX_FILE + GUARD];
};

/* Of any call; of the beginning, `place` is the list, and `value` the length. */
struct answer {
    uint32_t number, place, workers, operations;
    int64_t value;
};

typedef struct answer call(const struct input *in, struct memory *m);

#define DEFINE_CALLS(side)                                                                                            \
    static struct answer side##_read_call(const struct input *in, struct memory *m)                                   \
    {                                                                                                                 \
        (void)m;                                                                                                      \
        struct mersohki_accept_result r = side##_accept(in->file, in->length);                                        \
        return (struct answer){r.number, r.place, r.workers, r.operations, 0};                                        \
    }                                                                                                                 \
    static struct answer side##_table_call(const struct input *in, struct memory *m)                                  \
    {                                                                                                                 \
        struct mersohki_table_result r = side##_order_table(in->file, in->length, m->table, m->table_length);         \
        return (struct answer){r.number, r.place, r.workers, r.operations, 0};                                        \
    }                                                                                                                 \
    static struct answer side##_order_call(const struct input *in, struct memory *m)                                  \
    {                                                                                                                 \
        (void)m;                                                                                                      \
        struct mersohki_order_result r = side##_pair_order(in->file, in->length, in->a, in->b);                       \
        return (struct answer){r.number, r.place, 0, 0, r.sign};                                                      \
    }                                                                                                                 \
    static struct answer side##_runs_call(const struct input *in, struct memory *m)                                   \
    {                                                                                                                 \
        struct mersohki_runs_result r = side##_two_runs(in->file, in->length, in->left, in->right,                    \
                                                        m->first, m->first_length, m->second, m->second_length);      \
        return (struct answer){r.number, r.place, 0, r.operations, 0};                                                \
    }                                                                                                                 \
    static struct answer side##_beginning_call(const struct input *in, struct memory *m)                              \
    {                                                                                                                 \
        (void)m;                                                                                                      \
        struct mersohki_beginning_result r = side##_beginning(in->first.numbers, in->first.length,                    \
                                                              in->second.numbers, in->second.length,                  \
                                                              in->chosen, in->other);                                 \
        return (struct answer){0, r.list, 0, 0, (int64_t)r.length};                                                   \
    }                                                                                                                 \
    static struct answer side##_races_call(const struct input *in, struct memory *m)                                  \
    {                                                                                                                 \
        struct mersohki_races_result r = side##_races(in->file, in->length, m->table, m->table_length,                \
                                                      m->first, m->first_length, m->second, m->second_length);        \
        return (struct answer){r.number, r.place, r.workers, r.operations, r.races};                                  \
    }                                                                                                                 \
    static struct answer side##_fit_call(const struct input *in, struct memory *m)                                    \
    {                                                                                                                 \
        struct mersohki_races_result r = side##_races(in->file, in->length, m->table, m->table_length,                \
                                                      m->first, in->races, m->second, in->races);                     \
        return (struct answer){r.number, r.place, r.workers, r.operations, r.races};                                  \
    }                                                                                                                 \
    /* Only of traces that have a race */                                                                             \
    static struct answer side##_short_call(const struct input *in, struct memory *m)                                  \
    {                                                                                                                 \
        struct mersohki_races_result r = side##_races(in->file, in->length, m->table, m->table_length,                \
                                                      m->first, in->races - 1, m->second, in->races - 1);             \
        return (struct answer){r.number, r.place, r.workers, r.operations, r.races};                                  \
    }                                                                                                                 \
    static struct answer side##_tidy_call(const struct input *in, struct memory *m)                                   \
    {                                                                                                                 \
        struct mersohki_canonical_result r = side##_canonical(in->file, in->length, m->output, m->output_length);     \
        return (struct answer){r.number, r.place, 0, 0, r.size};                                                      \
    }                                                                                                                 \
    static call *const side##_calls[CALLS] = {side##_read_call, side##_table_call,     side##_order_call,             \
                                              side##_runs_call, side##_beginning_call, side##_races_call,             \
                                              side##_fit_call,  side##_short_call,     side##_tidy_call};

/* The races three times: with lists that hold any number of them, with lists that just hold those of the trace, and
 * with lists that are one too short, which 16 refuses. */
enum { READ_FILE, TABLE, PAIR_ORDER, TWO_RUNS, BEGINNING, RACES, RACES_FIT, RACES_SHORT, TIDY, CALLS };
static const char *const call_names[CALLS] = {"read",  "order table", "pair order",       "two runs", "beginning",
                                              "races", "races, fit",  "races refused 16", "tidy file"};

DEFINE_CALLS(mersohki)
DEFINE_CALLS(native)

/* Comparing */

static struct memory ours, theirs;

static uint32_t count_races(const struct input *in)
{
    return native_races(in->file, in->length, theirs.table, MERSOHKI_MAX_TABLE, theirs.first, MERSOHKI_MAX_RACES,
                        theirs.second, MERSOHKI_MAX_RACES).races;
}

static void lend(struct memory *m, size_t table, size_t first, size_t second, size_t output)
{
    m->table_length = table;
    m->first_length = first;
    m->second_length = second;
    m->output_length = output;
}

static void fill(struct memory *m)
{
    memset(m->table, 0xa5, (m->table_length + GUARD) * sizeof *m->table);
    memset(m->first, 0xa5, (m->first_length + GUARD) * sizeof *m->first);
    memset(m->second, 0xa5, (m->second_length + GUARD) * sizeof *m->second);
    memset(m->output, 0xa5, m->output_length + GUARD);
}

static int same_memory(const struct memory *x, const struct memory *y)
{
    return memcmp(x->table, y->table, (x->table_length + GUARD) * sizeof *x->table) == 0 &&
           memcmp(x->first, y->first, (x->first_length + GUARD) * sizeof *x->first) == 0 &&
           memcmp(x->second, y->second, (x->second_length + GUARD) * sizeof *x->second) == 0 &&
           memcmp(x->output, y->output, x->output_length + GUARD) == 0;
}

/* What a call may only read, as it was before the call */
struct copy {
    uint8_t file[MERSOHKI_MAX_FILE + MORE];
    uint16_t first[LIST], second[LIST];
};

static void copy_input(struct copy *copy, const struct input *in)
{
    memcpy(copy->file, in->file, in->length);
    memcpy(copy->first, in->first.numbers, in->first.length * sizeof *copy->first);
    memcpy(copy->second, in->second.numbers, in->second.length * sizeof *copy->second);
}

static int same_input(const struct copy *copy, const struct input *in)
{
    return memcmp(copy->file, in->file, in->length) == 0 &&
           memcmp(copy->first, in->first.numbers, in->first.length * sizeof *copy->first) == 0 &&
           memcmp(copy->second, in->second.numbers, in->second.length * sizeof *copy->second) == 0;
}

static int same_answer(const struct answer *x, const struct answer *y)
{
    return x->number == y->number && x->place == y->place && x->workers == y->workers &&
           x->operations == y->operations && x->value == y->value;
}

/* What was compared: calls, and how many of them refused with each number */
struct tally {
    unsigned long calls, refused[256], different;
};

static void report_difference(const struct input *in, int which, const struct answer *x, const struct answer *y)
{
    printf("different: %s, %zu bytes, pairs %u %u and %u %u, lists of %zu and %zu, chosen %u, other %u, races %u: "
           "library %u %u %u %u %lld, native %u %u %u %u %lld\n",
           call_names[which], in->length, in->a, in->b, in->left, in->right, in->first.length, in->second.length,
           in->chosen, in->other, in->races,
           x->number, x->place, x->workers, x->operations, (long long)x->value,
           y->number, y->place, y->workers, y->operations, (long long)y->value);
    for (size_t i = 0; i < in->length && i < 10 + 10 * SMALL; i++)
        printf("%02x%s", in->file[i], i % 10 == 9 ? "\n" : " ");
    printf("\n");
}

static void compare_call(const struct input *in, int which, struct tally *tally)
{
    static struct copy before;
    copy_input(&before, in);
    fill(&ours);
    fill(&theirs);
    struct answer x = mersohki_calls[which](in, &ours), y = native_calls[which](in, &theirs);
    tally->calls++;
    tally->refused[y.number]++;
    if (same_answer(&x, &y) && same_memory(&ours, &theirs) && same_input(&before, in))
        return;
    tally->different++;
    if (tally->different <= 5)
        report_difference(in, which, &x, &y);
}

/* A length to lend where `need` is enough: mostly just that or a little more, else too little, or nothing. */
static size_t some_length(struct random *r, size_t need)
{
    switch (below(r, 8)) {
    case 0:
        return need == 0 ? 0 : need - 1;
    case 1:
        return below(r, (uint32_t)need + 1);
    case 2:
        return 0;
    default:
        return need + below(r, GUARD / 2) * chance(r, 50);
    }
}

static size_t at_most(size_t length, size_t most)
{
    return length < most ? length : most;
}

static void lend_both(struct random *r, size_t table, size_t list, size_t output)
{
    size_t first = some_length(r, list), second = some_length(r, list);
    table = at_most(some_length(r, table), MERSOHKI_MAX_TABLE);
    first = at_most(first, MERSOHKI_MAX_RACES);
    second = at_most(second, MERSOHKI_MAX_RACES);
    output = at_most(some_length(r, output), MERSOHKI_MAX_FILE);
    lend(&ours, table, first, second, output);
    lend(&theirs, table, first, second, output);
}

/* Compares all calls on one file: with just the memory they need, or with random lengths of memory. The lists that are
 * one too short are so in both cases. */
static void compare_file(struct random *r, const struct input *in, int exactly, struct tally *tally)
{
    lend(&theirs, MERSOHKI_MAX_TABLE, MERSOHKI_MAX_RACES, MERSOHKI_MAX_RACES, MERSOHKI_MAX_FILE);
    struct answer whole = native_races_call(in, &theirs);
    size_t table = (size_t)whole.operations * whole.workers;
    for (int which = 0; which < CALLS; which++) {
        if (which == RACES_FIT || (which == RACES_SHORT && in->races == 0))
            continue;
        size_t list = which == RACES || which == RACES_SHORT ? (size_t)whole.value : whole.operations;
        if (exactly || which == RACES_SHORT) {
            lend(&ours, table, list, list, in->length);
            lend(&theirs, table, list, list, in->length);
        } else {
            lend_both(r, table, list, at_most(in->length, MERSOHKI_MAX_FILE));
        }
        compare_call(in, which, tally);
    }
}

/* Compares the beginning with the chosen number and the other exchanged. */
static void compare_exchanged(const struct input *in, struct tally *tally)
{
    struct input exchanged = *in;
    exchanged.chosen = in->other;
    exchanged.other = in->chosen;
    compare_call(&exchanged, BEGINNING, tally);
}

static void compare_families(struct tally *tally)
{
    struct random r = {7};
    for (uint32_t p = 0; p < WORKER_COUNTS; p++)
        for (int family = 0; family < FAMILIES; family++)
            for (uint32_t i = 0; i < SIZES; i++) {
                make_inputs(family, sizes[i], worker_counts[p], RECORDS / sizes[i]);
                for (uint32_t j = 0; j < RECORDS / sizes[i]; j++) {
                    compare_file(&r, &inputs[j], 1, tally);
                    compare_exchanged(&inputs[j], tally);
                    lend(&ours, MERSOHKI_MAX_TABLE, MERSOHKI_MAX_RACES, MERSOHKI_MAX_RACES, MERSOHKI_MAX_FILE);
                    lend(&theirs, MERSOHKI_MAX_TABLE, MERSOHKI_MAX_RACES, MERSOHKI_MAX_RACES, MERSOHKI_MAX_FILE);
                    compare_call(&inputs[j], RACES, tally);
                }
            }
}

/* A pair for a file of n operations: mostly of the file, sometimes equal or outside */
static void any_pair(struct random *r, uint32_t n, uint32_t *a, uint32_t *b)
{
    *a = chance(r, 95) ? below(r, n + 1) : (uint32_t)next(r);
    *b = chance(r, 95) ? below(r, n + 1) : *a;
}

/* A number to look for in a list of numbers below `count`, sometimes with a bit that none of them has */
static uint32_t any_number(struct random *r, uint32_t count)
{
    return chance(r, 5) ? 65536 + below(r, count) : below(r, count);
}

/* Lists for the beginning: random numbers, many of them equal, and sometimes one list twice; or the two runs, if there
 * are any. Behind a list lie other numbers of its sort, so that a look at them can be noticed. */
static void any_lists(struct random *r, struct input *in, uint32_t n)
{
    static uint16_t first[LIST], second[LIST];
    uint32_t count = 1 + below(r, 3 * n + 1);
    for (uint32_t i = 0; i < n + GUARD; i++) {
        first[i] = (uint16_t)below(r, count);
        second[i] = (uint16_t)below(r, count);
    }
    in->first = (struct list){first, some_length(r, n)};
    in->second = chance(r, 10) ? in->first : (struct list){second, some_length(r, n)};
    in->chosen = any_number(r, count);
    in->other = any_number(r, count);
    if (chance(r, 50))
        write_runs(in, first, second, MERSOHKI_MAX_OPERATIONS, chance(r, 50));
}

/* All that is asked of a file of n operations */
static void any_questions(struct random *r, struct input *in, uint32_t n)
{
    any_pair(r, n, &in->a, &in->b);
    any_pair(r, n, &in->left, &in->right);
    any_lists(r, in, n);
    in->races = count_races(in);
}

/* Random operations, which may be stuck */
static void make_any(struct random *r, struct input *in, uint32_t n, uint32_t p)
{
    uint32_t events = 1 + below(r, 6), waits = below(r, 60);
    in->length = 0;
    put(in, p, 0, n, 0);
    for (uint32_t k = 0; k < n; k++) {
        if (chance(r, 50))
            put(in, below(r, p), chance(r, waits) ? WAIT : POST, 255 - below(r, events), 0);
        else if (chance(r, 5))
            put(in, below(r, p), WRITE, UINT32_MAX - below(r, 3), 1);
        else
            put_access(r, in, below(r, p), 50, 30, 5);
    }
}

/* Changes up to three bytes, preferably to small numbers, and sometimes the length. */
static void damage(struct random *r, struct input *in)
{
    for (uint32_t i = 0, times = 1 + below(r, 3); i < times && in->length > 0; i++) {
        size_t at = below(r, (uint32_t)in->length);
        in->file[at] = (uint8_t)(chance(r, 50) ? below(r, 6) : next(r));
    }
    if (chance(r, 10))
        in->length = below(r, (uint32_t)in->length + MORE + 1);
}

static void make_bytes(struct random *r, struct input *in)
{
    static const uint8_t mark[2] = {0x50, 0x57};
    in->length = below(r, 50);
    for (size_t i = 0; i < in->length; i++)
        in->file[i] = (uint8_t)(chance(r, 60) ? below(r, 3) : next(r));
    for (size_t i = 0; i + 1 < in->length; i += 10)
        if (chance(r, 80))
            memcpy(in->file + i, mark, 2);
}

static void compare_damaged(struct tally *tally)
{
    struct input in = {.file = files};
    struct random r = {11};
    for (uint32_t i = 0; i < 4 * DAMAGED; i++) {
        uint32_t n = below(&r, SMALL + 1), p = 1 + below(&r, 16);
        switch (i % 4) {
        case 0:
            make_any(&r, &in, n, p);
            break;
        case 1:
            make_trace(&r, &in, below(&r, FAMILIES), n, p);
            break;
        case 2:
            make_trace(&r, &in, below(&r, FAMILIES), n, p);
            damage(&r, &in);
            break;
        default:
            make_bytes(&r, &in);
        }
        any_questions(&r, &in, n);
        compare_file(&r, &in, 0, tally);
    }
}

/* Files of about as many records as there may be, some of them damaged */
static void compare_large(struct tally *tally)
{
    struct input in = {.file = files};
    struct random r = {13};
    for (uint32_t i = 0; i < 60; i++) {
        uint32_t n = MERSOHKI_MAX_OPERATIONS - 2 + below(&r, 3);
        make_trace(&r, &in, below(&r, FAMILIES), n, 1 + below(&r, 16));
        if (i % 3 == 0)
            damage(&r, &in);
        any_questions(&r, &in, n);
        compare_file(&r, &in, 0, tally);
    }
}

/* Answers whether there is no difference. */
static int compare(void)
{
    struct tally tally = {0};
    compare_damaged(&tally);
    compare_large(&tally);
    compare_families(&tally);
    printf("compared    %lu calls, %lu of them different; calls refused, by number:", tally.calls, tally.different);
    for (int i = 1; i <= 17; i++)
        printf("%s%d: %lu", i == 1 || i == 10 ? "\n            " : ", ", i, tally.refused[i]);
    printf("\n");
    return tally.different == 0;
}

/* Timing */

struct side {
    uint32_t passes;
    double times[MOST_PASSES]; /* of a pass, in no order */
    double least, median;      /* microseconds per call */
};

struct cell {
    struct side library, native;
};

static struct cell cells[WORKER_COUNTS][CALLS][FAMILIES][SIZES];
static double race_counts[WORKER_COUNTS][FAMILIES];

static double seconds(void)
{
    struct timespec t;
    clock_gettime(CLOCK_MONOTONIC, &t);
    return (double)t.tv_sec + 1e-9 * (double)t.tv_nsec;
}

/* What a call is timed on: traces, and the number that it has to answer with, which is 0 if it must not refuse. */
struct batch {
    const struct input *inputs;
    uint32_t count, number;
};

static struct batch batch_of(int which)
{
    if (which == RACES_SHORT)
        return (struct batch){racing, racing_count, MERSOHKI_RACE_SPACE};
    return (struct batch){inputs, input_count, 0};
}

/* One pass over the traces; answers its time. Another number than due ends the program: it would be no measurement. */
static double pass(call *f, struct batch batch)
{
    uint32_t wrong = 0;
    double from = seconds();
    for (uint32_t i = 0; i < batch.count; i++)
        wrong |= f(&batch.inputs[i], &ours).number ^ batch.number;
    double time = seconds() - from;
    if (wrong != 0 || batch.count == 0) {
        printf("a call did not answer as it should while it was timed\n");
        exit(1);
    }
    return time;
}

static int ascending(const void *x, const void *y)
{
    double a = *(const double *)x, b = *(const double *)y;
    return (a > b) - (a < b);
}

static void find_figures(struct side *side, uint32_t count)
{
    qsort(side->times, side->passes, sizeof *side->times, ascending);
    side->least = 1e6 * side->times[0] / count;
    side->median = 1e6 * side->times[side->passes / 2] / count;
}

static double add_pass(struct side *side, call *f, struct batch batch)
{
    return side->times[side->passes++] = pass(f, batch);
}

/* A visit: rounds of one pass of each side, the library first in every other one; a slow library only in the first. */
static void visit(struct cell *cell, int which)
{
    struct batch batch = batch_of(which);
    double spent = 0;
    for (uint32_t i = 0; i < FEWEST_ROUNDS || (spent < VISIT_SECONDS && i < MOST_PASSES / VISITS); i++) {
        int both = spent < SLOW_SECONDS;
        if (both && i % 2 == 0)
            spent += add_pass(&cell->library, mersohki_calls[which], batch);
        spent += add_pass(&cell->native, native_calls[which], batch);
        if (both && i % 2 == 1)
            spent += add_pass(&cell->library, mersohki_calls[which], batch);
    }
    find_figures(&cell->library, batch.count);
    find_figures(&cell->native, batch.count);
}

static double mean_races(uint32_t count)
{
    double sum = 0;
    for (uint32_t i = 0; i < count; i++)
        sum += (double)native_races_call(&inputs[i], &theirs).value;
    return sum / count;
}

static void visit_cells(void)
{
    for (uint32_t p = 0; p < WORKER_COUNTS; p++)
        for (int family = 0; family < FAMILIES; family++)
            for (uint32_t i = 0; i < SIZES; i++) {
                uint32_t count = RECORDS / sizes[i];
                make_inputs(family, sizes[i], worker_counts[p], count);
                for (int which = 0; which < CALLS; which++)
                    visit(&cells[p][which][family][i], which);
                race_counts[p][family] = mean_races(count);
            }
}

/* Every cell is visited several times, far apart, against disturbances that last longer than a visit. */
static void time_all(void)
{
    lend(&ours, MERSOHKI_MAX_TABLE, MERSOHKI_MAX_RACES, MERSOHKI_MAX_RACES, MERSOHKI_MAX_FILE);
    lend(&theirs, MERSOHKI_MAX_TABLE, MERSOHKI_MAX_RACES, MERSOHKI_MAX_RACES, MERSOHKI_MAX_FILE);
    for (int i = 0; i < VISITS; i++)
        visit_cells();
}

/* Printing */

static void print_line_of(const char *path, const char *key, const char *title)
{
    char line[256];
    FILE *file = fopen(path, "r");
    while (file && fgets(line, sizeof line, file)) {
        char *colon = strchr(line, ':');
        if (strncmp(line, key, strlen(key)) == 0) {
            printf("%s%s", title, key[0] && colon ? colon + 2 : line);
            break;
        }
    }
    if (file)
        fclose(file);
}

static void print_setting(void)
{
    uint32_t fewest = MOST_PASSES, most = 0;
    const struct cell *all = &cells[0][0][0][0];
    for (size_t i = 0; i < sizeof cells / sizeof *all; i++) {
        uint32_t passes = all[i].library.passes;
        fewest = passes < fewest ? passes : fewest;
        most = passes > most ? passes : most;
    }
    print_line_of("/proc/loadavg", "", "load after  ");
    printf("time        per call: the least of all passes over the traces, by CLOCK_MONOTONIC around each pass\n");
    printf("rounds      a pass of the library and one of native C, in changing order; for %.1f s, at least %d rounds,\n"
           "            and that in each of %d visits; a library that takes over %.1f s only in the first round of a\n"
           "            visit; so %u to %u passes of the library\n",
           VISIT_SECONDS, FEWEST_ROUNDS, VISITS, SLOW_SECONDS, fewest, most);
    printf("traces      %d / n different ones in turn, all accepted; refused 16: those of them that have a race\n",
           RECORDS);
    printf("buffers     the same for both sides, not cleared between calls; lists for %d races, or, where\n"
           "            they fit, for just as many as the trace has, or, refused 16, for one fewer\n",
           MERSOHKI_MAX_RACES);
    printf("beginning   of the two runs, written before; found in the first run and in the second in turn\n");
    for (uint32_t p = 0; p < WORKER_COUNTS; p++) {
        printf("%s p = %-2u", p == 0 ? "races       mean at n = 1024:" : "                             ",
               worker_counts[p]);
        for (int family = 0; family < FAMILIES; family++)
            printf("  %s %.0f", family_names[family], race_counts[p][family]);
        printf("\n");
    }
}

/* A column's title, nine wide */
static void print_size(uint32_t n)
{
    char title[16];
    snprintf(title, sizeof title, "n=%u", n);
    printf("%9s", title);
}

static void print_ratios(uint32_t p)
{
    printf("\np = %u: time of the library / time of native C; at n = 1024 also microseconds, and ratio of medians\n",
           worker_counts[p]);
    printf("%-16s %-8s", "call", "family");
    for (uint32_t i = 0; i < SIZES; i++)
        print_size(sizes[i]);
    printf("  %10s %10s %8s\n", "library us", "native us", "medians");
    for (int which = 0; which < CALLS; which++)
        for (int family = 0; family < FAMILIES; family++) {
            const struct cell *row = cells[p][which][family], *last = &row[SIZES - 1];
            printf("%-16s %-8s", call_names[which], family_names[family]);
            for (uint32_t i = 0; i < SIZES; i++)
                printf("%9.2f", row[i].library.least / row[i].native.least);
            printf("  %10.2f %10.2f %8.2f\n", last->library.least, last->native.least,
                   last->library.median / last->native.median);
        }
}

static void print_growth(uint32_t p)
{
    printf("\np = %u: growth, time at n / time at n / 2\n%-25s%36s    %36s\n%-16s %-8s", worker_counts[p], "",
           "library", "native C", "call", "family");
    for (uint32_t i = 1; i < SIZES; i++)
        print_size(sizes[i]);
    printf("    ");
    for (uint32_t i = 1; i < SIZES; i++)
        print_size(sizes[i]);
    printf("\n");
    for (int which = 0; which < CALLS; which++)
        for (int family = 0; family < FAMILIES; family++) {
            const struct cell *row = cells[p][which][family];
            printf("%-16s %-8s", call_names[which], family_names[family]);
            for (uint32_t i = 1; i < SIZES; i++)
                printf("%9.2f", row[i].library.least / row[i - 1].library.least);
            printf("    ");
            for (uint32_t i = 1; i < SIZES; i++)
                printf("%9.2f", row[i].native.least / row[i - 1].native.least);
            printf("\n");
        }
}

static void print_all(void)
{
    print_setting();
    for (uint32_t p = 0; p < WORKER_COUNTS; p++)
        print_ratios(p);
    for (uint32_t p = 0; p < WORKER_COUNTS; p++)
        print_growth(p);
}

/* Instructions are counted in here: bench/instructions names this function. */
void counted_pass(void);

void counted_pass(void)
{
    for (int which = 0; which < CALLS; which++) {
        if (which == RACES_FIT || which == RACES_SHORT)
            continue;
        pass(mersohki_calls[which], batch_of(which));
        pass(native_calls[which], batch_of(which));
    }
}

static int run_pass(const char *name, const char *workers, const char *traces)
{
    long p = strtol(workers, NULL, 10), count = strtol(traces, NULL, 10);
    int family = 0;
    while (family < FAMILIES && strcmp(name, family_names[family]) != 0)
        family++;
    if (family == FAMILIES || p < 2 || p > MERSOHKI_MAX_WORKERS || count < 1 ||
        count > RECORDS / MERSOHKI_MAX_OPERATIONS)
        return 2;
    lend(&ours, MERSOHKI_MAX_TABLE, MERSOHKI_MAX_RACES, MERSOHKI_MAX_RACES, MERSOHKI_MAX_FILE);
    make_inputs(family, MERSOHKI_MAX_OPERATIONS, (uint32_t)p, (uint32_t)count);
    counted_pass();
    return 0;
}

int main(int argc, char **argv)
{
    if (argc == 5 && strcmp(argv[1], "--pass") == 0)
        return run_pass(argv[2], argv[3], argv[4]);
    if (argc == 2 && strcmp(argv[1], "--compare") == 0)
        return compare() ? 0 : 1;
    if (argc != 1) {
        fprintf(stderr, "usage: bench [--compare | --pass FAMILY P TRACES]\n");
        return 2;
    }
    printf("compiler    %s, of native C and the benchmark: %s\n", COMPILER, BENCH_FLAGS);
    print_line_of("/proc/cpuinfo", "model name", "processor   ");
    print_line_of("/proc/loadavg", "", "load before ");
    fflush(stdout);
    if (!compare())
        return 1;
    fflush(stdout);
    time_all();
    print_all();
    return 0;
}
