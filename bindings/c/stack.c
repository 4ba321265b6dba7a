/*
 * How much stack each function of the C interface needs: the most that it takes on the trace files that the arguments
 * name. A thread fills the stack below its own frame with a pattern, makes the call, and looks for the deepest byte
 * that no longer has it; so a depth below 256 bytes shows as 256. `-z now` keeps the linker's work out of the calls.
 *
 *     cc -O2 -pthread -Wl,-z,now -Iinclude bindings/c/stack.c target/staticlib/libcapi.a -o stack
 *     ./stack traces/?.pw crates/report_cases/data/?*.pw
 */
#define _GNU_SOURCE
#include <pthread.h>
#include <stdio.h>
#include <stdlib.h>
#include <string.h>

#include "mersohki.h"

#define STACK (1 << 20)
#define PATTERN 0xa5
#define LEAST 256

static uint8_t file[MERSOHKI_MAX_FILE + 1];
static size_t length;
static uint16_t table[MERSOHKI_MAX_TABLE];
static uint16_t lower[MERSOHKI_MAX_RACES], higher[MERSOHKI_MAX_RACES];
static uint16_t first[MERSOHKI_MAX_OPERATIONS], second[MERSOHKI_MAX_OPERATIONS];
static uint8_t output[MERSOHKI_MAX_FILE];

/* What the calls answer is used, so that none is left out by the compiler. */
static volatile size_t seen;

static void call_accept(void)
{
    seen += mersohki_accept(file, length).operations;
}

static void call_order_table(void)
{
    seen += mersohki_order_table(file, length, table, MERSOHKI_MAX_TABLE).operations;
}

static void call_pair_order(void)
{
    seen += mersohki_pair_order(file, length, 0, 1).number;
}

/* Of all pairs with operation 0: one that is not ordered is needed to write runs. */
static void call_two_runs(void)
{
    for (uint32_t b = 1; b < MERSOHKI_MAX_OPERATIONS; b++)
        seen += mersohki_two_runs(file, length, 0, b, first, MERSOHKI_MAX_OPERATIONS, second,
                                  MERSOHKI_MAX_OPERATIONS).operations;
}

/* With room for any number of races; then with none, and with just enough, where they have to be counted first. */
static void call_races(void)
{
    uint32_t races = mersohki_races(file, length, table, MERSOHKI_MAX_TABLE, lower, MERSOHKI_MAX_RACES, higher,
                                    MERSOHKI_MAX_RACES).races;
    seen += mersohki_races(file, length, table, MERSOHKI_MAX_TABLE, lower, 0, higher, 0).place;
    seen += mersohki_races(file, length, table, MERSOHKI_MAX_TABLE, lower, races, higher, races).races;
}

static void call_canonical(void)
{
    seen += mersohki_canonical(file, length, output, MERSOHKI_MAX_FILE).size;
}

static void call_beginning(void)
{
    seen += mersohki_beginning(first, MERSOHKI_MAX_OPERATIONS, second, MERSOHKI_MAX_OPERATIONS, 0, 1).length;
}

struct measurement {
    void (*call)(void);
    uint8_t *stack;
    size_t used;
};

static void *measure(void *arg)
{
    struct measurement *m = arg;
    uint8_t here;
    size_t painted = (size_t)(&here - m->stack) - LEAST;
    memset(m->stack, PATTERN, painted);
    m->call();
    size_t untouched = 0;
    while (untouched < painted && m->stack[untouched] == PATTERN)
        untouched++;
    m->used = (size_t)(&here - m->stack) - untouched;
    return NULL;
}

static size_t depth(void (*call)(void))
{
    struct measurement m = {call, NULL, 0};
    pthread_attr_t attributes;
    pthread_t thread;
    if (posix_memalign((void **)&m.stack, 4096, STACK) != 0)
        exit(2);
    pthread_attr_init(&attributes);
    if (pthread_attr_setstack(&attributes, m.stack, STACK) != 0)
        exit(2);
    if (pthread_create(&thread, &attributes, measure, &m) != 0)
        exit(2);
    pthread_join(thread, NULL);
    free(m.stack);
    return m.used;
}

int main(int argc, char **argv)
{
    static const struct {
        const char *name;
        void (*call)(void);
    } calls[] = {
        {"mersohki_accept", call_accept},       {"mersohki_order_table", call_order_table},
        {"mersohki_pair_order", call_pair_order}, {"mersohki_two_runs", call_two_runs},
        {"mersohki_races", call_races},         {"mersohki_canonical", call_canonical},
        {"mersohki_beginning", call_beginning},
    };
    size_t most[sizeof calls / sizeof *calls] = {0};
    for (int i = 1; i < argc; i++) {
        FILE *input = fopen(argv[i], "rb");
        if (!input) {
            perror(argv[i]);
            return 2;
        }
        length = fread(file, 1, sizeof file, input);
        fclose(input);
        for (size_t j = 0; j < sizeof calls / sizeof *calls; j++) {
            size_t used = depth(calls[j].call);
            if (used > most[j])
                most[j] = used;
        }
    }
    for (size_t j = 0; j < sizeof calls / sizeof *calls; j++)
        printf("%-22s %6zu bytes\n", calls[j].name, most[j]);
    return 0;
}
