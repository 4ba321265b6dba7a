/*
 * An example of the C interface: reads the trace file that its argument names and prints its races, as the report
 * program does. Of the first race it then prints why it is one: for each of the two operations its order with every
 * other one, and its row of the order table; a complete run with each of them first; and the beginning of the run in
 * which the higher one comes first. Last come the size of the tidy file, and whether the file is tidy already.
 *
 *     cc -Iinclude bindings/c/example.c target/staticlib/libcapi.a -o example
 *     ./example traces/b.pw
 */
#include <stdio.h>
#include <string.h>

#include "mersohki.h"

/* One byte more than an accepted file can have: a longer file is refused whether or not the rest is read. */
#define FILE_SPACE (MERSOHKI_MAX_FILE + 1)

/* As many races as the report program has space for. */
#define RACE_SPACE 4096

static uint8_t file[FILE_SPACE];
static uint16_t table[MERSOHKI_MAX_TABLE];
static uint16_t lower[RACE_SPACE], higher[RACE_SPACE];
static uint16_t first[MERSOHKI_MAX_OPERATIONS], second[MERSOHKI_MAX_OPERATIONS];
static uint8_t output[MERSOHKI_MAX_FILE];

static int refused(unsigned number, uint32_t place)
{
    printf("refused %u %u\n", number, (unsigned)place);
    return 0;
}

static void print_numbers(const uint16_t *numbers, size_t count)
{
    for (size_t i = 0; i < count; i++)
        printf(" %u", (unsigned)numbers[i]);
    putchar('\n');
}

/* The order of an operation with each other one. */
static void print_orders(size_t length, uint32_t operations, uint32_t a)
{
    printf("orders of %u:", (unsigned)a);
    for (uint32_t b = 0; b < operations; b++)
        if (b != a)
            printf(" %d", mersohki_pair_order(file, length, a, b).sign);
    putchar('\n');
}

/* Why a and b, two operations of a trace of n, race. Nothing is refused: the file is accepted, and they do race. */
static void print_witness(size_t length, uint32_t n, uint16_t a, uint16_t b)
{
    struct mersohki_table_result rows = mersohki_order_table(file, length, table, MERSOHKI_MAX_TABLE);
    const uint16_t pair[] = {a, b};
    for (int i = 0; i < 2; i++) {
        print_orders(length, rows.operations, pair[i]);
        printf("row of %u:", (unsigned)pair[i]);
        print_numbers(table + (size_t)pair[i] * rows.workers, rows.workers);
    }

    struct mersohki_runs_result runs = mersohki_two_runs(file, length, a, b, first, n, second, n);
    printf("run:");
    print_numbers(first, runs.operations);
    printf("run:");
    print_numbers(second, runs.operations);

    struct mersohki_beginning_result part = mersohki_beginning(first, n, second, n, b, a);
    printf("beginning:");
    print_numbers(part.list == MERSOHKI_FIRST_LIST ? first : second, part.length);
}

static int print_races(size_t length)
{
    struct mersohki_accept_result counts = mersohki_accept(file, length);
    if (counts.number != MERSOHKI_NOT_REFUSED)
        return refused(counts.number, counts.place);

    size_t entries = (size_t)counts.operations * counts.workers;
    struct mersohki_races_result races = mersohki_races(file, length, table, entries, lower, RACE_SPACE, higher,
                                                        RACE_SPACE);
    if (races.number != MERSOHKI_NOT_REFUSED)
        return refused(races.number, races.place);

    printf("ops %u workers %u\n", (unsigned)races.operations, (unsigned)races.workers);
    for (uint32_t i = 0; i < races.races; i++)
        printf("race %u %u\n", (unsigned)lower[i], (unsigned)higher[i]);
    printf("races %u\n", (unsigned)races.races);
    if (races.races > 0)
        print_witness(length, counts.operations, lower[0], higher[0]);

    struct mersohki_canonical_result tidy = mersohki_canonical(file, length, output, MERSOHKI_MAX_FILE);
    if (tidy.number != MERSOHKI_NOT_REFUSED)
        return refused(tidy.number, tidy.place);
    printf("tidy: %u %s\n", (unsigned)tidy.size, memcmp(file, output, tidy.size) == 0 ? "same" : "other");
    return 0;
}

int main(int argc, char **argv)
{
    if (argc != 2) {
        fprintf(stderr, "usage: example TRACE\n");
        return 2;
    }
    FILE *input = fopen(argv[1], "rb");
    if (!input) {
        perror(argv[1]);
        return 2;
    }
    size_t length = fread(file, 1, FILE_SPACE, input);
    int failed = ferror(input);
    fclose(input);
    if (failed) {
        fprintf(stderr, "%s: cannot be read\n", argv[1]);
        return 2;
    }
    return print_races(length);
}
