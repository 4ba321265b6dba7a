/*
 * Mersohki: the order that all runs of a recorded Post/Wait trace share.
 *
 * These are the functions of the proved library, under C names. Each one takes all bytes and all numbers, finishes, and
 * answers with a struct, by value. docs/GUIDE.md says what a trace file is, and what to do about a refusal.
 *
 * Link with target/staticlib/libcapi.a, which `bindings/archive` writes (x86-64, Linux). The library needs memcpy and
 * memset of the C library, and nothing else: it allocates nothing, keeps nothing between calls, and makes no system
 * call. So any number of threads may call it at once, each with memory of its own to be written.
 *
 * What a caller owes, and what C cannot check:
 *   - A length must be the true length of the memory that the pointer before it points to, in elements: bytes for a
 *     uint8_t pointer, 16-bit numbers for a uint16_t one. The proof starts from there; behind a wrong length it says
 *     nothing. Where the length is 0, the pointer may be null.
 *   - A uint16_t pointer must be aligned as C wants it.
 *   - Memory that a function writes must not overlap with other memory that the same call is handed.
 *   - Nobody else may change the memory of a call while it runs: neither the file's bytes nor what is lent. A recorder
 *     that still writes must be copied from first.
 *   - Some stack: 40 KiB were enough where it was measured (docs/GUIDE.md, "Limits"). Nothing proves that.
 * Nothing else is required.
 */
#ifndef MERSOHKI_H
#define MERSOHKI_H

#include <stddef.h>
#include <stdint.h>

#ifdef __cplusplus
extern "C" {
#endif

/* An accepted trace has no more than this, so memory of these sizes is enough for every call. */
enum mersohki_limit {
    MERSOHKI_MAX_WORKERS = 16,
    MERSOHKI_MAX_OPERATIONS = 1024,
    MERSOHKI_MAX_FILE = 10250,    /* bytes of a file, and of its tidy file */
    MERSOHKI_MAX_TABLE = 16384,   /* numbers of the order table */
    MERSOHKI_MAX_RACES = 491520
};

/*
 * The questions. They are asked in this order, 5 to 9 of one record after the other, and the first "no" is the refusal.
 * 1 to 10 are the file's questions, which every call asks that takes a file; the others are a call's own. A refusal is
 * the question's number and a place: for 5 to 9 the operation's number in the file, for 10 the lowest operation that no
 * run has, for 16 how many races there are, and otherwise 0.
 */
enum mersohki_question {
    MERSOHKI_NOT_REFUSED = 0,
    MERSOHKI_HEADER = 1,          /* at least 10 bytes, starting with the mark 50 57, with kind 0 and length 0? */
    MERSOHKI_WORKER_COUNT = 2,    /* 1 to 16 workers? */
    MERSOHKI_OPERATION_COUNT = 3, /* at most 1,024 operations? */
    MERSOHKI_FILE_SIZE = 4,       /* exactly 10 bytes for the header and 10 for each operation? */
    MERSOHKI_MARK = 5,            /* does the record start with the mark? */
    MERSOHKI_WORKER = 6,          /* is its worker below the worker count? */
    MERSOHKI_KIND = 7,            /* is its kind 1 to 4? */
    MERSOHKI_EVENT = 8,           /* of a Post or Wait: is the event at most 255, and the length 0? */
    MERSOHKI_CELLS = 9,           /* of a Read or Write: length 1 or more, first cell + length at most 2^32? */
    MERSOHKI_COMPLETE_RUN = 10,   /* has the trace a complete run? */
    MERSOHKI_TABLE_SPACE = 11,    /* does the table hold operations x workers numbers? */
    MERSOHKI_IN_TRACE = 12,       /* are both operation numbers below the operation count? */
    MERSOHKI_DIFFERENT = 13,      /* do they differ? */
    MERSOHKI_UNORDERED = 14,      /* is neither certain before the other? */
    MERSOHKI_RUN_SPACE = 15,      /* does each run buffer hold as many numbers as there are operations? */
    MERSOHKI_RACE_SPACE = 16,     /* do the lists hold as many races as there are? */
    MERSOHKI_OUTPUT_SPACE = 17    /* does the output hold as many bytes as the file? */
};

/*
 * In each struct but the last: `number` is 0 where the call did not refuse, and then `place` is 0 and the values behind
 * it are the answer; otherwise `number` and `place` are the refusal, and the values are 0.
 */

struct mersohki_accept_result {
    uint8_t number;      /* 0, or one of the file's questions */
    uint32_t place;
    uint8_t workers;
    uint32_t operations;
};

struct mersohki_table_result {
    uint8_t number;      /* 0, one of the file's questions, or 11 */
    uint32_t place;
    uint8_t workers;
    uint32_t operations;
};

struct mersohki_order_result {
    uint8_t number;      /* 0, one of the file's questions, 12 or 13 */
    uint32_t place;
    int8_t sign;         /* -1: a is certain before b; +1: b before a; 0: neither, or refused */
};

struct mersohki_runs_result {
    uint8_t number;      /* 0, one of the file's questions, or 12 to 15 */
    uint32_t place;
    uint32_t operations; /* the length of each run */
};

struct mersohki_races_result {
    uint8_t number;      /* 0, one of the file's questions, 11 or 16 */
    uint32_t place;
    uint8_t workers;
    uint32_t operations;
    uint32_t races;      /* how many are listed: all of them */
};

struct mersohki_canonical_result {
    uint8_t number;      /* 0, one of the file's questions, or 17 */
    uint32_t place;
    uint32_t size;       /* bytes of the tidy file, which are as many as the file's */
};

enum mersohki_list {
    MERSOHKI_FIRST_LIST = 0,
    MERSOHKI_SECOND_LIST = 1
};

/* Which list, an enum mersohki_list, and how many of its first numbers. Nothing is refused. */
struct mersohki_beginning_result {
    uint32_t list;
    size_t length;
};

/*
 * Reads a file: is it a trace that has a complete run, and how many workers and operations has it?
 * Takes: the file's bytes, any.
 * Writes: nothing.
 */
struct mersohki_accept_result mersohki_accept(const uint8_t *file, size_t file_length);

/*
 * Fills the order table. The row of operation k is the `workers` numbers from table[k * workers] on; number q of it
 * counts worker q's operations in the largest run without k. So, of two different operations, a is certain before b
 * exactly if b's place in its worker, from 1, is above the number of b's worker in row a.
 * Takes: the file's bytes; a table of any length, which is to hold operations x workers numbers.
 * Writes: the rows, from the table's start on; after a refusal nothing.
 * Never touches: the file; the table behind the rows.
 */
struct mersohki_table_result mersohki_order_table(const uint8_t *file, size_t file_length,
                                                  uint16_t *table, size_t table_length);

/*
 * The order of two operations, a and b, that all complete runs share.
 * Takes: the file's bytes; two operation numbers, any numbers.
 * Writes: nothing.
 */
struct mersohki_order_result mersohki_pair_order(const uint8_t *file, size_t file_length, uint32_t a, uint32_t b);

/*
 * Two complete runs that show that neither of a and b is certain before the other: a stands before b in the first run,
 * and b before a in the second.
 * Takes: the file's bytes; two operation numbers, any numbers; two buffers of any lengths, each of which is to hold as
 * many numbers as there are operations.
 * Writes: a run of operation numbers to each buffer, from its start on; after a refusal nothing.
 * Never touches: the file; what lies behind the runs.
 */
struct mersohki_runs_result mersohki_two_runs(const uint8_t *file, size_t file_length, uint32_t a, uint32_t b,
                                              uint16_t *first, size_t first_length,
                                              uint16_t *second, size_t second_length);

/*
 * Lists the races: pairs of accesses with a common cell, at least one a Write, neither certain before the other. Race i
 * is lower[i] and higher[i]; they ascend by lower, then higher operation.
 * Takes: the file's bytes; a table, as the order table does; two lists of any lengths, of which the shorter says how
 * many races there is space for.
 * Writes: the order table to the table, and the races to the lists, each from its start on. After a refusal by
 * MERSOHKI_RACE_SPACE the table is filled, and the lists are as they were; after any other nothing is written.
 * Never touches: the file; the table behind the rows; the lists behind the races.
 */
struct mersohki_races_result mersohki_races(const uint8_t *file, size_t file_length,
                                            uint16_t *table, size_t table_length,
                                            uint16_t *lower, size_t lower_length,
                                            uint16_t *higher, size_t higher_length);

/*
 * Writes the tidy file: the header, then worker 0's operations in order, then worker 1's, and so on.
 * Takes: the file's bytes; an output of any length, which is to hold as many bytes as the file has.
 * Writes: the tidy file, from the output's start on; after a refusal nothing.
 * Never touches: the file; the output behind the tidy file.
 */
struct mersohki_canonical_result mersohki_canonical(const uint8_t *file, size_t file_length,
                                                    uint8_t *output, size_t output_length);

/*
 * The beginning of a run: the part of the first list that ends with the first appearance of `chosen`, if `other`
 * appears behind it and not before it; failing that, the same part of the second list; failing both, nothing of the
 * first.
 * Takes: two lists of any numbers, which may be one and the same, such as the two runs of mersohki_two_runs; a chosen
 * number and another, any numbers.
 * Writes: nothing.
 */
struct mersohki_beginning_result mersohki_beginning(const uint16_t *first, size_t first_length,
                                                    const uint16_t *second, size_t second_length,
                                                    uint32_t chosen, uint32_t other);

#ifdef __cplusplus
}
#endif

#endif
