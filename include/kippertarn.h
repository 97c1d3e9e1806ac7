/* Kippertarn: the best order of a benchtop cutter's queue, and its best split over two cutters, as a C part.
 *
 * A queue message goes in and a plan message, or for two cutters a split plan, comes out; or one refusal. All messages
 * are bytes; docs/MESSAGES.md has their formats, every refusal and the table's entries in full.
 *
 * What the caller owes, in every call: what is lent is as long as said; the table is aligned as uint64_t is; all of it
 * is the call's alone until it answers; and no part that may be written (table, plan) shares a byte with another. A
 * null pointer may be lent with length 0. Lengths are 64 bits wide on every board, as they are in the archive.
 *
 * What is promised: every call ends and answers, for any bytes and any lengths; calls use no heap and keep no state
 * between them, so they are reentrant and may run at the same time in several threads. Only this is ever written, N x P
 * being KIPPERTARN_ENTRIES of the queue:
 *
 *     R            of the table                 of the plan buffer
 *     0            its first N x P entries      its first V bytes
 *     17           its first N x P entries      nothing
 *     any other    nothing                      nothing
 *
 * Entries and bytes behind those keep what they had. */
#ifndef KIPPERTARN_H
#define KIPPERTARN_H

#if !defined(__x86_64__) || defined(__ILP32__) || defined(_WIN32)
#error "Kippertarn's archive is for x86-64 with 64-bit pointers and the System V calling convention"
#endif

#include <stdint.h>

#ifdef __cplusplus
extern "C" {
#endif

/* The version of this header. kippertarn_version() answers that of the archive: they are to be the same. */
#define KIPPERTARN_VERSION "1.4.1"
#define KIPPERTARN_VERSION_NUMBER 1004001 /* 1000000 * major + 1000 * minor + patch */

#define KIPPERTARN_QUEUE_BYTES 178 /* the longest queue message that is accepted */
#define KIPPERTARN_PLAN_BYTES 77   /* the longest plan message, and the least plan buffer that may be lent */
#define KIPPERTARN_SPLIT_BYTES 72  /* the longest split plan; the buffer lent for it has KIPPERTARN_PLAN_BYTES too */

/* The first so many bytes decide the answer for a message of any length: who reads a message from a file or a line
 * needs room for no more. */
#define KIPPERTARN_QUEUE_DECIDING_BYTES 180
#define KIPPERTARN_PLAN_DECIDING_BYTES 79

/* The greatest numbers of a queue. */
#define KIPPERTARN_KINDS_MOST 5     /* N */
#define KIPPERTARN_JOBS_MOST 60     /* T */
#define KIPPERTARN_SHIFT_MOST 60    /* m */
#define KIPPERTARN_GAP_MOST 65535   /* gap(i, j), in seconds */
#define KIPPERTARN_PUPILS_MOST 1000 /* w_j */
#define KIPPERTARN_PLACE_MOST 60    /* b_j */

/* In place of a gap's seconds: never. A job of kind j is then not to be cut right after one of kind i, nor, in row 0,
 * first on a cold cutter. */
#define KIPPERTARN_NEVER 65536

/* How much table to lend. A queue in hand: ask kippertarn_table_entries. Counts of jobs known when the program is built:
 * KIPPERTARN_ENTRIES. Any queue at all: KIPPERTARN_ENTRIES_MOST.
 *
 * N x P, the table entries that a queue of n kinds with k1 to k5 jobs each needs: P is the product of all (K_j + 1).
 * Write 0 for the jobs of kinds past n. A constant where its arguments are, so that it can size an array. */
#define KIPPERTARN_ENTRIES(n, k1, k2, k3, k4, k5) \
    ((uint64_t)(n) * ((uint64_t)(k1) + 1) * ((uint64_t)(k2) + 1) * ((uint64_t)(k3) + 1) * ((uint64_t)(k4) + 1) \
     * ((uint64_t)(k5) + 1))

/* Enough for any queue: 60 jobs of 5 kinds, 12 of each. */
#define KIPPERTARN_ENTRIES_MOST KIPPERTARN_ENTRIES(5, 12, 12, 12, 12, 12)

/* A table entry whose state is not kept. */
#define KIPPERTARN_NOT_KEPT UINT64_MAX

/* An answer is R + 256 * V. R is 0 or the refusal. V is the bytes of the written plan or split plan where there is one,
 * the number that was asked for, the needed entries N x P for refusal 16, else 0. */
#define KIPPERTARN_R(answer) ((unsigned)((answer) & 255u))
#define KIPPERTARN_V(answer) ((uint64_t)(answer) >> 8)

/* R, by number. */
enum kippertarn_refusal {
    KIPPERTARN_DONE = 0,       /* accepted, planned, split or answered */
    KIPPERTARN_OPENING = 1,    /* first two bytes missing or other */
    KIPPERTARN_ENDS = 2,       /* bytes end before a number's last group */
    KIPPERTARN_GROUPS = 3,     /* byte 00 ends a number of several groups, or the last group permitted has bit 7 set */
    KIPPERTARN_EDITION = 4,    /* edition not 1 */
    KIPPERTARN_KINDS = 5,      /* N not 1 to 5 */
    KIPPERTARN_GOAL = 6,       /* goal not 1 or 2 */
    KIPPERTARN_SHIFT = 7,      /* shift over 60 */
    KIPPERTARN_START = 8,      /* start over N */
    KIPPERTARN_GAP = 9,        /* a gap over 65536 */
    KIPPERTARN_PUPILS = 10,    /* pupils over 1000 */
    KIPPERTARN_PLACES = 11,    /* allowed places: a_j is 0, b_j < a_j, or b_j over 60 */
    KIPPERTARN_JOBS = 12,      /* T over 60 */
    KIPPERTARN_JOB_KIND = 13,  /* kind of a job 0 or over N */
    KIPPERTARN_KIND = 13,      /* the same, by its name in version 1.0.0 */
    KIPPERTARN_LEFT_OVER = 14, /* bytes left over after the last number */
    KIPPERTARN_BUFFER = 15,    /* plan buffer under 77 bytes */
    KIPPERTARN_TABLE = 16,     /* table under N x P entries; V is N x P */
    KIPPERTARN_NO_ORDER = 17,  /* no permitted order; for two cutters no split with one on each */
    KIPPERTARN_JOB = 18,       /* a job in a plan 0, over T, or at an earlier place */
    KIPPERTARN_UNCOVERED = 19, /* for two cutters: shift + 1 under T, or a kind's allowed places do not cover 1 to T */
    KIPPERTARN_SECOND_START = 20 /* the second start over N */
};

/* Whether a queue message is accepted: R is 0, or the one refusal of its reader, 1 to 14. */
uint64_t kippertarn_check_queue(const uint8_t *message, uint64_t length);

/* Whether a plan message is accepted: R is 0, or the one refusal of its reader: 1, 2, 3, 4, 6, 12, 18 or 14. */
uint64_t kippertarn_check_plan(const uint8_t *message, uint64_t length);

/* How many entries a table must have for a queue to be planned or split: R is 0 and V is N x P, at least 1; or R is the
 * one refusal of the queue's reader, 1 to 14, and V is 0. Nothing is lent but the message. A lent table of V entries is
 * never refused with 16 for this message, and a shorter one always is where nothing else is refused first. */
uint64_t kippertarn_table_entries(const uint8_t *message, uint64_t length);

/* How many of those entries planning the queue can fill with a value at most: R is 0 and V is the number of states that
 * the counts of its kinds make, the sum over L of K_L times all other (K_j + 1); or R is the one refusal of the queue's
 * reader, and V is 0. No plan of the message reports a greater kept count, nor has any queue with the same counts of
 * its kinds one, whatever its shift, its allowed places and its gaps; where every job is permitted at every place from
 * 1 to T and no gap is never, it is the kept count. */
uint64_t kippertarn_most_kept(const uint8_t *message, uint64_t length);

/* Plans a queue: R is 0 and the plan message stands in the plan buffer, V bytes long; or R is the first of the queue
 * reader's refusal, 15, 16 and 17 that applies. An order is permitted when each job may stand at its place and no job
 * follows another, or the start, where the gap is never. The table, of `entries` numbers, need not be cleared. After
 * R 0 or 17 entry (L - 1) * P + k_1 + (K_1 + 1) * (k_2 + (K_2 + 1) * (k_3 + ..)) holds the value of state (L; k) if the
 * state is kept, which asks for a permitted way on from L, else KIPPERTARN_NOT_KEPT.
 *
 * A table too short for the queue is answered 16, V being what kippertarn_table_entries answers, and nothing is
 * written. */
uint64_t kippertarn_plan(const uint8_t *message, uint64_t length, uint64_t *table, uint64_t entries, uint8_t *plan,
                         uint64_t plan_length);

/* Splits a queue over two cutters, of which the message's start is the first's and `second_start` the second's (0 for a
 * cold cutter, else the kind it cut last): R is 0 and the split plan stands in the plan buffer, V bytes long; or R is
 * the first of the queue reader's refusal, 19, 20, 15, 16 and 17 that applies. On neither cutter does a job follow
 * another, or the cutter's start, where the gap is never; 17 is for queues that no split divides so. No other such
 * split of the jobs, in any order on either cutter, costs less. Table and plan buffer are lent as to kippertarn_plan,
 * the table has the same size, and after R 0 or 17 it holds what kippertarn_plan leaves in it for the same message,
 * which may have a split where kippertarn_plan answers 17. */
uint64_t kippertarn_split(const uint8_t *message, uint64_t length, uint32_t second_start, uint64_t *table,
                          uint64_t entries, uint8_t *plan, uint64_t plan_length);

/* The version of the archive, as KIPPERTARN_VERSION_NUMBER has it. */
uint64_t kippertarn_version(void);

#ifdef __cplusplus
}
#endif

#endif
