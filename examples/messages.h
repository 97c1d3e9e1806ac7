/* Queue messages from a record, plan messages and split plans into one, and a sentence for each refusal: conveniences,
 * installed as kippertarn_messages.h. Unlike the part they are not proved; the part alone judges a message
 * (kippertarn_check_queue, kippertarn_check_plan). No library is called, so they serve without one. */
#ifndef KIPPERTARN_MESSAGES_H
#define KIPPERTARN_MESSAGES_H

#include "kippertarn.h"

#include <stdint.h>

/* A queue; what stands past N and T is not looked at. */
struct kippertarn_queue_record {
    unsigned kinds; /* N */
    unsigned goal, shift, start;
    /* gap[i][j - 1], from kind i (0 for the cold cutter) to kind j, in seconds, or KIPPERTARN_NEVER */
    unsigned gap[KIPPERTARN_KINDS_MOST + 1][KIPPERTARN_KINDS_MOST];
    /* w_j, a_j and b_j at j - 1 */
    unsigned pupils[KIPPERTARN_KINDS_MOST], first[KIPPERTARN_KINDS_MOST], last[KIPPERTARN_KINDS_MOST];
    unsigned jobs;                       /* T */
    unsigned kind[KIPPERTARN_JOBS_MOST]; /* the kind of each job, by hand-in */
};

/* A plan. */
struct kippertarn_plan_record {
    unsigned goal;
    uint64_t cost, kept;
    unsigned jobs;                      /* T */
    unsigned job[KIPPERTARN_JOBS_MOST]; /* the job at each place */
};

/* The jobs of one cutter in a split plan. */
struct kippertarn_cutter_record {
    unsigned jobs;                      /* how many it has, 0 too */
    unsigned job[KIPPERTARN_JOBS_MOST]; /* the job at each of its places, by the queue's numbers */
};

/* A split plan. */
struct kippertarn_split_record {
    unsigned goal;
    uint64_t cost;
    struct kippertarn_cutter_record first, second;
};

/* A place in a message being written; past its end once something did not fit. */
struct kippertarn_message_place {
    uint8_t *bytes;
    uint64_t length, at;
};

static inline void kippertarn_put_number(struct kippertarn_message_place *to, uint64_t value)
{
    do {
        uint8_t group = (uint8_t)(value & 127);
        value >>= 7;
        if (to->at < to->length)
            to->bytes[to->at] = (uint8_t)(group | (value ? 128 : 0));
        to->at++;
    } while (value);
}

/* The queue's message. Answers its length, or 0 where the record's N is over 5, its T over 60, or the room too short;
 * KIPPERTARN_QUEUE_BYTES are room enough for any message that the part accepts. */
static inline uint64_t kippertarn_write_queue_record(const struct kippertarn_queue_record *queue, uint8_t *message,
                                                     uint64_t room)
{
    struct kippertarn_message_place to = { message, room, 0 };
    if (queue->kinds > KIPPERTARN_KINDS_MOST || queue->jobs > KIPPERTARN_JOBS_MOST)
        return 0;
    kippertarn_put_number(&to, 0x51);
    kippertarn_put_number(&to, 0x53);
    kippertarn_put_number(&to, 1);
    kippertarn_put_number(&to, queue->kinds);
    kippertarn_put_number(&to, queue->goal);
    kippertarn_put_number(&to, queue->shift);
    kippertarn_put_number(&to, queue->start);
    for (unsigned i = 0; i <= queue->kinds; i++)
        for (unsigned j = 0; j < queue->kinds; j++)
            kippertarn_put_number(&to, queue->gap[i][j]);
    for (unsigned j = 0; j < queue->kinds; j++)
        kippertarn_put_number(&to, queue->pupils[j]);
    for (unsigned j = 0; j < queue->kinds; j++) {
        kippertarn_put_number(&to, queue->first[j]);
        kippertarn_put_number(&to, queue->last[j]);
    }
    kippertarn_put_number(&to, queue->jobs);
    for (unsigned i = 0; i < queue->jobs; i++)
        kippertarn_put_number(&to, queue->kind[i]);
    return to.at <= room ? to.at : 0;
}

/* The next number of a plan or split plan that the part wrote or accepted. */
static inline uint64_t kippertarn_get_number(const uint8_t *message, uint64_t length, uint64_t *at)
{
    uint64_t value = 0;
    for (unsigned bit = 0; bit < 63; bit += 7) {
        uint8_t byte = *at < length ? message[*at] : 0;
        ++*at;
        value |= (uint64_t)(byte & 127) << bit;
        if (byte < 128)
            break;
    }
    return value;
}

/* The jobs that come next: how many, and the job at each place. Answers 1, or 0 where they are too many. */
static inline int kippertarn_get_jobs(const uint8_t *message, uint64_t length, uint64_t *at, unsigned *jobs,
                                      unsigned *job)
{
    uint64_t count = kippertarn_get_number(message, length, at);
    if (count > KIPPERTARN_JOBS_MOST)
        return 0;
    *jobs = (unsigned)count;
    for (unsigned place = 0; place < *jobs; place++)
        job[place] = (unsigned)kippertarn_get_number(message, length, at);
    return 1;
}

/* Takes apart a plan message that the part wrote or accepted. Answers 1, or 0 for bytes that are no such message. */
static inline int kippertarn_read_plan_record(struct kippertarn_plan_record *plan, const uint8_t *message,
                                              uint64_t length)
{
    uint64_t at = 2;
    if (length < 2 || message[0] != 0x51 || message[1] != 0x50 || kippertarn_get_number(message, length, &at) != 1)
        return 0;
    plan->goal = (unsigned)kippertarn_get_number(message, length, &at);
    plan->cost = kippertarn_get_number(message, length, &at);
    plan->kept = kippertarn_get_number(message, length, &at);
    return kippertarn_get_jobs(message, length, &at, &plan->jobs, plan->job) && at == length;
}

/* Takes apart a split plan that the part wrote. Answers 1, or 0 for bytes that are no such message. */
static inline int kippertarn_read_split_record(struct kippertarn_split_record *split, const uint8_t *message,
                                               uint64_t length)
{
    uint64_t at = 2;
    if (length < 2 || message[0] != 0x51 || message[1] != 0x32 || kippertarn_get_number(message, length, &at) != 1)
        return 0;
    split->goal = (unsigned)kippertarn_get_number(message, length, &at);
    split->cost = kippertarn_get_number(message, length, &at);
    return kippertarn_get_jobs(message, length, &at, &split->first.jobs, split->first.job)
           && kippertarn_get_jobs(message, length, &at, &split->second.jobs, split->second.job) && at == length;
}

/* A sentence for R, which KIPPERTARN_R takes out of an answer. */
static inline const char *kippertarn_sentence(uint64_t r)
{
    switch (r) {
    case KIPPERTARN_DONE: return "Nothing was refused.";
    case KIPPERTARN_OPENING: return "The first two bytes are missing or are not the opening of this message.";
    case KIPPERTARN_ENDS: return "The bytes end before a number has its last group.";
    case KIPPERTARN_GROUPS: return "A number of several groups ends in byte 00, or has more groups than are permitted.";
    case KIPPERTARN_EDITION: return "The edition is not 1.";
    case KIPPERTARN_KINDS: return "The number of kinds is not 1 to 5.";
    case KIPPERTARN_GOAL: return "The goal is not 1 or 2.";
    case KIPPERTARN_SHIFT: return "The shift is over 60.";
    case KIPPERTARN_START: return "The start is over the number of kinds.";
    case KIPPERTARN_GAP: return "A gap is over 65536, which stands for never.";
    case KIPPERTARN_PUPILS: return "The pupils waiting for one job of a kind are over 1000.";
    case KIPPERTARN_PLACES: return "A kind's first allowed place is 0, or its last is before the first or over 60.";
    case KIPPERTARN_JOBS: return "The number of jobs is over 60.";
    case KIPPERTARN_JOB_KIND: return "The kind of a job is 0 or over the number of kinds.";
    case KIPPERTARN_LEFT_OVER: return "Bytes are left over after the last number.";
    case KIPPERTARN_BUFFER: return "The plan buffer is under 77 bytes.";
    case KIPPERTARN_TABLE: return "The table has fewer entries than the queue needs.";
    case KIPPERTARN_NO_ORDER: return "No order of the jobs is permitted, or for two cutters no split of them.";
    case KIPPERTARN_JOB: return "A job of the plan is 0, over the number of jobs, or at an earlier place too.";
    case KIPPERTARN_UNCOVERED: return "The shift plus 1 is under the number of jobs, or a place is barred to a kind.";
    case KIPPERTARN_SECOND_START: return "The second cutter's start is over the number of kinds.";
    default: return "This version of the part does not answer so.";
    }
}

#endif
