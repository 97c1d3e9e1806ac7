/* Damaged messages through all entries that read one: every refusal of the readers just inside and just outside its
 * bound, several faults at once, bytes cut off, added and changed; compared with readers written from 01 alone. */
#include "queues.h"

static unsigned long met_queue[19], met_plan[19], messages;
static unsigned long met_never, met_over; /* queues accepted with a never, and refused with a gap just over it */

/* A planning call with lengths that are often too short, so that the order of 1 to 14, 15, 16 and 17 shows. */
static void plan_damaged(const uint8_t *message, size_t length)
{
    static const size_t buffers[6] = { 0, 1, 76, 77, 78, 77 };
    struct kippertarn_queue_record q;
    size_t entries = below(40);
    if (ref_read_queue(message, length, &q) == 0) {
        size_t needed = entries_of(&q);
        if (needed <= 3000)
            entries = below(6) == 0 ? needed - 1 : below(6) == 0 ? 0 : needed;
    }
    compare_plan("a damaged queue", message, length, entries, buffers[below(6)]);
}

/* The same for a splitting call: 1 to 14, 19, 20, 15, 16, 17. Only small queues are split. */
static void split_damaged(const uint8_t *message, size_t length)
{
    struct kippertarn_queue_record q;
    size_t entries = below(40);
    uint32_t second_start = (uint32_t)chance();
    if (ref_read_queue(message, length, &q) == 0) {
        size_t needed = entries_of(&q);
        second_start = random_second_start(&q);
        if (needed <= 40)
            entries = below(6) == 0 ? needed - 1 : below(6) == 0 ? 0 : needed;
    }
    compare_split("a damaged queue", message, length, second_start, entries, below(4) ? 77 : 76);
}

/* Answers R as a queue. */
static int compare_message(const char *what, const uint8_t *message, size_t length)
{
    int as_queue, as_plan;
    struct kippertarn_plan_record plan;
    compare_checks(what, message, length, &as_queue, &as_plan);
    if (!kippertarn_read_plan_record(&plan, message, length) && as_plan == 0) {
        printf("FAILED: the helper does not read an accepted plan\n");
        print_bytes("plan", message, length);
        failures++;
    }
    met_queue[as_queue]++;
    met_plan[as_plan]++;
    messages++;
    plan_damaged(message, length);
    split_damaged(message, length);
    return as_queue;
}

/* How many gaps of a queue are just this. */
static unsigned gaps_of(const struct numbers *n, uint64_t value)
{
    unsigned count = 0;
    for (size_t i = 0; i < n->count; i++)
        count += n->high[i] == KIPPERTARN_NEVER && n->value[i] == value;
    return count;
}

/* The same for a message of these numbers, with a count of how its gaps fared around never. */
static void compare_numbers(const char *what, const struct numbers *n, const uint8_t *message, size_t length)
{
    int as_queue = compare_message(what, message, length);
    met_never += as_queue == 0 && gaps_of(n, KIPPERTARN_NEVER) > 0;
    met_over += as_queue == 9 && gaps_of(n, KIPPERTARN_NEVER + 1) > 0;
}

/* Changes, cuts off or adds bytes. */
static size_t damage_bytes(uint8_t *message, size_t length, size_t room)
{
    switch (below(6)) {
    case 0: return below((unsigned)length + 1);
    case 1:
    case 2:
        for (unsigned more = between(1, 3); more > 0 && length < room; more--)
            message[length++] = below(2) ? (uint8_t)below(4) : (uint8_t)chance();
        return length;
    case 3: message[below((unsigned)length)] ^= (uint8_t)(1u << below(8)); return length;
    default: message[below((unsigned)length)] = (uint8_t)chance(); return length;
    }
}

/* One to four faults in a list of numbers, or none. */
static void damaged(const char *what, struct numbers n, uint8_t second)
{
    uint8_t message[1024];
    size_t odd = n.count, length;
    unsigned faults = below(4);
    for (unsigned i = 0; i < faults; i++)
        damage_number(&n);
    if (below(5) == 0)
        odd = below((unsigned)n.count);
    length = write_numbers(&n, second, odd, message, sizeof message - 8);
    if (below(3) == 0)
        length = damage_bytes(message, length, sizeof message);
    compare_numbers(what, &n, message, length);
}

/* Every beginning of a message, and it with one byte more. */
static void every_cut(const struct numbers *n, uint8_t second)
{
    uint8_t message[1024];
    size_t length = write_numbers(n, second, n->count, message, sizeof message - 8);
    for (size_t cut = 0; cut <= length; cut++)
        compare_message("a message cut off", message, cut);
    message[length] = (uint8_t)chance();
    compare_message("a message with a byte more", message, length + 1);
}

/* Every number of one message just inside and just outside its range, whatever stands before and behind it. */
static void every_bound(const struct numbers *n, uint8_t second)
{
    uint8_t message[1024];
    for (size_t at = 0; at < n->count; at++) {
        uint64_t values[6] = { n->low[at], n->low[at] ? n->low[at] - 1 : 0, n->high[at], (uint64_t)n->high[at] + 1, 127,
                               1 << 21 };
        for (unsigned v = 0; v < 6; v++) {
            struct numbers other = *n;
            other.value[at] = values[v];
            size_t length = write_numbers(&other, second, n->count, message, sizeof message - 8);
            compare_numbers("a number at its bound", &other, message, length);
        }
        compare_message("a number in too many groups", message,
                        write_numbers(n, second, at, message, sizeof message - 8));
    }
}

/* The helper's message of a record has the same numbers. */
static void compare_helper(const struct kippertarn_queue_record *q, const struct numbers *n)
{
    uint8_t helped[KIPPERTARN_QUEUE_BYTES], message[1024];
    size_t length = kippertarn_write_queue_record(q, helped, sizeof helped);
    if (length != write_numbers(n, 0x53, n->count, message, sizeof message) || memcmp(helped, message, length)) {
        printf("FAILED: the helper writes another message\n");
        print_bytes("queue", message, length);
        failures++;
    }
}

static void random_bytes(void)
{
    uint8_t message[260];
    size_t length = below(sizeof message);
    for (size_t i = 0; i < length; i++)
        message[i] = below(2) ? (uint8_t)below(6) : (uint8_t)chance();
    if (length >= 3 && below(4)) {
        message[0] = 0x51;
        message[1] = below(2) ? 0x53 : 0x50;
        message[2] = 1;
    }
    compare_message("random bytes", message, length);
}

/* Refusals that were met too rarely to be believed. */
static void expect_met(const char *what, const unsigned long *times, unsigned from, unsigned to, unsigned long least)
{
    for (unsigned r = from; r <= to; r++)
        if (times[r] < least) {
            printf("FAILED: refusal %u %s was met %lu times only\n", r, what, times[r]);
            failures++;
        }
}

int main(int count, char **words)
{
    struct rounds rounds = rounds_from(count, words, 250000);
    char cases[160];
    open_rooms();
    while (another_round(&rounds)) {
        struct kippertarn_queue_record q;
        struct numbers queue, plan = plan_numbers();
        random_queue(&q, 60, rounds.done % 4 ? 200 : 1500); /* 60 jobs of 5 kinds need 305 at least */
        if (below(4) == 0)
            permit_all(&q);
        queue = queue_numbers(&q);
        compare_helper(&q, &queue);
        damaged("a damaged queue", queue, 0x53);
        damaged("a damaged plan", plan, 0x50);
        if (rounds.done % 1000 == 0) {
            every_cut(&queue, 0x53);
            every_cut(&plan, 0x50);
            every_bound(&queue, 0x53);
            every_bound(&plan, 0x50);
        }
        if (rounds.done % 8 == 0)
            random_bytes();
    }
    unsigned long least = rounds.done / 500;
    expect_met("of a queue", met_queue, 0, 14, least);
    expect_met("of planning", met, 0, 17, least);
    expect_met("of splitting", met_split, 0, 16, least);
    expect_met("of splitting", met_split, 17, 17, least / 4); /* small queues alone are split */
    expect_met("of splitting", met_split, 19, 20, least);
    expect_met("of a plan", met_plan, 0, 4, least);
    expect_met("of a plan", met_plan, 6, 6, least);
    expect_met("of a plan", met_plan, 12, 12, least);
    expect_met("of a plan", met_plan, 14, 14, least);
    expect_met("of a plan", met_plan, 18, 18, least);
    expect_nevers(rounds.done);
    if (met_never < 10 * least || met_over < least) {
        printf("FAILED: %lu queues only were accepted with a never, %lu refused with 65537\n", met_never, met_over);
        failures++;
    }
    snprintf(cases, sizeof cases, "%lu messages, damaged and whole, %lu accepted with a never, %lu refused with 65537",
             messages, met_never, met_over);
    return summary("messages", cases);
}
