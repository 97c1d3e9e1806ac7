/* Calls of the part with everything it is lent watched, and compared with the reference.
 *
 * Each part lent stands between two pages that may not be touched, with bytes of chance around and in it. A copy of the
 * whole is written as 01 and 02 say the part must be, and compared afterwards: what they do not say to be written has
 * to be as it was. */
#ifndef LENT_H
#define LENT_H

#define _DEFAULT_SOURCE /* for mmap */

#include "kippertarn.h"
#include "reference_split.h"

#include <signal.h>
#include <stdio.h>
#include <sys/mman.h>
#include <time.h>
#include <unistd.h>

static int failures;
static unsigned long compared;       /* answers */
static unsigned long met[19];        /* of them, by R of the planning call */
static unsigned long met_split[21];  /* and of the splitting call */
static unsigned long met_only_split; /* splits of queues that one cutter alone has no order for */

/* A fixed sequence, unless another seed is asked for. */
static uint64_t chance_state = 20261115;

static inline uint64_t chance(void)
{
    chance_state ^= chance_state << 13;
    chance_state ^= chance_state >> 7;
    chance_state ^= chance_state << 17;
    return chance_state * 0x2545F4914F6CDD1Du;
}

static inline unsigned below(unsigned n)
{
    return (unsigned)((chance() >> 33) % n);
}

static inline unsigned between(unsigned low, unsigned high)
{
    return low + below(high - low + 1);
}

/* How long a test runs: so many rounds, then on until the seconds are over. Arguments: [rounds [seed [seconds]]] */
struct rounds {
    unsigned long wanted, done;
    time_t end;
};

static inline struct rounds rounds_from(int count, char **words, unsigned long usual)
{
    struct rounds r = { usual, 0, 0 };
    if (count > 1)
        r.wanted = strtoul(words[1], NULL, 10);
    if (count > 2)
        chance_state = strtoull(words[2], NULL, 10) * 2 + 1;
    if (count > 3)
        r.end = time(NULL) + strtol(words[3], NULL, 10);
    return r;
}

static inline int another_round(struct rounds *r)
{
    if (failures > 4)
        return 0;
    return r->done++ < r->wanted || (r->end && time(NULL) < r->end);
}

static inline void print_bytes(const char *what, const uint8_t *bytes, size_t length)
{
    printf("  %s, %zu bytes:", what, length);
    for (size_t i = 0; i < length; i++)
        printf(" %02X", bytes[i]);
    printf("\n");
}

static inline void expect(const char *what, uint64_t got, uint64_t wanted)
{
    compared++;
    if (got != wanted) {
        printf("FAILED %s: %llu, wanted %llu\n", what, (unsigned long long)got, (unsigned long long)wanted);
        failures++;
    }
}

/* The message of the call under way, told where a call touches what it was not lent. */
static const uint8_t *message_at_hand;
static size_t length_at_hand;

static inline void touched_outside(int signal_number)
{
    printf("FAILED: a call touched what it was not lent (signal %d)\n", signal_number);
    print_bytes("message", message_at_hand, length_at_hand);
    fflush(stdout);
    _exit(1);
}

static inline void tell_of_touches(void)
{
    signal(SIGSEGV, touched_outside);
    signal(SIGBUS, touched_outside);
}

static inline void watch(const uint8_t *message, size_t length)
{
    message_at_hand = message;
    length_at_hand = length;
}

#define AROUND 64 /* bytes watched on either side of a lent part */

/* Room for parts to lend, and for the copy. */
struct room {
    uint8_t *bytes, *copy;
    size_t size;
};

static inline struct room new_room(size_t least)
{
    size_t page = (size_t)sysconf(_SC_PAGESIZE), size = (least + 2 * AROUND + page - 1) / page * page;
    uint8_t *map = mmap(NULL, size + 2 * page, PROT_READ | PROT_WRITE, MAP_PRIVATE | MAP_ANONYMOUS, -1, 0);
    struct room r = { map + page, malloc(size), size };
    if (map == MAP_FAILED || !r.copy || mprotect(map, page, PROT_NONE)
        || mprotect(map + page + size, page, PROT_NONE)) {
        printf("FAILED: no memory for the tests\n");
        exit(1);
    }
    return r;
}

/* A part of a room, and what is watched around it. */
struct lent {
    const char *name;
    uint8_t *bytes, *copy; /* the part, and its copy */
    size_t length, before, behind;
};

/* Lends `length` bytes against the first page, against the last, or between, filled by chance. */
static inline struct lent lend(struct room *r, const char *name, size_t length)
{
    unsigned where = below(3);
    size_t at = where == 0 ? 0 : where == 1 ? r->size - length : AROUND;
    size_t before = at < AROUND ? at : AROUND, rest = r->size - at - length, behind = rest < AROUND ? rest : AROUND;
    struct lent l = { name, r->bytes + at, r->copy + at, length, before, behind };
    for (size_t i = 0; i < before + length + behind; i += 8) {
        uint64_t eight = chance();
        size_t left = before + length + behind - i;
        memcpy(l.bytes - before + i, &eight, left < 8 ? left : 8);
    }
    memcpy(l.copy - before, l.bytes - before, before + length + behind);
    return l;
}

/* The address to lend: where the length is 0, sometimes a null pointer. */
static inline void *address(const struct lent *l)
{
    return l->length == 0 && below(2) ? NULL : (void *)l->bytes;
}

/* Says where a part is not as its copy. */
static inline int as_wanted(const struct lent *l)
{
    const uint8_t *got = l->bytes - l->before, *wanted = l->copy - l->before;
    size_t all = l->before + l->length + l->behind;
    if (memcmp(got, wanted, all) == 0)
        return 1;
    for (size_t i = 0; i < all; i++)
        if (got[i] != wanted[i]) {
            printf("FAILED the %s of %zu bytes: byte %ld is %02X, wanted %02X\n", l->name, l->length,
                   (long)i - (long)l->before, got[i], wanted[i]);
            break;
        }
    return 0;
}

static struct room message_room, table_room, plan_room;
static uint64_t *wanted_table, *planned_table;

static inline void open_rooms(void)
{
    message_room = new_room(8192);
    table_room = new_room(8 * (REF_MOST + 16));
    plan_room = new_room(8192);
    wanted_table = malloc(8 * REF_MOST);
    planned_table = malloc(8 * REF_MOST);
    if (!wanted_table || !planned_table)
        exit(1);
    tell_of_touches();
}

/* All that is lent to a planning or a splitting call. */
struct call {
    struct lent message, table, plan;
};

/* Lends a message, and a table and a plan buffer of these lengths; the copies are as the answer leaves them. */
static inline struct call lend_call(const uint8_t *bytes, size_t length, size_t entries, size_t plan_length,
                                    const struct ref_answer *wanted)
{
    struct call c;
    c.message = lend(&message_room, "message", length);
    c.table = lend(&table_room, "table", 8 * entries);
    c.plan = lend(&plan_room, "plan buffer", plan_length);
    memcpy(c.message.bytes, bytes, length);
    memcpy(c.message.copy, bytes, length);
    memcpy(c.table.copy, wanted_table, 8 * wanted->filled);
    memcpy(c.plan.copy, wanted->plan, wanted->plan_bytes);
    watch(bytes, length);
    return c;
}

/* Says where the answer, or what was lent, is not as wanted. */
static inline int answered_as_wanted(const char *what, const struct call *c, uint64_t answer,
                                     const struct ref_answer *wanted)
{
    size_t plan_length = c->plan.length;
    int good = as_wanted(&c->message) + as_wanted(&c->table) + as_wanted(&c->plan) == 3 && answer == wanted->answer;
    compared++;
    if (good)
        return 1;
    printf("FAILED %s: answer %llu, wanted %llu, with %zu entries and a plan buffer of %zu\n", what,
           (unsigned long long)answer, (unsigned long long)wanted->answer, c->table.length / 8, plan_length);
    print_bytes("queue", message_at_hand, length_at_hand);
    print_bytes("wanted plan", wanted->plan, wanted->plan_bytes);
    print_bytes("plan buffer", c->plan.bytes, plan_length < 77 ? plan_length : 77);
    failures++;
    return 0;
}

/* Plans a message by the part and by the reference, with a table and a plan buffer of these lengths; answers the
 * reference's. */
static inline struct ref_answer compare_plan(const char *what, const uint8_t *bytes, size_t length, size_t entries,
                                             size_t plan_length)
{
    struct ref_answer wanted = ref_plan(bytes, length, wanted_table, entries, plan_length);
    struct call c = lend_call(bytes, length, entries, plan_length, &wanted);
    uint64_t answer = kippertarn_plan(address(&c.message), length, address(&c.table), entries, address(&c.plan),
                                      plan_length);
    met[wanted.answer % 256]++;
    answered_as_wanted(what, &c, answer, &wanted);
    return wanted;
}

/* Splits a message in the same way; the table is held also to what the planning call leaves, which may have no order
 * where there is a split, and has none where there is no split. */
static inline struct ref_answer compare_split(const char *what, const uint8_t *bytes, size_t length,
                                              uint32_t second_start, size_t entries, size_t plan_length)
{
    struct ref_answer wanted = ref_split(bytes, length, second_start, wanted_table, entries, plan_length);
    struct call c = lend_call(bytes, length, entries, plan_length, &wanted);
    uint64_t answer = kippertarn_split(address(&c.message), length, second_start, address(&c.table), entries,
                                       address(&c.plan), plan_length);
    uint8_t plan[KIPPERTARN_PLAN_BYTES];
    met_split[wanted.answer % 256]++;
    if (!answered_as_wanted(what, &c, answer, &wanted))
        printf("  second start %lu\n", (unsigned long)second_start);
    else if (wanted.answer % 256 == 0 || wanted.answer == 17) {
        answer = kippertarn_plan(bytes, length, planned_table, wanted.filled, plan, sizeof plan);
        expect("planning where there is a split or none",
               answer == 17 || (answer % 256 == 0 && wanted.answer != 17), 1);
        met_only_split += answer == 17 && wanted.answer != 17;
        expect("the table that planning leaves",
               (uint64_t)(memcmp(planned_table, c.table.bytes, 8 * wanted.filled) == 0), 1);
    }
    return wanted;
}

/* Asks for both sizes of a message that the reference's reader answers r: that is R of both, and where it is 0 they are
 * the numbers counted one by one. */
static inline void compare_sizes(const char *what, const uint8_t *message, size_t length, int r,
                                 const struct kippertarn_queue_record *q)
{
    struct ref_sizes wanted = { 0, 0 };
    uint64_t entries = kippertarn_table_entries(message, length), most = kippertarn_most_kept(message, length);
    if (r == 0)
        wanted = ref_sizes_of(q);
    compared += 2;
    if (entries == (uint64_t)r + 256 * wanted.entries && most == (uint64_t)r + 256 * wanted.states)
        return;
    printf("FAILED %s: table entries %llu, most kept %llu, wanted R %d, V %llu and %llu\n", what,
           (unsigned long long)entries, (unsigned long long)most, r, (unsigned long long)wanted.entries,
           (unsigned long long)wanted.states);
    print_bytes("message", message_at_hand, length_at_hand);
    failures++;
}

/* Checks bytes by both checking entries and by the reference's readers, and asks for both sizes; answers R as a queue
 * and as a plan. */
static inline void compare_checks(const char *what, const uint8_t *bytes, size_t length, int *as_queue, int *as_plan)
{
    struct lent message = lend(&message_room, "message", length);
    struct kippertarn_queue_record q;
    const uint8_t *one = address(&message), *other = address(&message);
    uint64_t queue_answer, plan_answer;
    memcpy(message.bytes, bytes, length);
    memcpy(message.copy, bytes, length);
    *as_queue = ref_read_queue(bytes, length, &q);
    *as_plan = ref_check_plan(bytes, length);
    watch(bytes, length);
    queue_answer = kippertarn_check_queue(one, length);
    plan_answer = kippertarn_check_plan(other, length);
    compare_sizes(what, one, length, *as_queue, &q);
    compared += 2;
    if (queue_answer != (uint64_t)*as_queue || plan_answer != (uint64_t)*as_plan || !as_wanted(&message)) {
        printf("FAILED %s: as a queue %llu, wanted %d; as a plan %llu, wanted %d\n", what,
               (unsigned long long)queue_answer, *as_queue, (unsigned long long)plan_answer, *as_plan);
        print_bytes("message", bytes, length);
        failures++;
    }
}

/* The message in examples/NAME.queue; answers its length, 0 where there is none. Tests run from the top of the
 * repository. */
static inline size_t read_example(const char *name, uint8_t *bytes, size_t room)
{
    char path[80];
    size_t length = 0;
    snprintf(path, sizeof path, "examples/%s.queue", name);
    FILE *file = fopen(path, "rb");
    if (file) {
        length = fread(bytes, 1, room, file);
        fclose(file);
    }
    return length;
}

/* The one summary line, and the exit status. */
static inline int summary(const char *name, const char *cases)
{
    if (failures)
        printf("%s: FAILED, %d failures in %lu answers\n", name, failures, compared);
    else
        printf("%s: %s; %lu answers agree\n", name, cases, compared);
    return failures != 0;
}

#endif
