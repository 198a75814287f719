/* The plans of c/test.c, and its random numbers. */
#ifndef PLANS_H
#define PLANS_H

#include "jirvaldo.h"
#include <string.h>

/* ---- random numbers: splitmix64 */

static uint64_t random_bits(uint64_t *seed)
{
    uint64_t z = *seed += UINT64_C(0x9E3779B97F4A7C15);
    z = (z ^ (z >> 30)) * UINT64_C(0xBF58476D1CE4E5B9);
    z = (z ^ (z >> 27)) * UINT64_C(0x94D049BB133111EB);
    return z ^ (z >> 31);
}

static unsigned below(uint64_t *seed, unsigned bound)
{
    return (unsigned)(random_bits(seed) % bound);
}

/* ---- plans */

typedef struct plan_bytes {
    uint8_t bytes[JIRVALDO_PLAN_MAX + 8]; /* with room for a mutation that makes it longer */
    size_t size;
} plan_bytes;

/* `size` bytes, most significant first */
static void put_bits(uint8_t *to, uint64_t bits, unsigned size)
{
    unsigned i;
    for (i = 0; i < size; i++) to[i] = (uint8_t)(bits >> (8 * (size - 1 - i)));
}

static void put_header(plan_bytes *plan, unsigned form, unsigned r, unsigned d, unsigned l, unsigned n)
{
    put_bits(plan->bytes, (uint64_t)form << 36 | (uint64_t)r << 33 | (uint64_t)d << 26 | (uint64_t)l << 10 | (n - 1), 5);
    memset(plan->bytes + 5, 0, 3 * (size_t)n);
    plan->size = 5 + 3 * (size_t)n;
}

static void put_task(plan_bytes *plan, unsigned task, unsigned count, unsigned first, unsigned second)
{
    put_bits(plan->bytes + 5 + 3 * (size_t)task, (uint64_t)count << 22 | (uint64_t)first << 11 | second, 3);
}

/* the same plan in form 2, in which each task lasts so many ticks */
static void in_form_2(plan_bytes *plan, unsigned ticks)
{
    size_t n = (plan->size - 5) / 3, t;
    for (t = n; t-- != 0;) {
        memmove(plan->bytes + 5 + 4 * t, plan->bytes + 5 + 3 * t, 3);
        plan->bytes[5 + 4 * t + 3] = (uint8_t)ticks;
    }
    plan->bytes[0] = (uint8_t)(plan->bytes[0] + 0x10);
    plan->size = 5 + 4 * n;
}

/* the ticks of a task, in form 2 */
static void put_ticks(plan_bytes *plan, unsigned task, unsigned ticks)
{
    plan->bytes[5 + 4 * (size_t)task + 3] = (uint8_t)ticks;
}

/* the same plan in form 3, in which R is so many tenths and L has 14 bits */
static void in_form_3(plan_bytes *plan, unsigned tenths)
{
    uint64_t header = 0;
    unsigned i;
    for (i = 0; i < 5; i++) header = header << 8 | plan->bytes[i];
    put_bits(plan->bytes, (uint64_t)3 << 36 | (uint64_t)tenths << 31 | (header >> 26 & 127) << 24 | (header & 0xFFFFFF), 5);
}

/* a tree that forks to so many leaves and joins them again: 3 * leaves - 2 tasks */
static void fork_join(plan_bytes *plan, unsigned r, unsigned d, unsigned l, unsigned leaves)
{
    unsigned n = 3 * leaves - 2, t;
    put_header(plan, 1, r, d, l, n);
    for (t = 0; t + 1 < leaves; t++) put_task(plan, t, 2, 2 * t + 1, 2 * t + 2);
    for (; t + 1 < n; t++) put_task(plan, t, 1, 2 * leaves - 1 + (t + 1 - leaves) / 2, 0);
}

/* a tree that forks to 256 leaves, 511 tasks, then a chain of 255 that joins them one by one */
static void wide(plan_bytes *plan, unsigned r, unsigned d, unsigned l)
{
    unsigned t;
    put_header(plan, 1, r, d, l, 766);
    for (t = 0; t < 255; t++) put_task(plan, t, 2, 2 * t + 1, 2 * t + 2);
    put_task(plan, 255, 1, 511, 0);
    for (t = 256; t < 511; t++) put_task(plan, t, 1, t + 255, 0);
    for (; t < 765; t++) put_task(plan, t, 1, t + 1, 0);
}

static void plan_a(plan_bytes *plan)
{
    put_header(plan, 1, 2, 80, 2, 4);
    put_task(plan, 0, 2, 1, 2);
    put_task(plan, 1, 1, 3, 0);
    put_task(plan, 2, 1, 3, 0);
}

/* a chain of n tasks */
static void chain(plan_bytes *plan, unsigned r, unsigned d, unsigned l, unsigned n)
{
    unsigned t;
    put_header(plan, 1, r, d, l, n);
    for (t = 0; t + 1 < n; t++) put_task(plan, t, 1, t + 1, 0);
}

typedef struct task_list {
    unsigned tasks[JIRVALDO_TASKS_MAX];
    unsigned size;
} task_list;

static unsigned take(task_list *from, uint64_t *seed)
{
    unsigned at = below(seed, from->size), task = from->tasks[at];
    from->tasks[at] = from->tasks[--from->size];
    return task;
}

static void add(task_list *to, unsigned task)
{
    to->tasks[to->size++] = task;
}

/* a random graph of n tasks: each new task follows some ends (tasks without a successor) and at times a task with one; as many ends are
 * closed as it takes to be left with the last task alone */
static void random_graph(plan_bytes *plan, unsigned n, uint64_t *seed)
{
    static unsigned successors[JIRVALDO_TASKS_MAX][2];
    task_list ends = {{0}, 1}, singles = {{0}, 0};
    unsigned t, closes, least, task;
    memset(successors, 0, sizeof successors);
    for (t = 1; t < n; t++) {
        least = ends.size + 1 > n - t ? ends.size + 1 - (n - t) : 0;
        if (least == 0 && singles.size == 0) least = 1;
        closes = least + below(seed, 3 - least);
        if (closes > ends.size) closes = ends.size;
        if (closes < 2 && singles.size != 0 && (closes == 0 || below(seed, 2) == 0)) successors[take(&singles, seed)][1] = t;
        while (closes-- != 0) {
            task = take(&ends, seed);
            successors[task][0] = t;
            add(&singles, task);
        }
        add(&ends, t);
    }
    for (t = 0; t < n; t++) {
        put_task(plan, t, successors[t][1] != 0 ? 2 : successors[t][0] != 0, successors[t][0], successors[t][1]);
    }
}

/* the same plan in form 2, with tasks of up to so many ticks; how many ticks it has in all */
static unsigned random_ticks(plan_bytes *plan, unsigned most, uint64_t *seed)
{
    unsigned n = (unsigned)(plan->size - 5) / 3, t, ticks, sum = 0;
    in_form_2(plan, 1);
    for (t = 0; t < n; t++) {
        ticks = 1 + below(seed, most);
        put_ticks(plan, t, ticks);
        sum += ticks;
    }
    return sum;
}

/* a plan of form 1, 2 or 3 */
static void random_plan(plan_bytes *plan, uint64_t *seed)
{
    static const unsigned sizes[] = {1, 2, 5, 30, 200, 1024};
    unsigned n = 1 + below(seed, sizes[below(seed, 6)]), form = 1 + below(seed, 3), longest = form == 3 ? 16383 : 65535;
    unsigned r = 2 + below(seed, 6), d = 1 + below(seed, 100), l = below(seed, 4) == 0 ? 1 + below(seed, longest) : 1 + below(seed, 6);
    put_header(plan, 1, r, d, l, n);
    random_graph(plan, n, seed);
    if (form == 2) random_ticks(plan, below(seed, 3) == 0 ? JIRVALDO_TICKS_MAX : 4, seed);
    if (form == 3) in_form_3(plan, 12 + below(seed, 9));
}

/* changes one to three bytes or the length of a plan */
static void mutate(plan_bytes *plan, uint64_t *seed)
{
    unsigned times = 1 + below(seed, 3), bit;
    while (times-- != 0) {
        bit = below(seed, 8);
        switch (below(seed, 6)) {
        case 0: plan->size = below(seed, (unsigned)plan->size + 1); break;
        case 1: plan->bytes[plan->size] = (uint8_t)random_bits(seed); plan->size += plan->size < JIRVALDO_PLAN_MAX + 4; break;
        default:
            if (plan->size != 0) plan->bytes[below(seed, (unsigned)plan->size)] ^= (uint8_t)(1u << bit);
        }
    }
}

#endif
