/* The test of the C interface: test ROUNDS, with that many rounds of each random check (1,000 without an argument). It stops at the first
 * check that fails, and says how many passed otherwise. */
#define _DEFAULT_SOURCE /* for mmap, in C99 */
#include "jirvaldo.h"
#include "lent.h"
#include "plans.h"
#include <pthread.h>

/* ---- what a job shows */

static int same_numbers(const jirvaldo_job *a, const jirvaldo_job *b)
{
    jirvaldo_numbers one = jirvaldo_counters(a, 7), other = jirvaldo_counters(b, 7);
    return memcmp(&one, &other, sizeof one) == 0;
}

static int line_is(const jirvaldo_job *job, uint64_t refused_calls, const char *expected)
{
    size_t size = 0, length = strlen(expected);
    uint8_t *buffer = block(JIRVALDO_LINE_BUFFER);
    int same;
    memset(buffer, 0xAA, JIRVALDO_LINE_BUFFER);
    same = jirvaldo_line(job, refused_calls, buffer, JIRVALDO_LINE_BUFFER, &size) == 0 && size == length + 1 &&
        memcmp(buffer, expected, length) == 0 && buffer[length] == 10;
    for (; size < JIRVALDO_LINE_BUFFER; size++) same = same && buffer[size] == 0xAA;
    release(buffer, JIRVALDO_LINE_BUFFER);
    return same;
}

/* the line says the same numbers as jirvaldo_counters, and the status is the first of them */
static void check_shown(const jirvaldo_job *job, uint64_t refused_calls)
{
    char text[256];
    jirvaldo_numbers n = jirvaldo_counters(job, refused_calls);
    sprintf(text, "%llu %llu %llu %llu %llu %llu %llu %llu %llu %llu", (unsigned long long)n.status, (unsigned long long)n.worked,
        (unsigned long long)n.tasks, (unsigned long long)n.desire, (unsigned long long)n.allotment, (unsigned long long)n.work,
        (unsigned long long)n.mug, (unsigned long long)n.steal, (unsigned long long)n.successes, (unsigned long long)n.refused_calls);
    CHECK(line_is(job, refused_calls, text));
    CHECK(jirvaldo_status(job) == n.status);
    CHECK(n.refused_calls == refused_calls);
}

/* what is proved of every job, looked at from outside: D and L are the plan's, its tasks have so many ticks in all, and the mug limit has
 * so many tenths: 10 + 10 * R, and in form 3 10 + 2 * t */
static void check_limits(const jirvaldo_job *job, unsigned tenths, unsigned d, unsigned l, unsigned ticks)
{
    jirvaldo_numbers n = jirvaldo_counters(job, 0);
    CHECK(n.mug * l * d * 10 <= (uint64_t)100 * tenths * (n.work + n.mug));
    CHECK(n.worked <= n.work && n.worked <= n.tasks && n.work <= ticks);
    CHECK(ticks != n.tasks || n.work == n.worked);
    CHECK((n.worked == n.tasks) == (n.status == JIRVALDO_STATUS_FINISHED));
    CHECK((n.work == ticks) == (n.status == JIRVALDO_STATUS_FINISHED));
    CHECK(n.successes <= n.steal && n.desire >= 1 && n.desire <= JIRVALDO_WORKERS_MAX && n.allotment <= JIRVALDO_WORKERS_MAX);
}

/* ---- driving a job */

/* where no quantum is open: a noted offer is opened with so many workers or withdrawn, else as many are granted or offered */
static unsigned give(jirvaldo_job *job, uint64_t workers, uint64_t *seed)
{
    unsigned answer = below(seed, 4) == 0 ? jirvaldo_withdraw(job) : jirvaldo_open(job, workers);
    if (answer == JIRVALDO_GRANT_ABOVE_DESIRE) return jirvaldo_withdraw(job);
    if (answer != JIRVALDO_OFFER_NONE) return answer;
    return below(seed, 2) == 0 ? jirvaldo_grant(job, workers) : jirvaldo_offer(job, workers);
}

/* one random accepted call of the five; 0, or 11 once the job is finished, or 13 */
static unsigned drive(jirvaldo_job *job, uint64_t *seed)
{
    uint8_t choices[JIRVALDO_WORKERS_MAX];
    jirvaldo_numbers n = jirvaldo_counters(job, 0);
    size_t i, size = (size_t)n.allotment;
    unsigned answer, most = below(seed, 4) == 0 ? (unsigned)n.desire + 1 : 1;
    for (i = 0; i < size; i++) choices[i] = (uint8_t)below(seed, (unsigned)size);
    answer = tick_bytes(job, choices, size);
    if (answer != JIRVALDO_TICK_NO_QUANTUM) return answer;
    return give(job, n.desire - below(seed, most), seed);
}

static unsigned drive_on(jirvaldo_job *job, uint64_t *seed, unsigned calls)
{
    unsigned answer = 0;
    while (answer == 0 && calls-- != 0) answer = drive(job, seed);
    return answer;
}

static jirvaldo_job *accepted(const plan_bytes *plan)
{
    jirvaldo_job *job = job_block();
    CHECK(accept_bytes(job, plan->bytes, plan->size) == 0);
    return job;
}

/* ---- refusals: the memory stays byte for byte */

/* a refused plan leaves memory that never held a job, and a job, as they came */
static void check_plan(const plan_bytes *plan, unsigned expected)
{
    plan_bytes other;
    jirvaldo_job *job = job_block(), *copy = job_block();
    memset(job, 0xAA, sizeof *job);
    memset(copy, 0xAA, sizeof *copy);
    CHECK(accept_bytes(job, plan->bytes, plan->size) == expected);
    CHECK(expected == 0 || memcmp(job, copy, sizeof *job) == 0);
    plan_a(&other);
    CHECK(accept_bytes(job, other.bytes, other.size) == 0);
    CHECK(jirvaldo_grant(job, 1) == 0);
    memcpy(copy, job, sizeof *job);
    CHECK(accept_bytes(job, plan->bytes, plan->size) == expected);
    CHECK(expected == 0 || memcmp(job, copy, sizeof *job) == 0);
    release_job(job);
    release_job(copy);
}

static void check_plan_with(void (*change)(plan_bytes *), unsigned expected)
{
    plan_bytes plan;
    plan_a(&plan);
    change(&plan);
    check_plan(&plan, expected);
}

static void no_bytes(plan_bytes *p) { p->size = 0; }
static void four_bytes(plan_bytes *p) { p->size = 4; }
static void form_0(plan_bytes *p) { put_header(p, 0, 2, 80, 2, 4); }
static void form_4(plan_bytes *p) { put_header(p, 4, 2, 80, 2, 4); }
static void form_15(plan_bytes *p) { put_header(p, 15, 2, 80, 2, 4); }
static void r_0(plan_bytes *p) { put_header(p, 1, 0, 80, 2, 4); }
static void r_1(plan_bytes *p) { put_header(p, 1, 1, 80, 2, 4); }
static void r_7(plan_bytes *p) { chain(p, 7, 80, 2, 4); }
static void d_0(plan_bytes *p) { put_header(p, 1, 2, 0, 2, 4); }
static void d_101(plan_bytes *p) { put_header(p, 1, 2, 101, 2, 4); }
static void d_100(plan_bytes *p) { chain(p, 2, 100, 2, 4); }
static void l_0(plan_bytes *p) { put_header(p, 1, 2, 80, 0, 4); }
static void l_65535(plan_bytes *p) { chain(p, 2, 80, 65535, 4); }
static void cut(plan_bytes *p) { p->size -= 1; }
static void longer(plan_bytes *p) { p->bytes[p->size++] = 0; }
static void header_alone(plan_bytes *p) { p->size = 5; }
static void count_3(plan_bytes *p) { put_task(p, 0, 3, 1, 2); }
static void unused_first(plan_bytes *p) { put_task(p, 3, 0, 1, 0); }
static void unused_second(plan_bytes *p) { put_task(p, 1, 1, 3, 1); }
static void itself(plan_bytes *p) { put_task(p, 1, 1, 1, 0); }
static void past_the_last(plan_bytes *p) { put_task(p, 1, 1, 4, 0); }
static void twice(plan_bytes *p) { put_task(p, 0, 2, 1, 1); }
static void field_2047(plan_bytes *p) { put_task(p, 0, 2, 2047, 2); }
static void no_predecessor(plan_bytes *p) { put_task(p, 0, 1, 1, 0); }
static void three_predecessors(plan_bytes *p) { put_header(p, 1, 2, 80, 2, 5); put_task(p, 0, 2, 1, 4); put_task(p, 1, 2, 2, 4);
    put_task(p, 2, 2, 3, 4); put_task(p, 3, 1, 4, 0); }
static void loose_end(plan_bytes *p) { put_task(p, 1, 0, 0, 0); }
static void one_task(plan_bytes *p) { put_header(p, 1, 2, 80, 2, 1); }
static void most_tasks(plan_bytes *p) { fork_join(p, 2, 80, 2, 342); }
static void most_and_a_byte(plan_bytes *p) { fork_join(p, 2, 80, 2, 342); p->bytes[p->size++] = 0; }
static void as_it_is(plan_bytes *p) { (void)p; }

static void test_plans(void)
{
    static void (*const changes[])(plan_bytes *) = {as_it_is, one_task, r_7, d_100, l_65535, most_tasks, no_bytes, four_bytes, form_0,
        form_4, form_15, r_0, r_1, d_0, d_101, l_0, cut, longer, header_alone, most_and_a_byte, count_3, unused_first, unused_second,
        itself, past_the_last, twice, field_2047, no_predecessor, three_predecessors, loose_end};
    static const unsigned expected[] = {0, 0, 0, 0, 0, 0, 1, 1, 2, 2, 2, 3, 3, 4, 4, 5, 6, 6, 6, 6, 7, 7, 7, 8, 8, 8, 8, 9, 9, 10};
    jirvaldo_job *job = job_block();
    size_t i;
    CHECK(sizeof changes / sizeof changes[0] == sizeof expected / sizeof expected[0]);
    for (i = 0; i < sizeof expected / sizeof expected[0]; i++) check_plan_with(changes[i], expected[i]);
    CHECK(jirvaldo_accept(job, NULL, 0) == JIRVALDO_PLAN_SHORT);
    release_job(job);
}

static void form_2(plan_bytes *p) { in_form_2(p, 1); }
static void ticks_255(plan_bytes *p) { in_form_2(p, JIRVALDO_TICKS_MAX); }
static void one_long_task(plan_bytes *p) { one_task(p); in_form_2(p, 3); }
static void most_ticks(plan_bytes *p) { most_tasks(p); in_form_2(p, JIRVALDO_TICKS_MAX); CHECK(p->size == JIRVALDO_PLAN_MAX); }
static void most_ticks_cut(plan_bytes *p) { most_ticks(p); p->size -= 1; }
static void most_ticks_and_a_byte(plan_bytes *p) { most_ticks(p); p->bytes[p->size++] = 1; }
static void form_2_cut(plan_bytes *p) { form_2(p); p->size -= 1; }
static void form_2_longer(plan_bytes *p) { form_2(p); p->bytes[p->size++] = 1; }
static void form_2_in_17_bytes(plan_bytes *p) { p->bytes[0] = 0x25; }
static void form_1_in_21_bytes(plan_bytes *p) { form_2(p); p->bytes[0] = 0x15; }
static void form_2_r_1(plan_bytes *p) { r_1(p); in_form_2(p, 0); }
static void form_2_count_3(plan_bytes *p) { count_3(p); in_form_2(p, 0); }
static void form_2_unused(plan_bytes *p) { unused_second(p); in_form_2(p, 1); }
static void form_2_twice(plan_bytes *p) { twice(p); in_form_2(p, 0); }
static void no_ticks(plan_bytes *p) { in_form_2(p, 0); }
static void no_ticks_cut(plan_bytes *p) { in_form_2(p, 0); p->size -= 1; }
static void no_ticks_at_the_last(plan_bytes *p) { form_2(p); put_ticks(p, 3, 0); }
static void no_ticks_before_8(plan_bytes *p) { itself(p); form_2(p); put_ticks(p, 0, 0); }
static void no_ticks_at_8(plan_bytes *p) { itself(p); form_2(p); put_ticks(p, 1, 0); }
static void no_ticks_after_8(plan_bytes *p) { itself(p); form_2(p); put_ticks(p, 2, 0); }
static void no_ticks_and_9(plan_bytes *p) { no_predecessor(p); form_2(p); put_ticks(p, 3, 0); }
static void no_ticks_and_10(plan_bytes *p) { loose_end(p); form_2(p); put_ticks(p, 3, 0); }
static void form_2_9(plan_bytes *p) { no_predecessor(p); form_2(p); }
static void form_2_10(plan_bytes *p) { loose_end(p); form_2(p); }

/* 28 is asked of a task after 7 and 8, and before the next task */
static void test_plans_of_form_2(void)
{
    static void (*const changes[])(plan_bytes *) = {form_2, ticks_255, one_long_task, most_ticks, form_2_r_1, most_ticks_cut,
        most_ticks_and_a_byte, form_2_cut, form_2_longer, form_2_in_17_bytes, form_1_in_21_bytes, no_ticks_cut, form_2_count_3,
        form_2_unused, form_2_twice, no_ticks_at_8, no_ticks_after_8, no_ticks, no_ticks_at_the_last, no_ticks_before_8, no_ticks_and_9,
        no_ticks_and_10, form_2_9, form_2_10};
    static const unsigned expected[] = {0, 0, 0, 0, 3, 6, 6, 6, 6, 6, 6, 6, 7, 7, 8, 8, 8, 28, 28, 28, 28, 28, 9, 10};
    size_t i;
    CHECK(sizeof changes / sizeof changes[0] == sizeof expected / sizeof expected[0]);
    for (i = 0; i < sizeof expected / sizeof expected[0]; i++) check_plan_with(changes[i], expected[i]);
}

static void form_3(plan_bytes *p) { in_form_3(p, 15); }
static void tenths_12(plan_bytes *p) { in_form_3(p, 12); }
static void tenths_20(plan_bytes *p) { in_form_3(p, 20); }
static void tenths_0(plan_bytes *p) { in_form_3(p, 0); }
static void tenths_2(plan_bytes *p) { in_form_3(p, 2); }
static void tenths_11(plan_bytes *p) { in_form_3(p, 11); }
static void tenths_21(plan_bytes *p) { in_form_3(p, 21); }
static void tenths_31(plan_bytes *p) { in_form_3(p, 31); }
static void form_3_four_bytes(plan_bytes *p) { form_3(p); p->size = 4; }
static void form_3_one_task(plan_bytes *p) { one_task(p); form_3(p); }
static void form_3_most_tasks(plan_bytes *p) { most_tasks(p); form_3(p); }
static void form_3_d_100(plan_bytes *p) { d_100(p); form_3(p); }
static void form_3_d_0(plan_bytes *p) { d_0(p); form_3(p); }
static void form_3_d_101(plan_bytes *p) { d_101(p); form_3(p); }
static void tenths_11_d_0(plan_bytes *p) { d_0(p); in_form_3(p, 11); }
static void form_3_l_0(plan_bytes *p) { l_0(p); form_3(p); }
static void form_3_l_16383(plan_bytes *p) { chain(p, 2, 80, 16383, 4); form_3(p); }
static void form_3_cut(plan_bytes *p) { form_3(p); cut(p); }
static void form_3_longer(plan_bytes *p) { form_3(p); longer(p); }
static void form_3_in_21_bytes(plan_bytes *p) { form_2(p); form_3(p); }
static void form_3_most_and_a_byte(plan_bytes *p) { most_and_a_byte(p); form_3(p); }
static void form_3_count_3(plan_bytes *p) { count_3(p); form_3(p); }
static void form_3_unused(plan_bytes *p) { unused_second(p); form_3(p); }
static void form_3_itself(plan_bytes *p) { itself(p); form_3(p); }
static void form_3_twice(plan_bytes *p) { twice(p); form_3(p); }
static void form_3_9(plan_bytes *p) { no_predecessor(p); form_3(p); }
static void form_3_10(plan_bytes *p) { loose_end(p); form_3(p); }

static void test_plans_of_form_3(void)
{
    static void (*const changes[])(plan_bytes *) = {form_3, tenths_12, tenths_20, form_3_one_task, form_3_most_tasks, form_3_d_100,
        form_3_l_16383, form_3_four_bytes, tenths_0, tenths_2, tenths_11, tenths_21, tenths_31, tenths_11_d_0, form_3_d_0, form_3_d_101,
        form_3_l_0, form_3_cut, form_3_longer, form_3_in_21_bytes, form_3_most_and_a_byte, form_3_count_3, form_3_unused, form_3_itself,
        form_3_twice, form_3_9, form_3_10};
    static const unsigned expected[] = {0, 0, 0, 0, 0, 0, 0, 1, 3, 3, 3, 3, 3, 3, 4, 4, 5, 6, 6, 6, 6, 7, 7, 8, 8, 9, 10};
    size_t i;
    CHECK(sizeof changes / sizeof changes[0] == sizeof expected / sizeof expected[0]);
    for (i = 0; i < sizeof expected / sizeof expected[0]; i++) check_plan_with(changes[i], expected[i]);
}

static void refuses_grant(jirvaldo_job *job, uint64_t workers, unsigned expected)
{
    jirvaldo_job *copy = copy_of(job);
    CHECK(jirvaldo_grant(job, workers) == expected);
    CHECK(is_still(job, copy));
}

static void refuses_tick(jirvaldo_job *job, const uint8_t *choices, size_t size, unsigned expected)
{
    jirvaldo_job *copy = copy_of(job);
    CHECK(tick_bytes(job, choices, size) == expected);
    CHECK(is_still(job, copy));
}

/* grants that wrap around in fewer bits would be 0 or 1 there, and accepted */
static void test_large_grants(jirvaldo_job *job)
{
    unsigned bits;
    for (bits = 1; bits < 64; bits++) {
        refuses_grant(job, UINT64_C(1) << bits, JIRVALDO_GRANT_ABOVE_DESIRE);
        refuses_grant(job, (UINT64_C(1) << bits) + 1, JIRVALDO_GRANT_ABOVE_DESIRE);
    }
    refuses_grant(job, UINT64_MAX, JIRVALDO_GRANT_ABOVE_DESIRE);
    refuses_grant(job, 65, JIRVALDO_GRANT_ABOVE_DESIRE);
}

static void test_calls(void)
{
    static const uint8_t zeros[300] = {0}, one[] = {1}, high[] = {255};
    plan_bytes plan;
    jirvaldo_job *job;
    plan_a(&plan);
    job = accepted(&plan);
    test_large_grants(job);
    refuses_tick(job, zeros, 1, JIRVALDO_TICK_NO_QUANTUM);
    refuses_tick(job, zeros, 0, JIRVALDO_TICK_NO_QUANTUM);
    CHECK(jirvaldo_grant(job, 1) == 0);
    refuses_grant(job, 1, JIRVALDO_GRANT_QUANTUM_OPEN);
    refuses_grant(job, UINT64_MAX, JIRVALDO_GRANT_QUANTUM_OPEN);
    refuses_tick(job, zeros, 0, JIRVALDO_TICK_CHOICE_COUNT);
    refuses_tick(job, zeros, 2, JIRVALDO_TICK_CHOICE_COUNT);
    refuses_tick(job, zeros, 257, JIRVALDO_TICK_CHOICE_COUNT);
    refuses_tick(job, one, 1, JIRVALDO_TICK_BAD_CHOICE);
    refuses_tick(job, high, 1, JIRVALDO_TICK_BAD_CHOICE);
    CHECK(tick_bytes(job, zeros, 1) == 0 && tick_bytes(job, zeros, 1) == 0);
    CHECK(jirvaldo_grant(job, 2) == 0 && tick_bytes(job, zeros, 2) == 0 && tick_bytes(job, zeros, 2) == 0);
    CHECK(line_is(job, 0, "3 4 4 2 2 4 0 2 0 0"));
    refuses_grant(job, 0, JIRVALDO_JOB_FINISHED);
    refuses_grant(job, UINT64_MAX, JIRVALDO_JOB_FINISHED);
    refuses_tick(job, zeros, 2, JIRVALDO_JOB_FINISHED);
    refuses_tick(job, NULL, 0, JIRVALDO_JOB_FINISHED);
    CHECK(jirvaldo_tick(job, NULL, 0) == JIRVALDO_JOB_FINISHED);
    release_job(job);
}

/* thirteen tasks with D = 1 and L = 1, of which worker 0 alone has five in its deque after four */
static void nested(plan_bytes *plan)
{
    static const unsigned next[13][2] = {{1, 2}, {3, 4}, {12, 0}, {5, 6}, {11, 0}, {7, 8}, {10, 0}, {9, 0}, {9, 0}, {10, 0}, {11, 0},
        {12, 0}, {0, 0}};
    unsigned t;
    put_header(plan, 1, 2, 1, 1, 13);
    for (t = 0; t < 12; t++) put_task(plan, t, next[t][1] == 0 ? 1 : 2, next[t][0], next[t][1]);
}

/* the line after a log on a fresh job of the plan, none of whose calls is refused */
static int line_after(const plan_bytes *plan, const char *log, size_t size, const char *line)
{
    jirvaldo_job *job = accepted(plan);
    uint64_t refused = 99;
    int same = log_bytes(job, (const uint8_t *)log, size, &refused) == 0 && refused == 0 && line_is(job, 0, line);
    release_job(job);
    return same;
}

/* a thief takes two of five tasks and works them in the next two ticks; and three thieves in one tick, of which the second takes half of
 * what the first left, the third half of what the first took */
static void test_thefts(void)
{
    static const char one[] = "\x01\x81\0\x01\x81\0\x01\x81\0\x02\x82\0\0\x02\x82\0\0\x02\x82\0\0";
    static const char three[] = "\x01\x81\0\x01\x81\0\x02\x82\0\x01\x04\x84\0\0\0\x01";
    plan_bytes plan;
    nested(&plan);
    CHECK(line_after(&plan, one, 13, "1 4 13 4 2 4 0 1 1 0"));
    CHECK(line_after(&plan, one, sizeof one - 1, "1 8 13 4 2 8 0 1 1 0"));
    CHECK(line_after(&plan, three, sizeof three - 1, "1 4 13 8 4 4 0 4 3 0"));
}

/* a grant of 0 withdraws worker 1 with two tasks and worker 0 with two, and one worker mugs the former, works them and mugs the latter; and
 * the deques of an earlier grant, with a task each, are mugged before that of a later one, whose task another would follow */
static void test_withdrawals(void)
{
    static const char last[] = "\x01\x81\0\x01\x81\0\x02\x82\0\0\0\x80\x01\x81\0\x01\x81\0\x01\x81\0\x01\x81\0";
    static const char earlier[] =
        "\x01\x81\0\x01\x81\0\x02\x82\0\x01\x04\x84\0\0\0\x01\x02\x82\0\0\0\x80\x01\x81\0\x01\x81\0\x01\x81\0";
    plan_bytes plan;
    nested(&plan);
    CHECK(line_after(&plan, last, sizeof last - 1, "1 5 13 4 1 5 2 1 1 0"));
    CHECK(line_after(&plan, earlier, sizeof earlier - 1, "1 7 13 8 1 7 2 4 3 0"));
}

/* seven tasks with R = 3: of three workers the first, the second or the last finishes the job, and those after it steal in vain */
static void test_last_tick(void)
{
    static const unsigned next[7][2] = {{1, 2}, {3, 4}, {5, 0}, {5, 0}, {6, 0}, {6, 0}, {0, 0}};
    static const char first[] =
        "\x01\x81\0\x03\x83\0\x01\x02\x03\x83\0\x01\x02\x03\x83\0\x01\x02\x03\x83\0\x01\x02\x03\x83\0\x01\x02\x03\x83\0\x01\x02";
    static const char second[] = "\x01\x81\0\x03\x83\0\0\0\x03\x83\0\0\0\x03\x83\0\0\0\x03\x83\0\0\0";
    static const char last[] = "\x01\x81\0\x03\x83\0\x01\0\x03\x83\0\x01\0\x03\x83\0\x01\0\x03\x83\0\x01\0";
    plan_bytes plan;
    unsigned t;
    put_header(&plan, 1, 3, 1, 1, 7);
    for (t = 0; t < 6; t++) put_task(&plan, t, next[t][1] == 0 ? 1 : 2, next[t][0], next[t][1]);
    CHECK(line_after(&plan, first, sizeof first - 1, "3 7 7 9 3 7 0 12 0 0"));
    CHECK(line_after(&plan, second, sizeof second - 1, "3 7 7 9 3 7 0 6 2 0"));
    CHECK(line_after(&plan, last, sizeof last - 1, "3 7 7 9 3 7 0 6 1 0"));
}

/* tasks that last: one alone; a diamond in which a thief finds a begun task alone and leaves it; a chain and a diamond whose begun tasks wait
 * and are mugged, with the ticks that are done; and thirteen tasks, of which two begun ones stay where they are when thieves come */
static void test_lasting_tasks(void)
{
    static const char alone[] = "\x01\x81\0\x81\0\x01\x81\0";
    static const char thief[] = "\x01\x81\0\x02\x82\0\0\x02\x82\0\0\x02\x82\0\0\x01\x81\0\x01\x81\0\x02\x82\0\0";
    static const char held[] = "\x01\x81\0\0\x80\x02\x82\0\0\x01\x81\0\x01\x81\0\x01\x81\0\x01\x81\0";
    static const char other[] = "\x01\x81\0\x02\x82\0\0\x02\x82\0\0\0\x80\x01\x81\0\x01\x81\0\x02\x82\0\0\x02\x82\0\0"
        "\x02\x82\x01\0\x02\x82\x01\0";
    static const char thieves[] = "\x01\x81\0\x01\x81\0\x02\x82\0\0\x02\x82\0\0\x04\x84\0\0\0\x01";
    static const unsigned ticks[2][4] = {{2, 3, 1, 2}, {1, 4, 4, 1}};
    plan_bytes plan, diamonds[2];
    unsigned i, t;
    put_header(&plan, 1, 2, 80, 2, 1);
    in_form_2(&plan, 3);
    CHECK(line_after(&plan, alone, 5, "1 0 1 2 1 2 0 0 0 0"));
    CHECK(line_after(&plan, alone, sizeof alone - 1, "3 1 1 2 1 3 0 0 0 0"));
    for (i = 0; i < 2; i++) {
        fork_join(&diamonds[i], 2, 1, 1, 2);
        in_form_2(&diamonds[i], 1);
        for (t = 0; t < 4; t++) put_ticks(&diamonds[i], t, ticks[i][t]);
    }
    CHECK(line_after(&diamonds[0], thief, 15, "1 2 4 4 2 5 0 2 1 0"));
    CHECK(line_after(&diamonds[0], thief, 21, "1 3 4 4 1 7 0 2 1 0"));
    CHECK(line_after(&diamonds[0], thief, sizeof thief - 1, "3 4 4 4 2 8 0 3 1 0"));
    CHECK(line_after(&diamonds[1], other, sizeof other - 1, "3 4 4 4 2 10 2 3 1 0"));
    chain(&plan, 2, 80, 1, 2);
    in_form_2(&plan, 3);
    put_ticks(&plan, 1, 2);
    CHECK(line_after(&plan, held, 15, "1 1 2 2 1 3 1 1 0 0"));
    CHECK(line_after(&plan, held, sizeof held - 1, "3 2 2 2 1 5 1 1 0 0"));
    nested(&plan);
    in_form_2(&plan, 1);
    put_ticks(&plan, 5, 3);
    put_ticks(&plan, 4, 2);
    CHECK(line_after(&plan, thieves, sizeof thieves - 1, "1 4 13 8 4 7 0 3 2 0"));
}

/* a chain of the most tasks with the most ticks each, by one worker in four of the longest quanta; the last one has ticks to spare */
static void test_most_work(void)
{
    enum { QUANTUM = 65535 };
    static uint8_t log[1 + 2 * QUANTUM];
    plan_bytes plan;
    jirvaldo_job *job;
    uint64_t refused = 99;
    size_t i;
    log[0] = 1;
    for (i = 1; i < sizeof log; i += 2) log[i] = 0x81;
    chain(&plan, 2, 80, QUANTUM, JIRVALDO_TASKS_MAX);
    in_form_2(&plan, JIRVALDO_TICKS_MAX);
    job = accepted(&plan);
    for (i = 0; i < 3; i++) CHECK(jirvaldo_run_log(job, log, sizeof log, &refused) == 0 && refused == 0);
    CHECK(line_is(job, 0, "1 771 1024 2 1 196605 0 0 0 0"));
    CHECK(jirvaldo_run_log(job, log, sizeof log, &refused) == 0 && refused == 4 * QUANTUM - JIRVALDO_TASKS_MAX * JIRVALDO_TICKS_MAX);
    CHECK(line_is(job, 0, "3 1024 1024 2 1 261120 0 0 0 0"));
    release_job(job);
}

/* in form 2 with one tick each the same job, byte for byte */
static void test_ticks_of_one(uint64_t *seed)
{
    plan_bytes plan;
    jirvaldo_job *short_one, *long_one;
    uint64_t go_on = random_bits(seed), go_on_too = go_on;
    put_header(&plan, 1, 2, 80, 3, 50);
    random_graph(&plan, 50, seed);
    short_one = accepted(&plan);
    in_form_2(&plan, 1);
    long_one = accepted(&plan);
    CHECK(drive_on(short_one, &go_on, 60) == drive_on(long_one, &go_on_too, 60));
    CHECK(memcmp(short_one, long_one, sizeof *short_one) == 0);
    release_job(short_one);
    release_job(long_one);
}

/* ---- growth by tenths */

/* the whole parts of 1.2^k up to 64 */
static const unsigned row_12[23] = {1, 1, 1, 1, 2, 2, 2, 3, 4, 5, 6, 7, 8, 10, 12, 15, 18, 22, 26, 31, 38, 46, 55};

static unsigned wanted(const jirvaldo_job *job)
{
    return (unsigned)jirvaldo_counters(job, 0).desire;
}

/* a quantum of one tick with so many workers */
static void one_tick(jirvaldo_job *job, unsigned workers, uint64_t *seed)
{
    uint8_t choices[JIRVALDO_WORKERS_MAX];
    unsigned i;
    for (i = 0; i < workers; i++) choices[i] = (uint8_t)below(seed, workers);
    CHECK(jirvaldo_grant(job, workers) == 0 && tick_bytes(job, choices, workers) == 0);
}

/* on a chain with D = 1 every quantum is efficient: the desire climbs its row, and stays at the top */
static void test_climbs(void)
{
    static const unsigned rises[9] = {22, 15, 12, 10, 8, 7, 7, 6, 6}, tops[9] = {55, 51, 56, 57, 42, 41, 61, 47, 64};
    plan_bytes plan;
    jirvaldo_job *job;
    uint64_t seed = 1;
    unsigned i, k;
    for (i = 0; i < 9; i++) {
        chain(&plan, 2, 1, 1, 40);
        in_form_3(&plan, 12 + i);
        job = accepted(&plan);
        for (k = 0; k < rises[i]; k++) {
            CHECK(i != 0 || wanted(job) == row_12[k]);
            CHECK(wanted(job) < tops[i]);
            one_tick(job, wanted(job), &seed);
        }
        for (k = 0; k < 3; k++) {
            CHECK(wanted(job) == tops[i]);
            one_tick(job, tops[i], &seed);
        }
        release_job(job);
    }
}

/* with D = 2 one worker at work is enough of 50, too few of 55: after deprived quanta at the top an inefficient one lowers the desire */
static void test_step_down(void)
{
    plan_bytes plan;
    jirvaldo_job *job;
    uint64_t seed = 1;
    unsigned k;
    chain(&plan, 2, 2, 1, 60);
    in_form_3(&plan, 12);
    job = accepted(&plan);
    for (k = 0; k < 22; k++) one_tick(job, row_12[k], &seed);
    for (k = 0; k < 3; k++) {
        one_tick(job, k * 25, &seed);
        CHECK(wanted(job) == 55);
    }
    one_tick(job, 55, &seed);
    CHECK(wanted(job) == 46);
    one_tick(job, 46, &seed);
    CHECK(wanted(job) == 55);
    release_job(job);
}

/* a wide graph, on which the desire climbs to the top, and then a chain, on which it falls to one worker: quantum by quantum, every fifth
 * of them deprived, the power goes as its rule says */
static void test_fall(void)
{
    plan_bytes plan;
    jirvaldo_job *job;
    jirvaldo_numbers before, after;
    uint64_t seed = 1;
    unsigned k = 0, quanta, granted, most = 0, least = 0;
    wide(&plan, 2, 51, 1);
    in_form_3(&plan, 12);
    job = accepted(&plan);
    for (quanta = 0;; quanta++) {
        before = jirvaldo_counters(job, 0);
        CHECK(before.desire == row_12[k]);
        granted = row_12[k] - (quanta % 5 == 4);
        one_tick(job, granted, &seed);
        after = jirvaldo_counters(job, 0);
        if (after.status == JIRVALDO_STATUS_FINISHED) break;
        if (100 * (after.work + after.mug - before.work - before.mug) < 51 * granted) k -= 1;
        else if (granted == row_12[k] && k < 22) k += 1;
        if (k >= most) most = least = k;
        if (k < least) least = k;
    }
    CHECK(most == 22 && least == 3);
    release_job(job);
}

/* 20 tenths are R = 2: call by call the same numbers */
static void test_twenty_tenths(uint64_t *seed)
{
    plan_bytes plan;
    jirvaldo_job *doubles, *tenths;
    uint64_t go_on = random_bits(seed), go_on_too = go_on;
    unsigned calls;
    put_header(&plan, 1, 2, 1 + below(seed, 100), 1 + below(seed, 3), 100);
    random_graph(&plan, 100, seed);
    doubles = accepted(&plan);
    in_form_3(&plan, 20);
    tenths = accepted(&plan);
    for (calls = 0; calls < 60; calls++) {
        CHECK(drive(doubles, &go_on) == drive(tenths, &go_on_too));
        CHECK(same_numbers(doubles, tenths));
    }
    release_job(doubles);
    release_job(tenths);
}

/* all quanta that may begin, of 0 workers and one tick each; then as a log */
static void test_spent_quanta(void)
{
    static uint8_t log[2 * JIRVALDO_QUANTA_MAX + 2];
    plan_bytes plan;
    jirvaldo_job *job;
    unsigned long quanta;
    uint64_t refused = 99;
    size_t i;
    chain(&plan, 2, 80, 1, 2);
    job = accepted(&plan);
    for (quanta = 0; quanta <= JIRVALDO_QUANTA_MAX && jirvaldo_grant(job, 0) == 0; quanta++) CHECK(jirvaldo_tick(job, NULL, 0) == 0);
    CHECK(quanta == JIRVALDO_QUANTA_MAX);
    refuses_grant(job, 0, JIRVALDO_GRANT_QUANTA_SPENT);
    refuses_grant(job, 1, JIRVALDO_GRANT_QUANTA_SPENT);
    refuses_grant(job, UINT64_MAX, JIRVALDO_GRANT_QUANTA_SPENT);
    refuses_tick(job, NULL, 0, JIRVALDO_TICK_NO_QUANTUM);
    CHECK(line_is(job, 0, "0 0 2 1 0 0 0 0 0 0"));
    release_job(job);
    job = accepted(&plan);
    for (i = 0; i < sizeof log; i += 2) {
        log[i] = 0;
        log[i + 1] = 0x80;
    }
    CHECK(jirvaldo_run_log(job, log, sizeof log - 2, &refused) == 0 && refused == 0);
    CHECK(jirvaldo_run_log(job, log, 2, &refused) == 0 && refused == 2);
    release_job(job);
    job = accepted(&plan);
    CHECK(jirvaldo_run_log(job, log, sizeof log, &refused) == 0 && refused == 2);
    release_job(job);
}

/* ---- offers */

static void refuses_offer(jirvaldo_job *job, uint64_t workers, unsigned expected)
{
    jirvaldo_job *copy = copy_of(job);
    CHECK(jirvaldo_offer(job, workers) == expected);
    CHECK(is_still(job, copy));
}

static void refuses_open(jirvaldo_job *job, uint64_t workers, unsigned expected)
{
    jirvaldo_job *copy = copy_of(job);
    CHECK(jirvaldo_open(job, workers) == expected);
    CHECK(is_still(job, copy));
}

static void refuses_withdrawal(jirvaldo_job *job)
{
    jirvaldo_job *copy = copy_of(job);
    CHECK(jirvaldo_withdraw(job) == JIRVALDO_OFFER_NONE);
    CHECK(is_still(job, copy));
}

/* an accepted offer leaves the ten numbers, and with its withdrawal every byte is what it was */
static void offers(jirvaldo_job *job, uint64_t workers)
{
    jirvaldo_job *before = copy_of(job), *withdrawn;
    CHECK(jirvaldo_offer(job, workers) == 0);
    CHECK(memcmp(job, before, sizeof *job) != 0 && same_numbers(job, before));
    withdrawn = copy_of(job);
    CHECK(jirvaldo_withdraw(withdrawn) == 0);
    CHECK(is_still(withdrawn, before));
    release_job(withdrawn);
}

/* opens the noted offer, on a copy: the same job as a grant to the one before the offer, and no offer is noted */
static void opens(const jirvaldo_job *noted, const jirvaldo_job *before, uint64_t workers)
{
    jirvaldo_job *opened = copy_of(noted), *granted = copy_of(before);
    CHECK(jirvaldo_open(opened, workers) == 0);
    CHECK(jirvaldo_grant(granted, workers) == 0);
    CHECK(is_still(opened, granted));
    refuses_withdrawal(opened);
    refuses_open(opened, workers, JIRVALDO_OFFER_NONE);
    refuses_offer(opened, workers, JIRVALDO_GRANT_QUANTUM_OPEN);
    release_job(opened);
}

enum { SAMPLES = 3 * 64 + 5 };

/* numbers of workers: each power of two with its neighbours, those around the desire, and the last two */
static uint64_t sampled(unsigned i, uint64_t desire)
{
    if (i < 3 * 64) return (UINT64_C(1) << i / 3) + i % 3 - 1;
    if (i < 3 * 64 + 3) return desire + i % 3 - 1;
    return UINT64_MAX - (SAMPLES - 1 - i);
}

/* offers of every sampled number to a job that would take a grant, and of those that it takes opens of every sampled number */
static void check_offered_numbers(jirvaldo_job *job)
{
    jirvaldo_job *before = copy_of(job);
    uint64_t desire = wanted(job), offered, opened;
    unsigned i, k;
    for (i = 0; i < SAMPLES; i++) {
        offered = sampled(i, desire);
        if (offered > desire) {
            refuses_offer(job, offered, JIRVALDO_GRANT_ABOVE_DESIRE);
            continue;
        }
        offers(job, offered);
        for (k = 0; k < SAMPLES; k++) {
            opened = sampled(k, offered);
            refuses_offer(job, opened, JIRVALDO_OFFER_NOTED);
            refuses_grant(job, opened, JIRVALDO_OFFER_NOTED);
            if (opened > offered) refuses_open(job, opened, JIRVALDO_GRANT_ABOVE_DESIRE);
            else opens(job, before, opened);
        }
        CHECK(jirvaldo_withdraw(job) == 0);
    }
    CHECK(is_still(job, before));
}

/* at the desires 1, 4, 16 and 64 */
static void test_offered_numbers(void)
{
    plan_bytes plan;
    jirvaldo_job *job;
    uint64_t seed = 1;
    fork_join(&plan, 4, 1, 1, 342);
    job = accepted(&plan);
    while (wanted(job) < JIRVALDO_WORKERS_MAX) {
        check_offered_numbers(job);
        one_tick(job, wanted(job), &seed);
    }
    check_offered_numbers(job);
    release_job(job);
}

/* Plan A by offers and grants, with each call where it is refused */
static void test_offers(void)
{
    static const uint8_t zeros[2] = {0};
    plan_bytes plan;
    jirvaldo_job *job;
    plan_a(&plan);
    job = accepted(&plan);
    refuses_withdrawal(job);
    refuses_open(job, 0, JIRVALDO_OFFER_NONE);
    refuses_open(job, UINT64_MAX, JIRVALDO_OFFER_NONE);
    offers(job, 1);
    refuses_tick(job, zeros, 0, JIRVALDO_TICK_NO_QUANTUM);
    refuses_tick(job, zeros, 1, JIRVALDO_TICK_NO_QUANTUM);
    refuses_grant(job, 0, JIRVALDO_OFFER_NOTED);
    refuses_grant(job, 2, JIRVALDO_OFFER_NOTED);
    CHECK(jirvaldo_withdraw(job) == 0);
    CHECK(jirvaldo_grant(job, 1) == 0 && tick_bytes(job, zeros, 1) == 0);
    refuses_offer(job, 2, JIRVALDO_GRANT_QUANTUM_OPEN);
    CHECK(tick_bytes(job, zeros, 1) == 0 && wanted(job) == 2);
    offers(job, 0);
    CHECK(jirvaldo_status(job) == JIRVALDO_STATUS_RUNNING);
    CHECK(jirvaldo_open(job, 0) == 0 && jirvaldo_status(job) == JIRVALDO_STATUS_HELD);
    CHECK(tick_bytes(job, NULL, 0) == 0 && tick_bytes(job, NULL, 0) == 0);
    offers(job, 2);
    CHECK(jirvaldo_open(job, 1) == 0 && tick_bytes(job, zeros, 1) == 0 && tick_bytes(job, zeros, 1) == 0);
    offers(job, 1);
    CHECK(jirvaldo_open(job, 1) == 0 && tick_bytes(job, zeros, 1) == 0);
    CHECK(line_is(job, 0, "3 4 4 2 1 4 1 0 0 0"));
    refuses_offer(job, 0, JIRVALDO_JOB_FINISHED);
    refuses_offer(job, UINT64_MAX, JIRVALDO_JOB_FINISHED);
    refuses_open(job, 0, JIRVALDO_OFFER_NONE);
    refuses_withdrawal(job);
    release_job(job);
}

/* two workers are offered and one is opened: an efficient quantum leaves the desire; two are opened: it doubles */
static void test_satisfied_by_opened(void)
{
    static const uint8_t zeros[2] = {0};
    plan_bytes plan;
    jirvaldo_job *job;
    uint64_t opened, seed = 1;
    for (opened = 1; opened <= 2; opened++) {
        wide(&plan, 2, 1, 1);
        job = accepted(&plan);
        one_tick(job, 1, &seed);
        offers(job, 2);
        CHECK(jirvaldo_open(job, opened) == 0 && tick_bytes(job, zeros, (size_t)opened) == 0);
        CHECK(wanted(job) == 2 * opened);
        release_job(job);
    }
}

/* the last quantum that may begin can be offered, and withdrawals spend none; then an offer of any number gets 13 */
static void test_offers_of_spent_quanta(void)
{
    plan_bytes plan;
    jirvaldo_job *job;
    unsigned quanta;
    chain(&plan, 2, 80, 1, 2);
    job = accepted(&plan);
    for (quanta = 1; quanta < JIRVALDO_QUANTA_MAX; quanta++) {
        CHECK(jirvaldo_offer(job, 1) == 0 && jirvaldo_withdraw(job) == 0);
        CHECK(jirvaldo_offer(job, quanta % 2) == 0 && jirvaldo_open(job, 0) == 0 && jirvaldo_tick(job, NULL, 0) == 0);
    }
    offers(job, 1);
    refuses_grant(job, 2, JIRVALDO_OFFER_NOTED);
    CHECK(jirvaldo_open(job, 0) == 0);
    refuses_offer(job, 0, JIRVALDO_GRANT_QUANTUM_OPEN);
    CHECK(jirvaldo_tick(job, NULL, 0) == 0);
    refuses_offer(job, 0, JIRVALDO_GRANT_QUANTA_SPENT);
    refuses_offer(job, 1, JIRVALDO_GRANT_QUANTA_SPENT);
    refuses_offer(job, UINT64_MAX, JIRVALDO_GRANT_QUANTA_SPENT);
    refuses_open(job, 0, JIRVALDO_OFFER_NONE);
    refuses_withdrawal(job);
    CHECK(line_is(job, 0, "0 0 2 1 0 0 0 0 0 0"));
    release_job(job);
}

/* a log on a job with a noted offer: every call is refused, up to where the log breaks */
static void check_noted_log(jirvaldo_job *job, const char *log, size_t size, unsigned expected, uint64_t refused_calls)
{
    jirvaldo_job *copy = copy_of(job);
    uint64_t refused = 99;
    CHECK(log_bytes(job, (const uint8_t *)log, size, &refused) == expected);
    CHECK(refused == refused_calls && is_still(job, copy));
}

static void test_noted_logs(void)
{
    static const char log[] = "\x01\x81\0\x81\0\0\x7F\x80\x82\0\0\x01";
    plan_bytes plan;
    jirvaldo_job *job;
    plan_a(&plan);
    job = accepted(&plan);
    CHECK(jirvaldo_offer(job, 1) == 0);
    check_noted_log(job, "", 0, 0, 0);
    check_noted_log(job, log, sizeof log - 1, 0, 8);
    check_noted_log(job, log, 10, JIRVALDO_LOG_BROKEN, 6);
    check_noted_log(job, log + 8, 1, JIRVALDO_LOG_BROKEN, 0);
    CHECK(jirvaldo_open(job, 1) == 0);
    CHECK(log_bytes(job, (const uint8_t *)log + 1, 4, NULL) == 0);
    CHECK(line_is(job, 0, "1 2 4 2 1 2 0 0 0 0"));
    release_job(job);
}

/* an accepted plan has no offer noted, also over a job that has one; a refused plan leaves the offer */
static void test_plans_over_offers(void)
{
    plan_bytes plan;
    jirvaldo_job *job, *fresh;
    plan_a(&plan);
    job = accepted(&plan);
    fresh = copy_of(job);
    offers(job, 1);
    CHECK(accept_bytes(job, plan.bytes, plan.size - 1) == JIRVALDO_PLAN_LENGTH);
    refuses_grant(job, 1, JIRVALDO_OFFER_NOTED);
    CHECK(accept_bytes(job, plan.bytes, plan.size) == 0);
    CHECK(is_still(job, fresh));
    refuses_withdrawal(job);
    release_job(job);
}

/* ---- choices from a seed */

/* the test's own draws: a choice for each of so many workers; the state after the last one */
static uint32_t draw(uint32_t seed, unsigned workers, uint8_t *choices)
{
    uint64_t s = seed;
    unsigned i;
    for (i = 0; i < workers; i++) {
        s = (UINT64_C(1664525) * s + UINT64_C(1013904223)) % (UINT64_C(1) << 32);
        choices[i] = (uint8_t)(s / 65536 % workers);
    }
    return (uint32_t)s;
}

/* a seeded tick, beside a plain one that is given the test's own draws: the same answer and the same job, byte for byte; where it is 0 the
 * seed is the state after the draws, and else as it was */
static unsigned ticks_by_seed(jirvaldo_job *job, uint32_t *seed)
{
    uint8_t choices[JIRVALDO_WORKERS_MAX];
    jirvaldo_job *plain = copy_of(job);
    unsigned workers = (unsigned)jirvaldo_counters(job, 0).allotment, answer;
    uint32_t before = *seed, after = draw(*seed, workers, choices);
    answer = tick_seed(job, seed);
    CHECK(answer == 0 || answer == JIRVALDO_JOB_FINISHED || answer == JIRVALDO_TICK_NO_QUANTUM);
    CHECK(answer == tick_bytes(plain, choices, workers));
    CHECK(*seed == (answer == 0 ? after : before));
    CHECK(is_still(job, plain));
    return answer;
}

static void refuses_seed(jirvaldo_job *job, uint32_t seed, unsigned expected)
{
    jirvaldo_job *copy = copy_of(job);
    uint32_t kept = seed;
    CHECK(tick_seed(job, &kept) == expected);
    CHECK(kept == seed && is_still(job, copy));
}

enum { SEEDS = 3 };
static const uint32_t first_seeds[SEEDS] = {0, 1, UINT32_MAX};

/* one worker, one draw a tick: the first two states and the thousandth after 0, 1 and 2^32 - 1, reckoned elsewhere */
static void test_known_states(void)
{
    static const uint32_t first[SEEDS] = {1013904223u, 1015568748u, 1012239698u}, second[SEEDS] = {1196435762u, 1586005467u, 806866057u};
    static const uint32_t thousandth[SEEDS] = {3926946568u, 645503657u, 2913422183u};
    plan_bytes plan;
    jirvaldo_job *job;
    uint32_t seed;
    unsigned i, ticks;
    chain(&plan, 2, 80, 65535, JIRVALDO_TASKS_MAX);
    for (i = 0; i < SEEDS; i++) {
        job = accepted(&plan);
        seed = first_seeds[i];
        CHECK(jirvaldo_grant(job, 1) == 0);
        CHECK(tick_seed(job, &seed) == 0 && seed == first[i]);
        CHECK(tick_seed(job, &seed) == 0 && seed == second[i]);
        for (ticks = 2; ticks < 1000; ticks++) CHECK(tick_seed(job, &seed) == 0);
        CHECK(seed == thousandth[i]);
        release_job(job);
    }
}

/* a job with R = 7 and L = 1 that has so many workers granted, 1, 7 or 49, and a quantum open */
static jirvaldo_job *granted(unsigned workers)
{
    plan_bytes plan;
    jirvaldo_job *job;
    uint64_t seed = 1;
    wide(&plan, 7, 1, 1);
    job = accepted(&plan);
    while (wanted(job) < workers) one_tick(job, wanted(job), &seed);
    CHECK(wanted(job) == workers && jirvaldo_grant(job, workers) == 0);
    return job;
}

/* seven workers, seven draws, and the choices that are reckoned elsewhere */
static void test_known_choices(void)
{
    static const uint8_t choices[SEEDS][7] = {{0, 0, 4, 5, 5, 3, 0}, {5, 1, 6, 2, 1, 3, 3}, {3, 5, 1, 1, 3, 3, 5}};
    static const uint32_t seventh[SEEDS] = {1476291629u, 3327581586u, 3919968968u};
    jirvaldo_job *job, *plain;
    uint32_t seed;
    unsigned i;
    for (i = 0; i < SEEDS; i++) {
        job = granted(7);
        plain = copy_of(job);
        seed = first_seeds[i];
        CHECK(tick_seed(job, &seed) == 0 && seed == seventh[i]);
        CHECK(tick_bytes(plain, choices[i], 7) == 0);
        CHECK(is_still(job, plain));
        release_job(job);
    }
}

/* refused by 15 before the first grant, where a quantum has closed and while an offer is noted, and by 11 at the end; none is drawn where 0
 * are granted, and seven in the tick that finishes the job, of which six workers come after the last task */
static void test_seeded_ticks(void)
{
    static const uint32_t states[2] = {1013904223u, 2748932008u}; /* after 0: the first one and the eighth */
    plan_bytes plan;
    jirvaldo_job *job;
    uint32_t seed = 0;
    chain(&plan, 7, 1, 1, 2);
    job = accepted(&plan);
    refuses_seed(job, 0, JIRVALDO_TICK_NO_QUANTUM);
    refuses_seed(job, UINT32_MAX, JIRVALDO_TICK_NO_QUANTUM);
    CHECK(jirvaldo_grant(job, 0) == 0 && tick_seed(job, &seed) == 0 && seed == 0);
    refuses_seed(job, 0, JIRVALDO_TICK_NO_QUANTUM);
    CHECK(jirvaldo_grant(job, 1) == 0 && ticks_by_seed(job, &seed) == 0 && seed == states[0]);
    refuses_seed(job, seed, JIRVALDO_TICK_NO_QUANTUM);
    CHECK(jirvaldo_offer(job, 7) == 0);
    refuses_seed(job, seed, JIRVALDO_TICK_NO_QUANTUM);
    CHECK(jirvaldo_open(job, 7) == 0 && ticks_by_seed(job, &seed) == 0 && seed == states[1]);
    CHECK(line_is(job, 0, "3 2 2 7 7 2 0 6 0 0"));
    refuses_seed(job, seed, JIRVALDO_JOB_FINISHED);
    refuses_seed(job, 0, JIRVALDO_JOB_FINISHED);
    release_job(job);
}

static void test_seeds(void)
{
    test_known_states();
    test_known_choices();
    test_seeded_ticks();
}

/* ---- a log that is written */

enum { LONGEST = 1 + 127 };

/* a call that is to be written: a grant, a tick with choices, or a tick that a seed draws for a job */
typedef struct written_call {
    unsigned (*write)(const struct written_call *, uint8_t *, size_t, size_t *);
    uint64_t workers;
    const uint8_t *choices;
    size_t count;
    const jirvaldo_job *job;
    uint32_t seed;
} written_call;

static unsigned write_grant(const written_call *call, uint8_t *log, size_t capacity, size_t *size)
{
    return jirvaldo_log_grant(call->workers, log, capacity, size);
}

static unsigned write_tick(const written_call *call, uint8_t *log, size_t capacity, size_t *size)
{
    uint8_t *lent = copied(call->choices, call->count);
    unsigned answer = jirvaldo_log_tick(lent, call->count, log, capacity, size);
    CHECK(call->count == 0 || memcmp(lent, call->choices, call->count) == 0);
    release(lent, call->count);
    return answer;
}

static unsigned write_seeded(const written_call *call, uint8_t *log, size_t capacity, size_t *size)
{
    jirvaldo_job *lent = copy_of(call->job);
    unsigned answer = jirvaldo_log_tick_seeded(lent, call->seed, log, capacity, size);
    CHECK(is_still(call->job, lent));
    return answer;
}

/* the call is written to a lent buffer of which so much is used: the entry's bytes and the size, or all as it came */
static void check_written(const written_call *call, size_t capacity, size_t used, unsigned expected, const uint8_t *entry, size_t length)
{
    size_t i, *size = (size_t *)(void *)copied((const uint8_t *)&used, sizeof used), grown = expected == 0 ? length : 0;
    uint8_t *log = block(capacity);
    for (i = 0; i < capacity; i++) log[i] = (uint8_t)(i * 3 + 0x55);
    CHECK(call->write(call, log, capacity, size) == expected);
    CHECK(*size == used + grown);
    CHECK(grown == 0 || memcmp(log + used, entry, grown) == 0);
    for (i = 0; i < capacity && ((i >= used && i - used < grown) || log[i] == (uint8_t)(i * 3 + 0x55));) i++;
    CHECK(i == capacity);
    release(log, capacity);
    release(size, sizeof *size);
}

/* an entry of this length, behind nothing and behind some bytes: it fits exactly, with bytes to spare, by no byte less, and not where more
 * are used than there are */
static void check_room(const written_call *call, const uint8_t *entry, size_t length)
{
    static const size_t behind[] = {0, 1, 7, 300};
    size_t i, used;
    for (i = 0; i < 4; i++) {
        used = behind[i];
        check_written(call, used + length, used, 0, entry, length);
        check_written(call, used + length + 9, used, 0, entry, length);
        check_written(call, used + length - 1, used, JIRVALDO_BUFFER_SMALL, entry, length);
        check_written(call, used, used, JIRVALDO_BUFFER_SMALL, entry, length);
        check_written(call, used, used + 1, JIRVALDO_BUFFER_SMALL, entry, length);
        check_written(call, used, SIZE_MAX - i, JIRVALDO_BUFFER_SMALL, entry, length);
        check_written(call, used + LONGEST, used + LONGEST + length, JIRVALDO_BUFFER_SMALL, entry, length);
    }
}

/* an entry that there is not, whether there is room or none */
static void check_unwritten(const written_call *call, unsigned expected)
{
    check_written(call, 2 * LONGEST + 500, 3, expected, NULL, 0);
    check_written(call, 5, 5, expected, NULL, 0);
    check_written(call, 0, 0, expected, NULL, 0);
    check_written(call, 5, SIZE_MAX, expected, NULL, 0);
}

static void test_written_grants(void)
{
    written_call call = {write_grant, 0, NULL, 0, NULL, 0};
    uint8_t entry;
    unsigned bits;
    for (; call.workers < 128; call.workers++) {
        entry = (uint8_t)call.workers;
        check_room(&call, &entry, 1);
    }
    for (bits = 7; bits < 64; bits++) {
        call.workers = UINT64_C(1) << bits;
        check_unwritten(&call, JIRVALDO_GRANT_ABOVE_DESIRE);
        call.workers += 1;
        check_unwritten(&call, JIRVALDO_GRANT_ABOVE_DESIRE);
    }
    call.workers = UINT64_MAX;
    check_unwritten(&call, JIRVALDO_GRANT_ABOVE_DESIRE);
}

/* choices of any bytes are written as they are */
static void test_written_ticks(void)
{
    static const size_t too_many[] = {128, 129, 255, 256, 257, 384, 500};
    uint8_t bytes[1 + 500];
    written_call call = {write_tick, 0, NULL, 0, NULL, 0};
    uint64_t seed = 1;
    size_t i;
    call.choices = bytes + 1;
    for (i = 1; i < sizeof bytes; i++) bytes[i] = (uint8_t)random_bits(&seed);
    for (; call.count < 128; call.count++) {
        bytes[0] = (uint8_t)(128 + call.count);
        check_room(&call, bytes, 1 + call.count);
    }
    for (i = 0; i < sizeof too_many / sizeof too_many[0]; i++) {
        call.count = too_many[i];
        check_unwritten(&call, JIRVALDO_TICK_CHOICE_COUNT);
    }
}

/* the entry of a seeded tick, before the tick and after it; its choices are the test's own draws */
static void check_written_seed(jirvaldo_job *job, uint32_t seed)
{
    uint8_t entry[JIRVALDO_ENTRY_MAX];
    unsigned workers = (unsigned)jirvaldo_counters(job, 0).allotment;
    written_call call = {write_seeded, 0, NULL, 0, NULL, 0};
    uint32_t moved = seed;
    call.job = job;
    call.seed = seed;
    entry[0] = (uint8_t)(128 + workers);
    draw(seed, workers, entry + 1);
    check_room(&call, entry, 1 + workers);
    ticks_by_seed(job, &moved);
    check_room(&call, entry, 1 + workers);
}

/* 0, 1, 7, 49 and 64 workers; also where the tick is refused */
static void test_written_seeds(void)
{
    static const unsigned counts[] = {1, 7, 49};
    static const uint8_t zeros[JIRVALDO_WORKERS_MAX] = {0};
    plan_bytes plan;
    jirvaldo_job *job;
    unsigned i, k;
    for (i = 0; i < SEEDS; i++) {
        for (k = 0; k < 3; k++) {
            job = granted(counts[k]);
            check_written_seed(job, first_seeds[i]);
            check_written_seed(job, first_seeds[i]); /* no quantum is open: 15 */
            CHECK(jirvaldo_grant(job, 0) == 0);
            check_written_seed(job, first_seeds[i]);
            release_job(job);
        }
    }
    fork_join(&plan, 4, 1, 1, 342);
    job = accepted(&plan);
    do {
        k = wanted(job);
        CHECK(jirvaldo_grant(job, k) == 0 && tick_bytes(job, zeros, k) == 0);
        check_written_seed(job, k);
    } while (k < JIRVALDO_WORKERS_MAX);
    release_job(job);
}

/* where a size is 0 its pointer may be null */
static void test_written_nulls(void)
{
    jirvaldo_job *job = granted(1);
    uint8_t entry = 0;
    size_t size = 0;
    CHECK(jirvaldo_log_grant(1, NULL, 0, &size) == JIRVALDO_BUFFER_SMALL && size == 0);
    CHECK(jirvaldo_log_tick(NULL, 0, NULL, 0, &size) == JIRVALDO_BUFFER_SMALL && size == 0);
    CHECK(jirvaldo_log_tick_seeded(job, 0, NULL, 0, &size) == JIRVALDO_BUFFER_SMALL && size == 0);
    CHECK(jirvaldo_log_tick(NULL, 0, &entry, 1, &size) == 0 && size == 1 && entry == 128);
    release_job(job);
}

static void test_written_logs(void)
{
    test_written_grants();
    test_written_ticks();
    test_written_seeds();
    test_written_nulls();
}

/* ---- log, wording, line */

static void check_log(const char *log, size_t size, unsigned expected, uint64_t refused_calls, const char *line)
{
    plan_bytes plan;
    jirvaldo_job *job;
    uint64_t refused = 99;
    plan_a(&plan);
    job = accepted(&plan);
    CHECK(log_bytes(job, (const uint8_t *)log, size, &refused) == expected);
    CHECK(refused == refused_calls);
    CHECK(line_is(job, refused, line));
    CHECK(jirvaldo_run_log(job, NULL, 0, &refused) == 0 && refused == 0);
    CHECK(jirvaldo_run_log(job, NULL, 0, NULL) == 0);
    release_job(job);
}

static void test_logs(void)
{
    check_log("", 0, 0, 0, "0 0 4 1 0 0 0 0 0 0");
    check_log("\x01\x81\0\x81\0\x02\x82\0\0\x82\0\0", 12, 0, 0, "3 4 4 2 2 4 0 2 0 0");
    check_log("\x01\x81\0\x81\0\0\x80\x80\x01\x81\0\x81\0\x01\x81\0", 16, 0, 0, "3 4 4 2 1 4 1 0 0 0");
    check_log("\x02\0", 2, 0, 1, "0 0 4 1 0 0 0 0 0 1");
    check_log("\x81", 1, JIRVALDO_LOG_BROKEN, 0, "0 0 4 1 0 0 0 0 0 0");
    check_log("\x7F\x01\x82\0", 4, JIRVALDO_LOG_BROKEN, 1, "1 0 4 1 1 0 0 0 0 1");
    check_log("\x01\x81\0\x81\0\x02\x82\0\0\x82\0\0\x01\x81\0\x81", 16, JIRVALDO_LOG_BROKEN, 2, "3 4 4 2 2 4 0 2 0 2");
}

/* the wording of a job in this sheet: where it starts and its size, or 19 */
static void check_wording(const jirvaldo_job *job, const char *sheet, unsigned expected, size_t start, size_t size)
{
    size_t sheet_size = strlen(sheet);
    uint8_t *lent = copied((const uint8_t *)sheet, sheet_size);
    jirvaldo_part part = {NULL, 99};
    CHECK(jirvaldo_wording(job, lent, sheet_size, &part) == expected);
    CHECK(part.bytes == lent + start && part.size == size);
    CHECK(jirvaldo_wording(job, lent, sheet_size, NULL) == expected);
    CHECK(sheet_size == 0 || memcmp(lent, sheet, sheet_size) == 0);
    release(lent, sheet_size);
}

static void test_wordings(void)
{
    plan_bytes plan;
    jirvaldo_job *job;
    jirvaldo_part part = {NULL, 99};
    plan_a(&plan);
    job = accepted(&plan);
    check_wording(job, "a\nbc\n", 0, 0, 1);
    check_wording(job, "\nbc\n", 0, 0, 0);
    check_wording(job, "no end", JIRVALDO_SHEET_NO_LINE, 0, 0);
    CHECK(jirvaldo_wording(job, NULL, 0, &part) == JIRVALDO_SHEET_NO_LINE && part.bytes == NULL && part.size == 0);
    CHECK(jirvaldo_grant(job, 1) == 0);
    check_wording(job, "a\nbc\n", 0, 2, 2);
    check_wording(job, "a\nbc", JIRVALDO_SHEET_NO_LINE, 0, 0);
    CHECK(log_bytes(job, (const uint8_t *)"\x81\0\x81\0\0", 5, NULL) == 0);
    check_wording(job, "a\nbc\n\n", 0, 5, 0);
    check_wording(job, "a\nbc\ndef\ng\n", 0, 5, 3);
    CHECK(log_bytes(job, (const uint8_t *)"\x80\x80\x01\x81\0\x81\0\x01\x81\0", 10, NULL) == 0);
    check_wording(job, "a\nbc\ndef\ng\nmore", 0, 9, 1);
    check_wording(job, "a\nbc\ndef\ng", JIRVALDO_SHEET_NO_LINE, 0, 0);
    check_wording(job, "", JIRVALDO_SHEET_NO_LINE, 0, 0);
    release_job(job);
}

/* a buffer of this size: the line at its start, or the buffer as it came */
static void check_buffer(const jirvaldo_job *job, size_t buffer_size, const char *line)
{
    uint8_t *buffer = block(buffer_size);
    size_t size = 99, i;
    int fits = buffer_size >= JIRVALDO_LINE_BUFFER;
    if (buffer_size != 0) memset(buffer, 0xAA, buffer_size);
    CHECK(jirvaldo_line(job, UINT64_MAX, buffer, buffer_size, &size) == (fits ? 0u : JIRVALDO_BUFFER_SMALL));
    CHECK(size == (fits ? strlen(line) : 0));
    CHECK(!fits || memcmp(buffer, line, size) == 0);
    for (i = size; i < buffer_size && buffer[i] == 0xAA;) i++;
    CHECK(i >= buffer_size);
    CHECK(jirvaldo_line(job, UINT64_MAX, buffer, buffer_size, NULL) == (fits ? 0u : JIRVALDO_BUFFER_SMALL));
    release(buffer, buffer_size);
}

static void test_lines(void)
{
    static const size_t sizes[] = {0, 1, 20, 127, 128, 129, 5000};
    plan_bytes plan;
    jirvaldo_job *job;
    uint64_t power = 1;
    size_t i, size = 99;
    plan_a(&plan);
    job = accepted(&plan);
    for (i = 0; i < 7; i++) check_buffer(job, sizes[i], "0 0 4 1 0 0 0 0 0 18446744073709551615\n");
    CHECK(jirvaldo_line(job, 0, NULL, 0, &size) == JIRVALDO_BUFFER_SMALL && size == 0);
    for (i = 0; i < 20; i++, power *= 10) {
        check_shown(job, power - 1);
        check_shown(job, power);
    }
    release_job(job);
}

/* Memory of zeros is no job, and after a refused plan it still is none. Who looks at it all the same, against the contract, sees a fresh
 * job and not a finished one. */
static void test_zeros(void)
{
    jirvaldo_job *job = job_block();
    memset(job, 0, sizeof *job);
    CHECK(jirvaldo_accept(job, NULL, 0) == JIRVALDO_PLAN_SHORT);
    CHECK(jirvaldo_status(job) != JIRVALDO_STATUS_FINISHED);
    CHECK(jirvaldo_status(job) == JIRVALDO_STATUS_FRESH);
    CHECK(line_is(job, 0, "0 0 0 0 0 0 0 0 0 0"));
    check_shown(job, 7);
    check_wording(job, "a\nbc\ndef\ng\n", 0, 0, 1);
    release_job(job);
}

/* 0 has a sentence of its own, too */
static int is_refusal(unsigned number)
{
    return number <= JIRVALDO_INPUT_SHORT || number == JIRVALDO_OFFER_NONE || number == JIRVALDO_OFFER_NOTED ||
        number == JIRVALDO_PLAN_TICKS;
}

/* no two refusals have the same sentence, and all other numbers have one together */
static void test_sentences(void)
{
    unsigned number, other;
    for (number = 0; number < 64; number++) {
        for (other = 0; other < number; other++) {
            int same = strcmp(jirvaldo_sentence(number), jirvaldo_sentence(other)) == 0;
            CHECK(same == (!is_refusal(number) && !is_refusal(other)));
        }
    }
    CHECK(jirvaldo_sentence(UINT32_MAX) == jirvaldo_sentence(23));
}

/* ---- jobs are plain data, and independent */

/* whatever the memory held, an accepted plan makes all of it; the job on top of another one is the same */
static void test_memory(uint64_t *seed)
{
    plan_bytes plan;
    jirvaldo_job *one, *other = job_block();
    random_plan(&plan, seed);
    one = accepted(&plan); /* memory that nobody wrote to, which valgrind knows */
    memset(other, 0xAA, sizeof *other);
    CHECK(accept_bytes(other, plan.bytes, plan.size) == 0);
    CHECK(memcmp(one, other, sizeof *one) == 0);
    drive_on(one, seed, 20);
    CHECK(accept_bytes(one, plan.bytes, plan.size) == 0);
    CHECK(memcmp(one, other, sizeof *one) == 0);
    release_job(one);
    release_job(other);
}

static void test_copies(uint64_t *seed)
{
    plan_bytes plan;
    jirvaldo_job *one, *copy;
    uint64_t go_on, go_on_too;
    random_plan(&plan, seed);
    one = accepted(&plan);
    drive_on(one, seed, 1 + below(seed, 40));
    copy = copy_of(one);
    go_on = go_on_too = random_bits(seed);
    CHECK(drive_on(one, &go_on, 300) == drive_on(copy, &go_on_too, 300));
    CHECK(memcmp(one, copy, sizeof *one) == 0);
    release_job(one);
    release_job(copy);
}

/* two jobs in turns, and each again alone */
static void test_turns(uint64_t *seed)
{
    plan_bytes plans[2];
    jirvaldo_job *in_turns[2], *alone;
    uint64_t seeds[2], again;
    unsigned i, calls;
    for (i = 0; i < 2; i++) {
        random_plan(&plans[i], seed);
        in_turns[i] = accepted(&plans[i]);
        seeds[i] = i;
    }
    for (calls = 0; calls < 200; calls++) {
        for (i = 0; i < 2; i++) drive(in_turns[i], &seeds[i]);
    }
    for (i = 0; i < 2; i++) {
        alone = accepted(&plans[i]);
        again = i;
        for (calls = 0; calls < 200; calls++) drive(alone, &again);
        CHECK(memcmp(alone, in_turns[i], sizeof *alone) == 0);
        release_job(alone);
        release_job(in_turns[i]);
    }
}

/* ---- random bytes */

static void test_random_plans(uint64_t *seed)
{
    plan_bytes plan;
    jirvaldo_job *job = job_block(), *before = job_block();
    unsigned answer;
    random_plan(&plan, seed);
    check_plan(&plan, 0);
    mutate(&plan, seed);
    memset(job, 0x55, sizeof *job);
    memset(before, 0x55, sizeof *before);
    answer = accept_bytes(job, plan.bytes, plan.size);
    CHECK(answer <= JIRVALDO_PLAN_LOOSE_END || answer == JIRVALDO_PLAN_TICKS);
    if (answer != 0) {
        CHECK(memcmp(job, before, sizeof *job) == 0);
    } else {
        drive_on(job, seed, 100);
        check_shown(job, random_bits(seed));
    }
    release_job(job);
    release_job(before);
}

enum { LOG_MAX = 4000 };

/* an entry for this job: mostly a tick or a grant that it accepts when it is its turn, at times a byte of any kind */
static size_t random_entry(uint8_t *entry, const jirvaldo_job *job, uint64_t *seed)
{
    jirvaldo_numbers n = jirvaldo_counters(job, 0);
    unsigned i, size = (unsigned)n.allotment;
    switch (below(seed, 12)) {
    case 0: entry[0] = (uint8_t)random_bits(seed); return 1;
    case 1: entry[0] = (uint8_t)below(seed, (unsigned)n.desire + 2); return 1;
    case 2: case 3: entry[0] = (uint8_t)n.desire; return 1;
    default:
        entry[0] = (uint8_t)(128 + size);
        for (i = 0; i < size; i++) entry[1 + i] = (uint8_t)below(seed, size);
        return 1 + size;
    }
}

/* a log for a job of this plan, cut anywhere */
static size_t random_log(uint8_t *log, const plan_bytes *plan, uint64_t *seed)
{
    jirvaldo_job *job = accepted(plan);
    size_t size = 0, most = below(seed, LOG_MAX - JIRVALDO_ENTRY_MAX), entry;
    while (size < most) {
        entry = random_entry(log + size, job, seed);
        jirvaldo_run_log(job, log + size, entry, NULL);
        size += entry;
    }
    release_job(job);
    return most;
}

static uint64_t all_cycles(const jirvaldo_job *job)
{
    jirvaldo_numbers n = jirvaldo_counters(job, 0);
    return n.work + n.mug + n.steal;
}

/* the log's entries as calls: 0 or 18, and how many calls were refused; a refused one leaves the job as it was, and each accepted tick counts
 * as many cycles as the last accepted grant gave workers */
static unsigned call_by_call(jirvaldo_job *job, const uint8_t *log, size_t size, uint64_t *refused_calls)
{
    size_t at = 0, choices;
    unsigned answer;
    uint64_t granted = jirvaldo_counters(job, 0).allotment, counted = all_cycles(job);
    jirvaldo_job *before = job_block();
    *refused_calls = 0;
    while (at < size) {
        choices = log[at] < 128 ? 0 : log[at] - 128u;
        if (choices > size - at - 1) break;
        memcpy(before, job, sizeof *job);
        answer = log[at] < 128 ? jirvaldo_grant(job, log[at]) : tick_bytes(job, log + at + 1, choices);
        *refused_calls += answer != 0;
        CHECK(answer == 0 || memcmp(job, before, sizeof *job) == 0);
        if (answer == 0 && log[at] < 128) granted = log[at];
        if (answer == 0 && log[at] >= 128) counted += granted;
        CHECK(all_cycles(job) == counted);
        at += 1 + choices;
    }
    release_job(before);
    return at < size ? JIRVALDO_LOG_BROKEN : JIRVALDO_OK;
}

static void test_random_logs(uint64_t *seed)
{
    uint8_t log[LOG_MAX];
    size_t size;
    plan_bytes plan;
    jirvaldo_job *by_log, *by_calls;
    uint64_t refused, counted = 99, go_on = random_bits(seed), go_on_too = go_on;
    unsigned i, calls = below(seed, 2) == 0 ? 0 : below(seed, 30);
    random_plan(&plan, seed);
    size = random_log(log, &plan, seed);
    by_log = accepted(&plan);
    by_calls = accepted(&plan);
    CHECK(drive_on(by_log, &go_on, calls) == drive_on(by_calls, &go_on_too, calls));
    CHECK(log_bytes(by_log, log, size, &counted) == call_by_call(by_calls, log, size, &refused));
    CHECK(counted == refused);
    for (i = 0; i < 100; i++) {
        CHECK(same_numbers(by_log, by_calls));
        go_on = go_on_too = i;
        CHECK(drive(by_log, &go_on) == drive(by_calls, &go_on_too));
    }
    check_shown(by_log, counted);
    release_job(by_log);
    release_job(by_calls);
}

/* ---- random calls of all five, beside a job that knows grants and ticks alone */

enum { GRANT, OFFER, OPEN, WITHDRAW, TICK };

typedef struct offered_job {
    jirvaldo_job *job, *plain; /* the second has each number granted that the first has granted or opened */
    uint64_t noted;            /* the offered number and one more; 0 where no offer is noted */
    unsigned length, left;     /* the ticks of a quantum, and those that the open one has left */
} offered_job;

/* the answer to a call: of a tick with so many choices, which are sound, of the others with so many workers */
static unsigned expected_answer(const offered_job *both, unsigned call, uint64_t number)
{
    jirvaldo_numbers n = jirvaldo_counters(both->plain, 0);
    if (call == OPEN || call == WITHDRAW) {
        if (both->noted == 0) return JIRVALDO_OFFER_NONE;
        return call == OPEN && number >= both->noted ? JIRVALDO_GRANT_ABOVE_DESIRE : 0;
    }
    if (n.status == JIRVALDO_STATUS_FINISHED) return JIRVALDO_JOB_FINISHED;
    if (call == TICK) {
        if (both->left == 0) return JIRVALDO_TICK_NO_QUANTUM;
        return number != n.allotment ? JIRVALDO_TICK_CHOICE_COUNT : 0;
    }
    if (both->left != 0) return JIRVALDO_GRANT_QUANTUM_OPEN;
    if (both->noted != 0) return JIRVALDO_OFFER_NOTED;
    return number > n.desire ? JIRVALDO_GRANT_ABOVE_DESIRE : 0;
}

static unsigned answer_to(jirvaldo_job *job, unsigned call, uint64_t number, const uint8_t *choices)
{
    switch (call) {
    case GRANT: return jirvaldo_grant(job, number);
    case OFFER: return jirvaldo_offer(job, number);
    case OPEN: return jirvaldo_open(job, number);
    case WITHDRAW: return jirvaldo_withdraw(job);
    default: return tick_bytes(job, choices, (size_t)number);
    }
}

/* an accepted call: the job without offers does as much of it as it knows */
static void follow(offered_job *both, unsigned call, uint64_t number, const uint8_t *choices)
{
    if (call == TICK) {
        CHECK(tick_bytes(both->plain, choices, (size_t)number) == 0);
        both->left -= 1;
        return;
    }
    both->noted = call == OFFER ? number + 1 : 0;
    if (call == GRANT || call == OPEN) {
        CHECK(jirvaldo_grant(both->plain, number) == 0);
        both->left = both->length;
    }
}

/* a number of workers: mostly one that may be accepted */
static uint64_t random_number(const offered_job *both, uint64_t *seed)
{
    uint64_t desire = wanted(both->plain), most = both->noted != 0 ? both->noted - 1 : desire;
    unsigned shift = below(seed, 64);
    switch (below(seed, 8)) {
    case 0: return random_bits(seed) >> shift;
    case 1: return most + 1;
    case 2: return desire;
    case 3: return most;
    default: return below(seed, (unsigned)most + 1);
    }
}

static void random_call(offered_job *both, uint64_t *seed)
{
    uint8_t choices[JIRVALDO_WORKERS_MAX + 1];
    unsigned i, call = below(seed, 7), size = (unsigned)jirvaldo_counters(both->plain, 0).allotment, answer;
    uint64_t number = random_number(both, seed);
    jirvaldo_job *before = copy_of(both->job);
    if (call > TICK) call = TICK;
    if (call == TICK) number = size + (below(seed, 16) == 0);
    for (i = 0; i <= size; i++) choices[i] = (uint8_t)(size == 0 ? 0 : below(seed, size));
    answer = answer_to(both->job, call, number, choices);
    CHECK(answer == expected_answer(both, call, number));
    CHECK((answer == 0) == (memcmp(both->job, before, sizeof *before) != 0));
    if (answer == 0) follow(both, call, number, choices);
    CHECK(same_numbers(both->job, both->plain));
    CHECK((both->noted == 0) == (memcmp(both->job, both->plain, sizeof *before) == 0));
    release_job(before);
}

/* any bytes as a log while an offer is noted: as many calls are refused as are made one by one, and nothing moves */
static void random_noted_log(jirvaldo_job *job, uint64_t *seed)
{
    uint8_t log[300];
    jirvaldo_job *copy = copy_of(job);
    uint64_t refused, counted = 99;
    size_t i, size = below(seed, sizeof log);
    for (i = 0; i < size; i++) log[i] = (uint8_t)below(seed, below(seed, 2) == 0 ? 3 : 256);
    CHECK(log_bytes(job, log, size, &counted) == call_by_call(copy, log, size, &refused));
    CHECK(counted == refused && is_still(job, copy));
}

static void test_random_offers(uint64_t *seed)
{
    plan_bytes plan;
    offered_job both;
    unsigned r = 2 + below(seed, 6), d = 1 + below(seed, 100), form = 1 + below(seed, 3), size = 1 + below(seed, 100), calls;
    both.length = 1 + below(seed, 3);
    both.left = 0;
    both.noted = 0;
    put_header(&plan, 1, r, d, both.length, size);
    random_graph(&plan, size, seed);
    if (form == 2) random_ticks(&plan, 4, seed);
    if (form == 3) in_form_3(&plan, 12 + below(seed, 9));
    both.job = accepted(&plan);
    both.plain = accepted(&plan);
    for (calls = 0; calls < 150; calls++) {
        random_call(&both, seed);
        if (both.noted != 0 && below(seed, 8) == 0) random_noted_log(both.job, seed);
    }
    check_shown(both.job, random_bits(seed));
    release_job(both.job);
    release_job(both.plain);
}

/* ---- random days: what is accepted is written, and the log does it again */

typedef struct kept_day {
    jirvaldo_job *job;
    uint32_t seed;
    uint8_t *log; /* of LOG_MAX bytes */
    size_t size, entries;
} kept_day;

/* a seeded tick, at times a plain one */
static unsigned day_tick(kept_day *day, uint64_t *dice)
{
    uint8_t choices[JIRVALDO_WORKERS_MAX];
    unsigned i, workers = (unsigned)jirvaldo_counters(day->job, 0).allotment, answer;
    uint32_t before = day->seed;
    if (below(dice, 8) != 0) {
        answer = ticks_by_seed(day->job, &day->seed);
        CHECK(answer != 0 || jirvaldo_log_tick_seeded(day->job, before, day->log, LOG_MAX, &day->size) == 0);
    } else {
        for (i = 0; i < workers; i++) choices[i] = (uint8_t)below(dice, workers);
        answer = tick_bytes(day->job, choices, workers);
        CHECK(answer != 0 || jirvaldo_log_tick(choices, workers, day->log, LOG_MAX, &day->size) == 0);
    }
    day->entries += answer == 0;
    return answer;
}

/* a grant of 0 up to one more than the job wants, at times by way of an offer; an open is written as a grant */
static void day_grant(kept_day *day, uint64_t *dice)
{
    uint64_t most = wanted(day->job), workers = below(dice, 3) == 0 ? below(dice, (unsigned)most + 2) : most;
    unsigned answer;
    if (below(dice, 4) == 0) {
        (void)jirvaldo_offer(day->job, workers); /* refused, there is nothing to open */
        answer = jirvaldo_open(day->job, workers);
    } else {
        answer = jirvaldo_grant(day->job, workers);
    }
    CHECK(answer != 0 || jirvaldo_log_grant(workers, day->log, LOG_MAX, &day->size) == 0);
    day->entries += answer == 0;
}

/* the log has a byte for each entry and one for each cycle, and on the job as it was it ends in the same job, byte for byte */
static void check_day(const kept_day *day, jirvaldo_job *before)
{
    uint64_t refused = 99;
    CHECK(day->size == day->entries + all_cycles(day->job) - all_cycles(before));
    CHECK(log_bytes(before, day->log, day->size, &refused) == 0 && refused == 0);
    CHECK(is_still(day->job, before));
}

static void test_random_days(uint64_t *seed)
{
    plan_bytes plan;
    jirvaldo_job *before;
    kept_day day;
    unsigned calls;
    random_plan(&plan, seed);
    day.job = accepted(&plan);
    day.seed = (uint32_t)random_bits(seed);
    day.log = block(LOG_MAX);
    day.size = day.entries = 0;
    if (below(seed, 4) == 0) {
        drive_on(day.job, seed, below(seed, 30));
        (void)jirvaldo_withdraw(day.job); /* a log does nothing while an offer is noted */
    }
    before = copy_of(day.job);
    for (calls = below(seed, 400); calls != 0 && LOG_MAX - day.size >= JIRVALDO_ENTRY_MAX; calls--) {
        if (below(seed, 10) == 0 || day_tick(&day, seed) == JIRVALDO_TICK_NO_QUANTUM) day_grant(&day, seed);
    }
    check_day(&day, before);
    release(day.log, LOG_MAX);
    release_job(day.job);
}

/* ---- whole jobs */

/* works a job to its end; the numbers before it is finished, too, keep the limits */
static void work_to_the_end(const plan_bytes *plan, unsigned tenths, unsigned d, unsigned l, unsigned ticks, uint64_t seed,
    jirvaldo_numbers *shown)
{
    jirvaldo_job *job = accepted(plan);
    unsigned answer = 0;
    while (answer == 0) {
        answer = drive(job, &seed);
        check_limits(job, tenths, d, l, ticks);
    }
    CHECK(answer == JIRVALDO_JOB_FINISHED);
    *shown = jirvaldo_counters(job, 0);
    release_job(job);
}

/* the largest plan, with tasks of so many ticks and all the workers that the job wants: it comes to want 64, and gets them */
static void test_most_workers(unsigned ticks)
{
    static const uint8_t choices[JIRVALDO_WORKERS_MAX] = {0};
    plan_bytes plan;
    jirvaldo_job *job;
    jirvaldo_numbers n;
    uint64_t most = 0;
    fork_join(&plan, 4, 1, 1, 342);
    if (ticks != 1) in_form_2(&plan, ticks);
    job = accepted(&plan);
    for (;;) {
        n = jirvaldo_counters(job, 0);
        if (n.status == JIRVALDO_STATUS_FINISHED) break;
        CHECK(jirvaldo_grant(job, n.desire) == 0);
        CHECK(tick_bytes(job, choices, (size_t)n.desire) == 0);
        if (n.desire > most) most = n.desire;
    }
    CHECK(n.worked == 1024 && n.work == 1024 * ticks && most == JIRVALDO_WORKERS_MAX && n.successes > 0);
    release_job(job);
}

/* a quantum of one tick with as many workers as the job wants, of which each new one robs the worker half their number below it */
static void rob_by_half(jirvaldo_job *job, unsigned workers)
{
    uint8_t choices[JIRVALDO_WORKERS_MAX];
    unsigned i;
    for (i = 0; i < workers; i++) choices[i] = (uint8_t)(i < workers / 2 ? i : i - workers / 2);
    CHECK(wanted(job) == workers);
    CHECK(jirvaldo_grant(job, workers) == 0 && tick_bytes(job, choices, workers) == 0);
}

/* a grant of 0 withdraws all workers, and in a later tick as many come back: each finds a deque to mug, which had one before */
static void withdraw_and_mug(jirvaldo_job *job, unsigned workers, uint64_t *seed)
{
    jirvaldo_numbers before = jirvaldo_counters(job, 0), after;
    one_tick(job, 0, seed);
    CHECK(jirvaldo_status(job) == JIRVALDO_STATUS_HELD);
    one_tick(job, workers, seed);
    after = jirvaldo_counters(job, 0);
    CHECK(after.mug == before.mug + workers && after.work == before.work && after.steal == before.steal);
}

/* 1, 2, 4 .. 64 workers come to have a deque each, every new one by a theft, and all are withdrawn at once: the ring of muggable deques is
 * full. Where some were mugged before, its oldest place is not its first. The highest worker's deque is mugged first, so that after two
 * such turns each worker has its own again: the job goes on as a copy does that kept them, and works each task once. */
static void test_full_ring(unsigned mugged_before)
{
    plan_bytes plan;
    jirvaldo_job *job, *kept;
    jirvaldo_numbers n, m;
    uint64_t seed = 1, go_on = 2, go_on_too = 2;
    unsigned workers;
    fork_join(&plan, 2, 1, 1, 128);
    job = accepted(&plan);
    for (workers = 1; workers <= JIRVALDO_DEQUES_MAX; workers *= 2) {
        rob_by_half(job, workers);
        if (workers == mugged_before) withdraw_and_mug(job, workers, &seed);
    }
    n = jirvaldo_counters(job, 0);
    CHECK(n.work == 64 && n.successes == 63 && n.steal == 63 && n.mug == mugged_before);
    kept = copy_of(job);
    withdraw_and_mug(job, JIRVALDO_DEQUES_MAX, &seed);
    withdraw_and_mug(job, JIRVALDO_DEQUES_MAX, &seed);
    do {
        one_tick(job, wanted(job), &go_on);
        one_tick(kept, wanted(kept), &go_on_too);
        n = jirvaldo_counters(job, 0);
        m = jirvaldo_counters(kept, 0);
        CHECK(n.worked == m.worked && n.desire == m.desire && n.steal == m.steal && n.successes == m.successes && n.status == m.status);
    } while (n.status != JIRVALDO_STATUS_FINISHED);
    CHECK(n.tasks == 382 && n.worked == 382 && n.work == 382 && n.mug == mugged_before + 2 * JIRVALDO_DEQUES_MAX);
    release_job(job);
    release_job(kept);
}

static void test_whole_jobs(uint64_t *seed)
{
    plan_bytes plan;
    jirvaldo_numbers n;
    unsigned r = 2 + below(seed, 6), d = 1 + below(seed, 100), l = 1 + below(seed, 20), size = 1 + below(seed, 400), ticks = size;
    unsigned form = 1 + below(seed, 3), t = 12 + below(seed, 9);
    if (form == 2) size = 1 + size / 4;
    put_header(&plan, 1, r, d, l, size);
    random_graph(&plan, size, seed);
    if (form == 2) ticks = random_ticks(&plan, 7, seed);
    if (form == 3) in_form_3(&plan, t);
    work_to_the_end(&plan, form == 3 ? 10 + 2 * t : 10 + 10 * r, d, l, ticks, random_bits(seed), &n);
    CHECK(n.worked == size && n.work == ticks);
}

/* ---- threads: a job each, on a stack of 64 KiB, as one after the other */

typedef struct whole_run {
    const plan_bytes *plan;
    uint64_t seed;
    jirvaldo_job *job;
} whole_run;

/* no checks are counted here, since threads share the count */
static void *run_whole(void *argument)
{
    whole_run *run = (whole_run *)argument;
    uint8_t choices[JIRVALDO_WORKERS_MAX];
    unsigned rounds, i, size, answer;
    for (rounds = 0; rounds < 20; rounds++) {
        if (jirvaldo_accept(run->job, run->plan->bytes, run->plan->size) != 0) abort();
        for (answer = 0; answer == 0;) {
            size = (unsigned)jirvaldo_counters(run->job, 0).allotment;
            for (i = 0; i < size; i++) choices[i] = (uint8_t)below(&run->seed, size);
            answer = jirvaldo_tick(run->job, choices, size);
            if (answer == JIRVALDO_TICK_NO_QUANTUM) answer = jirvaldo_grant(run->job, jirvaldo_counters(run->job, 0).desire);
        }
        if (answer != JIRVALDO_JOB_FINISHED) abort();
    }
    return NULL;
}

static void test_threads(void)
{
    enum { THREADS = 4 };
    static plan_bytes plans[THREADS];
    whole_run at_once[THREADS], one_by_one;
    pthread_t threads[THREADS];
    pthread_attr_t small;
    unsigned i;
    CHECK(pthread_attr_init(&small) == 0 && pthread_attr_setstacksize(&small, 65536) == 0);
    for (i = 0; i < THREADS; i++) {
        fork_join(&plans[i], 2 + i, 80, 3, 342 - i);
        if (i % 2 != 0) in_form_2(&plans[i], 1 + i);
        if (i == 2) in_form_3(&plans[i], 13);
        at_once[i].plan = &plans[i];
        at_once[i].seed = i;
        at_once[i].job = job_block();
        CHECK(pthread_create(&threads[i], &small, run_whole, &at_once[i]) == 0);
    }
    for (i = 0; i < THREADS; i++) CHECK(pthread_join(threads[i], NULL) == 0);
    CHECK(pthread_attr_destroy(&small) == 0);
    for (i = 0; i < THREADS; i++) {
        one_by_one.plan = &plans[i];
        one_by_one.seed = i;
        one_by_one.job = job_block();
        run_whole(&one_by_one);
        CHECK(memcmp(one_by_one.job, at_once[i].job, sizeof(jirvaldo_job)) == 0);
        release_job(one_by_one.job);
        release_job(at_once[i].job);
    }
}

static void test_given(void)
{
    test_plans();
    test_plans_of_form_2();
    test_plans_of_form_3();
    test_calls();
    test_thefts();
    test_withdrawals();
    test_last_tick();
    test_lasting_tasks();
    test_most_work();
    test_climbs();
    test_step_down();
    test_fall();
    test_spent_quanta();
    test_offered_numbers();
    test_offers();
    test_satisfied_by_opened();
    test_offers_of_spent_quanta();
    test_noted_logs();
    test_plans_over_offers();
    test_seeds();
    test_written_logs();
    test_logs();
    test_wordings();
    test_lines();
    test_zeros();
    test_sentences();
    test_most_workers(1);
    test_most_workers(3);
    test_full_ring(0);
    test_full_ring(2);
    test_full_ring(32);
    test_threads();
}

static void test_at_random(uint64_t *seed)
{
    test_memory(seed);
    test_copies(seed);
    test_turns(seed);
    test_random_plans(seed);
    test_random_logs(seed);
    test_random_offers(seed);
    test_random_days(seed);
    test_whole_jobs(seed);
    test_ticks_of_one(seed);
    test_twenty_tenths(seed);
}

int main(int count, char **arguments)
{
    long rounds = count > 1 ? atol(arguments[1]) : 1000, i;
    uint64_t seed = 1;
    test_given();
    for (i = 0; i < rounds; i++) test_at_random(&seed);
    printf("%lu checks passed\n", checks);
    return 0;
}
