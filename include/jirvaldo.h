/* Jirvaldo: a proved A-Steal scheduler core, for C99 and C++11 on x86-64 Linux. Link with -ljirvaldo; docs/INTEGRATING.md has the rest.
 *
 * A plan (a task graph in bytes) becomes a job in memory that you lend. A grant gives the job a number of workers and opens a quantum of
 * L ticks; in each tick every granted worker takes one cycle. A grant can be made in two steps: an offer only notes a number, and an open
 * grants as many or fewer; a withdrawal drops the offer instead. What is said here of a grant that was accepted is said of an open, too. A
 * task lasts one tick in a plan of form 1 or 3, 1 to 255 in one of form 2, and is worked when all its ticks are done. How many workers the
 * job wants grows by a factor of 2 to 7 in forms 1 and 2, of 1.2 to 2.0 in form 3. A console without dice can have a tick's choices drawn
 * from a seed, and keep its calls as a log in a buffer of its own. A function answers with 0, or with the number of the refusal; the first
 * question that is answered by no gives the number. Nothing is allocated, nothing is kept between calls, no file is read or written.
 *
 * Proved, for all that a caller can hand over: the jirvaldo_core functions in the archive (the contracts of crates/exports, of
 * crates/exports_log for a log that is run, and of crates/exports_seed for seeded ticks and a log that is written). And of every job, for
 * whoever lays out places for its deques: after each call, and inside a tick after each worker's cycle, its non-empty deques, those of
 * withdrawn workers included, number at most the largest count granted or opened so far, and so JIRVALDO_DEQUES_MAX; all together they hold
 * each task of the plan at most once. And of every day of grants and seeded ticks: the log of its accepted calls is whole; run on the job
 * as it was before the day, it refuses none of them and ends in the same job.
 * Not proved: the inline functions of this file, which only hand the parts of a job to those, and what is asked of you:
 *   - a job that is handed over holds an accepted plan's job, moved by these functions or not, or a byte copy of one;
 *   - a pointer is valid for its size, and what it points to overlaps neither the job nor what another pointer of the call points to;
 *   - one job is used by one thread at a time. Different jobs are independent.
 * Where a size is 0 its pointer may be null. A null pointer with a size above 0, or a null job, is a bug of the caller: it is not tested.
 * Where a number goes behind a pointer (refused_calls, part, line_size), null means that you do not want it. A seed and the used size of a
 * log are read and written: they are never null. */
#ifndef JIRVALDO_H
#define JIRVALDO_H

#include <stddef.h>
#include <stdint.h>

#ifdef __cplusplus
extern "C" {
#endif

enum {
    JIRVALDO_TASKS_MAX = 1024,  /* tasks of a plan */
    JIRVALDO_PLAN_MAX = 4101,   /* bytes of the longest plan, 5 + 4 * 1,024 in form 2 */
    JIRVALDO_TICKS_MAX = 255,   /* ticks that a task can last */
    JIRVALDO_WORKERS_MAX = 64,  /* workers that a job can want, and choices of a tick */
    JIRVALDO_DEQUES_MAX = 64,   /* non-empty deques of a job at one time, the muggable ones included, also in the middle of a tick */
    JIRVALDO_QUANTA_MAX = 4096, /* quanta that a job may begin, those without a worker too */
    JIRVALDO_LINE_BUFFER = 128, /* bytes that a buffer for the counters line needs */
    JIRVALDO_ENTRY_MAX = 65,    /* bytes of the longest log entry of a call that a job accepts: a tick of 64 workers */
    JIRVALDO_JOB_SIZE = 10920   /* bytes of a job */
};

/* A job: plain data without pointers. Lend it and leave its fields alone. It need not be cleared before a plan is accepted into it; a byte
 * copy of a job is a job; there is nothing to free. */
typedef struct jirvaldo_job {
    uint64_t words_[21];
    uint16_t memory_[5376];
} jirvaldo_job;

typedef char jirvaldo_job_has_10920_bytes[sizeof(jirvaldo_job) == JIRVALDO_JOB_SIZE ? 1 : -1];
typedef char jirvaldo_sizes_have_64_bits[sizeof(size_t) == 8 ? 1 : -1];

/* The refusals; jirvaldo_sentence says each. 21 and 22 are given by the program alone, by no function here. */
enum jirvaldo_refusal {
    JIRVALDO_OK = 0,
    JIRVALDO_PLAN_SHORT = 1,
    JIRVALDO_PLAN_FORM = 2,
    JIRVALDO_PLAN_RESPONSIVENESS = 3,
    JIRVALDO_PLAN_UTILIZATION = 4,
    JIRVALDO_PLAN_QUANTUM_LENGTH = 5,
    JIRVALDO_PLAN_LENGTH = 6,
    JIRVALDO_PLAN_FIELDS = 7,
    JIRVALDO_PLAN_SUCCESSORS = 8,
    JIRVALDO_PLAN_PREDECESSORS = 9,
    JIRVALDO_PLAN_LOOSE_END = 10,
    JIRVALDO_JOB_FINISHED = 11,
    JIRVALDO_GRANT_QUANTUM_OPEN = 12,
    JIRVALDO_GRANT_QUANTA_SPENT = 13,
    JIRVALDO_GRANT_ABOVE_DESIRE = 14,
    JIRVALDO_TICK_NO_QUANTUM = 15,
    JIRVALDO_TICK_CHOICE_COUNT = 16,
    JIRVALDO_TICK_BAD_CHOICE = 17,
    JIRVALDO_LOG_BROKEN = 18,
    JIRVALDO_SHEET_NO_LINE = 19,
    JIRVALDO_BUFFER_SMALL = 20,
    JIRVALDO_INPUT_LONG = 21,
    JIRVALDO_INPUT_SHORT = 22,
    JIRVALDO_OFFER_NONE = 24,
    JIRVALDO_OFFER_NOTED = 25,
    JIRVALDO_PLAN_TICKS = 28
};

enum jirvaldo_job_status {
    JIRVALDO_STATUS_FRESH = 0,   /* nothing above 0 was ever granted or opened */
    JIRVALDO_STATUS_RUNNING = 1, /* the last accepted grant or open was above 0 */
    JIRVALDO_STATUS_HELD = 2,    /* the last accepted grant or open was 0 */
    JIRVALDO_STATUS_FINISHED = 3 /* every task is worked */
};

/* A stretch of the caller's own bytes. */
typedef struct jirvaldo_part {
    const uint8_t *bytes;
    size_t size;
} jirvaldo_part;

/* The ten numbers of the counters line, in its order. Work, mug and steal cycles add up to the numbers of workers granted at all accepted
 * ticks: each granted worker counts one cycle in a tick, in the last one too. An offer and a withdrawal change none of the ten. */
typedef struct jirvaldo_numbers {
    uint64_t status;        /* of enum jirvaldo_job_status */
    uint64_t worked;        /* tasks that are worked: all their ticks are done */
    uint64_t tasks;         /* tasks of the plan */
    uint64_t desire;        /* workers that the job wants next, 1 to 64 */
    uint64_t allotment;     /* workers that the last accepted grant or open gave */
    uint64_t work;          /* cycles in which a worker did a tick of a task */
    uint64_t mug;           /* cycles in which a worker picked up the deque of a withdrawn one */
    uint64_t steal;         /* cycles in which a worker tried to take tasks from another's deque, or came after the job's last task */
    uint64_t successes;     /* how many of these took some */
    uint64_t refused_calls; /* as handed over */
} jirvaldo_numbers;

/* The archive's functions. No pointer of these may be null, also where its size is 0; the functions below see to that. */
uint8_t jirvaldo_core_accept(const uint8_t *plan, size_t plan_size, uint16_t *memory, uint64_t *words);
uint8_t jirvaldo_core_grant(uint16_t *memory, uint64_t *words, uint64_t workers);
uint8_t jirvaldo_core_offer(uint64_t *words, uint64_t workers);
uint8_t jirvaldo_core_open(uint16_t *memory, uint64_t *words, uint64_t workers);
uint8_t jirvaldo_core_withdraw(uint64_t *words);
uint8_t jirvaldo_core_tick(uint16_t *memory, uint64_t *words, const uint8_t *choices, size_t choices_size);
uint8_t jirvaldo_core_tick_seeded(uint16_t *memory, uint64_t *words, uint32_t *seed);
uint8_t jirvaldo_core_run_log(uint16_t *memory, uint64_t *words, const uint8_t *log, size_t log_size, uint64_t *refusals);
uint8_t jirvaldo_core_log_grant(uint64_t workers, uint8_t *log, size_t log_size, size_t *size);
uint8_t jirvaldo_core_log_tick(const uint8_t *choices, size_t choices_size, uint8_t *log, size_t log_size, size_t *size);
uint8_t jirvaldo_core_log_tick_seeded(const uint64_t *words, uint32_t seed, uint8_t *log, size_t log_size, size_t *size);
uint8_t jirvaldo_core_status(const uint64_t *words);
uint8_t jirvaldo_core_wording(const uint64_t *words, const uint8_t *sheet, size_t sheet_size, size_t *start, size_t *size);
void jirvaldo_core_counters(const uint64_t *words, uint64_t refusals, uint64_t *numbers);
uint8_t jirvaldo_core_line(const uint64_t *words, uint64_t refusals, uint8_t *buffer, size_t buffer_size, size_t *size);

/* Accepts a plan of any bytes. 0: the memory holds the fresh job of this plan, whatever it held before; the plan's bytes are not needed
 * any more. A plan of form 2 has a fourth byte a task, the ticks that it lasts. One of form 3 has R in tenths, 12 to 20, and L of 14 bits.
 * 1 to 10, 28: the plan breaks that rule, and the memory is byte for byte as it came; 28 is asked of a task after 7 and 8, before the next
 * task. */
static inline unsigned jirvaldo_accept(jirvaldo_job *job, const uint8_t *plan, size_t size)
{
    const uint8_t none = 0;
    return jirvaldo_core_accept(size == 0 ? &none : plan, size, job->memory_, job->words_);
}

/* Grants a number of workers, 0 included, for the next quantum. 0: the quantum is open and takes L ticks; workers from that number up are
 * withdrawn, and their deques, unless empty, wait to be mugged: those of an earlier grant first, of one grant the highest worker's first.
 * Asked in this order: 11: the job is finished. 12: a quantum is open. 13: JIRVALDO_QUANTA_MAX quanta have begun. 25: an offer is noted.
 * 14: the job wants fewer workers, as it does of every number above 64. Refused, the job is byte for byte as it was. */
static inline unsigned jirvaldo_grant(jirvaldo_job *job, uint64_t workers)
{
    return jirvaldo_core_grant(job->memory_, job->words_, workers);
}

/* Offers a number of workers, 0 included, for the next quantum. 0: the offer is noted, and nothing else changes: no quantum opens, and no
 * count, deque, desire or status moves. While it is noted, an open or a withdrawal alone moves the job. Asked as of a grant: 11: the job is
 * finished. 12: a quantum is open. 13: JIRVALDO_QUANTA_MAX quanta have begun. 25: an offer is noted already. 14: the job wants fewer
 * workers. Refused, the job is byte for byte as it was. */
static inline unsigned jirvaldo_offer(jirvaldo_job *job, uint64_t workers)
{
    return jirvaldo_core_offer(job->words_, workers);
}

/* Opens the noted offer with a number of workers up to the offered one, 0 included. 0: the offer is dropped, and the job is as after a
 * grant of this number; whether the quantum is satisfied depends on it and not on the offered one. Asked in this order: 24: no offer is
 * noted. 14: fewer workers were offered. Refused, the job is byte for byte as it was, its offer noted as before. */
static inline unsigned jirvaldo_open(jirvaldo_job *job, uint64_t workers)
{
    return jirvaldo_core_open(job->memory_, job->words_, workers);
}

/* Withdraws the noted offer. 0: the offer is dropped, and nothing else changes. 24: no offer is noted. Refused, the job is byte for byte as
 * it was. */
static inline unsigned jirvaldo_withdraw(jirvaldo_job *job)
{
    return jirvaldo_core_withdraw(job->words_);
}

/* One tick, with the number of a worker to steal from for each granted worker. 0: each worker took its cycle, in number order; the L-th tick
 * of an unfinished job closes the quantum. A worker that works does one tick of its deque's front task, which stays at the front until its
 * last one; then it is worked, and those of its successors that became ready take its place. A deque that is withdrawn or mugged keeps the
 * ticks that are done. A worker that steals gets the back half of the chosen deque, rounded down and in its order, if that has two or more
 * tasks, and else nothing. A worker after the one that finished the job counts a steal, which gets nothing. Where the quantum closes, the
 * desire moves: in forms 1 and 2 it is divided by R after an inefficient quantum, and multiplied by R after an efficient and satisfied one
 * unless that exceeds 64; in form 3 it is the whole part of (t / 10)^k, with t tenths, and k is 0 at first, one less after an inefficient
 * quantum, and one more after an efficient and satisfied one as long as the desire is then at most 64. 11: the job is finished. 15: no
 * quantum is open. 16: there is not exactly one choice for each granted worker. 17: a choice is not below the granted number. Refused, the
 * job is byte for byte as it was. */
static inline unsigned jirvaldo_tick(jirvaldo_job *job, const uint8_t *choices, size_t size)
{
    const uint8_t none = 0;
    return jirvaldo_core_tick(job->memory_, job->words_, size == 0 ? &none : choices, size);
}

/* One tick whose choices are drawn from *seed. A draw turns the seed s into 1,664,525 * s + 1,013,904,223, modulo 2^32; the choice is the
 * whole part of this next s / 65,536, modulo the granted number. One draw is made for each granted worker, in order, whether it steals or
 * not, in the tick that finishes the job too, and none where 0 are granted. 0: the job is as after a tick with these choices, and *seed is
 * the state after the last draw. 11: the job is finished. 15: no quantum is open. There is no other refusal; refused, the job and *seed are
 * byte for byte as they were. */
static inline unsigned jirvaldo_tick_seeded(jirvaldo_job *job, uint32_t *seed)
{
    return jirvaldo_core_tick_seeded(job->memory_, job->words_, seed);
}

/* Runs a log of any bytes, entry after entry, as the same grants and ticks would; refused ones are counted in *refused_calls and passed
 * over. 0: the log was whole. 18: its last entry is cut off; the job and the count are as the entries before left them. A log that moves
 * nothing (empty, cut off in its first entry, or all its calls refused) leaves the job byte for byte as it was. A log has no offers: on a
 * job with a noted one every grant (25) and every tick (15) of it is refused and counted. */
static inline unsigned jirvaldo_run_log(jirvaldo_job *job, const uint8_t *log, size_t size, uint64_t *refused_calls)
{
    const uint8_t none = 0;
    uint64_t refusals = 0;
    unsigned answer = jirvaldo_core_run_log(job->memory_, job->words_, size == 0 ? &none : log, size, &refusals);
    if (refused_calls) *refused_calls = refusals;
    return answer;
}

/* The next three write a call's entry into a log that you keep: a buffer of `capacity` bytes, of which *size are used, 0 at first. 0: the
 * entry stands at log[*size] as that was, *size has grown by its length, and every other byte is as it came. 20: fewer bytes are left than
 * the entry has, also where *size is above the capacity. Refused, the buffer and *size are as they came. Neither the job nor the bytes
 * before are asked: write the calls that were answered with 0, in their order, and an open as the grant that it is. With JIRVALDO_ENTRY_MAX
 * bytes left there is room for the next call, whichever it is.
 *
 * A grant: one byte, its number of workers. Before 20, 14: it is above 127, which no entry can say and no job accepts. */
static inline unsigned jirvaldo_log_grant(uint64_t workers, uint8_t *log, size_t capacity, size_t *size)
{
    uint8_t none = 0;
    return jirvaldo_core_log_grant(workers, capacity == 0 ? &none : log, capacity, size);
}

/* A tick: the byte 128 + count, then one byte a choice. Before 20, 16: there are more than 127 choices, which no entry can say and no job
 * accepts. */
static inline unsigned jirvaldo_log_tick(const uint8_t *choices, size_t count, uint8_t *log, size_t capacity, size_t *size)
{
    const uint8_t no_choice = 0;
    uint8_t none = 0;
    return jirvaldo_core_log_tick(count == 0 ? &no_choice : choices, count, capacity == 0 ? &none : log, capacity, size);
}

/* A seeded tick: the entry of a tick with the choices that this seed draws for the job's granted number; where that is 0, the byte 128. The
 * seed is the one before the tick. A tick leaves the granted number, so this may be called before it or after it. */
static inline unsigned jirvaldo_log_tick_seeded(const jirvaldo_job *job, uint32_t seed, uint8_t *log, size_t capacity, size_t *size)
{
    uint8_t none = 0;
    return jirvaldo_core_log_tick_seeded(job->words_, seed, capacity == 0 ? &none : log, capacity, size);
}

/* The job's status, of enum jirvaldo_job_status. Nothing is refused. */
static inline unsigned jirvaldo_status(const jirvaldo_job *job)
{
    return jirvaldo_core_status(job->words_);
}

/* The wording of the job's status: *part is the stretch of your sheet itself, without its byte 10. A sheet has a line for each status,
 * from status 0, each ended by byte 10. 19: the sheet has no line for the status, and *part is empty. */
static inline unsigned jirvaldo_wording(const jirvaldo_job *job, const uint8_t *sheet, size_t size, jirvaldo_part *part)
{
    const uint8_t none = 0;
    size_t start = 0, count = 0;
    unsigned answer = jirvaldo_core_wording(job->words_, size == 0 ? &none : sheet, size, &start, &count);
    if (part) {
        part->bytes = size == 0 ? sheet : sheet + start;
        part->size = count;
    }
    return answer;
}

/* The ten numbers of the job's counters line. refused_calls is a log's count, or 0 without a log. Nothing is refused. */
static inline jirvaldo_numbers jirvaldo_counters(const jirvaldo_job *job, uint64_t refused_calls)
{
    uint64_t n[10];
    jirvaldo_numbers numbers;
    jirvaldo_core_counters(job->words_, refused_calls, n);
    numbers.status = n[0];
    numbers.worked = n[1];
    numbers.tasks = n[2];
    numbers.desire = n[3];
    numbers.allotment = n[4];
    numbers.work = n[5];
    numbers.mug = n[6];
    numbers.steal = n[7];
    numbers.successes = n[8];
    numbers.refused_calls = n[9];
    return numbers;
}

/* Writes the counters line: the ten numbers in decimal, a space between, byte 10 at the end. 0: the line stands at the buffer's start,
 * *line_size bytes with byte 10, and the bytes after it are as they came; *line_size is how many digits the ten numbers have, one for a
 * number that is 0, plus 10. 20: the buffer has fewer than 128 bytes; it is as it came, and *line_size is 0. */
static inline unsigned jirvaldo_line(const jirvaldo_job *job, uint64_t refused_calls, uint8_t *buffer, size_t size, size_t *line_size)
{
    uint8_t none = 0;
    size_t count = 0;
    unsigned answer = jirvaldo_core_line(job->words_, refused_calls, size == 0 ? &none : buffer, size, &count);
    if (line_size) *line_size = count;
    return answer;
}

/* What a refusal's number says. */
static inline const char *jirvaldo_sentence(unsigned number)
{
    switch (number) {
    case JIRVALDO_OK: return "Accepted.";
    case JIRVALDO_PLAN_SHORT: return "The plan has fewer than 5 bytes, so its header is not whole.";
    case JIRVALDO_PLAN_FORM: return "The plan's form is not 1, 2 or 3.";
    case JIRVALDO_PLAN_RESPONSIVENESS: return "The plan's R, the responsiveness, is below 2, or in form 3 not from 12 to 20 tenths.";
    case JIRVALDO_PLAN_UTILIZATION: return "The plan's D, the utilization in percent, is not from 1 to 100.";
    case JIRVALDO_PLAN_QUANTUM_LENGTH: return "The plan's L, the quantum length, is 0; a quantum has at least one tick.";
    case JIRVALDO_PLAN_LENGTH: return "The plan is not 5 + 3 * N bytes long in form 1 or 3, or 5 + 4 * N in form 2, for its header's N tasks.";
    case JIRVALDO_PLAN_FIELDS: return "A task's successor count is 3, or one of its unused successor fields is not 0.";
    case JIRVALDO_PLAN_SUCCESSORS: return "A task's successor is not above the task, is not below N, or is named twice.";
    case JIRVALDO_PLAN_PREDECESSORS: return "A task from 1 up has no predecessor, or more than two.";
    case JIRVALDO_PLAN_LOOSE_END: return "A task before the last has no successor; only the last task may have none.";
    case JIRVALDO_JOB_FINISHED: return "The job is finished and takes no more grants, offers and ticks.";
    case JIRVALDO_GRANT_QUANTUM_OPEN: return "A quantum is open; tick until it closes, then grant or offer.";
    case JIRVALDO_GRANT_QUANTA_SPENT: return "4,096 quanta have begun, the most that a job may have.";
    case JIRVALDO_GRANT_ABOVE_DESIRE: return "More workers are granted or offered than the job desires, or opened than were offered.";
    case JIRVALDO_TICK_NO_QUANTUM: return "No quantum is open; a grant or the opening of an offer opens one.";
    case JIRVALDO_TICK_CHOICE_COUNT: return "The tick has not exactly one choice for each granted worker.";
    case JIRVALDO_TICK_BAD_CHOICE: return "A choice names no granted worker; each has to be below the allotment.";
    case JIRVALDO_LOG_BROKEN: return "The log ends inside an entry; the entries before it are done.";
    case JIRVALDO_SHEET_NO_LINE: return "The sheet has no line for the job's status; byte 10 ends a line.";
    case JIRVALDO_BUFFER_SMALL: return "The buffer for the counters line has fewer than 128 bytes, or the log's has no room for the entry.";
    case JIRVALDO_INPUT_LONG: return "The program's input has more than 65,536 bytes.";
    case JIRVALDO_INPUT_SHORT: return "The program's input ends before the plan does.";
    case JIRVALDO_OFFER_NONE: return "No offer is noted; offer workers before you open or withdraw.";
    case JIRVALDO_OFFER_NOTED: return "An offer is noted; open or withdraw it first.";
    case JIRVALDO_PLAN_TICKS: return "A task's ticks are 0; a task lasts at least one tick.";
    default: return "This number is no refusal.";
    }
}

#ifdef __cplusplus
}
#endif

#endif
