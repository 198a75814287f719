/* What c/test.c lends: blocks of exactly the size that is handed over with them, and calls that lend their bytes in such a block.
 *
 * Built with sanitizers, the test and the header are watched, the archive is not: it is compiled already. What the archive reads and
 * writes is seen where valgrind runs the test, and where it is built with -DGUARD_PAGES: then each block ends at a page that cannot be
 * touched. */
#ifndef LENT_H
#define LENT_H

#include "jirvaldo.h"
#include <stdio.h>
#include <stdlib.h>
#include <string.h>
#ifdef GUARD_PAGES
#include <sys/mman.h>
#endif

static unsigned long checks;

static void check_at(int holds, const char *what, const char *file, int line)
{
    checks += 1;
    if (holds) return;
    printf("%s:%d: FAILED: %s\n", file, line, what);
    exit(1);
}
#define CHECK(condition) check_at((condition) ? 1 : 0, #condition, __FILE__, __LINE__)

/* ---- blocks of exactly the size that is asked for */

#ifdef GUARD_PAGES
enum { PAGE = 4096 };

static size_t pages_of(size_t size)
{
    return (size + PAGE - 1) / PAGE * PAGE;
}

static uint8_t *block(size_t size)
{
    size_t room = pages_of(size);
    void *area = mmap(NULL, room + PAGE, PROT_READ | PROT_WRITE, MAP_PRIVATE | MAP_ANONYMOUS, -1, 0);
    if (area == MAP_FAILED || mprotect((uint8_t *)area + room, PAGE, PROT_NONE) != 0) abort();
    return (uint8_t *)area + (room - size);
}

static void release(void *start, size_t size)
{
    size_t room = pages_of(size);
    if (munmap((uint8_t *)start - (room - size), room + PAGE) != 0) abort();
}
#else
static uint8_t *block(size_t size)
{
    uint8_t *start = (uint8_t *)malloc(size);
    if (start == NULL && size != 0) abort();
    return start;
}

static void release(void *start, size_t size)
{
    (void)size;
    free(start);
}
#endif

static jirvaldo_job *job_block(void)
{
    return (jirvaldo_job *)(void *)block(sizeof(jirvaldo_job));
}

static void release_job(jirvaldo_job *job)
{
    release(job, sizeof *job);
}

static uint8_t *copied(const uint8_t *bytes, size_t size)
{
    uint8_t *copy = block(size);
    if (size != 0) memcpy(copy, bytes, size);
    return copy;
}

static jirvaldo_job *copy_of(const jirvaldo_job *job)
{
    return (jirvaldo_job *)(void *)copied((const uint8_t *)job, sizeof *job);
}

/* releases the copy; whether the job is the same, byte for byte */
static int is_still(const jirvaldo_job *job, jirvaldo_job *copy)
{
    int same = memcmp(job, copy, sizeof *job) == 0;
    release_job(copy);
    return same;
}

/* ---- calls whose bytes are lent in a block of their own */

static unsigned accept_bytes(jirvaldo_job *job, const uint8_t *plan, size_t size)
{
    uint8_t *lent = copied(plan, size);
    unsigned answer = jirvaldo_accept(job, lent, size);
    CHECK(size == 0 || memcmp(lent, plan, size) == 0);
    release(lent, size);
    return answer;
}

static unsigned tick_bytes(jirvaldo_job *job, const uint8_t *choices, size_t size)
{
    uint8_t *lent = copied(choices, size);
    unsigned answer = jirvaldo_tick(job, lent, size);
    CHECK(size == 0 || memcmp(lent, choices, size) == 0);
    release(lent, size);
    return answer;
}

static unsigned tick_seed(jirvaldo_job *job, uint32_t *seed)
{
    uint32_t *lent = (uint32_t *)(void *)copied((const uint8_t *)seed, sizeof *seed);
    unsigned answer = jirvaldo_tick_seeded(job, lent);
    *seed = *lent;
    release(lent, sizeof *lent);
    return answer;
}

static unsigned log_bytes(jirvaldo_job *job, const uint8_t *log, size_t size, uint64_t *refused_calls)
{
    uint8_t *lent = copied(log, size);
    unsigned answer = jirvaldo_run_log(job, lent, size, refused_calls);
    CHECK(size == 0 || memcmp(lent, log, size) == 0);
    release(lent, size);
    return answer;
}

#endif
