/* A console without dice: the choices of its ticks are drawn from a seed. It keeps the day's log in a buffer of its own, and in the evening
 * the log alone does it all again; c/console.out is what this writes. The plan and the log are examples/seeded-day.in. */
#include "jirvaldo.h"
#include <stdio.h>
#include <string.h>

/* R = 2, D = 50, L = 3, 22 tasks: a tree that forks to eight leaves and joins them again */
static const uint8_t plan[] = {0x14, 0xC8, 0x00, 0x0C, 0x15, 0x80, 0x08, 0x02, 0x80, 0x18, 0x04, 0x80, 0x28, 0x06, 0x80, 0x38, 0x08, 0x80,
    0x48, 0x0A, 0x80, 0x58, 0x0C, 0x80, 0x68, 0x0E, 0x40, 0x78, 0x00, 0x40, 0x78, 0x00, 0x40, 0x80, 0x00, 0x40, 0x80, 0x00, 0x40, 0x88,
    0x00, 0x40, 0x88, 0x00, 0x40, 0x90, 0x00, 0x40, 0x90, 0x00, 0x40, 0x98, 0x00, 0x40, 0x98, 0x00, 0x40, 0xA0, 0x00, 0x40, 0xA0, 0x00,
    0x40, 0xA8, 0x00, 0x40, 0xA8, 0x00, 0x00, 0x00, 0x00};

typedef struct console {
    jirvaldo_job job;
    uint32_t seed; /* is kept with the job */
    uint8_t log[256];
    size_t size; /* bytes of the log that are used */
} console;

/* the counters line of a job, as text */
static void show(const char *what, const jirvaldo_job *job, char *line)
{
    size_t size = 0;
    (void)jirvaldo_line(job, 0, (uint8_t *)line, JIRVALDO_LINE_BUFFER, &size);
    line[size] = 0; /* the line has 127 bytes at most */
    printf("%s%s", what, line);
}

/* a tick, and its entry where it was accepted; no tick is made for whose entry there might be no room */
static unsigned tick(console *c)
{
    uint32_t before = c->seed;
    unsigned refusal;
    if (sizeof c->log - c->size < JIRVALDO_ENTRY_MAX) return JIRVALDO_BUFFER_SMALL;
    refusal = jirvaldo_tick_seeded(&c->job, &c->seed);
    return refusal != 0 ? refusal : jirvaldo_log_tick_seeded(&c->job, before, c->log, sizeof c->log, &c->size);
}

/* a quantum with as many workers as are here and wanted, and what it adds to the log; the number that ended it */
static unsigned quantum(console *c, uint64_t here)
{
    char line[JIRVALDO_LINE_BUFFER];
    uint64_t wanted = jirvaldo_counters(&c->job, 0).desire, workers = here < wanted ? here : wanted;
    size_t at = c->size;
    unsigned refusal = jirvaldo_grant(&c->job, workers);
    if (refusal == 0) refusal = jirvaldo_log_grant(workers, c->log, sizeof c->log, &c->size);
    while (refusal == 0) refusal = tick(c);
    printf("%u here, %u wanted:", (unsigned)here, (unsigned)wanted);
    for (; at < c->size; at++) printf(" %02x", c->log[at]);
    show("\n    ", &c->job, line);
    return refusal;
}

int main(void)
{
    static const uint64_t here[] = {3, 3, 3, 0, 2, 3};
    static console c;
    static jirvaldo_job again;
    char by_calls[JIRVALDO_LINE_BUFFER], by_log[JIRVALDO_LINE_BUFFER];
    uint64_t refused_calls = 0;
    unsigned i = 0, refusal;
    if (jirvaldo_accept(&c.job, plan, sizeof plan) != 0 || jirvaldo_accept(&again, plan, sizeof plan) != 0) return 1;
    c.seed = 2026;
    do {
        refusal = quantum(&c, here[i++ % 6]);
    } while (refusal == JIRVALDO_TICK_NO_QUANTUM);
    printf("%s\n", jirvaldo_sentence(refusal));
    printf("the log has %u bytes, and the seed is %u\n", (unsigned)c.size, (unsigned)c.seed);
    refusal = jirvaldo_run_log(&again, c.log, c.size, &refused_calls);
    show("by the console: ", &c.job, by_calls);
    show("by the log:     ", &again, by_log);
    return refusal == 0 && refused_calls == 0 && strcmp(by_calls, by_log) == 0 ? 0 : 1;
}
