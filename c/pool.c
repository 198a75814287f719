/* A pool of eight workers and two jobs. It sets workers aside by offers before it knows who turns up, then opens what it can and withdraws
 * the rest; c/pool.out is what this writes. */
#include "jirvaldo.h"
#include <stdio.h>

/* R = 4, D = 25, L = 2, 10 tasks: task 0 forks to 1 and 2, these to 3, 4, 5 and 6, which 7 and 8 join, and 9 joins these */
static const uint8_t plan[] = {0x18, 0x64, 0x00, 0x08, 0x09, 0x80, 0x08, 0x02, 0x80, 0x18, 0x04, 0x80, 0x28, 0x06, 0x40, 0x38, 0x00, 0x40,
    0x38, 0x00, 0x40, 0x40, 0x00, 0x40, 0x40, 0x00, 0x40, 0x48, 0x00, 0x40, 0x48, 0x00, 0x00, 0x00, 0x00};

enum { POOL = 8, EPISODES = 2, SHARE = POOL / EPISODES };

typedef struct episode {
    const char *name;
    uint64_t aside; /* workers that are set aside for it */
    jirvaldo_job job;
} episode;

static int is_finished(const episode *e)
{
    return jirvaldo_status(&e->job) == JIRVALDO_STATUS_FINISHED;
}

/* what was done, with how many workers, and the counters line after it; what was refused has changed nothing */
static void say(const episode *e, const char *what, uint64_t workers, unsigned refusal)
{
    uint8_t line[JIRVALDO_LINE_BUFFER];
    size_t size = 0;
    (void)jirvaldo_line(&e->job, 0, line, sizeof line, &size);
    printf("%s: %s %u: ", e->name, what, (unsigned)workers);
    if (refusal == 0) printf("%.*s", (int)size, (const char *)line);
    else printf("refused %u: %s\n", refusal, jirvaldo_sentence(refusal));
}

/* ticks until the opened quantum closes or the job is finished, and says it then; who has nothing to do tries to steal from worker 0 */
static void work(episode *e, const char *what, uint64_t workers, unsigned refusal)
{
    static const uint8_t choices[JIRVALDO_WORKERS_MAX] = {0};
    while (refusal == 0 && jirvaldo_tick(&e->job, choices, (size_t)workers) == 0) continue;
    say(e, what, workers, refusal);
}

/* a round: what each job wants, up to its share of the pool, is set aside; then it turns out how many workers are here */
static void pool_round(episode *episodes, uint64_t here)
{
    uint64_t opened;
    episode *e;
    for (e = episodes; e < episodes + EPISODES; e++) {
        if (is_finished(e)) continue;
        e->aside = jirvaldo_counters(&e->job, 0).desire;
        if (e->aside > SHARE) e->aside = SHARE;
        say(e, "offer of", e->aside, jirvaldo_offer(&e->job, e->aside));
    }
    printf("%u workers are here\n", (unsigned)here);
    for (e = episodes; e < episodes + EPISODES; e++) {
        if (is_finished(e)) continue;
        opened = e->aside < here ? e->aside : here;
        here -= opened;
        if (opened == 0) say(e, "withdrawal of", e->aside, jirvaldo_withdraw(&e->job));
        else work(e, "open of", opened, jirvaldo_open(&e->job, opened));
    }
}

int main(void)
{
    static episode episodes[EPISODES] = {{"morning", 0, {{0}, {0}}}, {"evening", 0, {{0}, {0}}}};
    if (jirvaldo_accept(&episodes[0].job, plan, sizeof plan) != 0 || jirvaldo_accept(&episodes[1].job, plan, sizeof plan) != 0) return 1;
    pool_round(episodes, POOL);
    pool_round(episodes, 3);
    printf("2 workers come late\n"); /* the evening got nobody, and these need no offer */
    work(&episodes[1], "grant of", 2, jirvaldo_grant(&episodes[1].job, 2));
    while (!is_finished(&episodes[0]) || !is_finished(&episodes[1])) pool_round(episodes, POOL);
    return 0;
}
