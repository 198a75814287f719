/* Plan A of document 01 and its example 1, call by call; c/example.out is what this writes. */
#include "jirvaldo.h"
#include <stdio.h>

/* R = 2, D = 80, L = 2, 4 tasks: task 0 is followed by 1 and 2, these by 3 */
static const uint8_t plan[] = {0x15, 0x40, 0x00, 0x08, 0x03, 0x80, 0x08, 0x02, 0x40, 0x18, 0x00, 0x40, 0x18, 0x00, 0x00, 0x00, 0x00};
static const char sheet[] = "not begun\nstitching\non hold\ndone\n";

static void show(const jirvaldo_job *job)
{
    jirvaldo_part label;
    uint8_t line[JIRVALDO_LINE_BUFFER];
    size_t line_size;
    if (jirvaldo_wording(job, (const uint8_t *)sheet, sizeof sheet - 1, &label) != 0) return;
    if (jirvaldo_line(job, 0, line, sizeof line, &line_size) != 0) return;
    printf("%.*s: %.*s", (int)label.size, (const char *)label.bytes, (int)line_size, (const char *)line);
}

/* says what was refused; what was refused has changed nothing */
static void say(const char *call, unsigned number)
{
    if (number != 0) printf("%s: refused %u: %s\n", call, number, jirvaldo_sentence(number));
}

int main(void)
{
    static const uint8_t choices[2] = {0, 0};
    jirvaldo_job job;
    unsigned refusal = jirvaldo_accept(&job, plan, sizeof plan);
    say("plan", refusal);
    if (refusal != 0) return 1;
    show(&job);
    say("grant of 2", jirvaldo_grant(&job, 2));
    say("grant of 1", jirvaldo_grant(&job, 1));
    say("tick", jirvaldo_tick(&job, choices, 1));
    say("tick", jirvaldo_tick(&job, choices, 1));
    show(&job);
    say("grant of 2", jirvaldo_grant(&job, 2));
    say("tick", jirvaldo_tick(&job, choices, 2));
    say("tick", jirvaldo_tick(&job, choices, 2));
    show(&job);
    return jirvaldo_status(&job) == JIRVALDO_STATUS_FINISHED ? 0 : 1;
}
