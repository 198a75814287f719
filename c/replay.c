/* The program of document 01 over the archive: reads the plan's length in two bytes, the plan, and a log to the end; writes the counters
 * line or the refusal. It writes what ./run does, and tools/c-tests compares the two on examples/. */
#include "jirvaldo.h"
#include <stdio.h>

enum { INPUT_MAX = 65536 };

static int refused(unsigned number)
{
    printf("refused %u\n", number);
    fprintf(stderr, "%s\n", jirvaldo_sentence(number));
    return 1;
}

int main(void)
{
    static uint8_t input[INPUT_MAX + 1];
    static jirvaldo_job job;
    uint8_t line[JIRVALDO_LINE_BUFFER];
    uint64_t refused_calls;
    size_t size = fread(input, 1, sizeof input, stdin), plan_size, line_size;
    unsigned number;
    if (size > INPUT_MAX) return refused(JIRVALDO_INPUT_LONG);
    if (size < 2) return refused(JIRVALDO_INPUT_SHORT);
    plan_size = (size_t)input[0] << 8 | input[1];
    if (plan_size > size - 2) return refused(JIRVALDO_INPUT_SHORT);
    number = jirvaldo_accept(&job, input + 2, plan_size);
    if (number != 0) return refused(number);
    number = jirvaldo_run_log(&job, input + 2 + plan_size, size - 2 - plan_size, &refused_calls);
    if (jirvaldo_line(&job, refused_calls, line, sizeof line, &line_size) == 0) fwrite(line, 1, line_size, stdout);
    return number != 0 ? refused(number) : 0;
}
