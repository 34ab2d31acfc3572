/* How much stack the calls use: on a stack of its own, painted beforehand, each JOB is worked out and
 * each of the other functions called:  stack JOB..
 * Fails where that is more than RAY_STACK_BYTES. */
#define _GNU_SOURCE
#include "ray.h"

#include <stdio.h>
#include <ucontext.h>

#define PAINT 0xc5
static uint8_t stack[8 * RAY_STACK_BYTES];
static uint8_t job[RAY_JOB_BYTES];
static uint8_t answer[RAY_ANSWER_BYTES];
static ucontext_t back, there;
static volatile float angle;
static const float fs[RAY_POINTS * RAY_POINT_NUMBERS] = {3.1f, 5.0f, 7.4f};
static const float hs[RAY_POINTS] = {110.0f};

static void empty(void)
{
}

static void calls(void)
{
    ray_job(job, sizeof job, answer, sizeof answer);
    angle = ray_sin(1.0f) + ray_cos(1.0f) + ray_asin(0.7f) + ray_acos(0.7f) + ray_atan(0.7f);
    angle = ray_esmod(1, fs, hs, 0.25f, 1600.0f, 3.0f, 14.2f, 1.0f).slot4.b;
}

/* The bytes of the stack that a function changes. */
static size_t used_by(void (*function)(void))
{
    size_t untouched = 0;
    memset(stack, PAINT, sizeof stack);
    getcontext(&there);
    there.uc_stack.ss_sp = stack;
    there.uc_stack.ss_size = sizeof stack;
    there.uc_link = &back;
    makecontext(&there, function, 0);
    swapcontext(&back, &there);
    while (untouched < sizeof stack && stack[untouched] == PAINT)
        untouched++;
    return sizeof stack - untouched;
}

int main(int argc, char **argv)
{
    size_t most = 0, used;
    int i;
    for (i = 1; i < argc; i++) {
        FILE *file = fopen(argv[i], "rb");
        if (file == NULL || fread(job, 1, sizeof job, file) != sizeof job)
            return 2;
        fclose(file);
        used = used_by(calls);
        if (used > most)
            most = used;
    }
    /* What entering and leaving such a stack takes by itself. */
    most -= used_by(empty);
    printf("%u bytes of stack\n", (unsigned)most);
    return argc < 2 || most < 1024 || most > RAY_STACK_BYTES;
}
