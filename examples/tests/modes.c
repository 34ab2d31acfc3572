/* ray_default_fp_mode knows each mode that would change an answer, and such modes do change one.
 * Not for valgrind, which has rounding alone. */
#include "ray.h"

#include <setjmp.h>
#include <signal.h>
#include <stdio.h>

enum { DAZ = 1 << 6, INEXACT_MASK = 1 << 12, UPWARD = 1 << 14, FTZ = 1 << 15 };

static int failures = 0;
static jmp_buf before;

static void check(int holds, const char *what)
{
    if (!holds) {
        fprintf(stderr, "modes: not so: %s\n", what);
        failures++;
    }
}
#define CHECK(e) check((e) ? 1 : 0, #e)

static uint32_t sine(unsigned mode, float x)
{
    unsigned usual = _mm_getcsr();
    volatile float given = x, result;
    uint32_t word;
    float plain;
    _mm_setcsr(mode);
    result = ray_sin(given);
    _mm_setcsr(usual);
    plain = result;
    memcpy(&word, &plain, sizeof word);
    return word;
}

static void raised(int signal_number)
{
    (void)signal_number;
    longjmp(before, 1);
}

int main(void)
{
    unsigned usual = _mm_getcsr() & 0xffc0u;
    unsigned bit;
    for (bit = 0; bit < 16; bit++) {
        int is_usual;
        unsigned mode = usual ^ 1u << bit;
        /* No exception is raised while one is unmasked: nothing is computed. */
        _mm_setcsr(mode);
        is_usual = ray_default_fp_mode();
        CHECK(_mm_getcsr() == mode);
        _mm_setcsr(usual);
        /* Flags of past exceptions are no mode; each other bit is. */
        CHECK(is_usual == (bit < 6));
    }
    CHECK(ray_default_fp_mode());
    CHECK(sine(usual, 1.0f) == 0x3f576aa4u && sine(usual | UPWARD, 1.0f) == 0x3f576aa5u);
    CHECK(sine(usual, -1e-40f) == 0x80000000u && sine(usual | DAZ | FTZ, -1e-40f) == 0);
    signal(SIGFPE, raised);
    if (setjmp(before) == 0) {
        sine(usual & ~(unsigned)INEXACT_MASK, 1.0f);
        check(0, "an unmasked exception is raised");
    }
    _mm_setcsr(usual);
    return failures != 0;
}
